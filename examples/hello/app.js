'use strict';

const sign = require('@hello/sign');
const bytes = require('bytes');
const farewell = require('farewell');
const greeting = require('greeting');
const isEven = require('is-even');

console.log(greeting('world', 'english'));
console.log(greeting('Welt', 'german'));
console.log(farewell('world'));
console.log(sign('pnpm-rs'));
console.log(`4 is ${isEven(4) ? 'even' : 'odd'}, 7 is ${isEven(7) ? 'even' : 'odd'}`);
console.log(`all: ${bytes.all.length} bytes, the last is ${bytes.all[255]}; none: ${bytes.none.length} bytes`);
