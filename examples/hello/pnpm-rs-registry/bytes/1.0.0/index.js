'use strict';

const { readFileSync } = require('node:fs');
const { join } = require('node:path');

const read = (name) => readFileSync(join(__dirname, 'data', name));

module.exports = { all: read('all.bin'), none: read('none.bin') };
