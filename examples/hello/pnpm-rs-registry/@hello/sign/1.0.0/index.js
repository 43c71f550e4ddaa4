'use strict';

const words = require('@hello/words');
const capital = require('capital');

module.exports = (name) => `${capital(words('by', 'english'))} ${name}`;
