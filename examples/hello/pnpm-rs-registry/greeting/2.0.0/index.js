'use strict';

const words = require('@hello/words');
const capital = require('capital');

module.exports = (name, language) => `${capital(words('hello', language))}, ${name}!`;
