'use strict';

const words = require('@hello/words');
const capital = require('capital');

module.exports = (name) => `${capital(words('goodbye', 'english'))}, ${name}.`;
