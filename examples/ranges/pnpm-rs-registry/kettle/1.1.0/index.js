'use strict';

const { name, version } = require('./package.json');
const tea = require('tea');

module.exports = `${name}@${version}, which finds ${tea}`;
