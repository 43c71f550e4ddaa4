'use strict';

module.exports = (n) => n === 0 || require('is-odd')(n - 1);
