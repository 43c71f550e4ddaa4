'use strict';

module.exports = (n) => n !== 0 && require('is-even')(n - 1);
