'use strict';

module.exports = (text) => text.charAt(0).toUpperCase() + text.slice(1);
