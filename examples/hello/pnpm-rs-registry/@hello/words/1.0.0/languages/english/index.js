'use strict';

module.exports = { hello: 'hello', goodbye: 'goodbye', by: 'by' };
