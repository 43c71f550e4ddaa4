'use strict';

module.exports = { hello: 'grüß dich', goodbye: 'auf Wiedersehen', by: 'von' };
