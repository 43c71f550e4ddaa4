module.exports = require("b") + 1;
