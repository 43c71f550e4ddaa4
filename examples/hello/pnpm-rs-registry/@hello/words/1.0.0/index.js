'use strict';

const languages = {
  english: require('./languages/english'),
  german: require('./languages/german'),
};

// A word of a language.
module.exports = (word, language) => languages[language][word];
