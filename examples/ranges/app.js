'use strict';

// What a name finds: each package of this demo answers its name and version.
const found = (name) => {
  try {
    return require(name);
  } catch (e) {
    if (e.code !== 'MODULE_NOT_FOUND') throw e;
    return 'not there';
  }
};

for (const name of ['tea', 'tea-of-tomorrow', 'cup', 'kettle', 'spoon', 'biscuit']) console.log(`${name}: ${found(name)}`);
