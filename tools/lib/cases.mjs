// How the cases of check-refusals are written: what stands in a project and in its registry, and how `pnpm-rs install` has
// to end there. `PROJECT` in a text stands for the path of the project's folder.

export const json = (value) => JSON.stringify(value);

export const project = (fields = {}) => ({ 'package.json': json({ name: 'app', version: '1.0.0', ...fields }) });

export const needs = (dependencies, fields = {}) => project({ dependencies, ...fields });

export const needsA = needs({ a: '1.0.0' });

// The files of a package in a registry.
export const pack = (name, fields = {}, version = '1.0.0') => ({
  [`${name}/${version}/package.json`]: json({ name, version, ...fields }),
  [`${name}/${version}/index.js`]: `// ${name}\n`,
});

export const packA = (fields) => pack('a', fields);

// The files of several versions of a package.
export const packs = (name, ...versions) => Object.assign({}, ...versions.map((version) => pack(name, {}, version)));

export const tags = (name, content) => ({ [`${name}/tags.json`]: typeof content === 'string' ? content : json(content) });

// A case: its title, the status, the text on standard error, and what differs from an install of an empty manifest.
export const row = (title, status, text, more) => {
  const plain = { words: ['install'], project: project(), registry: {} };
  return { title, status, text, ...plain, ...more };
};
