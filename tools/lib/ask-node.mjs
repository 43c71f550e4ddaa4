// Answers questions `<folder><tab><name>` from standard input, a line for each, by Node's own lookup: the real path of
// the first folder that the name stands for in the lookup folders, or `-`. With the word `--load` it answers the file
// that `require` would load there instead.
import { readFileSync, realpathSync, statSync } from 'node:fs';
import { createRequire } from 'node:module';
import { basename, join } from 'node:path';

const requires = new Map();
const requireIn = (folder) => {
  if (!requires.has(folder)) requires.set(folder, createRequire(join(folder, 'index.js')));
  return requires.get(folder);
};

const folders = new Map();

// The real path, where a folder stands.
const realFolder = (path) => {
  if (!folders.has(path)) folders.set(path, lookAt(path));
  return folders.get(path);
};

const lookAt = (path) => {
  try {
    return statSync(path, { throwIfNoEntry: false })?.isDirectory() ? realpathSync(path) : undefined;
  } catch {
    return undefined;
  }
};

// A name of Node's own module has lookup folders only with a slash behind it. The global folders aren't looked at.
const lookupFolders = (folder, name) => {
  const { paths } = requireIn(folder).resolve;
  return (paths(name) ?? paths(`${name}/`)).filter((path) => basename(path) === 'node_modules');
};

const found = (folder, name) => {
  for (const at of lookupFolders(folder, name)) {
    const real = realFolder(join(at, name));
    if (real !== undefined) return real;
  }
  return '-';
};

const loaded = (folder, name) => {
  try {
    return requireIn(folder).resolve(name);
  } catch (e) {
    if (e.code === 'MODULE_NOT_FOUND') return '-';
    throw e;
  }
};

const answer = process.argv[2] === '--load' ? loaded : found;
const questions = readFileSync(0, 'utf8').split('\n').slice(0, -1);
process.stdout.write(questions.map((line) => `${answer(...line.split('\t'))}\n`).join(''));
