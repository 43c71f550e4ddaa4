// What manifests and a registry say of packages, and the `node_modules` that an install makes of those that a project
// reaches. It is written from docs/FORMATS.md alone.
import { lstatSync, readFileSync, readdirSync } from 'node:fs';
import { dirname, join, relative } from 'node:path';
import { entriesOf } from './trees.mjs';

export const readManifest = (folder) => JSON.parse(readFileSync(join(folder, 'package.json'), 'utf8'));

const partForm = '[A-Za-z0-9-][A-Za-z0-9._-]*';
const nameForm = new RegExp(`^(@${partForm}/)?${partForm}$`);

const isReserved = (part) => part === 'node_modules';

export const isName = (name) =>
  typeof name === 'string' && name.length <= 214 && nameForm.test(name) && !name.replace('@', '').split('/').some(isReserved);

const number = '(0|[1-9][0-9]*)';
const identifier = '(0|[1-9][0-9]*|[0-9]*[A-Za-z-][0-9A-Za-z-]*)';
const exactForm = `${number}\\.${number}\\.${number}(-${identifier}(\\.${identifier})*)?`;
const exact = new RegExp(`^${exactForm}$`);
const version = new RegExp(`^${exactForm}(\\+[0-9A-Za-z-]+(\\.[0-9A-Za-z-]+)*)?$`);

// Whether a text is a version without build metadata.
export const isExact = (text) => typeof text === 'string' && exact.test(text);

export const isVersion = (text) => typeof text === 'string' && version.test(text);

const shown = (folder) => readdirSync(folder).filter((name) => !name.startsWith('.')).sort();

const isFolder = (path) => lstatSync(path).isDirectory();

const named = (folder) => (name) => {
  const isScope = name.startsWith('@') && isFolder(join(folder, name));
  return isScope ? shown(join(folder, name)).map((other) => `${name}/${other}`) : [name];
};

// The names of the packages in a `node_modules` or in a registry, scoped ones included.
export const namesIn = (folder) => shown(folder).flatMap(named(folder));

const beside = ({ name, version }) => `node_modules/.pnpm/${name.replace('/', '+')}@${version}/node_modules`;

// Whether a path from a package's folder leads into its own `node_modules`.
export const inModules = (path) => path === 'node_modules' || path.startsWith('node_modules/');

// The path of a package's folder from the project's.
export const homeOf = (one) => `${beside(one)}/${one.name}`;

const add = (tree, path, entry) => {
  tree.set(path, entry);
  for (let above = dirname(path); above !== '.'; above = dirname(above)) tree.set(above, 'folder');
};

const addLinks = (tree, folder, edges) => {
  for (const [alias, to] of edges) {
    const path = `${folder}/${alias}`;
    add(tree, path, `link to ${relative(dirname(path), homeOf(to))}`);
  }
};

// A file whose path has a line feed is none of the package's.
const addFiles = (tree, home, folder) => {
  for (const [path, entry] of entriesOf(folder)) {
    if (Buffer.isBuffer(entry) && !path.includes('\n')) add(tree, `${home}/${path}`, entry);
  }
};

// The entries of an installed project's `node_modules`, by their paths from the project's folder.
export const installedTree = ({ direct, packages }) => {
  const tree = new Map();
  add(tree, 'node_modules/.pnpm-rs', Buffer.from('pnpm-rs 1\n'));
  for (const one of packages) {
    add(tree, homeOf(one), 'folder');
    addFiles(tree, homeOf(one), one.folder);
    addLinks(tree, beside(one), one.edges);
  }
  addLinks(tree, 'node_modules', direct);
  return tree;
};
