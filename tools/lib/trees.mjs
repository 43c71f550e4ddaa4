// Folders of files, for the checks: written, listed and compared.
import {
  lstatSync, mkdirSync, mkdtempSync, readFileSync, readdirSync, readlinkSync, realpathSync, rmSync, symlinkSync, writeFileSync,
} from 'node:fs';
import { tmpdir } from 'node:os';
import { dirname, join } from 'node:path';

const stands = (path) => lstatSync(path, { throwIfNoEntry: false }) !== undefined;

const isRoot = (folder) => dirname(folder) === folder;

// Whether a `node_modules` stands in the folder or above it.
const hasModules = (folder) => stands(join(folder, 'node_modules')) || (!isRoot(folder) && hasModules(dirname(folder)));

// A folder for temporary files from which Node's lookup finds nothing of the machine's own.
const place = () => {
  const found = [tmpdir(), '/dev/shm', '/var/tmp'].find((folder) => stands(folder) && !hasModules(realpathSync(folder)));
  if (found === undefined) throw new Error('each folder for temporary files has a node_modules in it or above it');
  return realpathSync(found);
};

const made = [];

// A new temporary folder, by its real path. It is removed when the process ends.
export const temporary = () => {
  const folder = mkdtempSync(join(place(), 'pnpm-rs-'));
  made.push(folder);
  return folder;
};
process.on('exit', () => made.forEach((folder) => rmSync(folder, { recursive: true, force: true })));
for (const signal of ['SIGINT', 'SIGTERM']) process.on(signal, () => process.exit(1));

// Writes entries below a folder: `null` is a folder, `{ link }` a link, and a text or a buffer a file's content.
export const put = (folder, entries) => {
  mkdirSync(folder, { recursive: true });
  for (const [path, entry] of Object.entries(entries)) putOne(join(folder, path), entry);
};

const putOne = (path, entry) => {
  mkdirSync(dirname(path), { recursive: true });
  if (entry === null) mkdirSync(path, { recursive: true });
  else if (typeof entry === 'string' || Buffer.isBuffer(entry)) writeFileSync(path, entry);
  else symlinkSync(entry.link, path);
};

const entryAt = (path) => {
  const found = lstatSync(path);
  if (found.isDirectory()) return 'folder';
  if (found.isSymbolicLink()) return `link to ${readlinkSync(path)}`;
  if (!found.isFile()) return 'neither folder, file nor link';
  return readFileSync(path);
};

const listed = (top, at, found) => {
  for (const name of readdirSync(join(top, at)).sort()) {
    const path = join(at, name);
    const entry = entryAt(join(top, path));
    found.set(path, entry);
    if (entry === 'folder') listed(top, path, found);
  }
  return found;
};

// The entries below a folder by their paths: `folder`, `link to <text>`, or a file's bytes.
export const entriesOf = (top) => listed(top, '', new Map());

const told = (entry) => (Buffer.isBuffer(entry) ? `a file of ${entry.length} bytes` : entry);

const isSame = (a, b) => (Buffer.isBuffer(a) && Buffer.isBuffer(b) ? a.equals(b) : a === b);

const differing = (path, wanted, found) => {
  if (wanted === undefined) return [`${path}: not expected, found ${told(found)}`];
  if (found === undefined) return [`${path}: missing, expected ${told(wanted)}`];
  if (isSame(wanted, found)) return [];
  const why = told(wanted) === told(found) ? ', with other bytes' : '';
  return [`${path}: expected ${told(wanted)}, found ${told(found)}${why}`];
};

// A line for each path at which the entries differ.
export const differences = (wanted, found) => {
  const paths = [...new Set([...wanted.keys(), ...found.keys()])].sort();
  return paths.flatMap((path) => differing(path, wanted.get(path), found.get(path)));
};
