#!/usr/bin/env node
// Makes a registry of the packages in a node_modules folder: each goes to `TO/<name>/<version>`, without its own
// node_modules, whose packages are taken too. Only regular files are copied. A version that stands already is left as it
// is. Ends with 1 where a package was left out.
import { copyFileSync, existsSync, lstatSync, mkdirSync, renameSync, rmSync } from 'node:fs';
import { dirname, join } from 'node:path';
import { inModules, isExact, isName, namesIn, readManifest } from './lib/packages.mjs';
import { differences, entriesOf } from './lib/trees.mjs';

const usage = `usage: make-registry.mjs FROM TO
  FROM  a node_modules folder
  TO    the registry folder, made where it is missing`;

const entryAt = (path) => lstatSync(path, { throwIfNoEntry: false });

const isFolder = (path) => entryAt(path)?.isDirectory() ?? false;

const [from, to, ...others] = process.argv.slice(2);
if (to === undefined || others.length > 0) {
  console.error(usage);
  process.exit(2);
}
if (!isFolder(from)) {
  console.error(`make-registry: ${from} is no folder`);
  process.exit(2);
}

const counts = { made: 0, there: 0, left: 0 };
const leaveOut = (path, why) => {
  counts.left += 1;
  console.error(`make-registry: left out: ${path}: ${why}`);
};

// The package's regular files.
const filesOf = (folder) => {
  return new Map([...entriesOf(folder)].filter(([path, entry]) => !inModules(path) && Buffer.isBuffer(entry)));
};

const copyFiles = (folder, files, target) => {
  const making = join(to, `.making-${process.pid}`);
  rmSync(making, { recursive: true, force: true });
  try {
    for (const path of files.keys()) {
      mkdirSync(dirname(join(making, path)), { recursive: true });
      copyFileSync(join(folder, path), join(making, path));
    }
    mkdirSync(dirname(target), { recursive: true });
    renameSync(making, target);
  } finally {
    rmSync(making, { recursive: true, force: true });
  }
};

const makeVersion = (folder, { name, version }) => {
  const target = join(to, name, version);
  const files = filesOf(folder);
  if (!existsSync(target)) {
    copyFiles(folder, files, target);
    counts.made += 1;
    return;
  }
  const [first] = differences(filesOf(target), files);
  if (first === undefined) counts.there += 1;
  else leaveOut(folder, `${target} stands with other bytes (${first})`);
};

// The manifest of a package that a registry can hold, or why there is none.
const manifestOf = (folder) => {
  if (!isFolder(folder)) return { why: 'no folder of its own' };
  try {
    const manifest = readManifest(folder);
    if (!isName(manifest.name)) return { why: `no package name: ${manifest.name}` };
    if (!isExact(manifest.version)) return { why: `no version without build metadata: ${manifest.version}` };
    return { manifest };
  } catch (e) {
    return { why: `no manifest: ${e.message}` };
  }
};

const makePackage = (folder) => {
  const { manifest, why } = manifestOf(folder);
  if (why !== undefined) {
    leaveOut(folder, why);
    return;
  }
  makeVersion(folder, manifest);
  const nested = join(folder, 'node_modules');
  if (isFolder(nested)) makeAll(nested);
  else if (entryAt(nested)?.isSymbolicLink()) leaveOut(nested, 'a link');
};

const makeAll = (modules) => {
  for (const name of namesIn(modules)) makePackage(join(modules, name));
};

try {
  mkdirSync(to, { recursive: true });
  makeAll(from);
} catch (e) {
  console.error(`make-registry: ${e.message}`);
  process.exit(1);
}
console.log(`make-registry: ${counts.made} versions made, ${counts.there} there already, ${counts.left} left out`);
process.exitCode = counts.left === 0 ? 0 : 1;
