// Runs `pnpm-rs install` on small projects, most of which are refused, and compares the status, what is printed, and
// what stands in the project's folder: after an install nothing else in `node_modules` than what is installed.
// Usage: node tools/check-refusals.mjs [PROGRAM]
import { spawnSync } from 'node:child_process';
import { closeSync, openSync, truncateSync } from 'node:fs';
import { join } from 'node:path';
import { choicesIn } from './lib/choices.mjs';
import { installs } from './lib/installs.mjs';
import { carriedSemver } from './lib/npm.mjs';
import { installedTree } from './lib/packages.mjs';
import { part } from './lib/parts.mjs';
import { program, report, run } from './lib/program.mjs';
import { refusals } from './lib/refusals.mjs';
import { differences, entriesOf, put, temporary } from './lib/trees.mjs';
import { workspaces } from './lib/workspaces.mjs';

const ONE_PART = 201;

// A path below a folder that has so many bytes.
const longPath = (folder, length) => {
  let path = folder;
  while (length - path.length > 2 * ONE_PART) path += `/${'d'.repeat(ONE_PART - 1)}`;
  const half = Math.floor((length - path.length) / 2);
  path += `/${'d'.repeat(half - 1)}`;
  return `${path}/${'d'.repeat(length - path.length - 1)}`;
};

// A file of so many bytes, none of which takes room.
const putLarge = (path, length) => {
  closeSync(openSync(path, 'w'));
  truncateSync(path, length);
};

// Makes the project and the registry, which stands apart where it has a file that is too large to be compared.
const make = ({ project: own, registry: packages, at = 'pnpm-rs-registry', env, large, pipe, length }) => {
  const folder = temporary();
  const project = length === undefined ? join(folder, 'app') : longPath(folder, length);
  const registry = large === undefined ? join(project, at) : join(folder, 'registry');
  put(project, own);
  if (Object.keys(packages).length > 0) put(registry, packages);
  if (large !== undefined) putLarge(join(registry, large[0]), large[1]);
  if (pipe !== undefined) spawnSync('mkfifo', [join(project, pipe)]);
  const named = large === undefined ? env?.replace('PROJECT', project) : registry;
  return { project, registry, env: named === undefined ? {} : { PNPM_RS_REGISTRY: named } };
};

const isOutside = ([path]) => path.split('/')[0] !== 'node_modules';

// What is to be printed, and what is to stand: the installed project where the writing comes to its end.
const expected = ({ status, text }, { project, registry }) => {
  const before = entriesOf(project);
  const err = text === '' ? '' : `pnpm-rs: ${text.replace('PROJECT', project)}\n`;
  if (status !== 0 && status !== 23) return { out: '', err, tree: before };
  const reached = choicesIn(carriedSemver().semver, registry).reached(project);
  const out = status === 0 ? report(reached.packages) : '';
  return { out, err, tree: new Map([...[...before].filter(isOutside), ...installedTree(reached)]) };
};

const told = JSON.stringify;

const compareText = (what, found, wanted) => (found === wanted ? [] : [`${what} ${told(found)}, not ${told(wanted)}`]);

const runIn = ({ words, output }, { project, env }) => {
  if (output === undefined) return run(program, words, { cwd: project, env });
  const stdout = openSync(output, 'w');
  const ended = run(program, words, { cwd: project, env, stdout });
  closeSync(stdout);
  return ended;
};

const check = (one) => {
  const made = make(one);
  const { out, err, tree } = expected(one, made);
  const ended = runIn(one, made);
  const problems = [
    ...compareText('status', ended.status, one.status),
    ...compareText('standard error', ended.err, err),
    ...compareText('standard output', ended.out, out),
    ...differences(tree, entriesOf(made.project)),
  ];
  return problems.map((line) => `${one.title}: ${line}`);
};

const checkAll = (cases) => ({ compared: cases.length, what: `${cases.length} projects`, problems: cases.flatMap(check) });

part('refusals', () => checkAll(refusals));
part('workspaces', () => checkAll(workspaces));
part('installs', () => checkAll(installs));
