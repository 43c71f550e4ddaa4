// Runs the programs of this repository, for the checks.
import { spawnSync } from 'node:child_process';
import { dirname, join, resolve } from 'node:path';
import { fileURLToPath } from 'node:url';
import { temporary } from './trees.mjs';

export const top = dirname(dirname(dirname(fileURLToPath(import.meta.url))));

// The path of the program that the command line names, from any folder; undefined where it names none.
export const named = process.argv[2] === undefined ? undefined : resolve(process.argv[2]);

// The installer that is checked: the one that is named, else the launcher.
export const program = named ?? join(top, 'pnpm-rs');

// The store of all installs of one check.
const store = join(temporary(), 'store');

const cleanEnv = (more) => {
  const { PNPM_RS_REGISTRY, NODE_PATH, NODE_OPTIONS, NODE_PRESERVE_SYMLINKS, ...kept } = process.env;
  return { ...kept, PNPM_RS_STORE: store, ...more };
};

// Runs a program in a folder and answers its status and what it wrote.
export const run = (file, words, options = {}) => {
  const { cwd, env = {}, input = '', stdout = 'pipe', stderr = 'pipe' } = options;
  const stdio = ['pipe', stdout, stderr];
  const ended = spawnSync(file, words, { cwd, env: cleanEnv(env), input, stdio, maxBuffer: 1 << 28, encoding: 'utf8' });
  if (ended.error !== undefined) throw new Error(`${file} can't be run: ${ended.error.message}`);
  return { status: ended.status, out: ended.stdout ?? '', err: ended.stderr };
};

// The path of a program of this repository: the shipped one, or one that is built first, which standard error tells of.
export const built = (name) => {
  const { status, out } = run(join(top, 'tools', 'built.sh'), [name], { stderr: 'inherit' });
  if (status !== 0) throw new Error(`${name} can't be built`);
  return out.slice(0, -1);
};

// Asks a program lines, and answers the lines that it gives.
export const ask = (file, words, lines, env) => {
  const ended = run(file, words, { input: lines.map((line) => `${line}\n`).join(''), env });
  if (ended.status !== 0) throw new Error(`${file} ended with ${ended.status}: ${ended.err.trim()}`);
  const answers = ended.out.split('\n').slice(0, -1);
  if (answers.length === lines.length) return answers;
  throw new Error(`${file} gave ${answers.length} answers to ${lines.length} questions`);
};

// What an install reports on standard output.
export const report = (packages) => `projects 1\npackages ${packages.length}\ninstances ${packages.length}\n`;
