// The packages that npm carries, its semver library among them.
import { execFileSync } from 'node:child_process';
import { existsSync } from 'node:fs';
import { createRequire } from 'node:module';
import { join } from 'node:path';
import { skip } from './parts.mjs';

const rootOf = () => {
  try {
    return execFileSync('npm', ['root', '-g'], { encoding: 'utf8', stdio: ['ignore', 'pipe', 'ignore'] }).trim();
  } catch {
    return skip('there is no npm');
  }
};

let known;

// npm's own folder. The part that asks is skipped where there is none.
export const npmFolder = () => {
  known ??= join(rootOf(), 'npm');
  return existsSync(join(known, 'node_modules')) ? known : skip('there is no folder of the packages that npm carries');
};

// The semver library that npm carries, and its release. The part that asks is skipped where there is none.
export const carriedSemver = () => {
  const carried = createRequire(join(npmFolder(), 'package.json'));
  try {
    return { semver: carried('semver'), release: carried('semver/package.json').version };
  } catch (e) {
    if (e.code === 'MODULE_NOT_FOUND') return skip('npm carries no semver');
    throw e;
  }
};
