// The project of the packages that npm carries: a registry of them, and a manifest that asks for each of them by every range
// that npm's own manifests have for it.
import { readdirSync } from 'node:fs';
import { join } from 'node:path';
import { choicesIn } from './choices.mjs';
import { carriedSemver, npmFolder } from './npm.mjs';
import { isName, isVersion, namesIn, readManifest } from './packages.mjs';
import { run, top } from './program.mjs';
import { entriesOf, put } from './trees.mjs';

const isEmpty = (value) => (value ?? null) === null || (typeof value === 'object' && Object.keys(value).length === 0);

const hasPeers = ({ peerDependencies, peerDependenciesMeta }) =>
  !isEmpty(peerDependencies) || Object.values(peerDependenciesMeta ?? {}).some(({ optional }) => optional === true);

const hasModules = (folder) => [...entriesOf(folder).keys()].some((path) => path.split('/').includes('node_modules'));

// Whether a package is of a form that is built.
const isBuilt = ({ name, version, folder, manifest }) =>
  isName(name) && `${name}@${version}`.length <= 120 && !hasPeers(manifest) && isEmpty(manifest.pnpm?.overrides) && !hasModules(folder);

const fields = ['dependencies', 'optionalDependencies', 'devDependencies'];

const specifiersOf = (manifest) => fields.flatMap((field) => Object.entries(manifest[field] ?? {}));

const versionsIn = (registry) =>
  namesIn(registry).flatMap((name) => readdirSync(join(registry, name)).filter(isVersion).map((version) => [name, version]));

// Each package name with each range that it has in npm's manifest or in those of the packages, and with each version.
const rangesIn = (semver, npm, registry) => {
  const versions = versionsIn(registry);
  const manifests = [npm, ...versions.map(([name, version]) => join(registry, name, version))].map(readManifest);
  const all = [...manifests.flatMap(specifiersOf), ...versions];
  const ranges = all.filter(([name, range]) => isName(name) && semver.validRange(range) !== null);
  return [...new Map(ranges.map((one) => [one.join('@'), one])).values()];
};

// A manifest that asks for each package by each of these ranges: by its own name for the first one, by aliases for the
// others. What no version satisfies is optional.
const manifestOf = (ranges, target) => {
  const groups = { dependencies: {}, devDependencies: {}, optionalDependencies: {} };
  const taken = new Set();
  ranges.forEach(([name, range], i) => {
    const isFirst = !taken.has(name);
    const there = isFirst ? groups.dependencies : groups.devDependencies;
    const group = target(name, range) === undefined ? groups.optionalDependencies : there;
    group[isFirst ? name : `alias-${i}`] = isFirst ? range : `npm:${name}@${range}`;
    taken.add(name);
  });
  return { name: 'carried', version: '1.0.0', ...groups };
};

// Makes the project and the registry, and answers the names that the registry has, the project's aliases, and what went
// wrong.
export const makeCarried = (project, registry) => {
  const { semver } = carriedSemver();
  const npm = npmFolder();
  const made = run(process.execPath, [join(top, 'tools', 'make-registry.mjs'), join(npm, 'node_modules'), registry]);
  const { target, closure } = choicesIn(semver, registry);
  const isAsked = ([name, range]) => {
    const to = target(name, range);
    return to === undefined || closure([[name, to]]).every(isBuilt);
  };
  const manifest = manifestOf(rangesIn(semver, npm, registry).filter(isAsked), target);
  put(project, { 'package.json': `${JSON.stringify(manifest, null, 2)}\n`, 'src/app.js': '' });
  const problems = made.status === 0 ? [] : [`make-registry ended with ${made.status}: ${made.err.trim()}`];
  if (isEmpty(manifest.dependencies)) problems.push('npm carries no package that can be asked for');
  return { names: namesIn(registry), aliases: Object.keys(manifest.devDependencies), problems };
};
