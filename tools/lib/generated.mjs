// Generated projects, for the checks: small registries whose names, versions and files are near one another in order,
// with scopes, cycles, tags, and several versions of a name; and manifests that ask for them by every kind of specifier,
// by aliases, in every map. What is required has a version; some of what is optional has none.
import { join } from 'node:path';
import { put } from './trees.mjs';

const names = ['a', 'a-b', 'a.b', 'a_b', 'A', 'ab', 'b', '0', '-', '@a/a', '@a/b', '@a-b/a', '@b/a'];
const aliases = ['a', 'ab', 'c', '@a/a', '@a/c'];
const versions = ['0.1.0', '0.1.1', '1.0.0', '1.0.0-a', '1.0.0-a.1', '1.0.1', '1.0.1+b', '1.2.0', '2.0.0', '2.0.0-rc.1', '10.0.0'];
const files = ['index.js', 'index/a.js', 'index-a/a', 'a', 'b/a/b', 'b.a', 'B', '.a', '.b/c', '...', 'a b', 'ü/ü', '@a/a', '-', 'a\nb'];
const absent = { a: '^99.0.0', b: 'no-such-tag', ghost: '*', '@ghost/a': 'npm:ghost@^1.0.0' };

// A fixed sequence of numbers for each seed.
export const sequence = (seed) => {
  let state = seed;
  return (count) => {
    state = (Math.imul(state, 1103515245) + 12345) >>> 0;
    return (state >>> 8) % count;
  };
};

const pick = (below, list) => list[below(list.length)];

const some = (below, list, oneIn) => list.filter(() => below(oneIn) === 0);

// What a registry has of a name: one version at least, and perhaps tags, whose versions aren't all published.
const offer = (below) => (name) => {
  const published = [...new Set([pick(below, versions), ...some(below, versions, 4)])];
  const tags = ['latest', 'next', 'x1'].map((tag) => [tag, pick(below, [...published, '9.9.9'])]);
  return { name, versions: published, tags: Object.fromEntries(some(below, tags, 3)) };
};

// Specifiers that this version satisfies.
const around = (version) => [version, `^${version}`, `~${version}`, `>=${version}`, `<=${version}`, `${version} - 20`, ` 0.0.1 ||${version}`];

const specifierOf = (below, one) => {
  const tags = Object.keys(one.tags).filter((tag) => one.versions.includes(one.tags[tag]));
  return pick(below, [...around(pick(below, one.versions)), 'latest', ...tags]);
};

const dependency = (below, one) => {
  const specifier = specifierOf(below, one);
  return below(4) === 0 ? [pick(below, aliases), `npm:${one.name}@${specifier}`] : [one.name, specifier];
};

const dependenciesOn = (below, offered, oneIn) =>
  Object.fromEntries(some(below, offered, oneIn).map((one) => dependency(below, one)));

const optionalOn = (below, offered) => ({
  ...dependenciesOn(below, offered, 10),
  ...Object.fromEntries(some(below, Object.entries(absent), 6)),
});

const bytes = (below) => Buffer.from(Array.from({ length: below(40) }, () => below(256)));

const packageOf = (below, offered, name, version) => {
  const dependencies = dependenciesOn(below, offered, 6);
  const manifest = { name, version, dependencies, optionalDependencies: optionalOn(below, offered), devDependencies: absent };
  const content = some(below, files, 3).map((path) => [path, bytes(below)]);
  return { 'package.json': JSON.stringify(manifest), ...Object.fromEntries(content) };
};

const projectOf = (below, offered) => ({
  name: pick(below, [...names, 'app']),
  dependencies: dependenciesOn(below, offered, 4),
  devDependencies: dependenciesOn(below, offered, 6),
  optionalDependencies: optionalOn(below, offered),
});

// Makes a project and its registry, and answers the names that are to be looked up.
export const generate = (seed, project, registry) => {
  const below = sequence(seed);
  const offered = names.map(offer(below));
  for (const { name, versions: published, tags } of offered) {
    for (const version of published) put(join(registry, name, version), packageOf(below, offered, name, version));
    if (Object.keys(tags).length > 0) put(join(registry, name), { 'tags.json': JSON.stringify(tags) });
  }
  put(project, { 'package.json': JSON.stringify(projectOf(below, offered)), 'src/app.js': '' });
  return [...new Set([...names, ...aliases, ...Object.keys(absent)])];
};
