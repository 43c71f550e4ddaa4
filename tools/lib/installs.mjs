// The cases of check-refusals whose packages are written.
import { json, needs, needsA, pack, packA, packs, project, row, tags } from './cases.mjs';

const done = (title, own, registry, more) => row(title, 0, '', { project: own, registry, ...more });

const empty = {
  devDependencies: {}, optionalDependencies: null, peerDependencies: [], peerDependenciesMeta: {}, dependenciesMeta: null,
  scripts: [], bin: {}, pnpm: {},
};

const filled = {
  scripts: { test: 'node test.js', '': '' }, bin: 'index.js', dependenciesMeta: { b: { injected: true } },
  peerDependenciesMeta: { b: { optional: false }, c: { other: 1 } }, pnpm: { overrides: [], other: 1 }, engines: 1, files: null,
};

const published = ['0.0.3', '0.0.4-0', '0.0.4', '1.0.0-rc.2', '1.0.0-rc.10', '1.0.0', '1.0.0+a', '1.0.0+b', '1.1.0', '1.2.0', '2.0.0-rc.1'];

const specifiers = [
  '^0.0.3', '~0.0.3', '0.0.x', '1.0.0', '1.0.0+a', '=v1.0.0', '^1.0.0', '>1.1.0', '<1.0.0', '1.0.0-rc.2 - 1.0.0-rc.11', '>=1.0.0-rc.2 <1.0.0',
  '>=2.0.0-rc.0', '^1.0.0 || ^2.0.0-0', '', '*', ' \t1\t', 'x', 'latest', 'next', 'V1', 'npm:r', 'npm:r@', 'npm:r@latest', 'npm:r@ ^1 ',
];

// A project that asks for the package r by each specifier, of which the first ones keep its name.
const byEach = (fields) => {
  const aliases = specifiers.map((text, i) => [`r-${i}`, text.trim().startsWith('npm:') ? text : `npm:r@${text}`]);
  return project({ dependencies: Object.fromEntries(aliases), ...fields });
};

const rows = [
  done('specifiers and no tags', byEach({ optionalDependencies: { 'r-18': 'npm:r@next', 'r-19': 'npm:r@V1' } }), packs('r', ...published)),
  ...['1.1.0', '2.0.0-rc.1', '1.0.0', '3.0.0'].map((latest) =>
    done(`specifiers and the latest ${latest}`, byEach(), {
      ...packs('r', ...published), ...tags('r', { latest, next: '2.0.0-rc.1', V1: '1.0.0-rc.10' }),
    })),
  done('pre-releases alone', needs({ r: 'latest', s: 'npm:r@>=1.0.0-0' }), packs('r', '1.0.0-rc.2', '1.0.0-rc.10')),
];

const maps = [
  done('a name in three maps', project({
    dependencies: { a: '1.0.0' }, devDependencies: { a: '^2.0.0', b: '*' }, optionalDependencies: { a: '1.1.0' },
  }), { ...packs('a', '1.0.0', '1.1.0'), ...pack('b') }),
  done('an optional dependency without a version that is required too', project({
    dependencies: { a: '1.0.0' }, optionalDependencies: { a: '^9.0.0' },
  }), packA()),
  done('optional dependencies without a version', project({
    optionalDependencies: { a: '^9.0.0', b: 'next', c: 'npm:a@2.0.0', ghost: '*', d: 'npm:a' },
  }), packA({ optionalDependencies: { b: '*', e: 'npm:a@^1.0.0' } })),
  done('development dependencies', project({ devDependencies: { a: '*' } }), {
    ...packA({ devDependencies: { b: '*', c: 'file:c', d: 'workspace:*' }, dependencies: { e: '*' } }), ...pack('e'),
  }),
  done('a development dependency that is in another map of a package', needsA, {
    ...packA({ devDependencies: { b: 'file:b' }, dependencies: { b: '*' } }), ...pack('b'),
  }),
  done('a dependency under the own name', needs({ app: 'file:app' }, { optionalDependencies: { app: '*' } }), pack('app')),
  done('a package that depends on itself', needsA, packA({ dependencies: { a: 'catalog:', b: 'npm:a@*' } })),
  done('an alias of a package that depends on its own name', needs({ c: 'npm:b@^1.0.0', b: 'npm:a' }), { ...pack('b', { dependencies: { c: 'npm:a' } }), ...packA() }),
  done('an alias with a scope', needs({ '@t/c': 'npm:@s/a@1' }), pack('@s/a')),
];

const odd = {
  'a/1.0': null, 'a/v3.0.0': null, 'a/01.0.0': null, 'a/2.0.0': 'a file', 'a/3.0.0': { link: '1.0.0' }, 'a/latest/package.json': '{}',
};

const entries = [
  done('odd entries beside versions', needs({ a: '*' }), { ...packA(), ...odd, 'README.md': '' }),
  done('a folder for tags', needs({ a: 'latest' }), { ...packs('a', '1.0.0', '1.1.0'), 'a/tags.json': null }),
  done('a link for tags', needs({ a: 'latest' }), { ...packs('a', '1.0.0', '1.1.0'), 'a/tags.json': { link: '../tags' }, tags: json({ latest: '1.0.0' }) }),
  done('empty tags', needs({ a: '*' }), { ...packA(), ...tags('a', {}) }),
  done('a path with a line feed', needsA, { ...packA(), 'a/1.0.0/two\nlines': '', 'a/1.0.0/b\n/c': '' }),
  done('a folder called node_modules without a file', needsA, { ...packA(), 'a/1.0.0/node_modules/b': null, 'a/1.0.0/lib/node_modules/c': { link: '../c' } }),
];

const marked = { ...needsA, 'node_modules/.pnpm-rs': 'pnpm-rs 1\n' };
const home = 'node_modules/.pnpm/a@1.0.0/node_modules/a';

// What stands in `node_modules` before.
const standing = [
  done('an empty node_modules', { ...needsA, node_modules: null }, packA()),
  done('a marker that is empty', { ...needsA, 'node_modules/.pnpm-rs': '', 'node_modules/b': 'a file' }, packA()),
  done('a marker that is half written', { ...needsA, 'node_modules/.pnpm-rs': 'pnpm' }, packA()),
  done('what is left over', {
    ...marked, 'node_modules/b/lib/c.js': '', 'node_modules/.bin/b': { link: '../b' }, [`${home}/lib/more.js`]: '', [`${home}/node_modules`]: null,
    'node_modules/.pnpm/b@1.0.0/node_modules/b/index.js': '',
  }, packA()),
  done('files of other bytes and other lengths', { ...marked, [`${home}/index.js`]: '// b\n', [`${home}/package.json`]: '{}' }, packA()),
  done('a link that leads elsewhere', { ...marked, 'node_modules/a': { link: '.pnpm' } }, packA()),
  done('entries of other kinds', {
    ...marked, [`${home}/index.js/deep/x`]: '', [`${home}/package.json`]: { link: 'index.js' }, 'node_modules/a/index.js': '',
  }, packA()),
  done('a file for the virtual store', { ...marked, 'node_modules/.pnpm': 'a file' }, packA()),
  done('packages that nothing asks for any more', { ...marked, ...project(), [`${home}/index.js`]: '', 'node_modules/a': { link: '.pnpm' } }, {}),
];

const plain = [
  done('an empty manifest', { 'package.json': '{}' }, {}),
  done('empty fields', needs(null, empty), {}),
  done('filled fields', needsA, packA(filled)),
  done("the project's filled fields", project(filled), {}),
  done('a package', needsA, packA()),
  done('a package with empty fields', needsA, packA({ dependencies: [], ...empty })),
  done('a pre-release', needs({ '@s/a': '1.0.0-rc.1' }), pack('@s/a', {}, '1.0.0-rc.1')),
  done('a name and a version of 120 bytes', needs({ ['b'.repeat(114)]: '1.0.0' }), pack('b'.repeat(114))),
  done('a registry that the environment names', needsA, packA(), { at: 'elsewhere/registry', env: 'elsewhere/registry' }),
  done('a registry by its absolute path', needsA, packA(), { at: 'elsewhere', env: 'PROJECT/elsewhere' }),
  done('a registry behind a link', needsA, { ...packA(), link: { link: '.' } }, { at: 'elsewhere', env: 'elsewhere/link' }),
  row('an output that is full', 23, 'output fault', { project: needsA, registry: packA(), output: '/dev/full' }),
];

export const installs = [plain, rows, maps, entries, standing].flat();
