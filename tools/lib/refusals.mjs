// The cases of check-refusals that end with a refusal.
import { json, needs, needsA, pack, packA, packs, project, row, tags } from './cases.mjs';

const usage = (title, words) => row(title, 2, 'usage: install', { words });

const file = (path, content) => (content === undefined ? {} : { [path]: content });

const manifest = (title, content, why) =>
  row(`a manifest ${title}`, 3, `manifest: PROJECT/package.json: ${why}`, { project: file('package.json', content) });

const packageManifest = (title, content, why) => {
  const path = 'a/1.0.0/package.json';
  const registry = { 'a/1.0.0/index.js': '', ...file(path, content) };
  return row(`a package's manifest ${title}`, 3, `manifest: registry:/${path}: ${why}`, { project: needsA, registry });
};

const badField = (title, fields, field, key = '') => manifest(title, json(fields), `bad field ${field} ${key}`);

const badTags = (title, name, registry) =>
  row(`tags ${title}`, 3, `manifest: registry:/${name}/tags.json: bad tags`, { project: needs({ [name]: '1.0.0' }), registry });

const noVersion = (title, edge, own, registry) => row(title, 6, `no version: ${edge}`, { project: own, registry });

const unsupported = (title, edge, own, registry = packA()) => row(title, 7, `unsupported: ${edge}`, { project: own, registry });

const bundled = (title, text, own, registry) => row(title, 13, `bundled: ${text}`, { project: own, registry });

const notYet = (title, text, own, registry = packA()) => row(title, 30, `not yet: ${text}`, { project: own, registry });

const foreign = (title, own, registry = packA()) =>
  row(title, 10, 'foreign: PROJECT/node_modules', { project: { ...needsA, ...own }, registry });

const stands = (kind, path, entry) => notYet(`a ${kind} ${path}`, `PROJECT/${path}`, { ...needsA, [path]: entry });

const usages = [
  usage('no words', []),
  usage('a word that begins with --', ['install', '--foo']),
  usage('a word twice', ['install', 'install']),
  usage('another word', ['update']),
  usage('an empty word', ['']),
];

const texts = [
  manifest('that is missing', undefined, 'missing'),
  manifest('that is a folder', null, 'missing'),
  manifest('that ends too early', '{', 'not JSON'),
  manifest('without a byte', '', 'not JSON'),
  manifest('that is a list', '[]', 'not JSON'),
  manifest('that is a text', '"{}"', 'not JSON'),
  manifest('with more behind it', '{} {}', 'not JSON'),
  manifest('that is not UTF-8', Buffer.from([0x7b, 0x22, 0xff, 0x22, 0x3a, 0x31, 0x7d]), 'not JSON'),
];

const dependencyMaps = ['dependencies', 'devDependencies', 'optionalDependencies', 'peerDependencies'];

const inDependencies = dependencyMaps.flatMap((field) => [
  badField(`whose ${field} are a text`, { [field]: 'a' }, field),
  badField(`whose ${field} are a list with an item`, { [field]: ['a'] }, field),
  badField(`with a bad name in ${field}`, { [field]: { a: '1.0.0', '.a': '1.0.0' } }, field, '.a'),
  badField(`with a number in ${field}`, { [field]: { b: 1, a: '1.0.0' } }, field, 'b'),
  badField(`with two bad names in ${field}`, { [field]: { _b: '1.0.0', _a: '1.0.0' } }, field, '_a'),
  badField(`with a reserved name in ${field}`, { [field]: { '@a/node_modules': '1' } }, field, '@a/node_modules'),
]);

const inFlags = [['peerDependenciesMeta', 'optional'], ['dependenciesMeta', 'injected']].flatMap(([field, flag]) => [
  badField(`whose ${field} is a truth value`, { [field]: true }, field),
  badField(`with a text in ${field}`, { [field]: { b: {}, a: 'x' } }, field, 'a'),
  badField(`with null in ${field}`, { [field]: { a: null } }, field, 'a'),
  badField(`with a number as ${flag}`, { [field]: { b: { [flag]: 1 }, c: { [flag]: 2 } } }, field, 'b'),
  badField(`with null as ${flag}`, { [field]: { a: { [flag]: null } } }, field, 'a'),
  badField(`with a bad name in ${field}`, { [field]: { _a: { [flag]: true } } }, field, '_a'),
]);

const inFields = [
  badField('with a bad name', { name: '_a' }, 'name'),
  badField('whose name is a number', { name: 1 }, 'name'),
  badField('with a bad version', { version: '1.0' }, 'version'),
  badField('with a v before its version', { version: 'v1.0.0' }, 'version'),
  badField('whose version is an object', { version: {} }, 'version'),
  badField('whose scripts are a text', { scripts: 'x' }, 'scripts'),
  badField('with a number in scripts', { scripts: { test: 'x', '': 1 } }, 'scripts'),
  badField('with a list in scripts', { scripts: { test: [], build: 'x' } }, 'scripts', 'test'),
  badField('whose bin is a number', { bin: 1 }, 'bin'),
  badField('whose bin is a list with an item', { bin: ['x.js'] }, 'bin'),
  badField('with null in bin', { bin: { go: null, come: 'x.js' } }, 'bin', 'go'),
  badField('whose pnpm is a text', { pnpm: 'x' }, 'pnpm.overrides'),
  badField('whose overrides are a text', { pnpm: { overrides: 'x' } }, 'pnpm.overrides'),
  badField('with a number in overrides', { pnpm: { overrides: { 'b@1': 1, 'a>b': 2 } } }, 'pnpm.overrides', 'a>b'),
];

const fields = ['name', 'version', ...dependencyMaps, 'scripts', 'bin', 'peerDependenciesMeta', 'dependenciesMeta', 'pnpm'];

const told = (field) => `bad field ${field === 'pnpm' ? 'pnpm.overrides' : field} `;

// This field and those after it are wrong, the last one written first.
const wrongFrom = (i) => Object.fromEntries(fields.slice(i).reverse().map((field) => [field, 1]));

const inOrder = fields.map((field, i) => manifest(`that is wrong from ${field} on`, json(wrongFrom(i)), told(field)));

const own = { name: 'a', version: '1.0.0' };

const packageManifests = [
  packageManifest('that is missing', undefined, 'missing'),
  packageManifest('that is not JSON', '{"name"}', 'not JSON'),
  packageManifest('with another name', json({ name: 'b', version: '1.0.0' }), 'bad field name '),
  packageManifest('with another name and version', json({ name: 'b', version: '1.0.1' }), 'bad field name '),
  packageManifest('without a name', json({ version: '1.0.0' }), 'bad field name '),
  packageManifest('with another version', json({ name: 'a', version: '1.0.1' }), 'bad field version '),
  packageManifest('without a version', json({ name: 'a', version: null }), 'bad field version '),
  packageManifest('with build metadata', json({ name: 'a', version: '1.0.0+b' }), 'bad field version '),
  packageManifest('with a bad dependency', json({ dependencies: { 'b c': '1' } }), 'bad field dependencies b c'),
  packageManifest('with a bad dependency for itself', json({ ...own, devDependencies: { b: 1 } }), 'bad field devDependencies b'),
  packageManifest('with another name and a bad field', json({ name: 'b', pnpm: 1 }), 'bad field pnpm.overrides '),
  packageManifest('with another name and peers', json({ name: 'b', peerDependencies: { c: '*' } }), 'bad field name '),
  ...fields.slice(2).map((field, i) =>
    packageManifest(`that is wrong from ${field} on`, json({ ...wrongFrom(i + 2), ...own }), told(field))),
];

const longTags = Buffer.concat([Buffer.from('{}'), Buffer.alloc(16777215, ' ')]);

const badTagFiles = [
  badTags('that are no JSON', 'a', { ...packA(), ...tags('a', '{') }),
  badTags('without a byte', 'a', { ...packA(), ...tags('a', '') }),
  badTags('that are a list', 'a', { ...packA(), ...tags('a', []) }),
  badTags('with a number', 'a', { ...packA(), ...tags('a', { latest: '1.0.0', next: 1 }) }),
  badTags('with null', 'a', { ...packA(), ...tags('a', { latest: null }) }),
  badTags('of a scoped name', '@s/a', { ...pack('@s/a'), ...tags('@s/a', '[]') }),
  badTags('of a name without versions', 'a', tags('a', '[]')),
  badTags('past 16,777,216 bytes', 'a', { ...packA(), 'a/tags.json': longTags }),
];

const needsOf = (specifier) => needs({ a: specifier });

const versions = [
  noVersion('no package', '. needs a@1.0.0', needsA, {}),
  noVersion('another version', '. needs a@1.0.0', needsA, pack('a', {}, '1.0.1')),
  noVersion('a file at the package', '. needs a@1.0.0', needsA, { 'a/1.0.0': 'a file' }),
  noVersion('a link at the package', '. needs a@1.0.0', needsA, { ...pack('b'), 'a/1.0.0': { link: '../b/1.0.0' } }),
  noVersion('no package of a package', 'a@1.0.0 needs b@1.0.0', needsA, packA({ dependencies: { b: '1.0.0' } })),
  noVersion('no package of a scope', '. needs @s/a@1.0.0', needs({ '@s/a': '1.0.0' }), packA()),
  noVersion('two missing packages', '. needs a@1.0.0', needs({ b: '1.0.0', a: '1.0.0' }), {}),
  noVersion('a range above each version', '. needs a@^2.0.0', needsOf('^2.0.0'), packs('a', '1.0.0', '2.0.0-rc.1')),
  noVersion('a range with blanks at its ends', '. needs a@ >1 ', needsOf(' >1 '), packA()),
  noVersion('a range that no bound lets have a pre-release', '. needs a@>=2.0.0-rc.1', needsOf('>=2.0.0-rc.1'), pack('a', {}, '2.1.0-rc.1')),
  noVersion('an empty range and a pre-release alone', '. needs a@', needsOf(''), pack('a', {}, '1.0.0-rc.1')),
  noVersion('a tag that is not there', '. needs a@next', needsOf('next'), { ...packA(), ...tags('a', { latest: '1.0.0' }) }),
  noVersion('a tag of an unpublished version', '. needs a@next', needsOf('next'), { ...packA(), ...tags('a', { next: '2.0.0' }) }),
  noVersion('a tag of a range', '. needs a@next', needsOf('next'), { ...packA(), ...tags('a', { next: '^1.0.0' }) }),
  noVersion('the latest of no version', '. needs a@latest', needsOf('latest'), tags('a', { latest: '1.0.0' })),
  noVersion('an alias of no package', '. needs c@npm:b@^1.0.0', needs({ c: 'npm:b@^1.0.0' }), packA()),
  noVersion('an alias without a range', '. needs c@npm:b', needs({ c: 'npm:b' }), pack('b', {}, '1.0.0-rc.1')),
  noVersion('a missing development dependency', '. needs b@^1.0.0', project({ devDependencies: { b: '^1.0.0' } }), packA()),
];

const otherKinds = [
  'git+ssh://h/r', 'http://h/a.tgz', 'file:../a', 'link:../a', 'h/r', '@s/a', '../a', '1.0.0.0', '>=', '1,2', '_tag', 'a tag',
  'workspace:../a', 'workspace:/a', 'workspace:next', 'catalog:a b', 'npm:', 'npm:_a@1.0.0', 'npm:a@h/r', 'npm:a@npm:b', 'NPM:a',
];

const kinds = [
  ...otherKinds.map((text) => unsupported(`the specifier ${json(text)}`, `. has a@${text}`, needsOf(text))),
  unsupported("a package's path", 'a@1.0.0 has b@file:b', needsA, packA({ dependencies: { b: 'file:b' } })),
  unsupported('an optional path', '. has b@file:b', project({ optionalDependencies: { b: 'file:b' } })),
  unsupported("a package's optional path", 'a@1.0.0 has b@file:b', needsA, packA({ optionalDependencies: { b: 'file:b' } })),
  unsupported('a path for the development', '. has b@file:b', project({ devDependencies: { b: 'file:b' } })),
];

const withFiles = (...paths) => ({ ...packA(), ...Object.fromEntries(paths.map((path) => [`a/1.0.0/${path}`, ''])) });

const bundledFiles = [
  bundled('a package in a package', 'a@1.0.0 node_modules/b/index.js', needsA, withFiles('node_modules/b/index.js')),
  bundled('a file in a node_modules further down', 'a@1.0.0 lib/node_modules/k', needsA, withFiles('lib/node_modules/k')),
  bundled('a file called node_modules', 'a@1.0.0 lib/node_modules', needsA, withFiles('lib/node_modules')),
  bundled('two such files', 'a@1.0.0 lib-x/node_modules/k', needsA, withFiles('lib/node_modules/k', 'lib-x/node_modules/k')),
  bundled('two such packages', 'a@1.0.0 node_modules/k', needs({ c: 'npm:a@1.0.0', b: '1.0.0' }), {
    ...withFiles('node_modules/k'), ...pack('b'), 'b/1.0.0/node_modules/k': '',
  }),
];

const longName = 'b'.repeat(115);

const unbuilt = [
  stands('file', 'pnpm-lock.yaml', ''),
  ...['workspace:*', 'workspace:^', 'workspace:', 'workspace:b@~1.0.0', 'catalog:', 'catalog:x'].map((text) =>
    notYet(`the specifier ${json(text)}`, text, needsOf(text))),
  notYet("a package's catalog", 'catalog:', needsA, packA({ dependencies: { b: 'catalog:' } })),
  notYet('an optional project', 'workspace:*', project({ optionalDependencies: { b: 'workspace:*' } })),
  notYet("the project's peers", 'peerDependencies', project({ peerDependencies: { a: '1.0.0' } })),
  notYet("a package's peers", 'peerDependencies', needsA, packA({ peerDependencies: { b: '1.0.0' } })),
  notYet('peers of which nothing but their flag is said', 'peerDependencies', needsA, packA({ peerDependenciesMeta: { b: { optional: true } } })),
  notYet('a peer under the own name', 'peerDependencies', needsA, packA({ peerDependencies: { a: '*' } })),
  notYet("the project's overrides", 'pnpm.overrides', project({ pnpm: { overrides: { b: '1.0.0' } } })),
  notYet("a package's overrides", 'pnpm.overrides', needsA, packA({ pnpm: { overrides: { '': '' } } })),
  notYet('a name and a version of 121 bytes', `${longName}@1.0.0`, needs({ [longName]: '^1.0.0' }), pack(longName)),
  notYet('such a name behind an alias', `${longName}@1.0.0`, needs({ b: `npm:${longName}` }), pack(longName)),
];

const marker = 'node_modules/.pnpm-rs';

const foreigners = [
  foreign('a file node_modules', { node_modules: 'a file' }),
  foreign('a link node_modules', { node_modules: { link: 'nowhere' } }),
  foreign('a link to an empty folder', { empty: null, node_modules: { link: 'empty' } }),
  foreign('a node_modules without a marker', { 'node_modules/a/index.js': '' }),
  foreign('a marker with another text', { [marker]: 'pnpm-rs 2\n' }),
  foreign('a marker with more behind it', { [marker]: 'pnpm-rs 1\n\n' }),
  foreign('a folder for a marker', { [marker]: null }),
  foreign('a link to a marker', { marker: 'pnpm-rs 1\n', [marker]: { link: '../marker' } }),
];

// The path of the project's folder has this length, where it says so.
const home = '/node_modules/.pnpm/a@1.0.0/node_modules/a/';
const longFile = 'f'.repeat(200);

const longText = Buffer.alloc(16777217, ' ');

const limits = [
  row('a manifest past 16,777,216 bytes', 11, 'limit: text 16777217', { project: { 'package.json': longText } }),
  row("a package's manifest past 16,777,216 bytes", 11, 'limit: text 16777217', {
    project: needsA,
    registry: { 'a/1.0.0/package.json': longText },
  }),
  row('a file past 268,435,456 bytes', 11, 'limit: file 268435457', {
    project: needsA,
    registry: packA(),
    large: ['a/1.0.0/large', 268435457],
  }),
  row('a path in the project past 4,096 bytes', 11, 'limit: path 4110', { project: {}, length: 4090, env: '.' }),
  row('a planned path past 4,096 bytes', 11, 'limit: path 4097', {
    project: needsA,
    registry: { ...packA(), [`a/1.0.0/${longFile}`]: '' },
    length: 4097 - home.length - longFile.length,
  }),
];

const pipe = (title, path) =>
  row(title, 22, 'registry fault', { project: needsA, registry: packA(), pipe: `pnpm-rs-registry/a/${path}` });

const faults = [
  row('a pipe for a manifest', 20, 'project fault', { project: {}, pipe: 'package.json' }),
  pipe('a pipe in a package', '1.0.0/pipe'),
  pipe('a pipe called by a version', '2.0.0'),
  pipe('a pipe for tags', 'tags.json'),
  row("a path of the registry's folder past 4,096 bytes", 22, 'registry fault', { project: {}, length: 4090 }),
];

// Where there are two causes, the one that is told.
const orders = [
  row('a manifest before a lockfile', 3, 'manifest: PROJECT/package.json: not JSON', {
    project: { 'package.json': '{', 'pnpm-lock.yaml': '' },
  }),
  badField('with peers and a bad field', { peerDependencies: { b: '*' }, bin: 1 }, 'bin'),
  notYet('peers before a lockfile', 'peerDependencies', { ...project({ peerDependencies: { b: '*' } }), 'pnpm-lock.yaml': '' }),
  notYet('overrides before peers', 'pnpm.overrides', needsA, packA({ peerDependencies: { b: '*' }, pnpm: { overrides: { b: '1' } } })),
  notYet('peers before a long name', 'peerDependencies', needs({ [longName]: '*' }), pack(longName, { peerDependencies: { b: '*' } })),
  notYet('a lockfile before packages', 'PROJECT/pnpm-lock.yaml', { ...needsA, 'pnpm-lock.yaml': '' }, {}),
  noVersion('packages before node_modules', '. needs a@1.0.0', { ...needsA, node_modules: 'a file' }, {}),
  foreign("node_modules before a package's files", { node_modules: 'a file' }, withFiles('node_modules/x')),
  noVersion('a first alias before a second one', '. needs a@^2.0.0', needs({ b: 'file:b', a: '^2.0.0' }), packA()),
  unsupported('the other way round', '. has a@file:a', needs({ b: '^2.0.0', a: 'file:a' }), packA()),
  notYet('an unbuilt kind before a missing version', 'catalog:', needs({ b: '^2.0.0', a: 'catalog:' })),
  noVersion('aliases of all maps in one order', '. needs a@^2.0.0', project({
    dependencies: { b: '^2.0.0' }, devDependencies: { a: '^2.0.0' }, optionalDependencies: { c: 'file:c' },
  }), packA()),
  row("a package's manifest before the next alias", 3, 'manifest: registry:/a/1.0.0/package.json: not JSON', {
    project: needs({ a: '*', b: 'file:b' }), registry: { 'a/1.0.0/package.json': '' },
  }),
  row('tags before versions', 3, 'manifest: registry:/a/tags.json: bad tags', { project: needsOf('^2.0.0'), registry: tags('a', '') }),
  noVersion("the project's dependencies before a package's", '. needs b@1.0.0', needs({ a: '1.0.0', b: '1.0.0' }), packA({
    dependencies: { c: 'file:c' },
  })),
  noVersion('a package that is met earlier before another one', 'z@1.0.0 needs y@*', needs({ a: 'npm:z', b: '*' }), {
    ...pack('z', { dependencies: { y: '*' } }), ...pack('b', { dependencies: { a: 'file:a' } }),
  }),
  notYet("a package's peers before the next alias", 'peerDependencies', needs({ a: '*', b: 'file:b' }), packA({ peerDependencies: { c: '*' } })),
  row('a package of a long name without a manifest', 3, `manifest: registry:/${longName}/1.0.0/package.json: missing`, {
    project: needs({ [longName]: '*' }), registry: { [`${longName}/1.0.0`]: null },
  }),
  row("a first package's large file before a second one's bundled file", 11, 'limit: file 268435457', {
    project: needs({ a: '*', b: '*' }),
    registry: { ...packA(), ...pack('b'), 'b/1.0.0/node_modules/k': '' },
    large: ['a/1.0.0/large', 268435457],
  }),
  row('a bundled file before a large one', 13, 'bundled: a@1.0.0 node_modules/k', {
    project: needsA, registry: withFiles('node_modules/k'), large: ['a/1.0.0/large', 268435457],
  }),
];

export const refusals = [
  usages, texts, inDependencies, inFlags, inFields, inOrder, packageManifests, badTagFiles, versions, kinds, bundledFiles, unbuilt,
  foreigners, limits, faults, orders,
].flat();
