// The cases of check-refusals with a workspace file: what it says, and how the run ends.
import { needsA, packA, row } from './cases.mjs';

const path = 'PROJECT/pnpm-workspace.yaml';

const withFile = (text, code, answer) =>
  row(`a workspace file ${JSON.stringify(text)}`, code, answer, { project: { ...needsA, 'pnpm-workspace.yaml': text }, registry: packA() });

const bad = (why, texts) => texts.map((text) => withFile(text, 3, `manifest: ${path}: ${why}`));

const badKey = (key, ...values) => bad(`bad key ${key}`, values.map((value) => `${key}: ${value}\n`));

const notYet = (what, texts) => texts.map((text) => withFile(text, 30, `not yet: ${what}`));

const done = (texts) => texts.map((text) => withFile(text, 0, ''));

const lines = [
  bad('line 1: key', ['x\n', 'x', "'a' : 1\n"]),
  bad('line 2: tab', ['x:\n\ty: 1\n']),
  bad('line 2: key twice', ['hoist: true\n"hoist": true\n']),
  bad('line 1: left out', ['a: &x 1\n', 'a: *x\n', 'a: !t x\n']),
  bad('line 2: indentation', ['a: 1\n  b: 2\n']),
  bad('line 1: quote', ["a: 'b\n"]),
  bad('line 1: escape', ['a: "\\q"\n']),
  bad('line 1: flow', ['a: [b\n']),
  bad('not UTF-8', [Buffer.from([0x61, 0x3a, 0x20, 0xff])]),
  bad('too deep', [`a: ${'['.repeat(70)}${']'.repeat(70)}\n`]),
  bad('bad key ', ['[]\n', '- a\n']),
];

const settings = [
  badKey('nodeLinker', 'hoisted', '""', '[isolated]'),
  badKey('packages', "['a[b]']", 'a', '{}', '"{a"'),
  badKey('catalog', 'x', "{a: 'workspace:*'}", '{_a: 1}'),
  badKey('catalogs', '{x: 1}', "{x: {a: 'file:b'}}"),
  badKey('overrides', '[a]', '{a: [1]}', ''),
  badKey('autoInstallPeers', 'yes', '"true"', 'True'),
  badKey('strictPeerDependencies', '1'),
  badKey('resolvePeersFromWorkspaceRoot', '~'),
  badKey('hoist', '[]'),
  badKey('hoistPattern', '"*"', "['{a,b}']"),
  badKey('publicHoistPattern', "['(a)']"),
  badKey('shamefullyHoist', 'on'),
  badKey('virtualStoreDir', '""', '[v]', '.', '..', '/', 'b/node_modules', 'node_modules/x', 'pnpm-lock.yaml', 'pnpm-lock.yaml.pnpm-rs/a'),
  badKey('lockfile', 'false'),
  badKey('modulesDir', 'vendor'),
  bad('bad key hoist', ['x: 1\nhoist: 1\nlockfile: false\n']),
  bad('bad key catalogs', ['catalog: {}\ncatalogs: {default: {}}\n']),
];

const unbuilt = [
  notYet('packages', ['packages: [a]\n', "packages:\n  - '!a'\ncatalog: {a: ^1}\n"]),
  notYet('catalogs', ['catalog: {a: ^1}\n', 'catalogs: {x: {a: ^1}}\noverrides: {a: 1}\n']),
  notYet('overrides', ["overrides: {a: '-'}\n"]),
  notYet('virtualStoreDir', ['virtualStoreDir: v\n', 'virtualStoreDir: ../v\n']),
];

const taken = done([
  '', '# nothing\n', '---\n', 'packages: []\ncatalog: {}\ncatalogs: {}\noverrides: {}\n',
  'hoist: false\nshamefullyHoist: true\nstrictPeerDependencies: true\nautoInstallPeers: false\nresolvePeersFromWorkspaceRoot: false\n',
  'virtualStoreDir: ./x//../node_modules/.pnpm/\n', 'nodeLinker: "isolated"\nlockfile: true\n', 'onlyBuiltDependencies: [x]\nany: {thing: [1, 2]}\n',
  "hoistPattern: ['*eslint*', '!x']\npublicHoistPattern: []\n",
]);

const orders = [
  row('a wrong setting before a wrong manifest', 3, `manifest: ${path}: bad key hoist`, { project: { 'package.json': '{', 'pnpm-workspace.yaml': 'hoist: 1\n' } }),
  row('an unbuilt setting before a wrong manifest', 30, 'not yet: packages', { project: { 'package.json': '{', 'pnpm-workspace.yaml': 'packages: [a]\n' } }),
  row('a wrong manifest before the virtual store', 3, 'manifest: PROJECT/package.json: not JSON', { project: { 'package.json': '{', 'pnpm-workspace.yaml': 'virtualStoreDir: ..\n' } }),
  row('the virtual store before a lockfile', 30, 'not yet: virtualStoreDir', { project: { ...needsA, 'pnpm-workspace.yaml': 'virtualStoreDir: v\n', 'pnpm-lock.yaml': '' } }),
  row('a wrong line before a wrong key', 3, `manifest: ${path}: line 2: key`, { project: { ...needsA, 'pnpm-workspace.yaml': 'hoist: 1\nx\n' } }),
  row('a workspace file past 16,777,216 bytes', 11, 'limit: text 16777217', { project: { ...needsA, 'pnpm-workspace.yaml': Buffer.alloc(16777217, ' ') } }),
  row('a virtual store whose path is too long', 11, 'limit: path 4097', { project: { ...needsA, 'pnpm-workspace.yaml': `virtualStoreDir: ${'v/'.repeat(2050)}\n` }, registry: packA() }),
  row('a folder called pnpm-workspace.yaml', 0, '', { project: { ...needsA, 'pnpm-workspace.yaml': null }, registry: packA() }),
];

export const workspaces = [lines, settings, unbuilt, taken, orders].flat(2);
