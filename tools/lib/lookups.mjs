// What names find from folders, for the checks: what the manifests say, what Node answers, and what find_check answers.
import { existsSync } from 'node:fs';
import { join } from 'node:path';
import { homeOf, inModules } from './packages.mjs';
import { ask, built, top } from './program.mjs';
import { entriesOf, put, temporary } from './trees.mjs';

const askNode = join(top, 'tools', 'lib', 'ask-node.mjs');

// The folder and the folders below it, those in its `node_modules` aside.
const foldersAt = (folder) => {
  if (!existsSync(folder)) return [];
  const below = [...entriesOf(folder)].filter(([path, entry]) => entry === 'folder' && !inModules(path));
  return [folder, ...below.map(([path]) => join(folder, path))];
};

const questionsAt = (folders, names, means) =>
  folders.flatMap((folder) => names.map((name) => ({ folder, name, means: means.get(name) ?? '-' })));

// The folders that aliases mean in an installed project; a later one of an alias goes before an earlier one.
const meant = (project, edges) => new Map(edges.map(([alias, to]) => [alias, join(project, homeOf(to))]));

// A package finds itself and its dependencies. Any other name is looked up above it, where the project's own
// dependencies are.
const packageQuestions = (project, names, direct, one) =>
  questionsAt(foldersAt(join(project, homeOf(one))), names, meant(project, [...direct, ...one.edges, [one.name, one]]));

// Each folder of a project and of each package that it reaches, with each name and what it has to find.
export const questionsOf = (project, { direct, packages }, names) => {
  const own = questionsAt(foldersAt(project), names, meant(project, direct));
  return [...own, ...packages.flatMap((one) => packageQuestions(project, names, direct, one))];
};

const linesOf = (questions) => questions.map(({ folder, name }) => `${folder}\t${name}`);

const byNode = (questions, words = []) => ask(process.execPath, [askNode, ...words], linesOf(questions), { HOME: '/' });

const compareAnswers = (who, questions, answers, wanted) =>
  questions.flatMap(({ folder, name }, i) =>
    answers[i] === wanted[i] ? [] : [`${who} finds ${answers[i]} by ${name} from ${folder}, not ${wanted[i]}`]);

// Where Node or find_check finds something else than the manifests say.
export const compareLookup = (questions, findCheck) => {
  const wanted = questions.map(({ means }) => means);
  const problems = compareAnswers('node', questions, byNode(questions), wanted);
  problems.push(...compareAnswers('find_check', questions, ask(findCheck, [], linesOf(questions)), wanted));
  if (!wanted.some((one) => one !== '-')) problems.push('no lookup has to find a package');
  return problems;
};

// Where `require` loads something else than the `index.js` of the package that is meant.
export const compareLoads = (questions) => {
  const wanted = questions.map(({ means }) => (means === '-' ? '-' : join(means, 'index.js')));
  return compareAnswers('require', questions, byNode(questions, ['--load']), wanted);
};

// A tree that no install makes: links to links, to files, to nowhere, to themselves, and out of the tree.
const oddTree = (top) => ({
  'a/node_modules/x/package.json': '{}',
  'a/node_modules/y': { link: '../../b/y' },
  'a/node_modules/z/inner': null,
  'a/node_modules/@s/t': { link: '../../../b/y/' },
  'a/node_modules/dot': { link: '.' },
  'a/node_modules/dots': { link: './/x/../x/.' },
  'a/node_modules/file': { link: 'x/package.json' },
  'a/node_modules/behind-file': { link: 'x/package.json/..' },
  'a/node_modules/gone': { link: '../nowhere' },
  'a/node_modules/loop': { link: 'loop' },
  'a/node_modules/ring': { link: 'ring-2' },
  'a/node_modules/ring-2': { link: 'ring' },
  'a/node_modules/root': { link: `${'../'.repeat(60)}` },
  'a/node_modules/node_modules/w': null,
  'a/node_modules/node_modules/x': null,
  'a/deep/node_modules/z': 'no folder',
  'a/deep/node_modules/y': null,
  'a/deep/node_modules/x': { link: 'z' },
  'b/y/deep/er': null,
  'b/node_modules/x': { link: join(top, 'a', 'node_modules', 'y') },
  'b/node_modules/chain-0': null,
  ...Object.fromEntries(Array.from({ length: 42 }, (_, i) => [`b/node_modules/chain-${i + 1}`, { link: `chain-${i}` }])),
});

const oddNames = ['x', 'y', 'z', 'w', '@s/t', '@s/u', 'dot', 'dots', 'file', 'behind-file', 'gone', 'loop', 'ring', 'root', 'er',
  'chain-1', 'chain-39', 'chain-40', 'chain-41', 'chain-42'];

// Where find_check finds something else than Node in the odd tree.
export const compareOdd = (findCheck) => {
  const folder = temporary();
  put(folder, oddTree(folder));
  const folders = [...entriesOf(folder)].filter(([, entry]) => entry === 'folder').map(([path]) => join(folder, path));
  const questions = questionsAt(folders, oddNames, new Map());
  const wanted = byNode(questions);
  const found = wanted.filter((one) => one !== '-').length;
  const problems = compareAnswers('find_check', questions, ask(findCheck, [], linesOf(questions)), wanted);
  return { compared: found, what: `${questions.length} lookups, ${found} of which find something`, problems };
};
