// Installs projects, compares the trees with what the manifests and the registry say, and compares what Node's own lookup
// finds in them with what each package declared: the demos, generated projects, and a project of the packages that npm
// carries, by the ranges of npm's own manifests.
// Usage: node tools/check-with-node.mjs [PROGRAM]
import { cpSync, readFileSync, symlinkSync } from 'node:fs';
import { basename, join } from 'node:path';
import { makeCarried } from './lib/carried.mjs';
import { choicesIn } from './lib/choices.mjs';
import { generate } from './lib/generated.mjs';
import { compareLoads, compareLookup, compareOdd, questionsOf } from './lib/lookups.mjs';
import { carriedSemver } from './lib/npm.mjs';
import { installedTree, namesIn } from './lib/packages.mjs';
import { part } from './lib/parts.mjs';
import { built, program, report, run, top } from './lib/program.mjs';
import { differences, entriesOf, put, temporary } from './lib/trees.mjs';

// Installs the project once, and compares the report, the tree, and what else the project's folder has.
const installOnce = (project, env, wanted, wantedOut) => {
  const { status, out, err } = run(program, ['install'], { cwd: project, env });
  const problems = differences(wanted, entriesOf(project));
  if (status !== 0) problems.push(`status ${status}, not 0`);
  if (out !== wantedOut) problems.push(`the report is ${JSON.stringify(out)}, not ${JSON.stringify(wantedOut)}`);
  if (err !== '') problems.push(`standard error has ${JSON.stringify(err)}`);
  return problems;
};

// Installs the project twice, and compares what each install prints and leaves.
const install = (project, registry, env) => {
  const reached = choicesIn(carriedSemver().semver, registry).reached(project);
  const wanted = new Map([...entriesOf(project), ...installedTree(reached)]);
  const wantedOut = report(reached.packages);
  const problems = [1, 2].flatMap(() => installOnce(project, env, wanted, wantedOut));
  return { reached, problems };
};

// What a part answers: it has compared each package and each lookup.
const ended = (packages, questions, problems) => ({
  compared: Math.min(packages.length, questions.length),
  what: `${packages.length} packages, ${questions.length} lookups`,
  problems,
});

// Names that no package of the checks has.
const strange = ['left-pad', '@hello/nothing', '@nobody/here', 'pnpm-rs-registry', 'languages', 'data', 'hello'];

// Runs a demo, and compares what it prints.
const compareOutput = (project) => {
  const wanted = readFileSync(join(project, 'expected-output.txt'), 'utf8');
  const { status, out, err } = run(process.execPath, ['app.js'], { cwd: project });
  if (status === 0 && out === wanted) return [];
  return [`app.js ended with ${status} and printed ${JSON.stringify(out + err)}, not ${JSON.stringify(wanted)}`];
};

// A demo, where a package has besides what is no file of it: a link, an empty folder, a path with a line feed.
const copyDemo = (name, odd, project) => {
  const passed = (path) => basename(path) !== 'node_modules';
  cpSync(join(top, 'examples', name), project, { recursive: true, filter: passed });
  const folder = join(project, 'pnpm-rs-registry', odd);
  symlinkSync('index.js', join(folder, 'link.js'));
  put(folder, { empty: null, 'two\nlines.js': '' });
};

const checkDemo = (name, odd, findCheck) => {
  const project = join(temporary(), name);
  copyDemo(name, odd, project);
  const registry = join(project, 'pnpm-rs-registry');
  const { reached, problems } = install(project, registry, {});
  const aliases = reached.direct.map(([alias]) => alias);
  const questions = questionsOf(project, reached, [...new Set([...namesIn(registry), ...aliases, ...strange])]);
  problems.push(...compareLookup(questions, findCheck), ...compareLoads(questions), ...compareOutput(project));
  return ended(reached.packages, questions, problems);
};

const GENERATED = 20;

// Generated projects, whose lookups are asked together.
const checkGenerated = (findCheck) => {
  const seeds = Array.from({ length: GENERATED }, (_, i) => i + 1);
  const all = seeds.map(checkSeed);
  const questions = all.flatMap((one) => one.questions);
  const problems = [...all.flatMap((one) => one.problems), ...compareLookup(questions, findCheck)];
  return ended(all.flatMap(({ packages }) => packages), questions, problems);
};

const checkSeed = (seed) => {
  const folder = temporary();
  const [project, registry] = [join(folder, 'project'), join(folder, 'registry')];
  const names = generate(seed, project, registry);
  const { reached, problems } = install(project, registry, { PNPM_RS_REGISTRY: registry });
  const questions = questionsOf(project, reached, [...names, ...strange]);
  return { packages: reached.packages, questions, problems: problems.map((line) => `generated project ${seed}: ${line}`) };
};

const checkCarried = (findCheck) => {
  const folder = temporary();
  const [project, registry] = [join(folder, 'project'), join(folder, 'registry')];
  const { names, aliases, problems } = makeCarried(project, registry);
  const { reached, problems: more } = install(project, registry, { PNPM_RS_REGISTRY: registry });
  const own = questionsOf(project, { ...reached, packages: [] }, aliases);
  const questions = [...own, ...questionsOf(project, reached, [...names, ...strange])];
  return ended(reached.packages, questions, [...problems, ...more, ...compareLookup(questions, findCheck)]);
};

part('the demo', () => checkDemo('hello', 'capital/1.0.0', built('find_check')));
part('the demo of ranges', () => checkDemo('ranges', 'tea/1.1.0', built('find_check')));
part(`${GENERATED} generated projects`, () => checkGenerated(built('find_check')));
part("npm's packages", () => checkCarried(built('find_check')));
part('an odd tree', () => compareOdd(built('find_check')));
