// Compares `holds` with the semver library that npm carries, on pairs of a range and a version: generated ones, and the
// ranges of the manifests that npm carries. Pairs where this project's rules differ by design are counted by rule.
// Usage: node tools/check-ranges.mjs [PATH OF range_check]
import { readdirSync, readFileSync, statSync } from 'node:fs';
import { join } from 'node:path';
import { sequence } from './lib/generated.mjs';
import { carriedSemver, npmFolder } from './lib/npm.mjs';
import { part } from './lib/parts.mjs';
import { ask, built, named } from './lib/program.mjs';

const below = sequence(20240229);
const pick = (list) => list[below(list.length)];

const number = () => pick(['0', '0', '1', '1', '2', '3', '10']);
const xr = () => (below(8) === 0 ? pick(['x', 'X', '*']) : number());
const pre = () => pick(['-0', '-a', '-alpha.1', '-rc.2', '-1.2', '-a.b.c']);
const partial = () => {
  const parts = 1 + below(3);
  let text = xr();
  for (let i = 1; i < parts; i += 1) text += `.${xr()}`;
  if (parts === 3 && below(3) === 0) text += pre();
  if (parts === 3 && below(12) === 0) text += '+build.01';
  return text;
};
const lead = () => (below(12) === 0 ? pick(['v', '=', 'v=']) : '');
const sign = () => pick(['', '', '', '<', '>', '<=', '>=', '=', '~', '^', '^', '~>']);
const comparator = () => sign() + (below(8) === 0 ? ' ' : '') + lead() + partial();
const range = () => {
  const kind = below(10);
  if (kind === 0) return '';
  if (kind < 3) return `${partial()} - ${partial()}`;
  let text = comparator();
  for (let i = below(3); i > 0; i -= 1) text += ` ${comparator()}`;
  return text;
};
const set = () => {
  let text = range();
  for (let i = below(4) === 0 ? 1 + below(2) : 0; i > 0; i -= 1) text += pick(['||', ' || ']) + range();
  return text;
};
const version = () => `${number()}.${number()}.${number()}${below(3) === 0 ? pre() : ''}${below(15) === 0 ? '+b' : ''}`;

const GENERATED = 6000;
const generatedPairs = () => Array.from({ length: GENERATED }, () => [set(), version()]);

// Odd texts, most of which are refused.
const odd = ['01', '1.02.3', '>', '1.2.3-01', '1.2.3.4', '1-2', '>1<2', '1 -2', '1,2', 'latest', '>=1.2.3-', '1.2.3+', '||', ' || 1', '^',
  '~ 1.2', '> 1', '1.2.3 - ', '- 1', '18446744073709551615.0.0', '99999999999999999999', '1\u000b<2', '\u00a01', '1\f||2', 'v1', '=v1.2.3', '>=v1.2', '1.x.3-a', '*.1.2'];
const oddPairs = () => odd.flatMap((text) => Array.from({ length: 4 }, () => [text, version()]));

const manifestsIn = (folder, depth) =>
  readdirSync(folder).flatMap((name) => {
    const path = join(folder, name);
    if (name === 'package.json') return [path];
    return depth > 0 && statSync(path).isDirectory() ? manifestsIn(path, depth - 1) : [];
  });

const parsed = (path) => {
  try {
    return JSON.parse(readFileSync(path, 'utf8'));
  } catch {
    return {};
  }
};

const fields = ['dependencies', 'devDependencies', 'optionalDependencies', 'peerDependencies', 'engines'];

// The specifiers of the manifests that npm carries, once each: ranges, and those of other kinds, which have a `:`, or
// don't stand in a line.
const specifiersIn = (npm) => {
  const manifests = manifestsIn(npm, 6).map(parsed);
  const texts = manifests.flatMap((manifest) => fields.flatMap((field) => Object.values(manifest[field] ?? {})));
  const all = [...new Set(texts.filter((text) => typeof text === 'string'))];
  return { ranges: all.filter((text) => !/[:\n]/.test(text)), others: all.filter((text) => /[:\n]/.test(text)) };
};

// Versions near the numbers that a range has.
const nearPairs = (text) => {
  const numbers = (text.match(/\d+/g) ?? ['1']).map(Number).filter((n) => n < 2 ** 32);
  const near = () => numbers[below(numbers.length)] ?? 1;
  const one = () => `${near() + below(2)}.${below(2) === 0 ? near() : below(10)}.${below(10)}${below(4) === 0 ? pre() : ''}`;
  return Array.from({ length: 3 }, () => [text, one()]);
};

const theirs = (semver, [text, at]) => {
  try {
    return String(new semver.Range(text).test(new semver.SemVer(at)));
  } catch {
    return 'refused';
  }
};

// Where the rules differ by design: what is read here and refused there, or the other way round. A pair that both read
// has one answer.
const rules = [
  ['more than one leading `v` or `=`, read here alone', (r, here, there) => there === 'refused' && here !== 'refused' && /[v=][ \t]*=/.test(r)],
  ['numbers from 2^53 to 2^64 - 1, read here alone', (r, here, there) => there === 'refused' && here !== 'refused' && /\d{16,}/.test(r)],
  ['blanks other than space and tab, read there alone', (r, here, there) => here === 'refused' && there !== 'refused' && /[^\S \t]/.test(r)],
];

// Counts the pairs that are answered alike and those that differ by a rule, and answers a line for each other one.
const compare = (semver, pairs, ours) => {
  const alike = new Map(['true', 'false', 'refused'].map((answer) => [answer, 0]));
  const excused = new Map(rules.map(([name]) => [name, 0]));
  const rise = (counts, key) => counts.set(key, counts.get(key) + 1);
  const problems = [];
  pairs.forEach((pair, i) => {
    const there = theirs(semver, pair);
    const rule = rules.find(([, applies]) => applies(pair[0], ours[i], there));
    if (there === ours[i]) rise(alike, there);
    else if (rule !== undefined) rise(excused, rule[0]);
    else problems.push(`${JSON.stringify(pair[0])} ${pair[1]}: ${ours[i]} here, ${there} there`);
  });
  return { alike, excused, problems };
};

part('ranges', () => {
  const { semver, release } = carriedSemver();
  const { ranges, others } = specifiersIn(npmFolder());
  const pairs = [...generatedPairs(), ...oddPairs(), ...ranges.flatMap(nearPairs)];
  const ours = ask(named ?? built('range_check'), [], pairs.map(([text, at]) => `${text}\t${at}`));
  const { alike, excused, problems } = compare(semver, pairs, ours);
  for (const [answer, count] of alike) if (count === 0) problems.push(`no pair is answered ${answer} by both`);
  if (ranges.length === 0) problems.push('no manifest that npm carries has a range');
  for (const [name, count] of excused) console.log(`  by design: ${name}: ${count}`);
  const same = `${alike.get('true')} held, ${alike.get('false')} not held, ${alike.get('refused')} refused by both`;
  const what = `${pairs.length} pairs, ${ranges.length} ranges of npm's manifests (${others.length} other specifiers left out), semver ${release}: ${same}`;
  return { compared: pairs.length, what, problems };
});
