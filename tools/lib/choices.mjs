// Which versions specifiers choose in a registry, and which packages a project reaches by them. It is written from
// docs/FORMATS.md alone, over the semver library that it is given, and is slow and plain.
import { existsSync, lstatSync, readFileSync, readdirSync } from 'node:fs';
import { join } from 'node:path';
import { isName, isVersion, readManifest } from './packages.mjs';

const remembered = (answer) => {
  const known = new Map();
  return (key, ...more) => {
    if (!known.has(key)) known.set(key, answer(key, ...more));
    return known.get(key);
  };
};

const foldersIn = (folder) => {
  const entries = existsSync(folder) ? readdirSync(folder, { withFileTypes: true }) : [];
  return entries.filter((entry) => entry.isDirectory()).map(({ name }) => name);
};

const tagsIn = (folder) => {
  const path = join(folder, 'tags.json');
  const isThere = lstatSync(path, { throwIfNoEntry: false })?.isFile() ?? false;
  return new Map(isThere ? Object.entries(JSON.parse(readFileSync(path, 'utf8'))) : []);
};

const inOrder = (semver) => (a, b) => semver.compare(a, b) || (a < b ? -1 : 1);

// The published versions of a name, rising; its tags; and which of the versions is the latest.
const publishedIn = (semver, folder) => {
  const versions = foldersIn(folder).filter(isVersion).sort(inOrder(semver));
  const tags = tagsIn(folder);
  const released = versions.filter((version) => semver.prerelease(version) === null);
  const latest = [tags.get('latest'), released.at(-1), versions.at(-1)].find((version) => versions.includes(version));
  return { versions, tags, latest };
};

const isRange = (semver, text) => semver.validRange(text) !== null;

const greatest = (semver, { versions, latest }, range) => {
  const fitting = versions.filter((version) => semver.satisfies(version, range));
  return fitting.includes(latest) ? latest : fitting.at(-1);
};

const tagged = ({ versions, tags, latest }, tag) => {
  if (tag === 'latest') return latest;
  return versions.find((version) => version === tags.get(tag));
};

// The package name that a specifier asks for, and the range or tag of it.
const wanted = (alias, specifier) => {
  const text = specifier.replace(/^[ \t]+|[ \t]+$/g, '');
  if (!text.startsWith('npm:')) return [alias, text];
  const rest = text.slice(4);
  if (isName(rest)) return [rest, '*'];
  const at = rest.lastIndexOf('@');
  return [rest.slice(0, at), rest.slice(at + 1)];
};

// The aliases of a manifest with their specifiers, each kept in one map, but one under the manifest's own name.
const wishes = (manifest, fields) => {
  const all = fields.flatMap((field) => {
    const optional = field === 'optionalDependencies';
    return Object.entries(manifest[field] ?? {}).map(([alias, specifier]) => [alias, { specifier, optional }]);
  });
  const kept = new Map(all);
  kept.delete(manifest.name);
  return [...kept];
};

const ofPackage = ['dependencies', 'optionalDependencies'];
const ofProject = ['devDependencies', ...ofPackage];

// What a registry answers: the version that a specifier chooses, and what a project reaches.
export const choicesIn = (semver, registry) => {
  const published = remembered((name) => publishedIn(semver, join(registry, name)));

  // The package that a specifier chooses under an alias; undefined where there is none.
  const target = (alias, specifier) => {
    const [name, want] = wanted(alias, specifier);
    const list = published(name);
    const version = isRange(semver, want) ? greatest(semver, list, want) : tagged(list, want);
    return version === undefined ? undefined : { name, version };
  };

  // Pairs of an alias and the package that it means.
  const edgesOf = (from, manifest, fields) =>
    wishes(manifest, fields).flatMap(([alias, { specifier, optional }]) => {
      const to = target(alias, specifier);
      if (to === undefined && !optional) throw new Error(`no version: ${from} needs ${alias}@${specifier}`);
      return to === undefined ? [] : [[alias, to]];
    });

  const packageOf = remembered((id, { name, version }) => {
    const folder = join(registry, name, version);
    const manifest = readManifest(folder);
    return { name, version, folder, manifest, edges: edgesOf(id, manifest, ofPackage) };
  });

  // The packages that edges lead to, and those further on.
  const closure = (direct) => {
    const found = new Map();
    const waiting = direct.map(([, to]) => to);
    while (waiting.length > 0) {
      const to = waiting.pop();
      const id = `${to.name}@${to.version}`;
      if (found.has(id)) continue;
      found.set(id, packageOf(id, to));
      waiting.push(...found.get(id).edges.map(([, further]) => further));
    }
    return [...found.values()];
  };

  const reached = (project) => {
    const direct = edgesOf('.', readManifest(project), ofProject);
    return { direct, packages: closure(direct) };
  };

  return { published, target, closure, reached };
};
