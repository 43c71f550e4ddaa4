// Runs the launcher in a small checkout of its own, with programs and a command rt that only say what was called: when it
// takes the shipped program, when it builds, and what it says where it can't.
// Usage: node tools/check-launcher.mjs
import { chmodSync, cpSync, existsSync, readFileSync, rmSync, symlinkSync, writeFileSync } from 'node:fs';
import { join } from 'node:path';
import { part, skip } from './lib/parts.mjs';
import { run, top } from './lib/program.mjs';
import { differences, entriesOf, put, temporary } from './lib/trees.mjs';

const SYSTEM = '/usr/bin:/bin';

const fakeRt = `#!/bin/sh
case $1 in
  version) cat "$FAKE/kit" ;;
  all)
    echo all >>"$FAKE/calls"
    sleep 0.3
    [ ! -e "$FAKE/fails" ] || { echo "a goal is open"; exit 1; } ;;
  run)
    echo run >>"$FAKE/calls"
    printf '#!/bin/sh\\necho built "$@"\\nexit 2\\n' >out/pnpm_rs
    chmod +x out/pnpm_rs
    exec out/pnpm_rs ;;
esac
`;

const sources = {
  'crates.txt': '# the base\nlow: semver\nother:\npnpm_rs: low\n',
  'crates/low/src/lib.rt': '//! low\n',
  'crates/low/specs/Low.antt': 'low\n',
  'crates/low/proofs/Low.antt': 'low\n',
  'crates/low/proofs/More.antt': 'more\n',
  'crates/other/src/lib.rt': '//! other\n',
  'crates/pnpm_rs/src/main.rt': '//! pnpm_rs\n',
};

const executable = (path, text) => {
  writeFileSync(path, text);
  chmodSync(path, 0o755);
};

// A checkout with a shipped program, and beside it a folder with a command rt.
const make = () => {
  const folder = temporary();
  const checkout = join(folder, 'checkout');
  put(checkout, { ...sources, dist: null });
  for (const name of ['pnpm-rs', 'tools']) cpSync(join(top, name), join(checkout, name), { recursive: true });
  executable(join(checkout, 'dist', 'pnpm-rs'), '#!/bin/sh\necho shipped "$@"\n');
  const sum = run(join(checkout, 'tools', 'sources.sh'), ['pnpm_rs']).out;
  put(checkout, { 'dist/made-of.txt': `kit: kit 1\npnpm_rs: ${sum}` });
  put(folder, { 'fake/kit': 'kit 1\n', 'fake/calls': '' });
  executable(join(folder, 'fake', 'rt'), fakeRt);
  symlinkSync(join(checkout, 'pnpm-rs'), join(folder, 'link'));
  return { folder, checkout, fake: join(folder, 'fake') };
};

const launch = ({ folder }, path, command = './link install') => {
  const { status, out, err } = run('/bin/sh', ['-c', command], { cwd: folder, env: { PATH: path, FAKE: join(folder, 'fake') } });
  return { status, out: out.trim(), err };
};

const withRt = ({ fake }) => `${fake}:${process.env.PATH}`;

const callsOf = ({ fake }) => readFileSync(join(fake, 'calls'), 'utf8').split('\n').filter((line) => line !== '').join(' ');

const counted = (checks) => ({
  compared: checks.length,
  what: `${checks.length} runs`,
  problems: checks.flatMap(({ title, wanted, found }) => (wanted === found ? [] : [`${title}: ${JSON.stringify(found)}, not ${JSON.stringify(wanted)}`])),
});

// Skips where this machine can't run the shipped programs, or has rt among the commands of the system.
const needsShipped = () => {
  const programs = join(top, 'tools', 'lib', 'programs.sh');
  if (run('/bin/sh', ['-c', `top=; . '${programs}'; can_run_shipped`]).status !== 0) skip("this machine can't run the shipped programs");
  if (SYSTEM.split(':').some((folder) => existsSync(join(folder, 'rt')))) skip('rt stands among the commands of the system');
};

// What the launcher says, or the status and whether it names the kit.
const told = ({ status, out, err }) => (status === 0 ? out : `${status} ${out} ${err.includes('kit 1')}`);

const changes = [
  ['nothing', () => {}, true],
  ['a crate that is not below', (at) => put(at, { 'crates/other/src/lib.rt': '//! changed\n' }), true],
  ['a wrong body', (at) => put(at, { 'crates/low/must-fail/a.edit': 'file: src/lib.rt\n' }), true],
  ['a source', (at) => put(at, { 'crates/low/src/lib.rt': '//! changed\n' }), false],
  ['a definition', (at) => put(at, { 'crates/low/specs/Low.antt': 'changed\n' }), false],
  ['a new proof', (at) => put(at, { 'crates/low/proofs/New.antt': '' }), false],
  ['a proof that is gone', (at) => rmSync(join(at, 'crates/low/proofs/More.antt')), false],
  ['what a crate stands on', (at) => put(at, { 'crates.txt': sources['crates.txt'].replace('semver', 'semver sha2') }), false],
  ['the program', (at) => put(at, { 'crates/pnpm_rs/src/main.rt': '' }), false],
];

// Without rt: the shipped program runs where no source of it has changed, and nothing is written into the checkout.
part('the launcher without the kit', () => {
  needsShipped();
  return counted(changes.flatMap(([title, change, isShipped]) => {
    const made = make();
    change(made.checkout);
    const before = entriesOf(made.checkout);
    const found = told(launch(made, SYSTEM));
    const written = differences(before, entriesOf(made.checkout)).join('; ');
    return [
      { title, found, wanted: isShipped ? 'shipped install' : '127  true' },
      { title: `written after ${title}`, found: written, wanted: '' },
    ];
  }));
});

const changeSource = ({ checkout }) => put(checkout, { 'crates/low/src/lib.rt': '//! changed\n' });

// With rt: what is built is kept until a source or the kit changes, is built once for two callers, and is gone where the
// build fails.
part('the launcher with a kit', () => {
  const made = make();
  const checks = [];
  const step = (title, wanted, command) => {
    const { status, out } = launch(made, withRt(made), command);
    checks.push({ title, found: `${status} ${out}: ${callsOf(made)}`, wanted });
    put(made.folder, { 'fake/calls': '' });
  };
  changeSource(made);
  step('a changed source', '2 built install: all run');
  step('once more', '2 built install: ');
  rmSync(join(made.checkout, 'crates/low/proofs/More.antt'));
  step('a proof that is gone', '2 built install: all run');
  put(made.folder, { 'fake/kit': 'kit 2\n' });
  step('another kit', '2 built install: all run');
  put(made.checkout, { 'crates/low/src/lib.rt': '//! changed again\n' });
  step('two callers', '0 built a\nbuilt a: all run', '(./link a & ./link a & wait)');
  put(made.checkout, { 'crates/low/src/lib.rt': '//! open\n' });
  put(made.folder, { 'fake/fails': '' });
  step('a goal that is open', '127 : all');
  const program = join(made.checkout, 'crates', 'pnpm_rs', 'out', 'pnpm_rs');
  checks.push({ title: 'after a build that failed', found: existsSync(program), wanted: false });
  return counted(checks);
});
