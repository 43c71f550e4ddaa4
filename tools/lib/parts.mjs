// The parts of a check. Each ends with a line `passed: ..`, `failed: ..` or `skipped: ..`, which tools/test.sh counts.

class Skipped extends Error {}

// Ends the part that runs: something that it needs is missing on this machine.
export const skip = (why) => {
  throw new Skipped(why);
};

const MOST = 50;

const failed = (title, told, problems) => {
  for (const line of problems.slice(0, MOST)) console.log(`  differs: ${line}`);
  console.log(`failed: ${title}: ${told}`);
  process.exitCode = 1;
};

const ended = (title, { compared, what, problems }) => {
  if (problems.length > 0) failed(title, `${problems.length} differences`, problems);
  else if (compared === 0) failed(title, 'nothing was compared', []);
  else console.log(`passed: ${title}: ${what}`);
};

// Runs a part, which answers how many things it compared, what these are, and a line for each difference.
export const part = (title, run) => {
  try {
    ended(title, run());
  } catch (e) {
    if (e instanceof Skipped) console.log(`skipped: ${title}: ${e.message}`);
    else failed(title, e.message, []);
  }
};
