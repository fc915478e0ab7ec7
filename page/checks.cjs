// What the trials in Node share. They stand on node:test: each part of a trial is a test of its name, and each value that
// it compares is a test inside it, which page/counts.cjs counts and tells. --only NAME runs one part. With --until WHAT
// the parts that have a check of this name go first, and the trial ends where one fails: page/try-edits asks no more.
'use strict';
const assert = require('node:assert/strict'), fs = require('node:fs'), path = require('node:path');
const { test } = require('node:test');
const { spawnSync } = require('node:child_process');
const { told, triesItself } = require('./counts.cjs');
require('./read-files.cjs');

const optionOf = (name) => (process.argv.includes(name) ? process.argv[process.argv.indexOf(name) + 1] : null);
const only = optionOf('--only'), until = optionOf('--until');
// What a part has compared: the names, each with how the values differ, or null.
let compared = [];

// A value as it is compared, to be shown.
function plain(it) {
  if (Buffer.isBuffer(it)) return it.toString();
  return it === undefined ? it : JSON.parse(JSON.stringify(it) ?? 'null');
}

// How two values differ, or null.
function difference(wanted, came) {
  const is = Buffer.isBuffer(wanted) ? wanted.equals(came) : JSON.stringify(wanted) === JSON.stringify(came);
  if (is) return null;
  const [expected, actual] = [wanted, came].map(plain);
  return new assert.AssertionError({ actual, expected, operator: 'deepStrictEqual' });
}

// Writes for check/named what is compared, and the lines that led there, where PLACES names a file.
function note(what) {
  const { PLACES } = process.env, nameOf = (file) => path.relative(path.dirname(__dirname), file);
  if (!PLACES) return;
  Error.stackTraceLimit = 60;
  const frames = new Error().stack.matchAll(/(?:\(| )(\/[^():]+):(\d+):\d+\)?$/gm);
  const lines = [...frames].filter(([, file]) => /\/(try-\w+|check\/[^/]+)$/.test(file)).map(([, file, line]) => `${nameOf(file)}:${line}`);
  fs.appendFileSync(PLACES, `${[nameOf(process.argv[1]), lines.join(' '), what.split('\n')[0]].join('\t')}\n`);
}

function endAt(what, fault) {
  console.log(told(what, fault));
  process.exit(1);
}

function check(what, wanted, came) {
  const fault = difference(wanted, came);
  note(what);
  compared.push([what, fault]);
  if (fault !== null && until !== null && what.startsWith(until)) endAt(what, fault);
  return fault === null;
}

// Runs a part as a test, and what it has compared as tests inside it. Returns whether it came to its end.
async function tryPart(name, part) {
  let fault = null;
  await test(name, async (it) => {
    fault = await Promise.resolve().then(part).then(() => null, (other) => other);
    const own = compared;
    compared = [];
    if (fault && until !== null && name.startsWith(until)) endAt(name, fault);
    for (const [what, differs] of own) await it.test(what, () => { if (differs) throw differs; });
    if (fault) throw fault;
  });
  return fault === null;
}

/** Tries parts one behind the other, by their functions or as entries. With `inOrder` a part needs those before it. */
async function tryAll(parts, { inOrder = false } = {}) {
  const all = Object.values(parts), names = all.map(({ name }) => name), place = names.indexOf(only);
  if (only !== null && place < 0) throw new Error(`no part is called ${only}; there are ${names.join(' ')}`);
  const chosen = only === null ? all : all.slice(inOrder ? 0 : place, place + 1);
  const has = (part) => until !== null && !inOrder && String(part).includes(until);
  for (const part of [...chosen.filter(has), ...chosen.filter((it) => !has(it))]) {
    if (!await tryPart(part.name, part) && inOrder) return;
  }
}

/** What was compared in no part is a test of the trial's name. */
function end() {
  if (compared.length > 0) tryPart(path.basename(process.argv[1]), () => {});
}

// What differs is told, and what is the same passes; and so it is counted.
if (difference([1], [2]) === null || difference([1], [1]) !== null || !triesItself()) {
  console.log('FAILED: the comparison of values\n0 passed, 1 failed');
  process.exit(1);
}
// Node takes the name of who tells on its command line alone.
if (!process.execArgv.some((it) => it.startsWith('--test-reporter'))) {
  const words = [`--test-reporter=${path.join(__dirname, 'counts.cjs')}`, ...process.argv.slice(1)];
  const env = { ...process.env, STARTED_BY: String(process.pid) };
  process.exit(spawnSync(process.execPath, words, { stdio: 'inherit', env }).status ?? 1);
}
// A trial ends with what started it, as where that took too long.
const startedBy = Number(process.env.STARTED_BY) || process.ppid;
setInterval(() => process.ppid === startedBy || process.exit(1), 1000).unref();

module.exports = { check, end, tryAll };
