// What tells of the tests of node:test, of which a test inside another one is a check: what fails, and at the end
// "N passed, M failed". A test that has checks counts where it fails by itself.
'use strict';

// A check says how its values differ; any other fault, where it came from.
function told(what, fault) {
  const why = fault.code === 'ERR_ASSERTION' ? fault.message : String(fault.stack || fault);
  return `FAILED: ${what}\n${why.replace(/^/gm, '  ')}\n`;
}

// Counts one event, and returns what is told of it.
function count(counts, { type, data }) {
  if (type === 'test:stderr' || type === 'test:stdout') return data.message;
  const isCheck = data.nesting > 0, fault = type === 'test:fail' ? data.details.error : null;
  if (type === 'test:pass' && isCheck) counts.passed += 1;
  if (fault === null || (!isCheck && fault.failureType === 'subtestsFailed')) return '';
  counts.failed += 1;
  return told(data.name, fault.cause instanceof Error ? fault.cause : fault);
}

async function* tell(events) {
  const counts = { passed: 0, failed: 0 };
  for await (const event of events) {
    const words = count(counts, event);
    if (words) yield words;
  }
  yield `${counts.passed} passed, ${counts.failed} failed\n`;
}

// Of two checks one fails and one passes; a part counts where it fails by itself, and not by what is in it.
function triesItself() {
  const counts = { passed: 0, failed: 0 }, passes = (name, nesting) => ({ type: 'test:pass', data: { name, nesting } });
  const fails = (name, nesting, failureType) =>
    ({ type: 'test:fail', data: { name, nesting, details: { error: Object.assign(new Error('no'), { failureType }) } } });
  const events = [fails('one', 1), passes('two', 1), fails('part', 0, 'subtestsFailed'), passes('part', 0), fails('fault', 0)];
  const said = events.map((event) => count(counts, event).split('\n')[0]).join();
  return said === 'FAILED: one,,,,FAILED: fault' && counts.passed === 1 && counts.failed === 2;
}

module.exports = Object.assign(tell, { told, triesItself });
