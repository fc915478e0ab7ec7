// What the trials of the state and of sheets share: workers as a browser has them, the page without a document, files, and
// choices of a sheet as the module takes them.
'use strict';
const fs = require('fs'), path = require('path'), zlib = require('zlib');
require('./read-files.cjs');
const COMMA = 44, SEMICOLON = 59;
// It stands for no column.
const NONE = 2 ** 32 - 1;
const load = (name) => import(path.join(__dirname, name));
let compiled, calendars, instances = 0;

/** Takes the module of the built page of this name. */
async function useModule(built) {
  const packed = /REGISTER_WASM = '([^']*)'/.exec(fs.readFileSync(built, 'utf8'))[1];
  compiled = new WebAssembly.Module(zlib.gunzipSync(Buffer.from(packed, 'base64')));
  calendars = (await load('calendars.mjs')).CALENDARS;
  return compiled;
}

// A worker as a browser has it: with a memory of its own, and deaf once it was ended. `all` has those that were started.
function workerMaker() {
  const all = [];
  const newWorker = () => {
    const worker = { isEnded: false, asked: [], onmessage: null, onerror: null };
    const port = { postMessage: (data) => setTimeout(() => worker.isEnded || worker.onmessage({ data })) };
    const served = load(`worker.mjs?${instances += 1}`).then(({ serve }) => serve(port));
    worker.postMessage = (data) => {
      worker.asked.push(data.task);
      served.then(() => setTimeout(() => worker.isEnded || port.onmessage({ data })));
    };
    worker.terminate = () => { worker.isEnded = true; };
    all.push(worker);
    return worker;
  };
  return { all, newWorker };
}

// Asks a worker's tasks one by one.
async function asker() {
  const { serve } = await load(`worker.mjs?${instances += 1}`);
  let take;
  const port = { postMessage: (reply) => take(reply) };
  serve(port);
  return (task, words) => new Promise((took) => {
    take = took;
    port.onmessage({ data: { number: 1, task, words: { compiled, ...words } } });
  });
}

const file = (text, name = 'a.csv') => new File([text], name);

// A file that says so many bytes, and has these texts at the first time it is read, at the second, and so on.
function changing(size, ...texts) {
  let times = 0;
  return { name: 'changing.csv', size, stream: () => new Blob([texts[Math.min(times++, texts.length - 1)]]).stream() };
}

// A file that is read so often, and the next time waits for `goOn`; then it has another text.
function waiting(times, text, other) {
  let goOn, left = times;
  const gone = new Promise((done) => { goOn = done; });
  const later = async (it) => {
    await gone;
    it.enqueue(new TextEncoder().encode(other));
    it.close();
  };
  const stream = () => {
    left -= 1;
    return left < 0 ? new ReadableStream({ start: later }) : new Blob([text]).stream();
  };
  return { name: 'waiting.csv', size: text.length, stream, goOn };
}

const broken = () => new ReadableStream({ pull: (it) => it.error(new Error('no')) });
const unreadable = { name: 'folder', size: 10, stream: broken };

// A choice of a sheet. Each column of dates is its place, the place of its calendars, and a calendar for all; without the
// second all have the third.
function choiceOf(dates, choices = {}) {
  const { delimiter, above, id, order, short, hebrew, other, charters, spans } = {
    delimiter: COMMA, above: 0, id: NONE, order: 'year', short: 0, hebrew: 0, other: 0, charters: 0, spans: 0, ...choices,
  };
  const triples = dates.flatMap(([date, column, all]) => [date, column ?? NONE, all ? calendars.indexOf(all) : 0]);
  return [delimiter, above, id, ['year', 'day', 'month'].indexOf(order), short, hebrew, other, charters, spans, ...triples];
}

// What a sheet is read from.
const source = (it, more = {}) =>
  ({ number: 1, file: it, encoding: 'utf-8', delimiter: COMMA, above: 0, kept: null, ...more });

// An archive of files, each packed; with what is said of it, which stands behind each file in the list at its end and behind
// that list, and with further fields of each file, which are others in that list.
function packed(files, { isLocked = false, method = 8, said = '', fields = [0, 0] } = {}) {
  const parts = [], list = [];
  let at = 0;
  for (const [name, text] of Object.entries(files)) {
    const own = Buffer.from(name), data = method === 8 ? zlib.deflateRawSync(Buffer.from(text)) : Buffer.from(text);
    const head = Buffer.alloc(26);
    head.writeUInt16LE(20, 0);
    head.writeUInt16LE(isLocked ? 1 : 0, 2);
    head.writeUInt16LE(method, 4);
    head.writeUInt32LE(data.length, 14);
    head.writeUInt32LE(Buffer.byteLength(text), 18);
    head.writeUInt16LE(own.length, 22);
    const entry = Buffer.alloc(14), [more, listed] = fields.map((length) => Buffer.alloc(length, 'f')), behind = Buffer.from(head);
    entry.writeUInt16LE(said.length, 0);
    entry.writeUInt32LE(at, 10);
    head.writeUInt16LE(more.length, 24);
    behind.writeUInt16LE(listed.length, 24);
    const local = Buffer.concat([Buffer.from('PK\x03\x04', 'latin1'), head, own, more, data]);
    list.push(Buffer.concat([Buffer.from('PK\x01\x02\x14\0', 'latin1'), behind, entry, own, listed, Buffer.from(said)]));
    parts.push(local);
    at += local.length;
  }
  const entries = Buffer.concat(list), last = Buffer.alloc(22);
  last.write('PK\x05\x06', 'latin1');
  last.writeUInt16LE(list.length, 10);
  last.writeUInt32LE(entries.length, 12);
  last.writeUInt32LE(at, 16);
  last.writeUInt16LE(said.length, 20);
  return Buffer.concat([...parts, entries, last, Buffer.from(said)]);
}

/** What a step changed of a state: the parts that are others then, as they are. */
const changed = (before, now) => Object.fromEntries(Object.keys({ ...before, ...now })
  .filter((name) => JSON.stringify(before[name]) !== JSON.stringify(now[name])).map((name) => [name, now[name]]));

// The lines of a text that was saved, without its mark.
const linesOf = async (blob) => (await blob.text()).replace(/^\ufeff/, '').split('\n').slice(0, -1);

// The page without a document.
async function page(processors = 4) {
  const { Page } = await load('state.mjs'), { all, newWorker } = workerMaker();
  const it = new Page({ newWorker, compiled: Promise.resolve(compiled), processors, now: () => 0, draw() {} });
  const until = async (what) => {
    for (let i = 0; i < 2000; i += 1) {
      if (what(it.state)) return true;
      await new Promise((done) => { setTimeout(done, 2); });
    }
    return false;
  };
  return { it, all, until, running: () => all.filter(({ isEnded }) => !isEnded).length };
}

module.exports = {
  COMMA, NONE, SEMICOLON, asker, changed, changing, choiceOf, file, linesOf, load, packed, page, source, unreadable,
  useModule, waiting, workerMaker,
};
