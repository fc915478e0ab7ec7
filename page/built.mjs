// What the built page has in place of unbuilt.mjs. page/build-page puts the module and the lists here.

/**
 * What the program register_facts prints of the product, as far as the page needs it.
 * @typedef {{ number: number, sentence: string }} Sentence
 * @typedef {{ calendars: { name: string, grammar: string }[], targets: { default: string[], all: string[] },
 *   sealed: { header: string[], columns: string[] }, refusals: Sentence[], causes: Sentence[],
 *   limits: { id: number, calendar: number, date: number, note: number, records: number } }} Facts
 */

/** @type {Facts} */
export const FACTS = JSON.parse('{facts}');

// The list of names by what they mean: of each part the first is the meaning and the calendars, and the others are
// names.
const PARTS = '{names}'.split('|').map((part) => part.split(';'));
const LINES = PARTS.flatMap(([means, ...names]) => names.map((name) => `${name},${means}\n`));

export const NAMES = `name,means,in\n${LINES.join('')}`;

const REGISTER_WASM = '{module}';

export const packedModule = async () => REGISTER_WASM;

// The script of the page, which is its workers' too. These are sent the module, so that it is left out.
const SCRIPT = 'document' in globalThis ? document.currentScript.textContent.replace(REGISTER_WASM, '') : '';

// A worker of its own file could not be started from a page that is a file on a disk.
export function newWorker() {
  const url = URL.createObjectURL(new Blob([SCRIPT], { type: 'text/javascript' }));
  const worker = new Worker(url);
  URL.revokeObjectURL(url);
  return worker;
}
