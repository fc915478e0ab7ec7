// What the parts of the view share: elements with words in them, tables, links that save, files that are dropped.

import { WORDS } from './language.mjs';

/**
 * Words: a text, a text of the user's own, or a list of such.
 * @typedef {string | { own: string } | any[]} Words
 */

/**
 * The same words as one text.
 * @param {Words} words
 */
export function textOf(words) {
  return [words].flat(Infinity).map((part) => (typeof part === 'string' ? part : part.own)).join('');
}

/** @returns {any} */
export const byId = (id) => document.getElementById(id);

/** Puts words into an element: what stands between two ` is code, but in a text of the user's own. */
export function setText(element, words) {
  element.replaceChildren(...[words].flat(Infinity).flatMap((part) => {
    if (typeof part !== 'string') return [part.own];
    return part.split('`').map((piece, i) => {
      if (i % 2 === 0) return piece;
      const code = document.createElement('code');
      code.textContent = piece;
      return code;
    });
  }));
  return element;
}

/** Puts the words of now into all elements that name them. */
export function putWords() {
  for (const it of document.querySelectorAll('[data-words]')) {
    setText(it, WORDS[/** @type {HTMLElement} */ (it).dataset.words]);
  }
  for (const it of document.querySelectorAll('[data-label]')) {
    it.setAttribute('aria-label', WORDS[/** @type {HTMLElement} */ (it).dataset.label]);
  }
}

/**
 * A new element with words in it, and other elements behind them. What is for those who hear the page are attributes.
 * @param {Words} words
 * @param {Record<string, any>} properties
 * @returns {any}
 */
export function element(name, words = '', properties = {}, ...children) {
  const made = setText(document.createElement(name), words);
  for (const [key, value] of Object.entries(properties)) {
    if (/^(role$|aria-)/.test(key)) made.setAttribute(key, String(value));
    else made[key] = value;
  }
  made.append(...children);
  return made;
}

/** A button; that it was pressed is told to `take`. */
export function button(words, className, properties, take = () => {}) {
  const made = element('button', words, { type: 'button', className, ...properties });
  made.addEventListener('click', take);
  return made;
}

/** A list of options. */
export const select = (id, options) => element('select', '', { id, autocomplete: 'off' }, ...options);

/** A box that can be moved sideways, called by these words. */
export const region = (className, words, ...children) =>
  element('div', '', { className, tabIndex: 0, role: 'region', 'aria-label': textOf(words) }, ...children);

/** A table with its caption, a line of heads and lines of a body. */
export const tableOf = (className, caption, heads, lines) =>
  element('table', '', className ? { className } : {}, element('caption', caption),
    element('thead', '', {}, element('tr', '', {}, ...heads)), element('tbody', '', {}, ...lines));

/** A new element with a text of the user's own. */
export const textElement = (name, text, properties = {}) => element(name, { own: text }, properties);

/** An option of a list. */
export const option = (words, value) => textElement('option', textOf(words), { value });

/** Draws a value by `draw`, if it is another than the one before; where `keyOf` is given, if that is another. */
export function whenChanged(draw, keyOf = (value) => value) {
  let before;
  return (value) => {
    if (keyOf(value) === before) return;
    before = keyOf(value);
    draw(value);
  };
}

/** Puts words into the element of this name, if they are others than those before: else they are read aloud again. */
export function wordsIn(id) {
  let before = '';
  return (words) => {
    if (textOf(words) !== before) setText(byId(id), words);
    before = textOf(words);
  };
}

// A row that something leads to has an id. A reason stands in place of its last fields, or in a line of its own below, at the
// left wherever the table is moved to.
function bodyRow({ fields, reason, span, id = '', isBelow = false }) {
  const line = element('tr', '', id ? { id, tabIndex: -1 } : {});
  for (const field of fields) line.append(textElement('td', field, { title: field }));
  if (!reason) return [line];
  line.className = 'refused';
  const cell = element('td', isBelow ? '' : reason, { className: 'reason', colSpan: span });
  if (isBelow) {
    cell.append(element('div', reason));
    return [line, element('tr', '', { className: 'refused below' }, cell)];
  }
  line.append(cell);
  return [line];
}

/** A table in a box of its own, which can be moved sideways. Its name is its caption, behind the title of its owner. */
export function tableBox({ caption, heading, rows }, title = '') {
  const heads = heading.map((name) => textElement('th', name, { scope: 'col', title: name }));
  const table = tableOf('', caption, heads, rows.flatMap(bodyRow));
  table.style.setProperty('--columns', String(heading.length));
  return region('rows', title === '' ? caption : WORDS.captionOf(title, caption), table);
}

/** How many records or dates were refused, by the reason, with what to do. */
function countsTable(rows, { caption, count: counted, reason: why, advice: what }) {
  const heads = [counted, why, what].map((name) => element('th', name, { scope: 'col' }));
  return tableOf('counts', caption, heads, rows.map(([count, reason, advice]) => element('tr', '', {},
    element('td', count, { className: 'number' }), element('th', reason, { scope: 'row' }), element('td', advice))));
}

/** Saves what was made just now. */
export function saveBlob(blob, name) {
  const href = URL.createObjectURL(blob);
  element('a', '', { href, download: name }).click();
  setTimeout(() => URL.revokeObjectURL(href), 60000);
}

// A link that saves, which looks like a button; the second and further ones are grey. What is not made yet is a button.
export function downloadLink({ words, blob, name, isTable, place, isMade = true }, isSecond, saved, make) {
  const className = isSecond ? 'save second' : 'save', own = place === undefined ? {} : { id: `make-${place}` };
  if (!isMade) return button(words, 'second', own, () => make(place));
  const link = element('a', words, { href: URL.createObjectURL(blob), download: name, className, ...own });
  if (isTable) link.addEventListener('click', saved);
  return link;
}

/** Empties a box, and lets go of what its links save. */
export function clear(box) {
  for (const link of box.querySelectorAll('a.save')) URL.revokeObjectURL(link.href);
  box.replaceChildren();
}

/** Draws what is in a box anew, and leaves the keys where they were: at the element of the same name. */
export function withFocus(box, draw) {
  const { id } = box.contains(document.activeElement) ? document.activeElement : { id: '' };
  draw(box);
  if (id && byId(id)) byId(id).focus();
}

/**
 * Draws into an article what became of a register or a sheet; `saved` is told when its table is saved, and `make` the
 * place of what is to be made.
 */
export function drawReport(article, id, report, saved, make = (_) => {}) {
  clear(article);
  article.className = report.kind;
  article.setAttribute('aria-labelledby', id);
  const className = { broken: 'total wrong', done: 'total' }[report.kind] || '';
  const line = element('p', report.words, { className });
  article.append(textElement('h3', report.title, { id }), line, ...report.advice.map((words) => element('p', words)));
  if (report.counts.length) article.append(countsTable(report.counts, WORDS.counts[report.countsOf || 'records']));
  article.append(...report.tables.map((table) => tableBox(table, report.title)));
  const links = report.links.map((link, i) => downloadLink(link, i > 0, saved, make));
  if (links.length) article.append(element('p', '', { className: 'buttons' }, ...links));
  if (report.caution) article.append(element('p', report.caution, { className: 'caution' }));
  if (report.hint) article.append(element('p', report.hint, { className: 'hint' }));
}

/** Ticks for columns, which are chosen in the order in which they are ticked; the answer draws such an order. */
export function columnTicks(box, names, none, choose) {
  let order = [];
  const boxes = names.map((name) => element('input', '', { type: 'checkbox', value: name, autocomplete: 'off' }));
  const labels = boxes.map((tick) => element('label', '', {}, tick, tick.value));
  const buttons = [[WORDS.all, names], [WORDS.none, []]].map(([words, wanted]) =>
    button(words, 'second small', {}, () => choose(wanted)));
  const inOrder = element('p', '', { className: 'hint' });
  const ticks = element('div', '', { className: 'ticks' }, ...labels);
  box.append(ticks, element('p', '', { className: 'buttons' }, ...buttons), inOrder);
  ticks.addEventListener('change', ({ target }) => {
    choose(target.checked ? [...order, target.value] : order.filter((name) => name !== target.value));
  });
  return (wanted) => {
    order = wanted;
    for (const tick of boxes) tick.checked = order.includes(tick.value);
    setText(inOrder, order.length ? WORDS.order(order) : none);
  };
}

const choicesCalled = (name) =>
  /** @type {NodeListOf<HTMLInputElement>} */ (document.querySelectorAll(`input[name=${name}]`));

/** Draws which of the choices of this name is made. */
export function check(name, value) {
  for (const choice of choicesCalled(name)) choice.checked = choice.value === String(value);
}

/** Tells `choose` the value that is chosen among those of this name. */
export function onCheck(name, choose) {
  for (const choice of choicesCalled(name)) choice.addEventListener('change', () => choose(choice.value));
}

// The names of folders among what is dropped, and the files.
function droppedOf({ items }) {
  const dropped = [...items].filter(({ kind }) => kind === 'file');
  const entries = dropped.map((item) => (item.webkitGetAsEntry ? item.webkitGetAsEntry() : null));
  const isFolder = (entry) => entry !== null && entry.isDirectory;
  return {
    folders: entries.filter(isFolder).map(({ name }) => name),
    files: dropped.filter((_, i) => !isFolder(entries[i])).map((item) => item.getAsFile()),
  };
}

/**
 * Files are chosen in a field, or dropped anywhere. The field stays empty, so that the same file can be chosen again. Folders
 * among what is dropped are left out, and told by their names.
 */
export function takeFiles(input, choose) {
  const box = input.closest('.drop');
  input.value = '';
  input.addEventListener('change', () => {
    const files = [...input.files];
    input.value = '';
    if (files.length) choose(files, []);
  });
  // A field that was drawn anew takes nothing any more.
  const listen = (name, take) => document.addEventListener(name, (event) => { if (input.isConnected) take(event); });
  listen('dragover', (event) => {
    event.preventDefault();
    box.classList.add('over');
  });
  listen('dragleave', () => box.classList.remove('over'));
  listen('drop', (event) => {
    event.preventDefault();
    box.classList.remove('over');
    const { folders, files } = droppedOf(event.dataTransfer);
    if (folders.length || files.length) choose(files, folders);
  });
}

/**
 * Each text that is pasted into a field is given to `take` as it was copied; in the field it would get other line ends.
 * One that came in another way is given when the field is left. The field stays empty for the next one.
 */
export function takePaste(field, take) {
  field.addEventListener('paste', (event) => {
    event.preventDefault();
    const text = event.clipboardData.getData('text/plain');
    if (text !== '') take(text);
  });
  field.addEventListener('change', () => {
    if (field.value !== '') take(field.value);
    field.value = '';
  });
}

/** Shows a part of the page, and the link to it, where there is something for it. */
export function drawPart(name, isThere) {
  const link = /** @type {HTMLElement} */ (document.querySelector(`nav a[href="#${name}-part"]`));
  byId(`${name}-part`).hidden = link.hidden = !isThere;
}

/** Draws whether a task goes on: then it cannot be started again, and can be stopped. The keys stay where they are. */
export function drawRunning(name, isRunning) {
  const start = byId(`${name}-start`), stop = byId(`${name}-stop`), active = document.activeElement;
  start.setAttribute('aria-disabled', String(isRunning));
  if (!isRunning && active === stop) start.focus();
  stop.disabled = !isRunning;
  for (const choices of document.querySelectorAll(`[data-choices=${name}]`)) {
    if (isRunning && choices.contains(active)) stop.focus();
    for (const control of choices.querySelectorAll('input, select, button, textarea')) {
      /** @type {HTMLInputElement} */ (control).disabled = isRunning;
    }
  }
  byId(`${name}-progress`).hidden = !isRunning;
}
