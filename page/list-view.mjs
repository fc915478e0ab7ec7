// Draws registers as a list: each with its state, and its table or what can be done.

import {
  button, clear, downloadLink, element, region, setText, tableOf, textElement, textOf, withFocus,
} from './elements.mjs';
import { WORDS } from './language.mjs';

const HEADS = ['name', 'form', 'rows', 'refused', 'state', 'table'];

const headOf = (name) => element('th', WORDS.listHeads[name], { scope: 'col', className: `of-${name}` });

// Two ways to convert a register again: as its file is now, or another file.
function againButtons({ number, name }, { repeated }) {
  const again = button(WORDS.repeat, 'second small',
    { id: `repeat-${number}`, 'aria-label': textOf(WORDS.repeatLabel(name)) }, () => repeated(number, null));
  const file = element('input', '', { type: 'file', className: 'unseen', id: `choose-${number}`,
    'aria-label': textOf(WORDS.chooseAgainLabel(name)) });
  file.addEventListener('click', () => { file.value = ''; });
  file.addEventListener('change', () => file.files.length && repeated(number, file.files[0]));
  return [again, element('label', '', { className: 'second small' }, file, WORDS.chooseAgain)];
}

const canRepeat = ({ kind }) => kind === 'broken' || kind === 'stopped';

// A file that was given, and is no register: why stands where others have their state.
function leftRow({ name, why }) {
  return element('tr', '', { className: 'left' }, textElement('th', name, { scope: 'row' }),
    element('td', why, { className: 'state', colSpan: HEADS.length - 1 }));
}

function saveLink(link, number, { saved }) {
  const made = downloadLink(link, true, () => saved(number), () => {});
  made.classList.add('small');
  made.setAttribute('aria-label', textOf(link.label));
  return made;
}

/** A row of the list, and what draws it. A table that was saved is not drawn anew, or its link would end. */
function newRow(number, steps) {
  const open = button('', 'plain', { id: `open-${number}`, 'aria-controls': 'register-opened' },
    () => steps.opened(number));
  const [form, rows, refused, state] =
    ['form', 'number', 'number', 'state'].map((className) => element('td', '', { className }));
  const table = element('div', '', { className: 'buttons' });
  const saved = element('span', WORDS.isSaved, { className: 'is-saved', hidden: true });
  for (const [it, head] of [[form, 'form'], [rows, 'rows'], [refused, 'refused']]) it.dataset.name = WORDS.listHeads[head];
  const line = element('tr', '', {}, element('th', '', { scope: 'row' }, open), form, rows, refused, state,
    element('td', '', {}, table));
  let drawn = { text: '', kind: '', blob: null };
  const drawTexts = (report, isOpen) => {
    setText(open, { own: report.name }).setAttribute('aria-expanded', String(isOpen));
    setText(form, report.form);
    report.counts.forEach((count, i) => setText([rows, refused][i], count));
    setText(state, report.state);
    line.className = report.kind;
    saved.hidden = !report.isSaved;
  };
  const drawTable = (report) => {
    const hasKeys = table.contains(document.activeElement);
    clear(table);
    if (report.link) table.append(saveLink(report.link, number, steps), saved);
    if (report.caution) table.append(element('span', report.caution, { className: 'caution' }));
    if (canRepeat(report)) table.append(...againButtons(report, steps));
    if (hasKeys) open.focus();
  };
  return {
    line,
    draw(report, isOpen) {
      const blob = report.link && report.link.blob, { name: title, kind, form: taken, counts, state: words, isSaved } = report;
      const text = textOf([{ own: title }, kind, taken, ...counts, words, `${isSaved} ${isOpen}`]);
      if (text !== drawn.text) drawTexts(report, isOpen);
      if (kind !== drawn.kind || blob !== drawn.blob) drawTable(report);
      drawn = { text, kind, blob };
    },
  };
}

/**
 * A list of the registers of these numbers in a box, and of what was given and is none; the answer draws the reports of their
 * rows, in this order. `steps` are told what is to be done with the register of a number.
 */
export function registersTable(box, numbers, left, steps) {
  const caption = WORDS.listCaption(numbers.length, numbers.length + left.length);
  const table = tableOf('list', caption, HEADS.map(headOf), []), body = table.querySelector('tbody');
  box.append(region('rows scroll', caption, table));
  const rows = new Map(numbers.map((number) => [number, newRow(number, steps)])), others = left.map(leftRow);
  let order = '';
  return (reports, opened) => {
    for (const report of reports) rows.get(report.number).draw(report, report.number === opened);
    const now = reports.map(({ number }) => number).join();
    if (now === order) return;
    order = now;
    withFocus(body, () => body.append(...others, ...reports.map(({ number }) => rows.get(number).line)));
  };
}
