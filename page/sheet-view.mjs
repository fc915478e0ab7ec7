// Draws the sheet, and takes what is chosen.

import { BESIDE, CALENDARS } from './calendars.mjs';
import { AS_EMPTY, MOST_DATES, NO_THREE, changeOf, dayOfChange, isColumn, meantByEmpty } from './choices.mjs';
import {
  button, byId, check, clear, columnTicks, drawPart, drawReport, drawRunning, element, onCheck, option, saveBlob,
  select, setText, tableBox, textOf, whenChanged, withFocus, wordsIn,
} from './elements.mjs';
import { pictureBox } from './picture-view.mjs';
import {
  keptChoices, madeTables, previewTable, sheetChosen, sheetCounts, sheetFit, sheetOrder, sheetPictures, sheetProposals,
  sheetReport, sheetStatus, sheetSummary, sheetTable, sheetTitles,
} from './reports.mjs';
import {
  beginning, columnsChosen, dateAdded, datePicked, dateRemoved, isRunning, missing, namePicked, partChosen, partColumns,
  picked, pictureWanted, registerWanted, saved, shownPreview, shownRun, shownUnknown, sortWanted, sourceChosen, started,
  stopped, wronglyTyped,
} from './sheet.mjs';
import { WORDS } from './language.mjs';

// What is added to short years, what becomes of those of Hebrew dates, and what of those of others.
const CENTURIES = [...Array(20).keys()].map((i) => String(100 * (20 - i)));
const YEAR_RULES = ['refuse', 'keep', '5000'];
// What is chosen by a tick.
const TICKS = ['charters', 'spans', 'edtf'];
const NO_RUN = { reply: null, registers: null, sorted: null };
const MONTHS = [...Array(13).keys()].map((i) => i + 1);

const group = (words, options) => element('optgroup', '', { label: words }, ...options);

const calendarOptions = () => CALENDARS.map((name) => option(WORDS.calendars[name], name));
// What a field of a calendar can mean: a calendar, both styles, or a change of calendars.
const meantOptions = () => [...calendarOptions(), option(WORDS.bothStyles, 'both'),
  group(WORDS.changes, [...Object.entries(WORDS.changeDays).map(([day, words]) => option(words, changeOf(day))),
    option(WORDS.otherChange, 'change')])];
const columnOptions = (heading) => heading.map((name, i) => option(WORDS.column(i + 1, name), String(i)));

const field = (label, control) =>
  element('p', '', { className: 'field' }, element('label', label, { htmlFor: control.id }), control);

// ---- Columns of dates ----

function dateRow(heading, place, all) {
  const date = select(`sheet-date-${place}`, [option(WORDS.choose, ''), ...columnOptions(heading)]);
  const calendar = select(`sheet-calendar-${place}`, [option(WORDS.choose, ''),
    group(WORDS.ofColumn, columnOptions(heading)),
    group(WORDS.ofAll, [...calendarOptions(), option(WORDS.asEmpty, AS_EMPTY)])]);
  const remove = button(WORDS.removeDate(place + 1), 'second small', {});
  remove.dataset.remove = String(place);
  return element('div', '', { className: 'fields' }, field(WORDS.dateColumn(place + 1, all), date),
    field(WORDS.calendarColumn(place + 1, all), calendar), ...(all > 1 ? [remove] : []));
}

function takeDates(step) {
  const box = byId('sheet-dates');
  box.addEventListener('change', ({ target }) => {
    const [, which, place] = target.id.split('-');
    step(datePicked, Number(place), { [which]: target.value });
  });
  box.addEventListener('click', ({ target }) => {
    if (target.dataset.remove === undefined) return;
    step(dateRemoved, Number(target.dataset.remove));
    byId('sheet-add').focus();
  });
  byId('sheet-add').addEventListener('click', () => {
    const { picks } = step(dateAdded);
    byId(`sheet-date-${picks.dates.length - 1}`).focus();
  });
}

function drawDates(first, dates) {
  const box = byId('sheet-dates');
  box.replaceChildren(...dates.map((_, place) => dateRow(first.heading, place, dates.length)));
  byId('sheet-add').disabled = dates.length >= MOST_DATES;
}

// ---- Names that are not known ----

function meaningOptions(where) {
  if (where === '') return meantOptions();
  const months = WORDS.months[where] || [], marks = where === 'roman' ? Object.entries(WORDS.marks) : [];
  return [...MONTHS.map((n) => option(WORDS.month(n, months[n - 1]), `month ${n}`)), option(WORDS.aNumber, 'number'),
    ...marks.map(([means, words]) => option(words, means)), option(WORDS.passOver, 'nothing')];
}

function nameRow({ name, where }, i) {
  const meanings = select(`sheet-name-${i}`, [option(WORDS.leave, ''), ...meaningOptions(where)]), isDay = where === '';
  const number = element('input', '', {
    id: `sheet-number-${i}`, type: 'text', inputMode: isDay ? 'text' : 'numeric', autocomplete: 'off', hidden: true,
    'aria-label': textOf(isDay ? WORDS.changeDayOf(name) : WORDS.numberOf(name)),
  });
  for (const control of [meanings, number]) Object.assign(control.dataset, { name, where });
  return [element('label', '', { htmlFor: meanings.id }), element('span', '', {}, meanings, number)];
}

const NAME_BOXES = ['names', 'words'];
const isNumber = (means) => /^number/.test(means);

// What is typed beside a choice: a number, or the day of a change that is not offered; else null.
function typedIn(means) {
  const day = dayOfChange(means);
  if (day !== null) return day in WORDS.changeDays ? null : day;
  return isNumber(means) ? means.replace(/^\D*/, '') : null;
}

function meaningTyped(where, value) {
  return where === '' ? changeOf(value) : `number ${value.replace(/\D/g, '').slice(0, 9)}`.trim();
}

// Draws what is meant in a choice, and what is typed in the field behind it.
function drawMeaning(select, typed, means) {
  const text = typedIn(means);
  select.value = text === null ? means : isNumber(means) ? 'number' : 'change';
  typed.hidden = text === null;
  if (document.activeElement !== typed) typed.value = text || '';
}

// A name is given a meaning by a choice, or by what is typed behind it.
function takeMeaning(step, { name, where }, { localName, value, nextElementSibling }) {
  step(namePicked, name, where, localName === 'input' ? meaningTyped(where, value) : value);
  if (value === 'number' || value === 'change') nextElementSibling.focus();
}

function takeNames(step) {
  for (const which of NAME_BOXES) {
    byId(`sheet-${which}`).addEventListener('change', ({ target }) => takeMeaning(step, target.dataset, target));
  }
  byId('sheet-empty-0').append(option(WORDS.refuseEmpty, ''), ...meantOptions());
  for (const id of ['sheet-empty-0', 'sheet-empty-day']) {
    byId(id).addEventListener('change', ({ target }) => takeMeaning(step, { name: '', where: '' }, target));
  }
}

// The names, in two boxes: those of calendars, and words in dates.
function drawListed(listed) {
  const all = listed.map((it, i) => [it, nameRow(it, i)]);
  const ofBox = { names: all.filter(([{ where }]) => where === ''), words: all.filter(([{ where }]) => where !== '') };
  for (const which of NAME_BOXES) {
    const rows = ofBox[which];
    byId(`sheet-${which}`).replaceChildren(...rows.flatMap(([, row]) => row));
    byId(`sheet-${which}-box`).hidden = rows.length === 0;
  }
}

// What each means, and how often it stands there.
function drawMeanings(listed, names) {
  listed.forEach(({ name, where, count }, i) => {
    const found = names.find((it) => it.name === name && it.where === where), means = found ? found.means : '';
    const select = byId(`sheet-name-${i}`);
    drawMeaning(select, byId(`sheet-number-${i}`), means);
    setText(select.closest('.names').querySelector(`label[for=${select.id}]`),
      where === '' ? WORDS.unknownName(name, count) : WORDS.unknownWord(name, where, count));
  });
}

// ---- What is chosen ----

function takeSource(step) {
  byId('sheet-encoding').append(...Object.entries(WORDS.encodings).map(([label, words]) => option(words, label)));
  byId('sheet-encoding').addEventListener('change', ({ target }) => step(sourceChosen, { encoding: target.value }));
  onCheck('sheet-delimiter', (value) => step(sourceChosen, { delimiter: Number(value) }));
  byId('sheet-above').addEventListener('change', ({ target }) => {
    const isNumberOfLines = /^\s*\d{1,3}\s*$/.test(target.value);
    const { source: { above } } =
      isNumberOfLines ? step(sourceChosen, { above: Number(target.value) }) : step(wronglyTyped, 'above');
    // What is typed wrongly does not stay beside what was read with another number.
    target.value = above === null ? '' : String(above);
  });
  NO_THREE.forEach((_, place) => {
    byId(`sheet-three-${place}`).addEventListener('change', ({ target }) => step(partChosen, place, target.value));
  });
  byId('sheet-page').addEventListener('change', ({ target }) => step(sourceChosen, { page: Number(target.value) }));
  byId('sheet-file-dates').addEventListener('change', ({ target }) => step(sourceChosen, { hasFileDates: target.checked }));
}

function takeRules(step) {
  for (const name of ['short', 'other']) {
    byId(`sheet-${name}`).append(...['refuse', 'keep'].map((value) => option(WORDS.shortRules[value], value)),
      ...CENTURIES.map((value) => option(WORDS.shortAdds(Number(value)), value)));
  }
  byId('sheet-hebrew').append(...YEAR_RULES.map((value) => option(WORDS.hebrewRules[value], value)));
  for (const name of ['id', 'short', 'hebrew', 'other']) {
    byId(`sheet-${name}`).addEventListener('change', ({ target }) => step(picked, { [name]: target.value }));
  }
  for (const name of TICKS) {
    byId(`sheet-${name}`).addEventListener('change', ({ target }) => step(picked, { [name]: target.checked }));
  }
  onCheck('sheet-order', (order) => step(picked, { order }));
}

function takeForm(step) {
  byId('sheet-form').addEventListener('submit', (event) => {
    event.preventDefault();
    const state = step(started), first = missing(state);
    if (state.notice !== 'chooseDates') return;
    byId('sheet-fold').open = true;
    byId(`sheet-${first.which}-${first.place}`).focus();
  });
  byId('sheet-stop').addEventListener('click', () => step(stopped));
}

// ---- What is drawn of the state ----

function drawSource({ encoding, delimiter, above, hasFileDates }) {
  byId('sheet-file-dates').checked = hasFileDates;
  if (encoding !== null) byId('sheet-encoding').value = encoding;
  if (delimiter !== null) check('sheet-delimiter', delimiter);
  byId('sheet-above').value = above === null ? '' : String(above);
}

// Choices among the columns of a sheet that was read; while it is read again for them they stay.
function drawThree(state) {
  if (state.begins === null && state.stays) return;
  const columns = partColumns(state);
  byId('sheet-three-field').hidden = columns.length === 0;
  (state.source.three || NO_THREE).forEach((column, place) => {
    const select = byId(`sheet-three-${place}`);
    select.replaceChildren(option(WORDS.none, ''), ...columnOptions(columns));
    select.value = column;
  });
}

function drawBeginning(state) {
  const first = beginning(state), table = sheetTable(state);
  byId('sheet-rows').replaceChildren(...(table === null ? [] : [tableBox(table)]));
  byId('sheet-choices').hidden = byId('sheet-end').hidden = byId('sheet-asks').hidden = first === null;
  const { pages = [], page = 0 } = first || {};
  byId('sheet-text-choices').hidden = first !== null && first.isOfTree;
  for (const id of ['sheet-encoding-field', 'sheet-delimiters']) byId(id).hidden = pages.length > 0;
  byId('sheet-page-field').hidden = pages.length < 2;
  byId('sheet-page').replaceChildren(...pages.map((name, i) => option({ own: name }, String(i))));
  byId('sheet-page').value = String(page);
  byId('sheet-tree-choices').hidden = first === null || !first.isOfTree;
  // What is missing is to be seen.
  if (state.begins !== null && (first === null || missing(state))) byId('sheet-fold').open = true;
  drawThree(state);
  if (first !== null) {
    byId('sheet-id').replaceChildren(option(WORDS.rowNumber, '-1'), ...columnOptions(first.heading));
  }
}

function drawPicks({ id, dates, names, order, short, hebrew, other, ...ticks }) {
  dates.forEach(({ date, calendar }, place) => {
    byId(`sheet-date-${place}`).value = date;
    byId(`sheet-calendar-${place}`).value = calendar;
  });
  byId('sheet-empty-field').hidden = !dates.some(({ calendar }) => isColumn(calendar) || calendar === AS_EMPTY);
  drawMeaning(byId('sheet-empty-0'), byId('sheet-empty-day'), meantByEmpty(names));
  Object.entries({ id, short, hebrew, other }).forEach(([name, value]) => { byId(`sheet-${name}`).value = value; });
  for (const name of TICKS) byId(`sheet-${name}`).checked = ticks[name];
  byId('sheet-edtf-field').hidden = !ticks.spans;
  check('sheet-order', order);
}

/** The answer draws names, anew only where they are others; the keys stay where they are. */
function namesView() {
  let drawn = '';
  return (listed, names) => {
    const all = JSON.stringify(listed.map(({ name, where }) => [name, where]));
    if (all === drawn) return drawMeanings(listed, names);
    drawn = all;
    return withFocus(byId('sheet-asks'), () => {
      drawListed(listed);
      drawMeanings(listed, names);
    });
  };
}

// Choices that read more, each with a button; the answer draws them, anew only where they are others.
function proposalsView(step) {
  const box = byId('sheet-orders');
  return whenChanged((proposals) => {
    const had = box.contains(document.activeElement);
    box.replaceChildren(...proposals.map(({ id, change, words, button: called }) =>
      element('p', words, { className: 'order' }, button(called, 'second small', { id }, () => step(picked, change)))));
    if (had) byId('sheet-start').focus();
  }, JSON.stringify);
}

/** The answer draws what is chosen of the columns, and what is known of them. */
function choicesView(step) {
  const drawColumns = whenChanged(columnTicks(byId('sheet-columns'), BESIDE, WORDS.noneBehind,
    (columns) => step(columnsChosen, columns)));
  const drawNames = namesView(), drawCounts = wordsIn('sheet-counts'), drawProposals = proposalsView(step);
  let drawn = { begins: undefined, count: 0, more: undefined, preview: undefined };
  return (state) => {
    const { picks, columns, listed } = state, first = beginning(state), unknown = shownUnknown(state);
    const preview = shownPreview(state), count = picks.dates.length;
    const more = unknown && unknown.answer ? unknown.answer.more : 0;
    if (first !== drawn.begins) drawBeginning(state);
    if (first !== null && (first !== drawn.begins || count !== drawn.count)) drawDates(first, picks.dates);
    if (first !== null) drawPicks(picks);
    drawNames(listed, picks.names);
    if (more !== drawn.more) setText(byId('sheet-more'), more ? WORDS.tooManyNames(more) : '').hidden = !more;
    drawCounts(sheetCounts(state));
    drawProposals(sheetProposals(state));
    if (preview !== drawn.preview) {
      byId('sheet-made').replaceChildren(...madeTables(state).map((table) => tableBox(table)));
      byId('sheet-register').replaceChildren(...previewTable(state).map((table) => tableBox(table)));
    }
    // A result has the same table.
    byId('sheet-register').hidden = shownRun(state) !== null && shownRun(state).status === 'ended';
    drawn = { begins: first, count, more, preview };
    drawColumns(columns);
  };
}

// The order of the records is chosen beside the sheet that came back.
function drawOrder(box, { choices, chosen, words }, step) {
  const order = select('sheet-sorted', choices.map(([value, name]) => option(name, value)));
  order.value = chosen;
  order.addEventListener('change', () => step(sortWanted, order.value === '' ? null : Number(order.value)));
  box.append(field(WORDS.orderOfRecords, order), element('p', words, { className: 'hint', role: 'status' }));
}

/** The answer draws what came of the conversion. */
function resultView(step) {
  const box = byId('sheet-results');
  let drawn = NO_RUN, pictures = [];
  const drawResult = (state) => withFocus(box, () => {
    const report = sheetReport(state);
    clear(box);
    if (report === null) return;
    const order = sheetOrder(state), article = box.appendChild(element('article'));
    drawReport(article, 'sheet-result', report, () => step(saved), (place) => step(registerWanted, place));
    if (order !== null) drawOrder(box.appendChild(element('div')), order, step);
    pictures = sheetPictures(state).map((_, place) =>
      pictureBox(box.appendChild(element('div')), () => step(pictureWanted, place)));
  });
  return (state) => {
    const run = shownRun(state), { reply, registers, sorted } = run || NO_RUN;
    // A table that was saved is not drawn anew, or its link would end.
    if (reply !== drawn.reply || registers !== drawn.registers || sorted !== drawn.sorted) drawResult(state);
    drawn = { reply, registers, sorted };
    sheetPictures(state).forEach((picture, place) => pictures[place](picture, run.pictures[place]));
  };
}

// Moves the page so that what was given stands above and the way to convert it is in sight, once for each file.
function scrolledTo() {
  let seen = null;
  return (state) => {
    const { source: { file }, begins } = state;
    const isKnown = begins !== null && (shownPreview(state) !== null || missing(state));
    if (file === null || file === seen || !isKnown) return;
    seen = file;
    if (byId('sheet-fold').open || byId('sheet-start').getBoundingClientRect().bottom <= innerHeight) return;
    byId('files-part').scrollIntoView({ block: 'start' });
  };
}

/** The answer draws the state. */
export function sheetView(step) {
  takeSource(step);
  takeDates(step);
  takeRules(step);
  takeNames(step);
  takeForm(step);
  let now = null;
  byId('sheet-keep').addEventListener('click', () => {
    const [name, text] = keptChoices(now);
    saveBlob(new Blob([text], { type: 'application/json' }), name);
  });
  const [drawStatus, drawChosen, drawFit, drawTitles, drawSummary] =
    ['said', 'chosen', 'fit', 'titles', 'summary'].map((name) => wordsIn(`sheet-${name}`));
  const drawOfSource = whenChanged(drawSource), drawChoices = choicesView(step), drawResult = resultView(step);
  const scroll = scrolledTo();
  return (state) => {
    now = state;
    drawPart('sheet', state.source.file !== null || state.kept !== null);
    drawOfSource(state.source);
    drawChosen(sheetChosen(state));
    drawFit(sheetFit(state));
    drawTitles(sheetTitles(state));
    drawSummary(sheetSummary(state));
    byId('sheet-fold').hidden = state.source.file === null;
    drawChoices(state);
    drawResult(state);
    drawRunning('sheet', isRunning(state));
    if (!isRunning(state)) byId('sheet-add').disabled = state.picks.dates.length >= MOST_DATES;
    drawStatus(sheetStatus(state));
    scroll(state);
  };
}
