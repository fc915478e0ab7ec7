// What is shown of registers and sheets, in words and rows, for the view to draw.

import { CALENDARS } from './calendars.mjs';
import { AS_EMPTY, choicesText, dayOfChange, endsOf, isColumn, meantByEmpty } from './choices.mjs';
import { CHOICES, canBeOther, choicesOf, isTextSheet } from './door.mjs';
import { textOf } from './elements.mjs';
import * as registers from './registers.mjs';
import * as sheet from './sheet.mjs';
import { WORDS } from './language.mjs';
import { isOfEmpty } from './tables.mjs';

// A field is shown so far, in letters.
const SHORT = 40;
// The causes of a register that cannot be read, of one without its header, and of one with too many records; how a sheet
// with too many ends.
const READ_FAULT = 5, NO_HEADER = 6, TOO_MANY_CAUSE = 7, TOO_MANY = 5;

/** How many records were refused, by the reason, each with what to do. */
export function countRows(counts, advice = WORDS.advice) {
  return counts.flatMap((count, i) =>
    (count === 0 ? [] : [[WORDS.number(count), WORDS.reason(i + 1, WORDS.refusals[i]), `${advice[i]}.`]]));
}

// The place of the reason that a date is not written as its calendar wants it.
const NOT_WRITTEN = 4;

// What to do with the dates of a sheet: where years are short and such dates are left out, that choice.
function adviceOfDates(state, counts) {
  const reply = sheet.shownUnknown(state), short = reply && reply.answer ? reply.answer.short : 0;
  const others = counts.reduce((sum, ofColumn) => sum + ofColumn[NOT_WRITTEN], 0) - short;
  if (short === 0) return WORDS.sheetAdvice;
  const advice = WORDS.shortAdvice(short) + (others > 0 ? `. ${WORDS.sheetAdvice[NOT_WRITTEN]}` : '');
  return WORDS.sheetAdvice.map((it, i) => (i === NOT_WRITTEN ? advice : it));
}

// The same of dates; of several columns, each with its name before the reason.
function dateCountRows(state, counts, names) {
  const advices = adviceOfDates(state, counts), named = (reason, k) => (names.length === 1 ? reason : [names[k], ' ', reason]);
  return counts.flatMap((ofColumn, k) =>
    countRows(ofColumn, advices).map(([count, reason, advice]) => [count, named(reason, k), advice]));
}

// What a spreadsheet may do with fields of a table.
const cautionOf = ({ formulas: { count, example } }) => (count === 0 ? '' : WORDS.formulas(count, shortened(example)));
const shortened = (text) => (text.length > SHORT ? `${text.slice(0, SHORT)}…` : text);

/**
 * Rows to be drawn: the fields of each, and for a refused one the reason, which stands in place of its last `span`.
 * @param {import('./tables.mjs').ShownRows} shown
 */
function drawnRows({ heading, rows, from, refusal, date }) {
  return rows.map((row) => {
    const number = isOfEmpty(row[refusal], row[date]) ? 0 : Number(row[refusal]), reason = WORDS.refusals[number - 1];
    if (!reason) return { fields: row, reason: '', span: 0 };
    return { fields: row.slice(0, from), reason: WORDS.reason(number, reason), span: heading.length - from };
  });
}

const tableReport = (caption, shown) => ({ caption, heading: shown.heading, rows: drawnRows(shown) });
const plainTable = (caption, { heading, rows }) =>
  ({ caption, heading, rows: rows.map((fields) => ({ fields, reason: '', span: 0 })) });

function refusedTable({ refusedRows, ending, refused }) {
  if (refusedRows === null || refusedRows.rows.length === 0) return [];
  const all = ending === 0 ? refused : Infinity;
  return [tableReport(WORDS.refusedRows(refusedRows.rows.length, all), refusedRows)];
}

// A file that cannot be read, or is another than was chosen, is a register that broke off.
const isUnread = ({ fault }) => ['noReading', 'changedFile'].includes(fault);

function faultWords({ fault, why }, most, encoding) {
  if (fault === 'tooLarge') return WORDS.tooLarge(most);
  if (fault === 'notEncoded') return WORDS.notEncoded(encoding);
  return fault === 'fault' ? WORDS.fault(why) : WORDS[fault];
}

const brokenReport = (words, advice) =>
  ({ kind: 'broken', words, advice: advice ? [advice] : [], counts: [], tables: [], links: [], number: 0 });

// What became of a conversion that has no whole table.
function endingReport(reply, most, encoding) {
  const ending = isUnread(reply) ? READ_FAULT : reply.answer && reply.answer.ending;
  if (ending === undefined) return brokenReport(WORDS.notDone(faultWords(reply, most, encoding)), '');
  const cause = WORDS.causes[ending];
  const words = cause ? WORDS.brokeOff(ending, cause) : WORDS.notDone(WORDS.faults[ending]);
  return brokenReport(words, WORDS.causeAdvice[ending]);
}

// ---- What is given ----

// What a file is, in words: of a register how it is written, and of a sheet its first line.
function isWords({ kind, delimiter, sealed, firstLine, isWorkbook }) {
  if (kind === 'register') return WORDS.isRegister(sealed, WORDS.delimiters[delimiter]);
  if (kind === 'sheet') return isWorkbook ? WORDS.isWorkbook : WORDS.isSheet(firstLine);
  const sentences = { noReading: WORDS.causeAdvice[READ_FAULT], noChoices: WORDS.noChoices };
  return WORDS.isKind[kind] || sentences[kind] || `${WORDS[kind]}.`;
}

// What a file can be taken for, with what it is where it looks so.
const asChoices = ({ look }) =>
  choicesOf({ look }).map((kind) => [kind, kind === look.kind ? isWords(look) : WORDS.isKind[kind]]);

// What cannot be taken stands first, and registers last: they may be many.
const ranks = (it) => (it.look.kind === 'register' ? 2 : Number(canBeOther(it) || it.look.kind === 'choices'));

/** What was given, each in a row. */
export function doorRows({ entries, open }) {
  const sheets = entries.filter(({ as }) => ['sheet', 'tree'].includes(as));
  return [...entries].sort((one, other) => ranks(one) - ranks(other)).map((it) => ({
    number: it.number, name: WORDS.chosen(it.file.name, WORDS.bytes(it.file.size)), is: isWords(it.look), as: it.as,
    choices: asChoices(it), canOpen: sheets.length > 1 && sheets.includes(it), isOpen: it.number === open,
  }));
}

/** What is asked before something unsaved goes, and the two answers; or null. */
export function doorQuestion(question) {
  return question === null ? null : WORDS.questions[question.what](question.names);
}

/** How many sheets there are beside registers: they may be registers too, without their headers. */
export function sheetsBeside({ entries }) {
  return entries.some(({ as }) => as === 'register') ? entries.filter(isTextSheet).length : 0;
}

// What the only file is taken for, or why it cannot be taken.
function oneEntry({ file, look, as }) {
  const isTold = WORDS.isKind[as] !== undefined, words = as === look.kind ? isWords(look) : WORDS.isKind[as];
  return WORDS.endedOne(file.name, isTold ? [words, '.'] : words);
}

// How many files of each kind there are.
function kindCounts(entries) {
  const kinds = [...CHOICES, 'choices'], of = (kind) => entries.filter(({ as }) => as === kind).length;
  const counts = kinds.filter(of).map((kind) => WORDS.countOf[kind](of(kind)));
  const others = entries.filter(({ as }) => !kinds.includes(as)).length;
  const all = [...counts, ...(others ? [WORDS.countOf.others(others)] : [])].join(', ');
  return all && `${all}.`;
}

/** The line below: what was given. */
export function doorStatus({ entries, coming, folders, notice, question = null }) {
  const told = entries.length === 1 ? oneEntry(entries[0]) : kindCounts(entries);
  const words = notice ? WORDS[notice] || notice : coming !== null && question === null ? WORDS.looking : told;
  return folders.length ? [WORDS.folders(folders), ' ', words] : words;
}

// ---- Registers ----

function jobWords({ status, begun }, now) {
  if (status === 'stopped') return WORDS.stopped;
  if (status === 'new') return WORDS.notYet;
  return status === 'waits' ? WORDS.waiting : WORDS.running(Math.round((now - begun) / 1000));
}

// What is shown of the table of a register, or of a part of one: how it begins, what saves it, and its caution.
const tableParts = (answer, caption, words, name) => ({
  tables: [tableReport(caption, answer.first), ...refusedTable(answer)],
  links: [{ words, blob: answer.table, name, isTable: true }], caution: cautionOf(answer),
});

function wholeRegister(answer, name) {
  const { rows, refused, empty, counts, first, table } = answer;
  const caption = rows === first.rows.length ? WORDS.allRows : WORDS.firstRows(first.rows.length);
  return { kind: 'done', words: WORDS.whole(rows, refused, empty), advice: [], counts: countRows(counts),
    ...tableParts(answer, caption, WORDS.save(name, WORDS.bytes(table.size)), name) };
}

// The first line of a register without its header says what it is.
const firstLineWords = ({ answer }) => (answer && answer.ending === NO_HEADER ? [WORDS.beginsWith(answer.firstLine)] : []);

function brokenRegister(reply, name) {
  const broken = endingReport(reply, registers.MOST_BYTES, '');
  const answer = reply.answer;
  const advice = [...firstLineWords(reply), ...broken.advice];
  if (!answer || !answer.table) return { ...broken, advice: [...advice, WORDS.hasNothing] };
  const { first, table } = answer, caption = WORDS.firstRows(first.rows.length);
  return { ...broken, ...tableParts(answer, caption, WORDS.savePart(name, WORDS.bytes(table.size)), name) };
}

/**
 * What is shown of a register.
 * @param {import('./registers.mjs').Job} job
 */
export function registerReport(job, now) {
  const { file, number, status, reply } = job, name = registers.tableName(job);
  if (status !== 'ended') {
    const kind = status === 'stopped' ? 'stopped' : '';
    return { title: file.name, number, ...brokenReport(jobWords(job, now), ''), kind };
  }
  const report = registers.isWhole(job) ? wholeRegister(reply.answer, name) : brokenRegister(reply, name);
  return { title: file.name, ...report, number };
}

// What became of a register, in one sentence; for one without its header, with its first line.
function stateWords(job, now) {
  const { status, reply } = job;
  if (status !== 'ended') return jobWords(job, now);
  if (registers.isWhole(job)) return WORDS.isWhole;
  const ending = isUnread(reply) ? READ_FAULT : reply.answer && reply.answer.ending;
  const short = WORDS.shortCauses[ending];
  const words = short ? WORDS.brokeOff(ending, short) : endingReport(reply, registers.MOST_BYTES, '').words;
  return [words, ...firstLineWords(reply).flatMap((line) => [' ', line])];
}

// What a register was taken for, by its header: nothing before it was read, and of one without its header.
function formWords({ reply }) {
  const answer = reply && reply.answer;
  return answer && answer.ending !== NO_HEADER ? WORDS.formOf(WORDS.delimiters[answer.delimiter], answer.sealed) : '';
}

function listRow(job, now) {
  const { number, file, status, reply, isSaved } = job, has = registers.hasTable(job), isWhole = registers.isWhole(job);
  const answer = has ? reply.answer : null, name = registers.tableName(job);
  const size = has ? WORDS.bytes(answer.table.size) : '';
  return {
    number, name: file.name, form: formWords(job), state: stateWords(job, now), isSaved,
    kind: status === 'ended' ? (isWhole ? 'whole' : 'broken') : status,
    // They are known of a whole table alone.
    counts: isWhole ? [WORDS.number(answer.rows), WORDS.refusedShort(answer.refused, answer.empty)] : ['', ''],
    caution: has && answer.formulas.count ? WORDS.formulasShort(answer.formulas.count) : '',
    link: has ? {
      words: isWhole ? WORDS.saveShort(size) : WORDS.savePartShort(size), blob: answer.table, name, isTable: true,
      label: isWhole ? WORDS.save(name, size) : WORDS.savePart(name, size),
    } : null,
  };
}

// ---- The picture of a table ----

const rowId = (id, { row }) => `${id}-row-${row}`;

const calendarWords = ({ calendar }) => WORDS.calendars[CALENDARS[calendar]] || WORDS.noCalendar;

function pictureRow(id, row, far, { from }) {
  const { bins, lines, refused } = row, own = far.filter(({ calendar }) => calendar === row.calendar);
  return {
    label: calendarWords(row), bins, lines, refused: refused === 0 ? '' : WORDS.refused(refused),
    far: own.map((it) => ({ id: rowId(id, it), year: it.year, side: it.day < from ? 'before' : 'behind' })),
  };
}

// What the picture shows, in words: each calendar, and each gap, which the picture leads to.
function pictureLines({ rows }, gaps) {
  const ofRows = rows.map((row) =>
    ({ words: WORDS.entriesOf(calendarWords(row), row.count, row.years, row.refused, row.spans) }));
  return [...ofRows, ...gaps];
}

function farTable(pictureId, far, allFar) {
  if (far.length === 0) return [];
  const { row, id, calendar, date, year } = WORDS.pictureHeads;
  const rows = far.map((it) => ({
    fields: [String(it.row), it.id, it.written, it.date, String(it.year)], reason: '', span: 0, id: rowId(pictureId, it),
  }));
  return [{ caption: WORDS.farEntries(far.length, allFar), heading: [row, id, calendar, date, year], rows }];
}

// A picture that is made, or how it can be: its title, its name as a file, and what its parts are called on the page.
function pictureReport(picture, { id, make, title, name }) {
  if (!picture) return { id, title: make, isMade: false };
  if (picture.reply === null) return { id, title: WORDS.makingPicture, isMade: false };
  const { answer } = picture.reply;
  if (!answer) return { id, title: WORDS.notDone(faultWords(picture.reply, 0, '')), isMade: false };
  const { from, to, marks, far, allFar } = answer;
  const gaps = answer.gaps.map(([one, other], i) =>
    ({ id: `${id}-gap-${i + 1}`, from: one.day, to: other.day, words: WORDS.gap(one, other) }));
  return {
    id, title, name, isMade: true, from, to, marks, gaps,
    rows: answer.rows.map((row) => pictureRow(id, row, far, answer)), lines: pictureLines(answer, gaps),
    tables: farTable(id, far, allFar),
    hints: [WORDS.yearsAre, ...(answer.rows.some(({ spans }) => spans) ? [WORDS.strokesAre] : []),
      ...(gaps.length ? [WORDS.gapIs] : []), ...(far.length ? [WORDS.farIs] : [])],
  };
}

/** A picture of the table of a register: how it is made, or what it shows; or null. */
export function registerPicture(job) {
  const { picture, file: { name } } = job;
  if (!registers.hasTable(job)) return null;
  return pictureReport(picture,
    { id: 'register-picture', make: WORDS.makePicture, title: WORDS.pictureOf(name), name: `${name}.svg` });
}

/** What was given beside registers, and is none, each with the reason. */
export const leftRows = (left) => left.map(({ file, as, look }) => {
  const isAsItLooks = as === look.kind || as === 'nothing';
  return { name: file.name, why: WORDS.leftOut(isAsItLooks ? isWords(look) : WORDS.isKind[as]) };
});

// Those that broke off stand first, and then those that were stopped, and that are not converted yet.
const KINDS = ['broken', 'stopped', 'new'];
const placeOf = ({ kind }) => (KINDS.includes(kind) ? KINDS.indexOf(kind) : KINDS.length);

/** The registers of a run, each in a row. */
export const registersList = ({ jobs }, now) =>
  jobs.map((job) => listRow(job, now)).sort((one, other) => placeOf(one) - placeOf(other));

/** The archive of all whole tables, as it can be made or saved, among `all` files that were given; or null. */
export function archiveReport({ jobs, archive }, all = jobs.length) {
  const whole = jobs.filter(registers.isWhole).length;
  if (whole === 0 || jobs.some(({ status }) => ['waits', 'runs'].includes(status))) return null;
  if (archive === null) return { place: 'archive', words: WORDS.makeArchive(whole, all), isMade: false };
  if (archive.reply === null) return { place: 'archive', words: WORDS.makingArchive, isMade: false };
  const { answer } = archive.reply;
  if (!answer) return { place: 'archive', words: WORDS.notDone(faultWords(archive.reply, 0, '')), isMade: false };
  const words = WORDS.saveArchive(whole, all, WORDS.bytes(answer.archive.size));
  return { place: 'archive', words, blob: answer.archive, name: WORDS.archiveName(whole, all), isTable: true };
}

function endedWords({ jobs }, left) {
  const [first, ...others] = jobs;
  if (others.length + left === 0) return WORDS.endedOne(first.file.name, registerReport(first, 0).words);
  const whole = jobs.filter(registers.isWhole).length, waits = jobs.filter(({ status }) => status === 'new').length;
  return WORDS.ended(whole, jobs.length - whole - waits, waits, left);
}

/** The line below the form. */
export function registersStatus(state, now) {
  const run = registers.shownRun(state);
  if (state.notice) return WORDS[state.notice];
  if (run === null) return '';
  const ended = run.jobs.filter(({ status }) => status === 'ended').length;
  if (run.jobs.some(({ status }) => status === 'stopped')) return WORDS.stoppedAfter(run.jobs.filter(registers.isWhole).length);
  if (!registers.isRunning(state)) return endedWords(run, state.choice.left.length);
  if (run.jobs.length === 1) return '';
  return WORDS.converting(ended, run.jobs.length, Math.round((now - run.begun) / 1000));
}

// ---- Sheets ----

const encodingOf = ({ source }) => WORDS.encodings[source.encoding];

/** The sheet that is chosen, and what was proposed for it: of one column no delimiter was. */
export function sheetChosen(state) {
  const { source: { file } } = state, { encoding, delimiter, above } = sheet.shownProposed(state);
  const first = sheet.beginning(state), isOfTree = first && first.isOfTree;
  const isText = !isOfTree && !(first && first.pages);
  const separator = isOfTree ? WORDS.aTree : isText && first && first.widest > 1 && WORDS.delimiters[delimiter];
  const looks = [separator, isText && WORDS.encodings[encoding], above && WORDS.aboveFound(above)].filter(Boolean);
  if (file === null) return '';
  return [WORDS.chosen(file.name, WORDS.bytes(file.size)), '.', looks.length ? ` ${WORDS.looksLike(looks)}` : ''];
}

// The calendar of a column of dates: that of a column, one for all, or what no calendar means.
function calendarInWords(calendar, { names }, heading) {
  if (isColumn(calendar)) return WORDS.column(Number(calendar) + 1, heading[Number(calendar)]);
  const means = calendar === AS_EMPTY ? meantByEmpty(names) : calendar, day = dayOfChange(means);
  if (day === null) return means === 'both' ? WORDS.bothStyles : WORDS.calendars[means];
  return WORDS.changedOn(day);
}

// Of these columns of dates, those that have the same calendars stand together.
function datesInWords({ picks }, names, heading) {
  const { dates } = picks, calendars = [...new Set(dates.map(({ calendar }) => calendar))];
  return calendars.map((calendar) => WORDS.datesBy(names.filter((_, k) => dates[k].calendar === calendar),
    calendarInWords(calendar, picks, heading)));
}

/** How the sheet is read, in one line. */
export function sheetSummary(state) {
  const first = sheet.beginning(state), { source, picks, columns } = state;
  if (source.file === null) return '';
  if (first === null) return [{ own: source.file.name }];
  const form = first.pages ? [WORDS.pageNamed(first.pages[first.page])]
    : [first.widest > 1 && WORDS.delimiters[source.delimiter], encodingOf(state)];
  const how = first.isOfTree ? [WORDS.aTree] : [...form, source.above > 0 && WORDS.titleLines(source.above)].filter(Boolean);
  const dates = sheet.missing(state) ? [WORDS.chooseDates.replace(/\.$/, '')]
    : datesInWords(state, dateNames(state), first.heading);
  const rules = [WORDS.orders[picks.order], ...(picks.spans ? [WORDS.withSpans] : [])];
  const parts = [...how, ...dates, ...rules, WORDS.behindThem(columns)];
  return [{ own: source.file.name }, ': ', ...parts.flatMap((it, i) => (i === 0 ? [it] : [', ', it]))];
}

// What an order of numbers reads more, and what decides for it.
function orderWords(order, { more, decides }) {
  const words = more ? WORDS.moreByOrder[order](more) : WORDS.onlyByOrder[order];
  return decides ? [words, WORDS.decides, { own: decides }, '. '] : [words, '. '];
}

// Orders of numbers that read more dates than the one that is chosen, or that a date decides for.
function proposedOrders({ orders }, { order: own }) {
  const names = ['year', 'day', 'month'], chosen = names.indexOf(own), isDecided = orders.some(({ decides }) => decides);
  const isNeeded = ({ more, decides }) => (isDecided ? decides && (more || !orders[chosen].decides) : more > 0);
  const isOffered = (it, i) => i !== chosen && isNeeded(it);
  return names.flatMap((order, i) => (isOffered(orders[i], i) ? [{ id: `sheet-order-${order}`, change: { order },
    words: orderWords(order, orders[i]), button: WORDS.takeOrder[order] }] : []));
}

/** Choices that read more dates than those that are made, or that a date decides for, each with what takes it. */
export function sheetProposals(state) {
  const reply = sheet.shownOrders(state);
  if (!reply || !reply.answer || sheet.shownRun(state) !== null) return [];
  const { answer } = reply, ofSpans = { id: 'sheet-take-spans', change: { spans: true } };
  return [...proposedOrders(answer, state.picks),
    ...(answer.spans ? [{ ...ofSpans, words: [WORDS.moreBySpans(answer.spans), '. '], button: WORDS.takeSpans }] : [])];
}

/** What became of choices that were kept. */
export function sheetFit({ kept, fit }) {
  if (kept === null || fit === null) return '';
  const what = [...fit.absent.map(WORDS.theColumn), ...fit.other.map((it) => WORDS.theOther[it])];
  return what.length ? WORDS.notFitting(kept.file.name, what) : WORDS.filledIn(kept.file.name);
}

/** What stands above the names. */
export function sheetTitles(state) {
  const first = sheet.beginning(state);
  return first === null || first.above === 0 ? '' : WORDS.titles(first.titles);
}

/** How the sheet begins. */
export function sheetTable(state) {
  const first = sheet.beginning(state);
  return first === null ? null : plainTable(WORDS.sheetRows(first.rows.length), first);
}

// What the columns of dates are called.
function dateNames(state) {
  const { heading } = sheet.beginning(state);
  return state.picks.dates.map(({ date }) => WORDS.column(Number(date) + 1, heading[Number(date)]));
}

/** How many dates are not read, in words. */
export function sheetCounts(state) {
  const reply = sheet.shownUnknown(state);
  if (sheet.beginning(state) === null || sheet.missing(state)) return '';
  if (reply === null) return sheet.isRunning(state) ? '' : WORDS.counting;
  if (!reply.answer || reply.answer.ending !== 0) return '';
  const { kept, short, names } = reply.answer;
  if (kept === 0 && short === 0) return names.length ? '' : `${WORDS.allRead}.`;
  return `${[kept && WORDS.kept(kept), short && WORDS.shortLeft(short)].filter(Boolean).join('; ')}.`;
}

// The first rows of a sheet that came back. The reasons of a row stand below it.
function joinedTable(caption, { heading, rows, from }, names, { dates }) {
  const width = (heading.length - from) / names.length;
  const whyOf = (row) => names.flatMap((name, k) => {
    const refusal = row[from + (k + 1) * width - 1];
    const number = isOfEmpty(refusal, row[Number(dates[k].date)]) ? 0 : Number(refusal);
    const reason = number && WORDS.reason(number, WORDS.refusals[number - 1]);
    return number === 0 ? [] : [names.length === 1 ? reason : [name, ' ', reason]];
  });
  const drawn = rows.map((row) => {
    const reason = whyOf(row).flatMap((it, i) => (i === 0 ? [it] : ['; ', it]));
    return { fields: row, reason: reason.length ? reason : '', span: row.length, isBelow: true };
  });
  return { caption, heading, rows: drawn };
}

const previewAnswer = (state) => {
  const reply = sheet.shownPreview(state);
  return reply && reply.answer && reply.answer.ending === 0 ? reply.answer : null;
};

// The name of each column of dates, for each end that has a register of its own.
const namesOfEnds = (state) => dateNames(state).flatMap((name) =>
  endsOf(state.picks).map((end) => (end === null ? name : [name, WORDS.ofEnds[end]])));

/** How the registers begin that would be made. */
export function madeTables(state) {
  const answer = previewAnswer(state);
  if (answer === null) return [];
  const names = namesOfEnds(state);
  return answer.registers.map((register, k) => plainTable(WORDS.registerRows(names[k], register.rows.length), register));
}

/** How the sheet begins that would come back. */
export function previewTable(state) {
  const answer = previewAnswer(state);
  if (answer === null) return [];
  const { first } = answer, names = dateNames(state);
  return [joinedTable(WORDS.sheetBack(first.rows.length), first, names, state.picks)];
}

// The first dates that were refused.
function refusedDatesTable({ refused, refusedDates }, { dates }, names) {
  if (refusedDates.length === 0) return [];
  const all = refused.reduce((sum, n) => sum + n, 0), isOne = names.length === 1;
  const front = [WORDS.record, ...(isOne ? [] : [WORDS.columnName])];
  const rows = refusedDates.map(({ number, place, calendar, date, refusal }) => {
    const own = [String(number), ...(isOne ? [] : [textOf(names[place])])];
    const { calendar: chosen } = dates[place], one = chosen === AS_EMPTY ? '' : chosen;
    const called = isColumn(chosen) ? calendar : one;
    return { fields: [...own, called, date], reason: WORDS.reason(refusal, WORDS.refusals[refusal - 1]), span: 1 };
  });
  const heading = [...front, WORDS.calendar, WORDS.date, WORDS.why];
  return [{ caption: WORDS.refusedDates(rows.length, all), heading, rows }];
}

// How the files of registers are called behind the name of the sheet.
function registerFiles(picks) {
  const { dates } = picks, ends = endsOf(picks).map((end) => (end === null ? '' : WORDS.endSuffixes[end]));
  return dates.flatMap((_, k) => ends.map((end) => `${dates.length === 1 ? '' : `.${k + 1}`}${end}${WORDS.registerSuffix}`));
}

// The register of each end of each column of dates: it is made when it is wanted, and then saved.
function registerLinks({ registers, picks }, names, stem) {
  const files = registerFiles(picks);
  return names.map((name, place) => {
    const reply = registers[place] && registers[place].reply;
    if (!registers[place]) return { place, words: WORDS.makeRegister(name), isMade: false };
    if (reply === null) return { place, words: WORDS.makingRegister(name), isMade: false };
    const { answer } = reply;
    if (!answer || answer.ending !== 0) return { place, words: sheetFault(reply, ''), isMade: false };
    const file = `${stem}${files[place]}`, words = WORDS.saveRegister(file, WORDS.bytes(answer.register.size));
    return { place, words, blob: answer.register, name: file, isTable: false };
  });
}

// Why something of a sheet was not made: a fault, or an ending of the module.
function sheetFault(reply, encoding) {
  const { answer } = reply;
  if (!answer) return WORDS.notDone(faultWords(reply, sheet.MOST_BYTES, encoding));
  if (answer.ending === TOO_MANY) return WORDS.brokeOff(TOO_MANY_CAUSE, WORDS.causes[TOO_MANY_CAUSE]);
  return WORDS.notDone(WORDS.sheetFaults[answer.ending] || WORDS.noMemory);
}

function brokenSheet(reply, encoding) {
  if (isUnread(reply)) return brokenReport(WORDS.notDone(WORDS.sheetUnread), WORDS.causeAdvice[READ_FAULT]);
  const isTooMany = reply.answer && reply.answer.ending === TOO_MANY;
  return brokenReport(sheetFault(reply, encoding), isTooMany ? WORDS.splitSheet : '');
}

// The sheet in the order that is wanted, once it was made.
const sortedAnswer = ({ sorted }) => sorted && sorted.reply && sorted.reply.answer;

/** In what order the records of a sheet can be, what order is wanted, and what is said of it; or null. */
export function sheetOrder(state) {
  const run = sheet.shownRun(state);
  if (run === null || run.status !== 'ended' || !run.reply.answer || run.reply.answer.ending !== 0) return null;
  const { sorted } = run, names = dateNames(state), choices = [['', WORDS.asItStands],
    ...names.map((name, k) => [String(k), WORDS.byDayOf(name)])];
  if (sorted === null) return { choices, chosen: '', words: '' };
  const sortedBy = state.picks.spans ? WORDS.sortedByFirst : WORDS.sortedBy;
  const words = sorted.reply === null ? WORDS.sorting : sorted.reply.answer ? sortedBy(names[sorted.place])
    : sheetFault(sorted.reply, '');
  return { choices, chosen: String(sorted.place), words };
}

// How many dates stay as they are written, and why.
function keptDates({ stopped = 0, reasons = {} }) {
  const counts = [...(stopped ? [WORDS.keptByNames(stopped)] : []),
    ...Object.entries(reasons).flatMap(([reason, n]) => (n === 0 ? [] : [WORDS.keptFor[reason](n)]))];
  return counts.length === 0 ? [] : [WORDS.keptDates(counts)];
}

/** What is shown of a conversion that ended, or null. */
export function sheetReport(state) {
  const run = sheet.shownRun(state);
  if (run === null || run.status !== 'ended') return null;
  const title = run.source.file.name, { answer } = run.reply;
  if (!answer || answer.ending !== 0) return { title, ...brokenSheet(run.reply, encodingOf(state)) };
  const { rows, refused, empty, spans, blank, counts } = answer, names = dateNames(state);
  const { first, table } = sortedAnswer(run) || answer;
  const stem = stemOf(title), name = `${stem}${WORDS.sheetSuffix}`;
  const ofEach = names.map((it, k) => [it, refused[k], empty[k], spans[k]]), said = rows - blank;
  const words = names.length === 1 ? WORDS.whole(said, refused[0], empty[0], spans[0]) : WORDS.wholeSheet(said, ofEach);
  return {
    title, number: 0, kind: 'done', words, advice: keptDates(answer), counts: dateCountRows(state, counts, names),
    countsOf: 'dates',
    tables: [joinedTable(WORDS.sheetJoined(first.rows.length), first, names, run.picks),
      ...refusedDatesTable(answer, run.picks, names)],
    links: [{ words: WORDS.save(name, WORDS.bytes(table.size)), blob: table, name, isTable: true },
      ...registerLinks(run, namesOfEnds(state), stem)],
    caution: cautionOf(answer), hint: WORDS.sheetSaved,
  };
}

/** A picture of each column of dates of a sheet that came back. */
export function sheetPictures(state) {
  const report = sheetReport(state), run = sheet.shownRun(state);
  if (report === null || report.kind !== 'done') return [];
  return dateNames(state).map((name, k) => pictureReport(run.pictures[k], {
    id: `sheet-picture-${k}`, make: WORDS.makePictureOfDates(name), title: WORDS.pictureOfDates(name, report.title),
    name: `${stemOf(report.title)}.${k + 1}.svg`,
  }));
}

const stemOf = (name) => name.replace(/\.[^.]*$/, '');

/** The choices, as a file to be kept: its name, and what stands in it. */
export function keptChoices(state) {
  const { source, picks, columns } = state, { heading } = sheet.beginning(state);
  return [`${stemOf(source.file.name)}${WORDS.choicesSuffix}`, choicesText(source, heading, picks, columns)];
}

function readingWords(state) {
  const { reply } = state.begins;
  if (reply.fault) {
    if (isUnread(reply)) return [WORDS.notDone(WORDS.sheetUnread), ' ', WORDS.causeAdvice[READ_FAULT]];
    return WORDS.notDone(faultWords(reply, sheet.MOST_BYTES, encodingOf(state)));
  }
  const { records, widest, above, heading } = reply.answer;
  if (records === 0) return WORDS.notDone(above === 0 ? WORDS.emptySheet : WORDS.noNames);
  return [WORDS.sheetHas(records - 1, widest), widest === 1 ? ` ${WORDS.oneColumn}` : '',
    heading.length < widest ? ` ${WORDS.onlyFirst(heading.length)}` : ''];
}

function runWords(state, run) {
  if (run.status === 'runs') return WORDS.sheetConverting;
  if (run.status === 'stopped') return WORDS.stopped;
  return WORDS.endedOne(run.source.file.name, sheetReport(state).words);
}

const isFault = (reply) => reply !== null && (Boolean(reply.fault) || reply.answer.ending !== 0);

/** The line below the form. */
export function sheetStatus(state) {
  const run = sheet.shownRun(state);
  if (state.notice === 'wrong above') return WORDS.wrongAbove(state.source.above);
  if (state.notice) return WORDS[state.notice];
  if (state.source.file === null) return '';
  if (sheet.isTooLarge(state)) return WORDS.notDone(WORDS.tooLarge(sheet.MOST_BYTES));
  if (state.begins === null) return WORDS.sheetReading;
  if (run !== null) return runWords(state, run);
  const failed = [sheet.shownUnknown(state), sheet.shownPreview(state)].find(isFault);
  return failed ? sheetFault(failed, encodingOf(state)) : readingWords(state);
}

