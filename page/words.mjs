// All words of the page in English. A file for another language, as words-de.mjs, has the same entries, of the same kinds,
// and language.mjs names it. Words are a text, in which words of a register, as they are typed, stand between `; or a list
// of such texts and of texts of a user's own, as names of files are, in which a ` is a letter. The sentences of refusals
// and causes are here those of the product's own list; another language has its own, by their numbers.

import { FACTS } from './unbuilt.mjs';

// A text of a user's own.
const own = (text) => ({ own: text });

// What the page says behind the sentences of refusals and causes, by their numbers.
const { id, calendar, date, note } = FACTS.limits;
const OF_REFUSALS = {
  2: `: the id over ${id} bytes, the calendar over ${calendar}, the date over ${date} or the note over ${note}; ` +
    '`é` and a Hebrew letter have 2 bytes',
};
const OF_CAUSES = {
  4: ', as on a full disk',
  6: ': not `id,calendar,date` (of a sealed register, `id,calendar,date,note`), but other names or order, more ' +
    'columns, another delimiter, UTF-16, or a title line',
  8: ': no line `END,N` with its own delimiter, or only one like `END,N,,` that came from a spreadsheet; or the ' +
    'first one has another number than its records, or is not the last line',
};

const JULIAN_MONTHS = 'January February March April May June July August September October November December'.split(' ');
const FRENCH_MONTHS = ['Vendémiaire', 'Brumaire', 'Frimaire', 'Nivôse', 'Pluviôse', 'Ventôse', 'Germinal', 'Floréal',
  'Prairial', 'Messidor', 'Thermidor', 'Fructidor', 'Complémentaire'];

export const WORDS = {
  language: 'English',
  languages: 'Language',
  title: 'register: historical dates from calendar to calendar',
  name: 'register',
  about: 'Converts historical dates from calendar to calendar: one, or a whole register, which is a table with an id, a ' +
    'calendar and a date in each line. Nothing of it leaves this machine.',
  noScript: 'This page needs JavaScript and WebAssembly, which are switched off here.',
  noModule: 'The converter could not be started in this browser:',
  parts: 'Parts of this page',

  // ---- What is proved ----
  proved: 'What is proved',
  provedShort: 'The tables are proved, but not that a choice fits: this says what exactly.',
  provedOfRegisters: 'The program in this page was proved before the page was made. The table of a register has a ' +
    'row for each record, in their order, with the day that its calendar gives, or the reason why there is none; and ' +
    'it has these bytes and no others.',
  provedOfSheets: 'The table of a sheet is proved too, from the choices and the list of names to its bytes: each ' +
    'record keeps its fields, its dates are read as the rules say, and behind them stand their days, or the reason ' +
    'why there is none.',
  trusted: 'Trusted, and not proved: what makes a program for browsers of the proved one (the compiler for another ' +
    'target, the linker, the lowering), the memory that it gets, the browser, and the script of this page, which ' +
    'reads files, shows and saves.',
  notProved: 'Nobody can prove that the choices fit a sheet, that a name means what the list of names says, or that ' +
    'a date was copied rightly. So look at what the page shows before you convert.',

  // ---- One date ----
  oneDate: 'One date',
  calendar: 'Calendar',
  date: 'Date',
  waits: 'Type a date, and its day comes here in all calendars.',
  weekdays: {
    Sunday: 'Sunday', Monday: 'Monday', Tuesday: 'Tuesday', Wednesday: 'Wednesday', Thursday: 'Thursday', Friday: 'Friday',
    Saturday: 'Saturday',
  },
  isDay: (weekday, number, read = '', marks = []) =>
    `${WORDS.weekdays[weekday]}, day number ${number}${WORDS.marked(marks)}${WORDS.readAs(read)}`,
  // What is no single day: how many days it has, and the numbers of the first and of the last; an open end has none.
  isSpan: (days, first, last, edtf = '', marks = [], read = '') => {
    const from = first === '' ? 'No first day' : `First day number ${first}`;
    const to = last === '' ? 'no last day' : `last day number ${last}`;
    const both = days ? `${WORDS.number(days)} days, day numbers ${first} to ${last}` : `${from}, ${to}`;
    return `${both}${WORDS.marked(marks)}${edtf && `; EDTF \`${edtf}\``}${WORDS.readAs(read)}`;
  },
  marked: (marks) => marks.map((mark) => `; ${WORDS.spanMarks[mark]}`).join(''),
  spanMarks: {
    about: 'about then', uncertain: 'uncertain', between: 'a day between these', before: 'some time before',
    after: 'some time after', from: 'from then on', to: 'up to then', inferred: 'partly supplied, in brackets',
    undated: 'no date is known',
  },
  noEnds: ['no first day', 'no last day'],
  church: 'Sunday or feast',
  isNoDay: (reason, read = '') => `No day: ${reason}${WORDS.readAs(read)}.`,
  readAs: (read) => (read === '' ? '' : `; read as \`${read}\``),
  dateInWords: 'Dates in words are read too, and numbers with the day first: `30. November 1699`, `30.11.1699`, ' +
    '`15 Ventôse an VI`; feasts, `Dom. Oculi 1699`; months, years and ranges, `Mai 1806`, `1750-1755`.',
  unknownInDate: (word) => `“${word}” is not known in such a date`,
  isNoNumber: (word) => `“${word}” is no number`,
  dateStops: {
    noCalendar: () => 'no calendar',
    character: () => 'a character stands in it that no date has',
    minus: () => 'a dash before a number may be a minus',
    otherWeekday: (date, weekday) =>
      (weekday === undefined ? `it says ${date}, which its calendar does not have` : `${date} was a ${weekday}`),
    noDay: () => 'it has no day',
    noYear: () => 'it has no year',
    noSuchYear: () => 'the Republic had no such year',
    noDate: () => WORDS.refusals[4],
    yearLast: () => 'its year stands last',
  },
  keptDates: (counts) => `Dates that stay as they are written: ${counts.join('; ')}.`,
  keptByNames: (n) => (n === 1 ? '1 has a name that is not known' : `${n} have names that are not known`),
  keptFor: {
    noCalendar: (n) => (n === 1 ? '1 has no calendar' : `${n} have no calendar`),
    character: (n) => (n === 1 ? '1 has a character that no date has' : `${n} have a character that no date has`),
    minus: (n) => (n === 1 ? '1 has a dash before a number, which may be a minus'
      : `${n} have a dash before a number, which may be a minus`),
    otherWeekday: (n) => (n === 1 ? '1 names another weekday' : `${n} name another weekday`),
    noDay: (n) => (n === 1 ? '1 has no day' : `${n} have no day`),
    noYear: (n) => (n === 1 ? '1 has no year' : `${n} have no year`),
    noSuchYear: (n) => (n === 1 ? '1 has a year that the Republic did not have'
      : `${n} have years that the Republic did not have`),
    noDate: (n) => (n === 1 ? '1 is no date of its calendar' : `${n} are no dates of their calendars`),
    yearLast: (n) => (n === 1 ? '1 has the year last: choose another order of numbers'
      : `${n} have the year last: choose another order of numbers`),
  },
  isTooLong: `the date is over ${date} bytes`,
  noCell: 'before its first day',
  calendars: {
    gregorian: 'Gregorian', iso: 'ISO week', julian: 'Julian', coptic: 'Coptic', ethiopic: 'Ethiopic',
    egyptian: 'Egyptian', armenian: 'Armenian', islamic: 'Islamic', hebrew: 'Hebrew', longcount: 'Mayan long count',
    french: 'French, arithmetic', roman: 'Roman', republican: 'French Republican', haab: 'Haab', tzolkin: 'Tzolkin',
  },
  months: {
    gregorian: JULIAN_MONTHS, julian: JULIAN_MONTHS, french: FRENCH_MONTHS, republican: FRENCH_MONTHS,
    coptic: ['Thout', 'Paopi', 'Hathor', 'Koiak', 'Tobi', 'Meshir', 'Paremhat', 'Parmouti', 'Pashons', 'Paoni', 'Epip',
      'Mesori', 'Nasie'],
    ethiopic: ['Maskaram', 'Teqemt', 'Hedar', 'Tahsas', 'Ter', 'Yakatit', 'Magabit', 'Miyazya', 'Genbot', 'Sane', 'Hamle',
      'Nahase', 'Pagumen'],
    islamic: ['Muharram', 'Safar', 'Rabi I', 'Rabi II', 'Jumada I', 'Jumada II', 'Rajab', 'Shaban', 'Ramadan', 'Shawwal',
      'Dhu al-Qada', 'Dhu al-Hijja'],
    hebrew: ['Nisan', 'Iyyar', 'Sivan', 'Tammuz', 'Av', 'Elul', 'Tishri', 'Marheshvan', 'Kislev', 'Tevet', 'Shevat',
      'Adar (in a leap year Adar I)', 'Adar II'],
  },
  // The last months of a Hebrew year with thirteen, or with twelve.
  adar: (isLeap) => (isLeap ? 'Adar I' : 'Adar'),
  // A date with its month by name; none before year 1, and in calendars whose months have no names here.
  inWords: (calendar, date, isLeap = false) => {
    const [, year, month, day] = /^(\d+)-(\d+)-(\d+)$/.exec(date) || [];
    const names = WORDS.months[calendar], isAdar = calendar === 'hebrew' && Number(month) === 12;
    const name = isAdar ? WORDS.adar(isLeap) : names && names[Number(month) - 1];
    return names && Number(year) > 0 ? `${Number(day)} ${name} ${Number(year)}` : '';
  },
  forms: {
    gregorian: 'Year, month, day: `1699-11-30`. The year 0 is 1 BC.',
    iso: 'Year, week, weekday from 1 for Monday: `1945-W46-1`.',
    julian: 'Year, month, day: `1699-11-30`. Every year begins on 1 January; `-44-3-15` is in 44 BC, and there is no ' +
      'year 0.',
    coptic: 'Year of the Martyrs, month, day: `1661-3-3`.',
    ethiopic: 'Year, month, day: `1938-3-3`.',
    egyptian: 'Year, month, day: `2694-7-10`.',
    armenian: 'Year, month, day: `1395-4-5`.',
    islamic: 'Year, month, day: `1364-12-6`. Months: 1 Muharram, 2 Safar, 3 Rabi I, 4 Rabi II, 5 Jumada I, ' +
      '6 Jumada II, 7 Rajab, 8 Shaban, 9 Ramadan, 10 Shawwal, 11 Dhu al-Qada, 12 Dhu al-Hijja. By arithmetic: an ' +
      'observed moon may differ by a day or two.',
    hebrew: 'Year, month, day: `5706-9-7`. Months: 1 Nisan, 2 Iyyar, 3 Sivan, 4 Tammuz, 5 Av, 6 Elul, 7 Tishri, ' +
      '8 Marheshvan, 9 Kislev, 10 Tevet, 11 Shevat, 12 Adar; in a leap year 12 Adar I, 13 Adar II. The year begins ' +
      'with month 7.',
    longcount: 'Baktun, katun, tun, uinal, kin: `12.16.11.16.9`.',
    french: 'Year, month, day: `8-2-18`, by the arithmetic of the book. For a date of the time choose French ' +
      'Republican: here days of the years 4, 8 and 12 come out a day early, since the leap years are 4, 8 and 12, ' +
      'and those of the time were 3, 7 and 11.',
    republican: 'Year, month, day: `8-2-18`. Months: 1 Vendémiaire, 2 Brumaire, 3 Frimaire, 4 Nivôse, 5 Pluviôse, 6 ' +
      'Ventôse, 7 Germinal, 8 Floréal, 9 Prairial, 10 Messidor, 11 Thermidor, 12 Fructidor, 13 the extra days. As it ' +
      'was used, to 10 Nivôse XIV; later days go on by every fourth year.',
    roman: 'Year and month of the Kalends (K), Nones (N) or Ides (I), and the days up to it, it counted too: ' +
      '`1945-11-K3` is 30 October. `1944-3-K6B` is 25 February of a leap year. Both are Julian.',
  },

  // ---- Files ----
  files: 'Files',
  filesAre: 'Tables (CSV, .xlsx, .ods), family trees (GEDCOM), registers, saved choices: the page looks what each is.',
  chooseFiles: 'Choose files',
  dropFiles: 'As many as you like; or drop them on this page.',
  pasteCells: 'Or cells of a spreadsheet',
  pasteCellsIs: 'Copy them with the names of their columns, and paste them here.',
  pasted: 'pasted.csv',
  takenFor: (name) => [name, ' is taken for'],
  isRegister: (sealed, between) => `${sealed ? 'a sealed register' : 'a register'} with ${between}`,
  isSheet: (line) => (line === '' ? 'a sheet' : ['a sheet, which begins with “', own(line), '”']),
  isWorkbook: 'a workbook',
  isKind: { register: 'a register', sheet: 'a sheet', tree: 'a family tree', nothing: 'nothing: it is left out',
    choices: 'choices for a sheet' },
  countOf: {
    register: (n) => (n === 1 ? '1 register' : `${WORDS.number(n)} registers`),
    sheet: (n) => (n === 1 ? '1 sheet' : `${WORDS.number(n)} sheets`),
    tree: (n) => (n === 1 ? '1 family tree' : `${WORDS.number(n)} family trees`),
    nothing: (n) => `${WORDS.number(n)} left out`,
    choices: (n) => (n === 1 ? '1 file of choices' : `${WORDS.number(n)} files of choices`),
    others: (n) => `${WORDS.number(n)} that cannot be taken`,
  },
  workAt: 'Work at it',
  takeOff: 'Take it off the list',
  startAnew: 'Start anew',
  questions: {
    anew: () => ({ asks: 'Tables are there that were not saved. Start anew all the same?', yes: 'Throw them away and start anew',
      no: 'Go on with them' }),
    replace: (names) => ({
      asks: [names.length === 1 ? 'A file of this name is there, and its table was not saved: '
        : 'Files of these names are there, and their tables were not saved: ', own(names.join(', ')), '.'],
      yes: names.length === 1 ? 'Take the new file in its place' : 'Take the new files in their place',
      no: 'Leave it as it is' }),
  },
  takeSheets: (n) => (n === 1 ? 'Take the sheet for a register too' : `Take the ${WORDS.number(n)} sheets for registers too`),
  looking: 'The files are being looked at.',

  // ---- Registers ----
  register: 'Registers',
  registerIs: 'A register has the header `id,calendar,date`, and in each further record an id, the name of a calendar, and a ' +
    'date. One with the header `id,calendar,date,note` is sealed: it ends with the line `END,N` for its N records, and one ' +
    'that lost whole records breaks off; only one that was cut inside of a record with the id `END` can look whole.',
  delimiter: 'Between two fields stands',
  comma: 'a comma',
  semicolon: 'a semicolon',
  tab: 'a tab',
  delimiters: { 44: 'commas', 59: 'semicolons', 9: 'tabs' },
  columns: 'Columns of the table',
  columnsIs: 'They come in the order in which you tick them.',
  all: 'All',
  none: 'None',
  order: (names) => `In this order: ${names.join(', ')}.`,
  noColumns: 'No columns but those of day number and weekday.',
  convert: 'Convert',
  stop: 'Stop',
  tables: 'Tables',
  listCaption: (n, all) => (n === all ? `${WORDS.number(n)} registers`
    : `${WORDS.number(n)} ${n === 1 ? 'register' : 'registers'} of ${WORDS.number(all)} files`),
  leftOut: (words) => ['Left out: ', words],
  listHeads: { name: 'Register', form: 'Kind', rows: 'Rows', refused: 'Refused', state: 'State', table: 'Table' },
  formOf: (between, isSealed) => (isSealed ? `${between}, sealed` : between),
  isWhole: 'whole',
  beginsWith: (line) => (line === '' ? 'Its first line is empty.' : ['Its first line is “', own(line), '”.']),
  saveShort: (size) => `Save, ${size}`,
  savePartShort: (size) => `Save the part, ${size}`,
  isSaved: 'saved',
  repeat: 'Convert again',
  repeatLabel: (name) => ['Convert again: ', own(name)],
  chooseAgain: 'Choose it again',
  chooseAgainLabel: (name) => ['Choose it again: ', own(name)],
  makeArchive: (whole, all) => `Put ${WORDS.ofAllTables(whole, all)} into one archive`,
  makingArchive: 'The archive is being made',
  saveArchive: (whole, all, size) => `Save the archive: ${WORDS.ofAllTables(whole, all)}, ${size}`,
  ofAllTables: (whole, all) => (whole === all ? `${WORDS.number(all)} tables, all whole`
    : `the ${WORDS.number(whole)} whole ${whole === 1 ? 'one' : 'ones'} of ${WORDS.number(all)}`),
  archiveName: (whole, all) => (whole < all ? `tables-${whole}-of-${all}.zip` : `tables-all-${all}.zip`),
  // In ASCII.
  archiveSays: (whole, all) => (whole === all ? `${all} tables, all whole` : `the ${whole} whole tables of ${all}`),
  archiveTooLarge: 'the tables are too large for an archive; save each alone',
  chosen: (name, size) => [own(name), `, ${size}`],
  folders: (names) => ['A folder cannot be taken: ', own(names.join(', ')), '. Open it, and choose its files.'],
  stopFirst: 'A conversion goes on: stop it first.',
  bytes: (n) => {
    const units = [{ unit: 1, name: n === 1 ? 'byte' : 'bytes' }, { unit: 1e3, name: 'KB' }, { unit: 1e6, name: 'MB' },
      { unit: 1e9, name: 'GB' }];
    const { unit, name } = units.filter((it) => n >= it.unit).pop() || units[0];
    return `${n / unit < 10 && unit > 1 ? String(+(n / unit).toFixed(1)) : Math.round(n / unit)} ${name}`;
  },
  number: (n) => n.toLocaleString('en'),
  progress: 'Progress',
  converting: (done, all, seconds) => `${done} of ${all} converted, after ${seconds} s.`,
  waiting: 'Waits for its turn.',
  notYet: 'Not converted yet.',
  running: (seconds) => `Is being converted, ${seconds} s so far.`,
  stopped: 'Stopped.',
  stoppedAfter: (done) => `Stopped. ${done === 0 ? 'Nothing was converted.' : `${done} converted before.`}`,
  endedOne: (name, words) => [own(name), ': ', words],
  ended: (whole, broken, waits, left) => {
    const of = left ? ` of ${whole + broken + waits + left} files` : '';
    return [(whole || of) && `${whole}${of} converted to the end`, broken && `${broken} broke off`,
      waits && `${waits} not converted yet`, left && `${left} left out`].filter(Boolean).join(', ') + '.';
  },
  rows: (n) => (n === 1 ? '1 row' : `${WORDS.number(n)} rows`),
  refused: (n) => (n === 0 ? 'none refused' : `${WORDS.number(n)} refused`),
  empty: (n) => (n ? `, ${WORDS.number(n)} empty` : ''),
  notDays: (n) => (n ? `, ${WORDS.number(n)} ${n === 1 ? 'is' : 'are'} no single day` : ''),
  refusedShort: (refused, empty) => WORDS.number(refused) + WORDS.empty(empty),
  whole: (rows, refused, empty = 0, spans = 0) =>
    `${WORDS.rows(rows)}, ${WORDS.refused(refused)}${WORDS.empty(empty)}${WORDS.notDays(spans)}.`,
  counts: {
    records: {
      caption: 'Refused records, by the reason', count: 'Records', reason: 'The record is refused because',
      advice: 'What to do',
    },
    dates: {
      caption: 'Refused dates, by the reason', count: 'Dates', reason: 'The date is refused because', advice: 'What to do',
    },
  },
  firstRows: (n) => (n === 1 ? 'The first row' : `The first ${n} rows`),
  allRows: 'All rows',
  refusedRows: (n, all) => {
    if (n < all) return `The first ${n} refused rows`;
    return n === 1 ? 'The refused row' : `The ${n} refused rows`;
  },
  captionOf: (title, caption) => [own(title), ': ', caption],
  reason: (number, reason) => `${number}: ${reason}`,
  save: (name, size) => ['Save ', own(name), `, ${size}`],
  tablesSaved: 'Tables are saved in UTF-8 with a byte order mark, as spreadsheets want it. Behind the mark they are ' +
    'those of the program `register`.',
  savePart: (name, size) => ['Save the part that there is, ', own(name), `, ${size}`],
  formulas: (n, example) => [n === 1 ? 'A field is like a formula: ' : `${WORDS.number(n)} fields are like formulas, first `,
    '“', own(example), '”. A spreadsheet that opens the table may compute them, and show something else: let it take the ' +
    'columns in as text. A field is like a formula that begins with `=`, `+`, `-` or `@`, has a letter or a digit, ' +
    'and is no number, no date that registers have and no `@I1@` of a family tree.'],
  formulasShort: (n) => (n === 1 ? 'A field is like a formula' : `${WORDS.number(n)} fields are like formulas`),
  brokeOff: (cause, words) => `Broke off, cause ${cause}: ${words}.`,
  hasNothing: 'There is no table.',
  notDone: (words) => ['Not converted: ', words, '.'],
  tooLarge: (most) => `the file has over ${WORDS.bytes(most)}, more than the page takes; split it, or use the ` +
    'program `register`',
  noMemory: 'memory ran out; close other pages or programs and try again, or split the file',
  otherColumns: 'the file has other columns than when it was chosen, so it is read anew: choose them again',
  workbook: 'the file is no text but a packed file without a table that can be read here (.docx, .zip); save its table ' +
    'as CSV UTF-8, or copy its cells and paste them in “Files”',
  book: 'the file is a workbook; give it in “Files”, and it is taken for a sheet',
  xlsb: 'the file is a binary workbook (.xlsb); save it as .xlsx, .ods or CSV UTF-8, or copy its cells and paste them in ' +
    '“Files”',
  locked: 'the workbook is locked by a password; save it without one, or copy its cells and paste them in “Files”',
  cutWorkbook: 'the file is a workbook or a packed file that is cut or damaged; copy it here anew, or open it and save it again',
  oldWorkbook: 'the file is an old or a protected workbook (.xls); save it as .xlsx or .ods without a password, or as CSV ' +
    'UTF-8, or copy its cells and paste them in “Files”',
  rtf: 'the file is a formatted text (RTF); copy its table into a spreadsheet and save that as CSV UTF-8, or copy its ' +
    'cells and paste them in “Files”',
  html: 'the file is a page of the web (HTML), also where it is called .xls; open it in a spreadsheet and save it as CSV ' +
    'UTF-8, or copy its cells and paste them in “Files”',
  xml: 'the file is XML (.fods, .xml); save its table as .xlsx, .ods or CSV UTF-8, or copy its cells and paste them in ' +
    '“Files”',
  binary: 'the file is no text; save its table as CSV UTF-8, or copy its cells and paste them in “Files”',
  database: 'the file is no text but a database (SQLite); save its table as CSV UTF-8, or copy its cells and paste ' +
    'them in “Files”',
  pdf: 'the file is no text but a PDF; copy its table into a spreadsheet and save that as CSV UTF-8, or copy its ' +
    'cells and paste them in “Files”',
  utf16: 'the file is written in UTF-16, and a register in UTF-8; take it for a sheet, above, or save it as CSV ' +
    'UTF-8',
  tree: 'the file is a family tree (GEDCOM); take it for one, above',
  ansel: 'the family tree is written in ANSEL, which cannot be read here; let your program save it in UTF-8',
  ibmpc: 'the family tree is written in IBMPC, whose letters with accents have no certain meaning; let your program save it ' +
    'in UTF-8',
  fault: (why) => ['the page failed (', own(why), ')'],

  // ---- The picture of a table ----
  makePicture: 'Show the entries on a line of time',
  makingPicture: 'The line of time is being drawn',
  pictureOf: (name) => ['The entries of ', own(name), ' on a line of time'],
  makePictureOfDates: (column) => ['Show the dates of ', column, ' on a line of time'],
  pictureOfDates: (column, name) => ['The dates of ', column, ' in ', own(name), ' on a line of time'],
  savePicture: 'Save the picture',
  entries: (n) => (n === 1 ? '1 entry' : `${WORDS.number(n)} entries`),
  entriesOf: (name, n, years, refused, spans = 0) => [name, ': ', WORDS.entries(n),
    n === 0 ? '' : years[0] === years[1] ? ` in ${years[0]}` : ` from ${years[0]} to ${years[1]}`, WORDS.notDays(spans),
    refused === 0 ? '' : `; ${WORDS.refused(refused)}`, '.'],
  noCalendar: 'No known calendar',
  gap: (one, other) => ['No entry between ', own(one.date), ` (row ${WORDS.number(one.row)}) and `, own(other.date),
    ` (row ${WORDS.number(other.row)}), from ${one.year} to ${other.year}.`],
  farEntries: (n, all) => (n < all ? `The first ${n} of ${WORDS.number(all)} entries that are far from the others`
    : n === 1 ? 'The entry that is far from the others' : `The ${n} entries that are far from the others`),
  pictureHeads: { row: 'Row', id: 'Id', calendar: 'Calendar', date: 'Date', year: 'Year' },
  yearsAre: 'Years are Gregorian; the year 0 is 1 BC. A bar four times as high stands for sixteen times as many ' +
    'entries.',
  strokesAre: 'A stroke below the bars stands for what is no single day, from its first day to its last; an arrow for an ' +
    'end that is open, or far from the others.',
  gapIs: 'A gap is longer than a year, and over five times as long as lies between two entries on the average; at most ' +
    'five are shown.',
  farIs: 'An entry is far from the others that is further from the middle four fifths of them than these are long, ' +
    'and than 50 years. It may be right, or a slip.',

  // The reason of each refusal, from 1, and what to do on this page.
  refusals: FACTS.refusals.map(({ number, sentence }) => sentence + (OF_REFUSALS[number] || '')),
  advice: [
    'Put quotes round a field with a comma; or take the file for a sheet, and choose its columns',
    'Give short ids, and keep what is longer in the sheet',
    'Save the register as CSV UTF-8; or take it for a sheet, in its encoding',
    'Write one of the calendars of “One date”; a sheet can give each name a calendar',
    'Write year, month and day, as `1700-02-29`; a sheet can have the day first',
    'Look at the original: a slip, or a date of another calendar',
    'Look at the original: a slip in the year',
  ],

  // What to do with dates of a sheet whose years are short.
  shortAdvice: (n) => `${n === 1 ? '1 has a year' : `${WORDS.number(n)} have years`} of one or two digits, and “leave such ` +
    'dates out” is chosen: choose otherwise at “Years of one or two digits”',

  // What to do with a refused date of a sheet.
  sheetAdvice: [
    'Look at the record: it has other fields than the others',
    'Choose the number of the record as its id; shorten a date or the name of a calendar in the sheet',
    'Choose another encoding',
    'Choose the calendar of the name above, or mend the name in the sheet',
    'Give its words a meaning above, or choose how dates in numbers are written; or mend it in the sheet',
    'Look at the original: a slip, or a date of another calendar',
    'Look at the original: a slip in the year',
  ],

  // Why a register broke off, by the cause; what its table has; and what to do on this page.
  causes: Object.fromEntries(FACTS.causes.map(
    ({ number, sentence }) => [number, sentence + (OF_CAUSES[number] || '')])),
  shortCauses: Object.fromEntries(FACTS.causes.map(({ number, sentence }) => [number, sentence])),
  causeAdvice: {
    1: 'Close other pages or programs and try again, or split the register.',
    4: 'The table needs more memory than there is: choose fewer columns, or split the register.',
    5: 'It was changed since it was chosen, or while it was read, or was moved, or is a folder: choose it again.',
    6: 'Has it other columns, a title line or another encoding? Take it for a sheet, above.',
    7: 'Split it, each part with the header.',
    8: 'Compare it with the original: records may be lost. Where none are, write the seal anew as the last line.',
  },
  // What was asked wrongly, which the form does not let happen.
  faults: {
    9: 'there is no such column',
    10: 'a column is named twice',
    11: 'the delimiter is no comma, semicolon or tab',
  },

  // ---- From a sheet ----
  sheet: 'A sheet',
  sheetIs: 'A table of your own. Say which of its columns have dates, and you get it back with the columns that you want ' +
    'behind its own. How dates in words are read is proved; whether your choices fit is for you to see, in what the page ' +
    'shows before you convert.',
  encoding: 'Encoding',
  encodingIs: 'Are letters with accents wrong below? Choose another.',
  above: 'Lines above the names',
  aboveIs: 'Title lines, which stay as they are. Then comes the line with the names of the columns.',
  wrongAbove: (above) => `The lines above the names are a number from 0 to 999. ${above === null ? '' : `It is ${above} still.`}`,
  titleLines: (n) => (n === 1 ? '1 title line' : `${n} title lines`),
  change: 'change',
  datesBy: (names, calendar) => [...names.flatMap((name, i) => [i === 0 ? '' : i === names.length - 1 ? ' and ' : ', ', name]),
    ' by ', calendar],
  orders: { year: 'year first', day: 'day first', month: 'month first' },
  behindThem: (columns) => (columns.length ? `with ${columns.join(', ')} behind them` : 'with the refusal alone behind them'),
  moreDates: (n) => (n === 1 ? '1 more date' : `${WORDS.number(n)} more dates`),
  moreByOrder: {
    year: (n) => `${WORDS.moreDates(n)} can be read with the year first`,
    day: (n) => `${WORDS.moreDates(n)} can be read with the day first`,
    month: (n) => `${WORDS.moreDates(n)} can be read with the month first`,
  },
  onlyByOrder: { year: 'The year stands first', day: 'The day stands first', month: 'The month stands first' },
  decides: ', as this one shows: ',
  takeOrder: { year: 'Year first', day: 'Day first', month: 'Month first' },
  withSpans: 'months, years and ranges too',
  moreBySpans: (n) =>
    `${WORDS.moreDates(n)} can be read as ${n === 1 ? 'a month, a year or a range' : 'months, years or ranges'}`,
  takeSpans: 'Months, years and ranges too',
  pageNamed: (name) => ['the sheet “', own(name), '”'],
  pageOfWorkbook: 'Sheet of the workbook',
  fileDates: 'Dates of the file itself too: of its header, and when its records were changed',
  titles: (lines) => ['Above the names: ', own(lines.join(' / ')), '.'],
  aboveFound: (n) => (n === 1 ? '1 line above the names' : `${WORDS.number(n)} lines above the names`),
  aTree: 'a family tree',
  looksLike: (what) => `Proposed: ${what.join(', ')}.`,
  encodings: {
    'utf-8': 'UTF-8',
    'windows-1252': 'Western Europe (Windows-1252)',
    'windows-1250': 'Central Europe (Windows-1250)',
    'iso-8859-2': 'Central Europe (ISO 8859-2)',
    'iso-8859-15': 'Western Europe (ISO 8859-15)',
    'macintosh': 'Western Europe (Macintosh)',
    'utf-16le': 'UTF-16 (“Unicode text”)',
    'utf-16be': 'UTF-16, big end first',
    'windows-1251': 'Cyrillic (Windows-1251)',
    'koi8-r': 'Cyrillic (KOI8-R)',
    'koi8-u': 'Cyrillic (KOI8-U)',
    'ibm866': 'Cyrillic (DOS 866)',
    'iso-8859-5': 'Cyrillic (ISO 8859-5)',
    'x-mac-cyrillic': 'Cyrillic (Macintosh)',
    'windows-1253': 'Greek (Windows-1253)',
    'iso-8859-7': 'Greek (ISO 8859-7)',
    'windows-1254': 'Turkish (Windows-1254)',
    'windows-1255': 'Hebrew (Windows-1255)',
    'iso-8859-8': 'Hebrew (ISO 8859-8)',
    'windows-1256': 'Arabic (Windows-1256)',
    'iso-8859-6': 'Arabic (ISO 8859-6)',
    'windows-1257': 'Baltic (Windows-1257)',
    'iso-8859-4': 'Baltic (ISO 8859-4)',
    'windows-1258': 'Vietnamese (Windows-1258)',
    'iso-8859-3': 'Southern Europe (ISO 8859-3)',
    'iso-8859-10': 'Nordic (ISO 8859-10)',
    'iso-8859-13': 'Baltic (ISO 8859-13)',
    'iso-8859-14': 'Celtic (ISO 8859-14)',
    'iso-8859-16': 'Romanian (ISO 8859-16)',
    'windows-874': 'Thai (Windows-874)',
    'shift_jis': 'Japanese (Shift JIS)',
    'euc-jp': 'Japanese (EUC-JP)',
    'gb18030': 'Chinese (GB 18030)',
    'big5': 'Chinese (Big5)',
    'euc-kr': 'Korean (EUC-KR)',
  },
  notEncoded: (name) => `the file is not written in ${name}: choose another encoding`,
  sheetRows: (n) => `The sheet, ${WORDS.first(n)}`,
  sheetHas: (n, width) => `${WORDS.records(n)} of ${width} ${width === 1 ? 'column' : 'columns'} under the names.`,
  oneColumn: 'Does another sign stand between its fields? Choose it above.',
  emptySheet: 'it is empty',
  sheetUnread: 'the sheet could not be read',
  noNames: 'no line is left for the names of the columns: let fewer stand above them',
  onlyFirst: (n) => `Only the first ${n} columns can be chosen.`,
  three: 'Year, month and day in columns of their own',
  threeIs: 'Where you choose all three, a column of their dates comes behind the others, as `1806-5-12`, `12 Mai 1806` or ' +
    '`Mai 1806`.',
  yearColumn: 'Year',
  monthColumn: 'Month',
  dayColumn: 'Day',
  dates: 'Columns with dates',
  datesIs: 'Each with the column that has its calendars, or with one calendar for all.',
  dateColumn: (k, all) => (all === 1 ? 'Date' : `Date ${k}`),
  calendarColumn: (k, all) => (all === 1 ? 'Calendar' : `Calendar ${k}`),
  addDate: 'Add a date column',
  removeDate: (k) => `Remove date ${k}`,
  idColumn: 'Id',
  idIs: 'It stands in the register, of at most 40 bytes.',
  column: (number, name) => (name === '' ? `column ${number}` : own(name)),
  choose: 'Choose',
  rowNumber: 'the number of the record',
  ofColumn: 'As the column says',
  ofAll: 'One for all',
  dayOrder: 'Dates in numbers are written',
  yearFirst: 'year first, as `1699-11-30` or `1699/11/30`',
  dayFirst: 'day first, as `30.11.1699` or `30/11/1699`',
  monthFirst: 'month first, as `11/30/1699`',
  dayOrderIs: 'A month by its name is read in any order, `30. November 1699`, `Nov. 30, 1699`, where the year has more than ' +
    'two digits. Else this choice says which number is the year: for `15 Ventôse 6` the day stands first.',
  short: 'Years of one or two digits',
  shortIs: 'Of Gregorian and Julian dates, as `12.5.82`.',
  shortRules: { refuse: 'leave such dates out', keep: 'as written: 82 is the year 82' },
  shortAdds: (n) => `add ${n}: 82 is ${n + 82}`,
  spans: 'Months, years and ranges too',
  spansIs: 'As `Mai 1806`, `1750-1755`, `ca. 1750`, `vor 12.5.1806`: each has a first and a last day, and so has each ' +
    'column behind the sheet.',
  edtf: 'With a text of EDTF (ISO 8601-2)',
  edtfIs: 'As `1806-05`, `1750/1755`, `1750~`, `../1806-05-11`.',
  otherYears: 'Years of other calendars, and of Roman dates',
  hebrew: 'Short Hebrew years',
  hebrewIs: 'As `5 Tischri 507`.',
  hebrewRules: { refuse: 'leave such dates out', keep: 'as written: 507 is the year 507', 5000: 'add 5000: 507 is 5507' },
  other: 'Short Islamic, Coptic, Ethiopic and Armenian years',
  otherIs: 'Of one or two digits, as `12.5.82`.',
  charters: 'The year of a Roman date is that of its day',
  chartersIs: 'Then `XVI. Kal. Ian. 1499` is 17 December 1499. Else its year is that of the Kalends, Nones or Ides, ' +
    'and it is in 1498.',
  unknownNames: 'Names that no calendar has',
  unknownNamesIs: 'Choose the calendar of each, or leave it, and its records are refused.',
  unknownWords: 'Words in dates that are not known',
  unknownWordsIs: 'Say what each means, or leave it, and its dates stay as they are written.',
  records: (n) => `${WORDS.number(n)} ${n === 1 ? 'record' : 'records'}`,
  datesOf: (n) => `${WORDS.number(n)} ${n === 1 ? 'date' : 'dates'}`,
  unknownName: (name, n) => [own(name), n === null ? '' : `, in ${WORDS.datesOf(n)}`],
  unknownWord: (name, where, n) => [WORDS.unknownName(name, n), ` (${WORDS.calendars[where]})`],
  tooManyNames: (n) => `Others, in ${WORDS.datesOf(n)}, are not shown: are these the right columns?`,
  leave: 'leave it',
  noCalendarThere: 'Where no calendar stands',
  noCalendarThereIs: 'In records whose field of a calendar is empty, and in columns of dates whose calendar is said here.',
  refuseEmpty: 'nothing: these dates are refused',
  asEmpty: 'as said below: a change of calendars, or both styles',
  bothStyles: 'both styles, as 10/22 January 1863',
  changes: 'The Julian one, and from a day on the Gregorian',
  changeDays: {
    '1582-10-15': 'from 15 October 1582, as in Spain, Portugal, Italy and Poland',
    '1582-12-20': 'from 20 December 1582, as in France',
    '1700-03-01': 'from 1 March 1700, as in Protestant Germany and Denmark',
    '1752-09-14': 'from 14 September 1752, as in Britain and its colonies',
    '1753-03-01': 'from 1 March 1753, as in Sweden',
    '1918-02-14': 'from 14 February 1918, as in Russia',
  },
  otherChange: 'from another day',
  changedOn: (day) => `Julian, and from ${day} on Gregorian`,
  changeDay: 'The first Gregorian day, as 1583-11-22',
  changeDayOf: (name) => ['The first Gregorian day, as 1583-11-22, for ', own(name)],
  passOver: 'nothing: pass it over',
  month: (n, name) => (name ? `month ${n}, ${name}` : `month ${n}`),
  aNumber: 'a number',
  numberOf: (name) => ['The number for ', own(name)],
  marks: { K: 'Kalends', N: 'Nones', I: 'Ides' },
  counting: 'The dates are being looked through.',
  kept: (n) => `${WORDS.datesOf(n)} cannot be read, and ${n === 1 ? 'stays as it is' : 'stay as they are'} written`,
  shortLeft: (n) => `${WORDS.datesOf(n)} ${n === 1 ? 'has' : 'have'} a short year, and ${n === 1 ? 'is' : 'are'} left out`,
  allRead: 'All dates can be read',
  behind: 'Columns to be put behind those of the sheet',
  behindIs: 'They come in the order in which you tick them; behind them the refusal, which is empty where the date ' +
    'was converted. church is the Sunday or feast, in Latin, of a Gregorian or Julian day.',
  noneBehind: 'No columns but the refusal.',
  first: (n) => `first ${n === 1 ? 'record' : `${n} records`}`,
  ofEnds: { first: ' with the first days', last: ' with the last days' },
  endSuffixes: { first: '.first', last: '.last' },
  registerRows: (name, n) => ['The register that is made of ', name, `, ${WORDS.first(n)}`],
  chooseDates: 'Choose a column with dates, and its calendar.',
  keepChoices: 'Save the choices',
  choicesSuffix: '.choices.json',
  noChoices: 'The file with choices is none that this page saved.',
  choicesWait: 'The choices are there. Choose the sheet that they are for.',
  filledIn: (name) => ['The choices of ', own(name), ' are filled in.'],
  notFitting: (name, what) => ['The choices of ', own(name), ' are filled in, but for what does not fit: ',
    what.flatMap((it, i) => (i === 0 ? [it] : [', ', it])), '.'],
  theColumn: (name) => ['the column “', own(name), '”'],
  theOther: { encoding: 'the encoding', delimiter: 'the sign between two fields' },
  sheetReading: 'The sheet is being read.',
  sheetConverting: 'The sheet is being converted.',
  sheetSaved: 'Each record is in its line, in UTF-8 with a byte order mark, as spreadsheets want it.',
  orderOfRecords: 'Order of the records',
  asItStands: 'as in the sheet',
  byDayOf: (name) => ['by the day of ', name],
  sorting: 'The records are being sorted.',
  sortedBy: (name) => ['The records stand by the day of ', name, '; those without a day stand at the end.'],
  sortedByFirst: (name) => ['The records stand by the first day of ', name, ', or the last one where that is open; those ' +
    'without a day stand at the end.'],
  sheetJoined: (n) => `The sheet with its dates, ${WORDS.first(n)}`,
  sheetBack: (n) => `The sheet as it comes back, ${WORDS.first(n)}`,
  why: 'refused because',
  record: 'Record',
  columnName: 'Column',
  written: 'As written',
  splitSheet: 'Split it, each part with the line of the names.',
  wholeSheet: (rows, refused) => [`${WORDS.rows(rows)}. `,
    refused.map(([name, n, empty, spans = 0], i) =>
      [i === 0 ? '' : '; ', name, ': ', WORDS.refused(n), WORDS.empty(empty), WORDS.notDays(spans)]), '.'],
  refusedDates: (n, all) =>
    (n < all ? `The first ${n} refused dates` : n === 1 ? 'The refused date' : `The ${n} refused dates`),
  makeRegister: (name) => ['Make the register of ', name],
  makingRegister: (name) => ['The register of ', name, ' is being made'],
  saveRegister: (name, size) => ['Save the register, ', own(name), `, ${size}`],
  sheetFaults: {
    2: 'a name that was given a meaning cannot stand in a list of names',
    3: 'these choices cannot be taken together',
    4: 'no line is left for the names of the columns: let fewer stand above them',
  },
  sheetSuffix: '.dates.csv',
  registerSuffix: '.register.csv',
};
