// All words of the page in German, with the entries of words.mjs, which says how they are built. What a table has stays as
// it is: the names of columns and weekdays in it.

import { FACTS } from './unbuilt.mjs';

// A text of a user's own.
const own = (text) => ({ own: text });

const { id, calendar, date, note } = FACTS.limits;
const JULIAN_MONTHS = 'Januar Februar März April Mai Juni Juli August September Oktober November Dezember'.split(' ');
const FRENCH_MONTHS = ['Vendémiaire', 'Brumaire', 'Frimaire', 'Nivôse', 'Pluviôse', 'Ventôse', 'Germinal', 'Floréal',
  'Prairial', 'Messidor', 'Thermidor', 'Fructidor', 'Ergänzungstag'];

const SHORT_CAUSES = {
  1: 'der Speicher reicht nicht',
  2: 'ein Arbeitsgang (Thread) konnte nicht gestartet werden',
  3: 'nicht jede Zeile konnte bestätigt werden',
  4: 'die Tabelle konnte nicht geschrieben werden',
  5: 'das Register konnte nicht gelesen werden',
  6: 'die Kopfzeile fehlt oder ist falsch',
  7: 'es sind mehr als 1.000.000 Einträge',
  8: 'das Siegel fehlt oder ist falsch',
};
const MORE_OF_CAUSES = {
  4: ', etwa weil ein Datenträger voll ist',
  6: ': nicht `id,calendar,date` (in einem versiegelten Register `id,calendar,date,note`), sondern andere Namen oder ' +
    'eine andere Reihenfolge, mehr Spalten, ein anderes Trennzeichen, UTF-16 oder eine Titelzeile',
  8: ': keine Zeile `END,N` mit dem eigenen Trennzeichen, oder nur eine wie `END,N,,` aus einer Tabellenkalkulation; ' +
    'oder die erste hat eine andere Zahl, als es Einträge sind, oder ist nicht die letzte Zeile',
};

export const WORDS = {
  language: 'Deutsch',
  languages: 'Sprache',
  title: 'register: historische Datumsangaben von Kalender zu Kalender',
  name: 'register',
  about: 'Rechnet historische Datumsangaben von Kalender zu Kalender um: eine einzelne oder ein ganzes Register, also ' +
    'eine Tabelle mit Kennung, Kalender und Datum in jeder Zeile. Nichts davon verlässt diesen Rechner.',
  noScript: 'Diese Seite braucht JavaScript und WebAssembly, die hier abgeschaltet sind.',
  noModule: 'Die Umrechnung ließ sich in diesem Browser nicht starten:',
  parts: 'Teile dieser Seite',

  // ---- What is proved ----
  proved: 'Was bewiesen ist',
  provedShort: 'Die Tabellen sind bewiesen, nicht aber, dass eine Einstellung passt: was genau, steht hier.',
  provedOfRegisters: 'Das Programm in dieser Seite wurde bewiesen, bevor sie entstand. Die Tabelle eines ' +
    'Registers hat für jeden Eintrag eine Zeile, in derselben Reihenfolge, mit dem Tag, den sein Kalender ergibt, oder mit dem ' +
    'Grund, warum es keinen gibt; und sie hat genau diese Bytes.',
  provedOfSheets: 'Auch die Tabelle eines Tabellenblatts ist bewiesen, von Ihren Einstellungen und der Namensliste bis zu ' +
    'ihren Bytes: Jeder Eintrag behält seine Felder, seine Datumsangaben werden nach den Regeln gelesen, und dahinter ' +
    'stehen ihre Tage oder der Grund, warum es keinen gibt.',
  trusted: 'Nicht bewiesen ist, worauf sich die Seite verlässt: was aus dem bewiesenen Programm eines für Browser macht (der ' +
    'Übersetzer für ein anderes Ziel, der Binder und die Umformung), der Speicher, den es bekommt, der Browser und das ' +
    'Skript dieser Seite, das Dateien liest, anzeigt und speichert.',
  notProved: 'Niemand kann beweisen, dass die Einstellungen zu einem Tabellenblatt passen, dass ein Name bedeutet, was die Namensliste ' +
    'sagt, oder dass ein Datum richtig abgeschrieben wurde. Sehen Sie sich darum vor dem Umrechnen an, was die Seite ' +
    'zeigt.',

  // ---- One date ----
  oneDate: 'Ein Datum',
  calendar: 'Kalender',
  date: 'Datum',
  waits: 'Geben Sie ein Datum ein, und hier steht sein Tag in allen Kalendern.',
  weekdays: {
    Sunday: 'Sonntag', Monday: 'Montag', Tuesday: 'Dienstag', Wednesday: 'Mittwoch', Thursday: 'Donnerstag',
    Friday: 'Freitag', Saturday: 'Samstag',
  },
  isDay: (weekday, number, read = '', marks = []) =>
    `${WORDS.weekdays[weekday]}, Tagesnummer ${number}${WORDS.marked(marks)}${WORDS.readAs(read)}`,
  isSpan: (days, first, last, edtf = '', marks = [], read = '') => {
    const from = first === '' ? 'Kein erster Tag' : `Erste Tagesnummer ${first}`;
    const to = last === '' ? 'kein letzter Tag' : `letzte Tagesnummer ${last}`;
    const both = days ? `${WORDS.number(days)} Tage, Tagesnummern ${first} bis ${last}` : `${from}, ${to}`;
    return `${both}${WORDS.marked(marks)}${edtf && `; EDTF \`${edtf}\``}${WORDS.readAs(read)}`;
  },
  marked: (marks) => marks.map((mark) => `; ${WORDS.spanMarks[mark]}`).join(''),
  spanMarks: {
    about: 'ungefähr dann', uncertain: 'unsicher', between: 'ein Tag dazwischen', before: 'irgendwann davor',
    after: 'irgendwann danach', from: 'von da an', to: 'bis dahin', inferred: 'teilweise ergänzt, in Klammern',
    undated: 'es ist kein Datum bekannt',
  },
  noEnds: ['kein erster Tag', 'kein letzter Tag'],
  church: 'Sonntag oder Fest',
  isNoDay: (reason, read = '') => `Kein Tag: ${reason}${WORDS.readAs(read)}.`,
  readAs: (read) => (read === '' ? '' : `; gelesen als \`${read}\``),
  dateInWords: 'Auch Datumsangaben in Worten werden gelesen, und Zahlen mit dem Tag zuerst: `30. November 1699`, ' +
    '`30.11.1699`, `15 Ventôse an VI`; Feste, `Dom. Oculi 1699`; Monate, Jahre und Zeiträume, `Mai 1806`, `1750-1755`.',
  unknownInDate: (word) => `„${word}“ ist in einem solchen Datum unbekannt`,
  isNoNumber: (word) => `„${word}“ ist keine Zahl`,
  dateStops: {
    noCalendar: () => 'kein Kalender',
    character: () => 'darin steht ein Zeichen, das kein Datum hat',
    minus: () => 'ein Strich vor einer Zahl kann ein Minus sein',
    otherWeekday: (date, weekday) =>
      (weekday === undefined ? `es nennt ${date}, das es in seinem Kalender nicht gibt` : `${date} war ein ${weekday}`),
    noDay: () => 'der Tag fehlt',
    noYear: () => 'das Jahr fehlt',
    noSuchYear: () => 'ein solches Jahr hatte die Republik nicht',
    noDate: () => WORDS.refusals[4],
    yearLast: () => 'die letzte Zahl ist das Jahr',
  },
  keptDates: (counts) => `Unverändert bleiben Datumsangaben: ${counts.join('; ')}.`,
  keptByNames: (n) => (n === 1 ? '1 mit einem unbekannten Namen' : `${n} mit unbekannten Namen`),
  keptFor: {
    noCalendar: (n) => `${n} ohne Kalender`,
    character: (n) => `${n} mit einem Zeichen, das kein Datum hat`,
    minus: (n) => `${n} mit einem Strich vor einer Zahl, der ein Minus sein kann`,
    otherWeekday: (n) => `${n} mit einem anderen Wochentag`,
    noDay: (n) => `${n} ohne Tag`,
    noYear: (n) => `${n} ohne Jahr`,
    noSuchYear: (n) => `${n} mit einem Jahr, das die Republik nicht hatte`,
    noDate: (n) => (n === 1 ? '1, das es in seinem Kalender nicht gibt' : `${n}, die es in ihren Kalendern nicht gibt`),
    yearLast: (n) => `${n} mit dem Jahr als letzter Zahl: wählen Sie eine andere Reihenfolge der Zahlen`,
  },
  isTooLong: `das Datum hat über ${date} Byte`,
  noCell: 'vor seinem ersten Tag',
  calendars: {
    gregorian: 'Gregorianisch', iso: 'ISO-Woche', julian: 'Julianisch', coptic: 'Koptisch', ethiopic: 'Äthiopisch',
    egyptian: 'Ägyptisch', armenian: 'Armenisch', islamic: 'Islamisch', hebrew: 'Hebräisch',
    longcount: 'Lange Zählung der Maya', french: 'Französisch, nach der Rechnung', roman: 'Römisch',
    republican: 'Französischer Revolutionskalender', haab: 'Haab', tzolkin: 'Tzolkin',
  },
  months: {
    gregorian: JULIAN_MONTHS, julian: JULIAN_MONTHS, french: FRENCH_MONTHS, republican: FRENCH_MONTHS,
    coptic: ['Thot', 'Paopi', 'Hathor', 'Choiak', 'Tobi', 'Meschir', 'Paremhat', 'Parmouti', 'Paschons', 'Paoni', 'Epip',
      'Mesori', 'Nasie'],
    ethiopic: ['Meskerem', 'Tekemt', 'Hedar', 'Tachsas', 'Ter', 'Yekatit', 'Megabit', 'Miazia', 'Genbot', 'Sene', 'Hamle',
      'Nehasse', 'Pagumen'],
    islamic: ['Muharram', 'Safar', 'Rabi al-awwal', 'Rabi ath-thani', 'Dschumada al-ula', 'Dschumada th-thaniya', 'Radschab',
      'Schaban', 'Ramadan', 'Schawwal', 'Dhu l-Qada', 'Dhu l-hiddscha'],
    hebrew: ['Nisan', 'Ijjar', 'Siwan', 'Tammus', 'Aw', 'Elul', 'Tischri', 'Marcheschwan', 'Kislew', 'Tewet', 'Schewat',
      'Adar (im Schaltjahr Adar I)', 'Adar II'],
  },
  adar: (isLeap) => (isLeap ? 'Adar I' : 'Adar'),
  inWords: (calendar, date, isLeap = false) => {
    const [, year, month, day] = /^(\d+)-(\d+)-(\d+)$/.exec(date) || [];
    const names = WORDS.months[calendar], isAdar = calendar === 'hebrew' && Number(month) === 12;
    const name = isAdar ? WORDS.adar(isLeap) : names && names[Number(month) - 1];
    return names && Number(year) > 0 ? `${Number(day)}. ${name} ${Number(year)}` : '';
  },
  forms: {
    gregorian: 'Jahr, Monat, Tag: `1699-11-30`. Das Jahr 0 ist 1 v. Chr.',
    iso: 'Jahr, Woche, Wochentag ab 1 für Montag: `1945-W46-1`.',
    julian: 'Jahr, Monat, Tag: `1699-11-30`. Jedes Jahr beginnt am 1. Januar; `-44-3-15` liegt in 44 v. Chr., und ' +
      'ein Jahr 0 gibt es nicht.',
    coptic: 'Jahr der Märtyrer, Monat, Tag: `1661-3-3`.',
    ethiopic: 'Jahr, Monat, Tag: `1938-3-3`.',
    egyptian: 'Jahr, Monat, Tag: `2694-7-10`.',
    armenian: 'Jahr, Monat, Tag: `1395-4-5`.',
    islamic: 'Jahr, Monat, Tag: `1364-12-6`. Monate: 1 Muharram, 2 Safar, 3 Rabi al-awwal, 4 Rabi ath-thani, ' +
      '5 Dschumada al-ula, 6 Dschumada th-thaniya, 7 Radschab, 8 Schaban, 9 Ramadan, 10 Schawwal, 11 Dhu l-Qada, ' +
      '12 Dhu l-hiddscha. Nach der Rechnung: Ein beobachteter Mond kann um ein bis zwei Tage abweichen.',
    hebrew: 'Jahr, Monat, Tag: `5706-9-7`. Monate: 1 Nisan, 2 Ijjar, 3 Siwan, 4 Tammus, 5 Aw, 6 Elul, 7 Tischri, 8 ' +
      'Marcheschwan, 9 Kislew, 10 Tewet, 11 Schewat, 12 Adar; im Schaltjahr 12 Adar I, 13 Adar II. Das Jahr beginnt ' +
      'mit dem Monat 7.',
    longcount: 'Baktun, Katun, Tun, Uinal, Kin: `12.16.11.16.9`.',
    french: 'Jahr, Monat, Tag: `8-2-18`, nach der Rechnung des Buches. Für ein Datum der Zeit wählen Sie den ' +
      'Revolutionskalender: Hier kommen Tage der Jahre 4, 8 und 12 einen Tag zu früh heraus, da diese die ' +
      'Schaltjahre sind, und die der Zeit waren 3, 7 und 11.',
    republican: 'Jahr, Monat, Tag: `8-2-18`. Monate: 1 Vendémiaire, 2 Brumaire, 3 Frimaire, 4 Nivôse, 5 Pluviôse, 6 ' +
      'Ventôse, 7 Germinal, 8 Floréal, 9 Prairial, 10 Messidor, 11 Thermidor, 12 Fructidor, 13 die Ergänzungstage. ' +
      'Wie er gebraucht wurde, bis zum 10. Nivôse XIV; spätere Tage gehen mit jedem vierten Jahr weiter.',
    roman: 'Jahr und Monat der Kalenden (K), Nonen (N) oder Iden (I) und die Tage bis dahin, diesen mitgezählt: ' +
      '`1945-11-K3` ist der 30. Oktober. `1944-3-K6B` ist der 25. Februar eines Schaltjahres. Beide sind julianisch.',
  },

  // ---- Files ----
  files: 'Dateien',
  filesAre: 'Tabellen (CSV, .xlsx, .ods), Stammbäume (GEDCOM), Register, Einstellungen: Die Seite sieht nach, was jede ist.',
  chooseFiles: 'Dateien auswählen',
  dropFiles: 'Wählen Sie beliebig viele aus, oder ziehen Sie sie auf diese Seite.',
  pasteCells: 'Oder Zellen einer Tabellenkalkulation',
  pasteCellsIs: 'Kopieren Sie sie mitsamt den Spaltennamen, und fügen Sie sie hier ein.',
  pasted: 'eingefuegt.csv',
  takenFor: (name) => [name, ' gilt als'],
  isRegister: (sealed, between) => `${sealed ? 'ein versiegeltes Register' : 'ein Register'}, zwischen den Feldern ${between}`,
  isSheet: (line) => (line === '' ? 'ein Tabellenblatt' : ['ein Tabellenblatt, das mit „', own(line), '“ beginnt']),
  isWorkbook: 'eine Arbeitsmappe',
  isKind: { register: 'ein Register', sheet: 'ein Tabellenblatt', tree: 'ein Stammbaum',
    nothing: 'nichts: sie wird ausgelassen', choices: 'Einstellungen für ein Tabellenblatt' },
  countOf: {
    register: (n) => `${WORDS.number(n)} Register`,
    sheet: (n) => (n === 1 ? '1 Tabellenblatt' : `${WORDS.number(n)} Tabellenblätter`),
    tree: (n) => (n === 1 ? '1 Stammbaum' : `${WORDS.number(n)} Stammbäume`),
    nothing: (n) => `${WORDS.number(n)} ausgelassen`,
    choices: (n) => (n === 1 ? '1 Datei mit Einstellungen' : `${WORDS.number(n)} Dateien mit Einstellungen`),
    others: (n) => `${WORDS.number(n)} nicht verwendbar`,
  },
  workAt: 'Daran arbeiten',
  takeOff: 'Von der Liste nehmen',
  startAnew: 'Neu beginnen',
  questions: {
    anew: () => ({ asks: 'Es gibt Tabellen, die nicht gespeichert sind. Trotzdem neu beginnen?',
      yes: 'Verwerfen und neu beginnen', no: 'Damit weiterarbeiten' }),
    replace: (names) => ({
      asks: [names.length === 1 ? 'Eine Datei dieses Namens ist schon da, und ihre Tabelle ist nicht gespeichert: '
        : 'Dateien dieser Namen sind schon da, und ihre Tabellen sind nicht gespeichert: ', own(names.join(', ')), '.'],
      yes: names.length === 1 ? 'Die neue Datei an ihre Stelle setzen' : 'Die neuen Dateien an ihre Stelle setzen',
      no: 'Alles lassen, wie es ist' }),
  },
  takeSheets: (n) => (n === 1 ? 'Auch das Tabellenblatt als Register behandeln'
    : `Auch die ${WORDS.number(n)} Tabellenblätter als Register behandeln`),
  looking: 'Die Dateien werden geprüft.',

  // ---- Registers ----
  register: 'Register',
  registerIs: 'Ein Register hat die Kopfzeile `id,calendar,date` und in jedem weiteren Eintrag eine Kennung, den Namen eines ' +
    'Kalenders und ein Datum. Eines mit der Kopfzeile `id,calendar,date,note` ist versiegelt: es endet mit der Zeile `END,N` ' +
    'für seine N Einträge, und eines, das ganze Einträge verlor, bricht ab; nur eines, das in einem Eintrag mit der Kennung ' +
    '`END` abgeschnitten wurde, kann vollständig aussehen.',
  delimiter: 'Zwischen zwei Feldern steht',
  comma: 'ein Komma',
  semicolon: 'ein Strichpunkt',
  tab: 'ein Tabulator',
  delimiters: { 44: 'Kommas', 59: 'Strichpunkte', 9: 'Tabulatoren' },
  columns: 'Spalten der Tabelle',
  columnsIs: 'Sie erscheinen in der Reihenfolge, in der Sie sie ankreuzen.',
  all: 'Alle',
  none: 'Keine',
  order: (names) => `In dieser Reihenfolge: ${names.join(', ')}.`,
  noColumns: 'Keine Spalten außer Tagesnummer und Wochentag.',
  convert: 'Umrechnen',
  stop: 'Anhalten',
  tables: 'Tabellen',
  listCaption: (n, all) => (n === all ? `${WORDS.number(n)} Register` : `${WORDS.number(n)} Register unter ${WORDS.number(all)} Dateien`),
  leftOut: (words) => ['Ausgelassen: ', words],
  listHeads: { name: 'Register', form: 'Art', rows: 'Zeilen', refused: 'Abgelehnt', state: 'Stand', table: 'Tabelle' },
  formOf: (between, isSealed) => (isSealed ? `${between}, versiegelt` : between),
  isWhole: 'vollständig',
  beginsWith: (line) => (line === '' ? 'Die erste Zeile ist leer.' : ['Die erste Zeile ist „', own(line), '“.']),
  saveShort: (size) => `Speichern, ${size}`,
  savePartShort: (size) => `Teil speichern, ${size}`,
  isSaved: 'gespeichert',
  repeat: 'Noch einmal umrechnen',
  repeatLabel: (name) => ['Noch einmal umrechnen: ', own(name)],
  chooseAgain: 'Neu wählen',
  chooseAgainLabel: (name) => ['Neu wählen: ', own(name)],
  makeArchive: (whole, all) => `In ein Archiv packen: ${WORDS.ofAllTables(whole, all)}`,
  makingArchive: 'Das Archiv wird erstellt',
  saveArchive: (whole, all, size) => `Archiv speichern: ${WORDS.ofAllTables(whole, all)}, ${size}`,
  ofAllTables: (whole, all) => {
    if (whole === all) return `${WORDS.number(all)} Tabellen, alle vollständig`;
    return whole === 1 ? `die eine vollständige von ${WORDS.number(all)}`
      : `die ${WORDS.number(whole)} vollständigen von ${WORDS.number(all)}`;
  },
  archiveName: (whole, all) => (whole < all ? `tabellen-${whole}-von-${all}.zip` : `tabellen-alle-${all}.zip`),
  archiveSays: (whole, all) => (whole === all ? `${all} vollstaendige Tabellen` : `die ${whole} vollstaendigen Tabellen von ${all}`),
  archiveTooLarge: 'die Tabellen sind zu groß für ein Archiv; speichern Sie jede einzeln',
  chosen: (name, size) => [own(name), `, ${size}`],
  folders: (names) => ['Ordner werden nicht angenommen: ', own(names.join(', ')), '. Öffnen Sie den Ordner, und wählen Sie ' +
    'seine Dateien aus.'],
  stopFirst: 'Es wird gerade umgerechnet: Halten Sie das zuerst an.',
  bytes: (n) => {
    const units = [{ unit: 1, name: 'Byte' }, { unit: 1e3, name: 'KB' }, { unit: 1e6, name: 'MB' },
      { unit: 1e9, name: 'GB' }];
    const { unit, name } = units.filter((it) => n >= it.unit).pop() || units[0], count = n / unit;
    return `${count < 10 && unit > 1 ? count.toFixed(1).replace('.', ',').replace(',0', '') : Math.round(count)} ${name}`;
  },
  number: (n) => n.toLocaleString('de'),
  progress: 'Fortschritt',
  converting: (done, all, seconds) => `${done} von ${all} umgerechnet, nach ${seconds} s.`,
  waiting: 'Wartet, bis es an der Reihe ist.',
  notYet: 'Noch nicht umgerechnet.',
  running: (seconds) => `Wird umgerechnet, bisher ${seconds} s.`,
  stopped: 'Angehalten.',
  stoppedAfter: (done) => `Angehalten. ${done === 0 ? 'Nichts wurde umgerechnet.' : `${done} vorher umgerechnet.`}`,
  endedOne: (name, words) => [own(name), ': ', words],
  ended: (whole, broken, waits, left) => {
    const of = left ? ` von ${whole + broken + waits + left} Dateien` : '';
    return [(whole || of) && `${whole}${of} vollständig umgerechnet`, broken && `${broken} abgebrochen`,
      waits && `${waits} noch nicht umgerechnet`, left && `${left} ausgelassen`].filter(Boolean).join(', ') + '.';
  },
  rows: (n) => (n === 1 ? '1 Zeile' : `${WORDS.number(n)} Zeilen`),
  refused: (n) => (n === 0 ? 'keine abgelehnt' : `${WORDS.number(n)} abgelehnt`),
  empty: (n) => (n ? `, ${WORDS.number(n)} leer` : ''),
  notDays: (n) => (n ? `, ${WORDS.number(n)} ${n === 1 ? 'ist' : 'sind'} kein einzelner Tag` : ''),
  refusedShort: (refused, empty) => WORDS.number(refused) + WORDS.empty(empty),
  whole: (rows, refused, empty = 0, spans = 0) =>
    `${WORDS.rows(rows)}, ${WORDS.refused(refused)}${WORDS.empty(empty)}${WORDS.notDays(spans)}.`,
  counts: {
    records: {
      caption: 'Abgelehnte Einträge nach dem Grund', count: 'Einträge', reason: 'Der Eintrag ist abgelehnt, denn',
      advice: 'Was zu tun ist',
    },
    dates: {
      caption: 'Abgelehnte Datumsangaben nach dem Grund', count: 'Anzahl', reason: 'Das Datum ist abgelehnt, denn',
      advice: 'Was zu tun ist',
    },
  },
  firstRows: (n) => (n === 1 ? 'Die erste Zeile' : `Die ersten ${n} Zeilen`),
  allRows: 'Alle Zeilen',
  refusedRows: (n, all) => {
    if (n < all) return `Die ersten ${n} abgelehnten Zeilen`;
    return n === 1 ? 'Die abgelehnte Zeile' : `Die ${n} abgelehnten Zeilen`;
  },
  captionOf: (title, caption) => [own(title), ': ', caption],
  reason: (number, reason) => `${number}: ${reason}`,
  save: (name, size) => [own(name), ` speichern, ${size}`],
  tablesSaved: 'Tabellen werden in UTF-8 mit einer Marke (BOM) davor gespeichert, wie Tabellenkalkulationen es ' +
    'wollen. Hinter der Marke sind sie die des Programms `register`.',
  savePart: (name, size) => ['Den vorhandenen Teil speichern, ', own(name), `, ${size}`],
  formulas: (n, example) => [n === 1 ? 'Ein Feld ist wie eine Formel: ' : `${WORDS.number(n)} Felder sind wie Formeln, zuerst `,
    '„', own(example), '“. Eine Tabellenkalkulation, die die Tabelle öffnet, kann sie ausrechnen und etwas anderes zeigen: ' +
    'Lassen Sie sie die Spalten als Text übernehmen. Wie eine Formel ist ein Feld, das mit `=`, `+`, `-` oder `@` ' +
    'beginnt, einen Buchstaben oder eine Ziffer hat und weder eine Zahl noch ein Datum ist, wie es Register haben, noch ' +
    '`@I1@` aus einem Stammbaum.'],
  formulasShort: (n) => (n === 1 ? 'Ein Feld ist wie eine Formel' : `${WORDS.number(n)} Felder sind wie Formeln`),
  brokeOff: (cause, words) => `Abgebrochen, Ursache ${cause}: ${words}.`,
  hasNothing: 'Es gibt keine Tabelle.',
  notDone: (words) => ['Nicht umgerechnet: ', words, '.'],
  tooLarge: (most) => `die Datei hat über ${WORDS.bytes(most)}, mehr als die Seite annimmt; teilen Sie sie, oder verwenden Sie das ` +
    'Programm `register`',
  noMemory: 'der Speicher reicht nicht; schließen Sie andere Seiten oder Programme und versuchen Sie es noch einmal, ' +
    'oder teilen Sie die Datei',
  otherColumns: 'die Datei hat jetzt andere Spalten und wurde neu gelesen: Wählen Sie die Spalten noch einmal aus',
  workbook: 'die Datei ist kein Text, sondern gepackt, und hat keine Tabelle, die hier gelesen wird (.docx, .zip); ' +
    'speichern Sie ihre Tabelle als CSV UTF-8, oder kopieren Sie ihre Zellen und fügen Sie sie unter „Dateien“ ein',
  book: 'die Datei ist eine Arbeitsmappe; geben Sie sie unter „Dateien“ an, dann gilt sie als Tabellenblatt',
  xlsb: 'die Datei ist eine binäre Arbeitsmappe (.xlsb); speichern Sie sie als .xlsx, .ods oder CSV UTF-8, oder kopieren Sie ' +
    'ihre Zellen und fügen Sie sie unter „Dateien“ ein',
  locked: 'die Arbeitsmappe ist mit einem Kennwort geschützt; speichern Sie sie ohne Kennwort, oder kopieren Sie ihre Zellen ' +
    'und fügen Sie sie unter „Dateien“ ein',
  cutWorkbook: 'die Arbeitsmappe oder gepackte Datei ist abgeschnitten oder beschädigt; kopieren Sie sie noch einmal, oder ' +
    'öffnen und speichern Sie sie neu',
  oldWorkbook: 'die Datei ist eine alte oder geschützte Arbeitsmappe (.xls); speichern Sie sie als .xlsx oder .ods ohne ' +
    'Kennwort oder als CSV UTF-8, oder kopieren Sie ihre Zellen und fügen Sie sie unter „Dateien“ ein',
  rtf: 'die Datei ist ein formatierter Text (RTF); kopieren Sie die Tabelle in eine Tabellenkalkulation und speichern Sie ' +
    'sie als CSV UTF-8, oder kopieren Sie ihre Zellen und fügen Sie sie unter „Dateien“ ein',
  html: 'die Datei ist eine Webseite (HTML), auch wenn sie .xls heißt; öffnen Sie sie in einer Tabellenkalkulation und ' +
    'speichern Sie sie als CSV UTF-8, oder kopieren Sie ihre Zellen und fügen Sie sie unter „Dateien“ ein',
  xml: 'die Datei ist XML (.fods, .xml); speichern Sie ihre Tabelle als .xlsx, .ods oder CSV UTF-8, oder kopieren Sie ihre ' +
    'Zellen und fügen Sie sie unter „Dateien“ ein',
  binary: 'die Datei ist kein Text; speichern Sie ihre Tabelle als CSV UTF-8, oder kopieren Sie ihre Zellen und fügen Sie ' +
    'sie unter „Dateien“ ein',
  database: 'die Datei ist kein Text, sondern eine Datenbank (SQLite); speichern Sie ihre Tabelle als CSV UTF-8, ' +
    'oder kopieren Sie ihre Zellen und fügen Sie sie unter „Dateien“ ein',
  pdf: 'die Datei ist kein Text, sondern ein PDF; kopieren Sie ihre Tabelle in eine Tabellenkalkulation und ' +
    'speichern Sie diese als CSV UTF-8, oder kopieren Sie ihre Zellen und fügen Sie sie unter „Dateien“ ein',
  utf16: 'die Datei ist in UTF-16 geschrieben und ein Register in UTF-8; behandeln Sie sie oben als Tabellenblatt, oder ' +
    'speichern Sie sie als CSV UTF-8',
  tree: 'die Datei ist ein Stammbaum (GEDCOM); wählen Sie das oben bei der Datei',
  ansel: 'der Stammbaum ist in ANSEL geschrieben, was hier nicht gelesen wird; lassen Sie Ihr Programm ihn in UTF-8 ' +
    'speichern',
  ibmpc: 'der Stammbaum ist in IBMPC geschrieben, wo Buchstaben mit Akzenten keine sichere Bedeutung haben; lassen Sie Ihr ' +
    'Programm ihn in UTF-8 speichern',
  fault: (why) => ['auf der Seite ist ein Fehler aufgetreten (', own(why), ')'],

  // ---- The picture of a table ----
  makePicture: 'Die Einträge auf einer Zeitleiste zeigen',
  makingPicture: 'Die Zeitleiste wird gezeichnet',
  pictureOf: (name) => ['Die Einträge von ', own(name), ' auf einer Zeitleiste'],
  makePictureOfDates: (column) => ['Die Datumsangaben aus ', column, ' auf einer Zeitleiste zeigen'],
  pictureOfDates: (column, name) => ['Die Datumsangaben aus ', column, ' in ', own(name), ' auf einer Zeitleiste'],
  savePicture: 'Das Bild speichern',
  entries: (n) => (n === 1 ? '1 Eintrag' : `${WORDS.number(n)} Einträge`),
  entriesOf: (name, n, years, refused, spans = 0) => [name, ': ', WORDS.entries(n),
    n === 0 ? '' : years[0] === years[1] ? ` in ${years[0]}` : ` von ${years[0]} bis ${years[1]}`, WORDS.notDays(spans),
    refused === 0 ? '' : `; ${WORDS.refused(refused)}`, '.'],
  noCalendar: 'Kein bekannter Kalender',
  gap: (one, other) => ['Kein Eintrag zwischen ', own(one.date), ` (Zeile ${WORDS.number(one.row)}) und `, own(other.date),
    ` (Zeile ${WORDS.number(other.row)}), von ${one.year} bis ${other.year}.`],
  farEntries: (n, all) => (n < all ? `Die ersten ${n} von ${WORDS.number(all)} Einträgen, die weit von den anderen liegen`
    : n === 1 ? 'Der Eintrag, der weit von den anderen liegt' : `Die ${n} Einträge, die weit von den anderen liegen`),
  pictureHeads: { row: 'Zeile', id: 'Kennung', calendar: 'Kalender', date: 'Datum', year: 'Jahr' },
  yearsAre: 'Jahre sind gregorianisch; das Jahr 0 ist 1 v. Chr. Ein viermal so hoher Balken steht für sechzehnmal so ' +
    'viele Einträge.',
  strokesAre: 'Ein Strich unter den Balken steht für etwas, das kein einzelner Tag ist, von seinem ersten Tag bis zu ' +
    'seinem letzten; ein Pfeil für ein Ende, das offen ist oder weit von den anderen liegt.',
  gapIs: 'Eine Lücke ist länger als ein Jahr und mehr als fünfmal so lang wie der mittlere Abstand zweier Einträge; ' +
    'höchstens fünf werden gezeigt.',
  farIs: 'Weit von den anderen liegt ein Eintrag, der von den mittleren vier Fünfteln weiter entfernt ist, als diese ' +
    'lang sind, und als 50 Jahre. Er kann stimmen oder ein Schreibfehler sein.',

  // The reason of each refusal, from 1, and what to do on this page.
  refusals: [
    'der Eintrag hat nicht drei Felder; in einem versiegelten Register vier',
    `ein Feld ist zu lang: die Kennung über ${id} Byte, der Kalender über ${calendar}, das Datum über ${date} oder die ` +
      `Bemerkung über ${note}; \`é\` und ein hebräischer Buchstabe haben 2 Byte`,
    'ein Feld ist nicht in UTF-8',
    'kein Kalender heißt so',
    'das Datum ist nicht so geschrieben, wie sein Kalender es verlangt',
    'dieses Datum gibt es in seinem Kalender nicht',
    'der Tag liegt außerhalb der gregorianischen Jahre -9999 bis 9999',
  ],
  advice: [
    'Setzen Sie ein Feld mit einem Komma in Anführungszeichen; oder behandeln Sie die Datei als Tabellenblatt, und wählen ' +
      'Sie dessen Spalten aus',
    'Geben Sie kurze Kennungen, und lassen Sie Längeres im Tabellenblatt',
    'Speichern Sie das Register als CSV UTF-8; oder behandeln Sie es als Tabellenblatt, in seiner Kodierung',
    'Schreiben Sie einen der Kalender aus „Ein Datum“; ein Tabellenblatt kann jedem Namen einen Kalender geben',
    'Schreiben Sie Jahr, Monat und Tag, wie `1700-02-29`; in einem Tabellenblatt kann der Tag zuerst stehen',
    'Sehen Sie im Original nach: ein Schreibfehler oder ein Datum eines anderen Kalenders',
    'Sehen Sie im Original nach: ein Schreibfehler im Jahr',
  ],

  // What to do with dates of a sheet whose years are short.
  shortAdvice: (n) => `${n === 1 ? '1 hat ein Jahr' : `${WORDS.number(n)} haben Jahre`} mit ein oder zwei Ziffern, und „solche ` +
    'Datumsangaben weglassen“ ist gewählt: Wählen Sie anders bei „Ein- und zweistellige Jahre“',

  // What to do with a refused date of a sheet.
  sheetAdvice: [
    'Sehen Sie sich den Eintrag an: Er hat andere Felder als die übrigen',
    'Wählen Sie die Nummer des Eintrags als Kennung; kürzen Sie ein Datum oder den Namen eines Kalenders im Tabellenblatt',
    'Wählen Sie eine andere Kodierung',
    'Wählen Sie oben den Kalender dieses Namens, oder berichtigen Sie den Namen im Tabellenblatt',
    'Geben Sie oben seinen Wörtern eine Bedeutung, oder wählen Sie eine andere Reihenfolge der Zahlen; oder ' +
      'berichtigen Sie es im Tabellenblatt',
    'Sehen Sie im Original nach: ein Schreibfehler oder ein Datum eines anderen Kalenders',
    'Sehen Sie im Original nach: ein Schreibfehler im Jahr',
  ],

  // Why a register broke off, by the cause; what its table has; and what to do on this page.
  causes: Object.fromEntries(Object.entries(SHORT_CAUSES).map(
    ([number, sentence]) => [number, sentence + (MORE_OF_CAUSES[number] || '')])),
  shortCauses: SHORT_CAUSES,
  causeAdvice: {
    1: 'Schließen Sie andere Seiten oder Programme und versuchen Sie es noch einmal, oder teilen Sie das Register.',
    4: 'Die Tabelle braucht mehr Speicher, als es gibt: Wählen Sie weniger Spalten, oder teilen Sie das Register.',
    5: 'Es wurde inzwischen geändert oder verschoben, oder ist ein Ordner: Wählen Sie es noch einmal aus.',
    6: 'Hat es andere Spalten, eine Titelzeile oder eine andere Kodierung? Behandeln Sie es oben als Tabellenblatt.',
    7: 'Teilen Sie es, jeden Teil mit der Kopfzeile.',
    8: 'Vergleichen Sie es mit dem Original: Einträge können fehlen. Fehlen keine, so schreiben Sie das Siegel neu ' +
      'als letzte Zeile.',
  },
  // What was asked wrongly, which the form does not let happen.
  faults: {
    9: 'es gibt keine solche Spalte',
    10: 'eine Spalte ist zweimal genannt',
    11: 'das Trennzeichen ist kein Komma, Strichpunkt oder Tabulator',
  },

  // ---- From a sheet ----
  sheet: 'Ein Tabellenblatt',
  sheetIs: 'Eine Tabelle, wie Sie sie führen. Wählen Sie, in welchen Spalten Datumsangaben stehen, und Sie bekommen sie ' +
    'zurück, mit den gewünschten Spalten hinter den eigenen. Wie Datumsangaben in Worten gelesen werden, ist bewiesen; ob ' +
    'die Einstellungen passen, zeigt die Vorschau vor dem Umrechnen.',
  encoding: 'Kodierung',
  encodingIs: 'Sind Buchstaben mit Akzenten unten falsch? Wählen Sie eine andere.',
  above: 'Zeilen vor den Spaltennamen',
  aboveIs: 'Titelzeilen; sie bleiben, wie sie sind. Danach kommt die Zeile mit den Spaltennamen.',
  wrongAbove: (above) =>
    `Als Zeilen vor den Spaltennamen gilt eine Zahl von 0 bis 999.${above === null ? '' : ` Es bleibt bei ${above}.`}`,
  titleLines: (n) => (n === 1 ? '1 Titelzeile' : `${n} Titelzeilen`),
  change: 'ändern',
  datesBy: (names, calendar) => [...names.flatMap((name, i) => [i === 0 ? '' : i === names.length - 1 ? ' und ' : ', ', name]),
    ' nach ', calendar],
  orders: { year: 'Jahr zuerst', day: 'Tag zuerst', month: 'Monat zuerst' },
  behindThem: (columns) => (columns.length ? `dahinter ${columns.join(', ')}` : 'dahinter nur die Ablehnung'),
  moreDates: (n) => (n === 1 ? 'ist 1 Datum' : `sind ${WORDS.number(n)} Datumsangaben`),
  moreByOrder: {
    year: (n) => `Mit dem Jahr zuerst ${WORDS.moreDates(n)} mehr lesbar`,
    day: (n) => `Mit dem Tag zuerst ${WORDS.moreDates(n)} mehr lesbar`,
    month: (n) => `Mit dem Monat zuerst ${WORDS.moreDates(n)} mehr lesbar`,
  },
  onlyByOrder: { year: 'Das Jahr steht zuerst', day: 'Der Tag steht zuerst', month: 'Der Monat steht zuerst' },
  decides: ', wie hier zu sehen ist: ',
  takeOrder: { year: 'Jahr zuerst', day: 'Tag zuerst', month: 'Monat zuerst' },
  withSpans: 'auch Monate, Jahre und Zeiträume',
  moreBySpans: (n) =>
    `Als ${n === 1 ? 'Monat, Jahr oder Zeitraum' : 'Monate, Jahre oder Zeiträume'} ${WORDS.moreDates(n)} mehr lesbar`,
  takeSpans: 'Auch Monate, Jahre und Zeiträume',
  pageNamed: (name) => ['das Blatt „', own(name), '“'],
  pageOfWorkbook: 'Blatt der Arbeitsmappe',
  fileDates: 'Auch Datumsangaben der Datei selbst: aus ihrem Kopf, und wann ihre Einträge geändert wurden',
  titles: (lines) => ['Vor den Spaltennamen: ', own(lines.join(' / ')), '.'],
  aboveFound: (n) => (n === 1 ? '1 Zeile vor den Spaltennamen' : `${WORDS.number(n)} Zeilen vor den Spaltennamen`),
  aTree: 'ein Stammbaum',
  looksLike: (what) => `Vorgeschlagen: ${what.join(', ')}.`,
  encodings: {
    'utf-8': 'UTF-8',
    'windows-1252': 'Westeuropa (Windows-1252)',
    'windows-1250': 'Mitteleuropa (Windows-1250)',
    'iso-8859-2': 'Mitteleuropa (ISO 8859-2)',
    'iso-8859-15': 'Westeuropa (ISO 8859-15)',
    'macintosh': 'Westeuropa (Macintosh)',
    'utf-16le': 'UTF-16 („Unicode-Text“)',
    'utf-16be': 'UTF-16, höheres Byte zuerst',
    'windows-1251': 'Kyrillisch (Windows-1251)',
    'koi8-r': 'Kyrillisch (KOI8-R)',
    'koi8-u': 'Kyrillisch (KOI8-U)',
    'ibm866': 'Kyrillisch (DOS 866)',
    'iso-8859-5': 'Kyrillisch (ISO 8859-5)',
    'x-mac-cyrillic': 'Kyrillisch (Macintosh)',
    'windows-1253': 'Griechisch (Windows-1253)',
    'iso-8859-7': 'Griechisch (ISO 8859-7)',
    'windows-1254': 'Türkisch (Windows-1254)',
    'windows-1255': 'Hebräisch (Windows-1255)',
    'iso-8859-8': 'Hebräisch (ISO 8859-8)',
    'windows-1256': 'Arabisch (Windows-1256)',
    'iso-8859-6': 'Arabisch (ISO 8859-6)',
    'windows-1257': 'Baltisch (Windows-1257)',
    'iso-8859-4': 'Baltisch (ISO 8859-4)',
    'windows-1258': 'Vietnamesisch (Windows-1258)',
    'iso-8859-3': 'Südeuropa (ISO 8859-3)',
    'iso-8859-10': 'Nordisch (ISO 8859-10)',
    'iso-8859-13': 'Baltisch (ISO 8859-13)',
    'iso-8859-14': 'Keltisch (ISO 8859-14)',
    'iso-8859-16': 'Rumänisch (ISO 8859-16)',
    'windows-874': 'Thailändisch (Windows-874)',
    'shift_jis': 'Japanisch (Shift JIS)',
    'euc-jp': 'Japanisch (EUC-JP)',
    'gb18030': 'Chinesisch (GB 18030)',
    'big5': 'Chinesisch (Big5)',
    'euc-kr': 'Koreanisch (EUC-KR)',
  },
  notEncoded: (name) => `die Datei ist nicht in ${name} geschrieben: Wählen Sie eine andere Kodierung`,
  sheetRows: (n) => `Das Tabellenblatt, ${WORDS.first(n)}`,
  sheetHas: (n, width) => `${WORDS.records(n)} mit ${width} ${width === 1 ? 'Spalte' : 'Spalten'}.`,
  oneColumn: 'Steht ein anderes Zeichen zwischen den Feldern? Wählen Sie es oben.',
  emptySheet: 'es ist leer',
  sheetUnread: 'das Tabellenblatt konnte nicht gelesen werden',
  noNames: 'für die Spaltennamen bleibt keine Zeile: Geben Sie weniger Zeilen davor an',
  onlyFirst: (n) => `Nur die ersten ${n} Spalten können gewählt werden.`,
  three: 'Jahr, Monat und Tag in eigenen Spalten',
  threeIs: 'Wo Sie alle drei auswählen, kommt hinter die anderen eine Spalte mit ihren Daten, wie `1806-5-12`, `12 Mai 1806` ' +
    'oder `Mai 1806`.',
  yearColumn: 'Jahr',
  monthColumn: 'Monat',
  dayColumn: 'Tag',
  dates: 'Datumsspalten',
  datesIs: 'Jede mit der Spalte, in der ihre Kalender stehen, oder mit einem Kalender für alle Zeilen.',
  dateColumn: (k, all) => (all === 1 ? 'Datum' : `Datum ${k}`),
  calendarColumn: (k, all) => (all === 1 ? 'Kalender' : `Kalender ${k}`),
  addDate: 'Weitere Datumsspalte',
  removeDate: (k) => `Datum ${k} entfernen`,
  idColumn: 'Kennung',
  idIs: 'Sie steht im Register, mit höchstens 40 Byte.',
  column: (number, name) => (name === '' ? `Spalte ${number}` : own(name)),
  choose: 'Bitte wählen',
  rowNumber: 'die Nummer des Eintrags',
  ofColumn: 'Aus einer Spalte',
  ofAll: 'Einer für alle',
  dayOrder: 'Reihenfolge in Datumsangaben aus Zahlen',
  yearFirst: 'das Jahr zuerst, wie `1699-11-30` oder `1699/11/30`',
  dayFirst: 'der Tag zuerst, wie `30.11.1699` oder `30/11/1699`',
  monthFirst: 'der Monat zuerst, wie `11/30/1699`',
  dayOrderIs: 'Ein Monat mit Namen wird in jeder Reihenfolge gelesen, `30. November 1699`, `Nov. 30, 1699`, wenn das Jahr mehr als ' +
    'zwei Ziffern hat. Sonst legt diese Einstellung fest, welche Zahl das Jahr ist: bei `15 Ventôse 6` steht der Tag zuerst.',
  short: 'Ein- und zweistellige Jahre',
  shortIs: 'In gregorianischen und julianischen Datumsangaben, wie `12.5.82`.',
  shortRules: { refuse: 'solche Datumsangaben weglassen', keep: 'wie geschrieben: 82 ist das Jahr 82' },
  shortAdds: (n) => `${n} dazuzählen: 82 ist ${n + 82}`,
  spans: 'Auch Monate, Jahre und Zeiträume',
  spansIs: 'Wie `Mai 1806`, `1750-1755`, `ca. 1750`, `vor 12.5.1806`: Jede solche Angabe hat einen ersten und einen letzten ' +
    'Tag, und ebenso jede Spalte hinter dem Tabellenblatt.',
  edtf: 'Mit einem Text in EDTF (ISO 8601-2)',
  edtfIs: 'Wie `1806-05`, `1750/1755`, `1750~`, `../1806-05-11`.',
  otherYears: 'Jahre anderer Kalender und römischer Datumsangaben',
  hebrew: 'Kurze hebräische Jahre',
  hebrewIs: 'Wie `5 Tischri 507`.',
  hebrewRules: {
    refuse: 'solche Datumsangaben weglassen', keep: 'wie geschrieben: 507 ist das Jahr 507', 5000: '5000 dazuzählen: 507 ist 5507',
  },
  other: 'Kurze islamische, koptische, äthiopische und armenische Jahre',
  otherIs: 'Ein- und zweistellige, wie `12.5.82`.',
  charters: 'Das Jahr eines römischen Datums ist das seines Tages',
  chartersIs: 'Dann ist `XVI. Kal. Ian. 1499` der 17. Dezember 1499. Sonst ist sein Jahr das der Kalenden, Nonen ' +
    'oder Iden, und es liegt in 1498.',
  unknownNames: 'Unbekannte Namen von Kalendern',
  unknownNamesIs: 'Wählen Sie für jeden den Kalender; bleibt er offen, so werden seine Einträge abgelehnt.',
  unknownWords: 'Unbekannte Wörter in Datumsangaben',
  unknownWordsIs: 'Geben Sie an, was jedes bedeutet; bleibt es offen, so bleiben seine Datumsangaben, wie sie geschrieben sind.',
  records: (n) => `${WORDS.number(n)} ${n === 1 ? 'Eintrag' : 'Einträge'}`,
  datesOf: (n) => `${WORDS.number(n)} ${n === 1 ? 'Datumsangabe' : 'Datumsangaben'}`,
  unknownName: (name, n) => [own(name), n === null ? '' : `, in ${WORDS.datesOf(n)}`],
  unknownWord: (name, where, n) => [WORDS.unknownName(name, n), ` (${WORDS.calendars[where]})`],
  tooManyNames: (n) => `Weitere, in ${WORDS.datesOf(n)}, sind nicht gezeigt: Sind das die richtigen Spalten?`,
  leave: 'offen lassen',
  noCalendarThere: 'Wo kein Kalender steht',
  noCalendarThereIs: 'In Einträgen, deren Feld für den Kalender leer ist, und in Datumsspalten, deren Kalender hier steht.',
  refuseEmpty: 'nichts: diese Datumsangaben werden abgelehnt',
  asEmpty: 'wie unten gewählt: ein Wechsel des Kalenders, oder beide Stile',
  bothStyles: 'beide Stile, wie 10./22. Januar 1863',
  changes: 'Der julianische, und von einem Tag an der gregorianische',
  changeDays: {
    '1582-10-15': 'ab 15. Oktober 1582, wie in Spanien, Portugal, Italien und Polen',
    '1582-12-20': 'ab 20. Dezember 1582, wie in Frankreich',
    '1700-03-01': 'ab 1. März 1700, wie im evangelischen Deutschland und in Dänemark',
    '1752-09-14': 'ab 14. September 1752, wie in Großbritannien und seinen Kolonien',
    '1753-03-01': 'ab 1. März 1753, wie in Schweden',
    '1918-02-14': 'ab 14. Februar 1918, wie in Russland',
  },
  otherChange: 'ab einem anderen Tag',
  changedOn: (day) => `Julianisch, ab ${day} Gregorianisch`,
  changeDay: 'Der erste gregorianische Tag, wie 1583-11-22',
  changeDayOf: (name) => ['Der erste gregorianische Tag, wie 1583-11-22, für ', own(name)],
  passOver: 'nichts: übergehen',
  month: (n, name) => (name ? `Monat ${n}, ${name}` : `Monat ${n}`),
  aNumber: 'eine Zahl',
  numberOf: (name) => ['Die Zahl für ', own(name)],
  marks: { K: 'Kalenden', N: 'Nonen', I: 'Iden' },
  counting: 'Die Datumsangaben werden durchgesehen.',
  kept: (n) => `${WORDS.datesOf(n)} nicht lesbar, ${n === 1 ? 'bleibt' : 'bleiben'} wie geschrieben`,
  shortLeft: (n) => `${WORDS.datesOf(n)} mit kurzem Jahr, ${n === 1 ? 'wird' : 'werden'} weggelassen`,
  allRead: 'Alle Datumsangaben sind lesbar',
  behind: 'Spalten hinter denen des Tabellenblatts',
  behindIs: 'Sie erscheinen in der Reihenfolge, in der Sie sie ankreuzen; dahinter die Ablehnung, die leer ist, wo das Datum ' +
    'umgerechnet wurde. church ist der Sonntag oder das Fest, auf Latein, eines gregorianischen oder julianischen Tages.',
  noneBehind: 'Keine Spalten außer der Ablehnung.',
  first: (n) => (n === 1 ? 'erster Eintrag' : `erste ${n} Einträge`),
  ofEnds: { first: ' mit den ersten Tagen', last: ' mit den letzten Tagen' },
  endSuffixes: { first: '.erste', last: '.letzte' },
  registerRows: (name, n) => ['Das Register, das aus ', name, ` wird, ${WORDS.first(n)}`],
  chooseDates: 'Wählen Sie eine Datumsspalte und ihren Kalender.',
  keepChoices: 'Einstellungen speichern',
  choicesSuffix: '.einstellungen.json',
  noChoices: 'Die Datei hat keine Einstellungen, die diese Seite gespeichert hat.',
  choicesWait: 'Die Einstellungen sind da. Wählen Sie das Tabellenblatt aus, für das sie gelten.',
  filledIn: (name) => ['Die Einstellungen von ', own(name), ' sind übernommen.'],
  notFitting: (name, what) => ['Die Einstellungen von ', own(name), ' sind übernommen, außer was nicht passt: ',
    what.flatMap((it, i) => (i === 0 ? [it] : [', ', it])), '.'],
  theColumn: (name) => ['die Spalte „', own(name), '“'],
  theOther: { encoding: 'die Kodierung', delimiter: 'das Zeichen zwischen zwei Feldern' },
  sheetReading: 'Das Tabellenblatt wird gelesen.',
  sheetConverting: 'Das Tabellenblatt wird umgerechnet.',
  sheetSaved: 'Jeder Eintrag steht in seiner Zeile, in UTF-8 mit einer Marke (BOM) davor, wie Tabellenkalkulationen ' +
    'es wollen.',
  orderOfRecords: 'Reihenfolge der Einträge',
  asItStands: 'wie im Tabellenblatt',
  byDayOf: (name) => ['nach dem Tag aus ', name],
  sorting: 'Die Einträge werden sortiert.',
  sortedBy: (name) => ['Die Einträge sind nach dem Tag aus ', name, ' sortiert; die ohne Tag stehen am Ende.'],
  sortedByFirst: (name) => ['Die Einträge sind nach dem ersten Tag aus ', name, ' sortiert, oder nach dem letzten, wo dieser ' +
    'offen ist; die ohne Tag stehen am Ende.'],
  sheetJoined: (n) => `Das Tabellenblatt mit seinen Tagen, ${WORDS.first(n)}`,
  sheetBack: (n) => `Das Tabellenblatt, wie es zurückkommt, ${WORDS.first(n)}`,
  why: 'abgelehnt, denn',
  record: 'Eintrag',
  columnName: 'Spalte',
  written: 'Wie geschrieben',
  splitSheet: 'Teilen Sie es, jeden Teil mit den Spaltennamen.',
  wholeSheet: (rows, refused) => [`${WORDS.rows(rows)}. `,
    refused.map(([name, n, empty, spans = 0], i) =>
      [i === 0 ? '' : '; ', name, ': ', WORDS.refused(n), WORDS.empty(empty), WORDS.notDays(spans)]), '.'],
  refusedDates: (n, all) =>
    (n < all ? `Die ersten ${n} abgelehnten Datumsangaben` : n === 1 ? 'Das abgelehnte Datum' : `Die ${n} abgelehnten Datumsangaben`),
  makeRegister: (name) => ['Register erstellen aus ', name],
  makingRegister: (name) => ['Das Register aus ', name, ' wird erstellt'],
  saveRegister: (name, size) => ['Das Register speichern, ', own(name), `, ${size}`],
  sheetFaults: {
    2: 'ein Name, der eine Bedeutung bekam, kann nicht in einer Namensliste stehen',
    3: 'diese Einstellungen passen nicht zusammen',
    4: 'für die Spaltennamen bleibt keine Zeile: Geben Sie weniger Zeilen davor an',
  },
  sheetSuffix: '.tage.csv',
  registerSuffix: '.register.csv',
};
