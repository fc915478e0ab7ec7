#!/usr/bin/env node
// Makes family trees, the same each time, for the trials: page/trees.cjs VERSION PERSONS writes one in GEDCOM 5.5.1 or 7.0.
// Each has dates in all four calendars, dual years, ranges, phrases, years alone, and lines that CONC and CONT continue.
'use strict';
const MONTHS = {
  gregorian: 'JAN FEB MAR APR MAY JUN JUL AUG SEP OCT NOV DEC', julian: 'JAN FEB MAR APR MAY JUN JUL AUG SEP OCT NOV DEC',
  hebrew: 'TSH CSH KSL TVT SHV NSN IYR SVN TMZ AAV ELL',
  republican: 'VEND BRUM FRIM NIVO PLUV VENT GERM FLOR PRAI MESS THER FRUC',
};
const MARKS = {
  '5.5.1': { gregorian: '@#DGREGORIAN@ ', julian: '@#DJULIAN@ ', hebrew: '@#DHEBREW@ ', republican: '@#DFRENCH R@ ' },
  '7.0': { gregorian: 'GREGORIAN ', julian: 'JULIAN ', hebrew: 'HEBREW ', republican: 'FRENCH_R ' },
};
const YEARS = { gregorian: [1700, 300], julian: [1500, 400], hebrew: [5400, 300], republican: [2, 11] };
const CALENDARS = Object.keys(MARKS['7.0']);
const NAMES = ['Käthe /Böhm/', 'John /O"Hara, jr./', 'Ø /ß/', '', 'Anna Maria /von der Au/'];
const PLACES = ['Riga', 'Bonn, Rhein, NRW', '', 'Łódź; "Lodz"'];

// Numbers that look like chance, the same each time.
function chance() {
  let state = 7;
  return (most) => {
    state = (Math.imul(state, 1103515245) + 12345) >>> 0;
    return Math.floor(state / 65536) % most;
  };
}

// A date: its calendar, its text, and whether it is a day alone.
function dateOf(next, version) {
  const calendar = CALENDARS[next(4)], months = MONTHS[calendar].split(' '), [first, count] = YEARS[calendar];
  const day = () => `${1 + next(28)} ${months[next(months.length)]} ${first + next(count)}`;
  const year = first + next(count), plain = (text) => ({ calendar: 'gregorian', text, isDay: false });
  switch (next(12)) {
    case 0: return { calendar, text: String(year), isDay: false };
    case 1: return { calendar, text: `${months[next(months.length)]} ${year}`, isDay: false };
    case 2: return plain(`ABT ${1700 + next(99)}`);
    case 3: return plain(`BET ${1 + next(28)} JAN 1700 AND ${1 + next(28)} FEB 1701`);
    case 4: return plain(`FROM ${1700 + next(9)} TO ${1710 + next(9)}`);
    case 5: return version === '7.0' ? plain('') : plain('(about "Easter", 1712)');
    case 6: return { calendar: 'julian', text: `${1 + next(28)} FEB 1699/00`, isDay: false };
    default: return { calendar, text: day(), isDay: true };
  }
}

/** A tree: its text, and for each line DATE what the page has of it and whether it is a day. */
function treeOf(version, persons) {
  const next = chance(), lines = [], rows = [], days = [], end = version === '5.5.1' ? '\r\n' : '\n';
  const of = (list) => list[next(list.length)], mark = (calendar) => MARKS[version][calendar];
  const dated = (level, { calendar, text, isDay }, row) => {
    const isBare = calendar === 'gregorian' && (text === '' || !isDay || next(2) === 0);
    lines.push(`${level} DATE ${isBare ? '' : mark(calendar)}${text}`.trimEnd());
    if (version === '7.0' && next(3) === 0) lines.push(`${level + 1} PHRASE DATE ${text} as it stands`);
    rows.push([...row, calendar, text]);
    days.push(isDay);
  };
  const event = (id, names, tag, type) => {
    const place = of(PLACES), isBefore = next(2) === 0;
    lines.push(`1 ${tag}`);
    if (type) lines.push(`2 TYPE ${type}`);
    if (place && isBefore) lines.push(`2 PLAC ${place}`);
    dated(2, dateOf(next, version), [id, ...names, tag, '', type, place]);
    if (place && !isBefore) lines.push(`2 PLAC ${place}`, '3 MAP', '4 LATI N50');
  };
  lines.push('0 HEAD', '1 GEDC', `2 VERS ${version}`, ...(version === '5.5.1' ? ['1 CHAR UTF-8'] : []));
  dated(1, { calendar: 'gregorian', text: '28 NOV 2026', isDay: true }, ['', '', '', '', '', '', '']);
  const names = [...Array(persons)].map(() => of(NAMES));
  for (const [i, name] of names.entries()) {
    const id = `@I${i + 1}@`, own = [name, ''];
    lines.push(`0 ${id} INDI`, ...(name ? [`1 NAME ${name}`] : []));
    event(id, own, 'BIRT', '');
    if (next(3) === 0) event(id, own, 'EVEN', of(['Umzug', '"moved", twice']));
    if (next(3) === 0) lines.push('1 NOTE A long li', '2 CONC ne', '2 CONT DATE 1 JAN 1700', '2 CONT', '2 CONC 1 DATE 2');
    if (next(4) === 0) {
      lines.push('1 DEAT Y', '2 SOUR @S1@', '3 DATA');
      dated(4, dateOf(next, version), [id, ...own, 'DEAT', 'DATA', '', '']);
      lines.push('4 TEXT 1 DATE 3');
    } else event(id, own, 'DEAT', '');
  }
  for (let i = 0; i + 1 < persons; i += 2) {
    const id = `@F${i / 2 + 1}@`;
    lines.push(`0 ${id} FAM`);
    if (next(5)) lines.push(`1 HUSB @I${i + 1}@`, `1 WIFE @I${i + 2}@`);
    const isKnown = lines[lines.length - 1].startsWith('1 WIFE');
    event(id, isKnown ? [names[i], names[i + 1]] : ['', ''], 'MARR', '');
  }
  lines.push('0 @S1@ SOUR', '0 TRLR', '');
  return { text: lines.join(end), rows, days };
}

module.exports = { treeOf };
if (require.main === module) process.stdout.write(treeOf(process.argv[2], Number(process.argv[3])).text);
