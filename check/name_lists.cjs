// The names of a list, with what they mean: a text of CSV without quotes, as names.csv is.
"use strict";
const { bareOf, folded, itemsOf, partsOf } = require("./reading.cjs");

const RELATIONS = "after|before|eve|morrow|octave", SEASONS = "epiphany|lent|easter|pentecost|trinity|advent";

// What a meaning is read as: a pattern, and the item that is made of what it has in brackets.
const MEANINGS = [
  [/^$/, () => null],
  [/^month ([0-9]+)$/, month => ({ month: Number(month) })],
  [/^([0-9]+)$/, value => ({ value: Number(value), digits: 0, isNamed: true })],
  [/^([KNI])$/, mark => ({ mark })],
  [/^year$/, () => ({ yearWord: "calendar" })],
  [/^year (spanish|creation)$/, era => ({ yearWord: era })],
  [/^day$/, () => ({ dayWord: true })],
  [/^month 12-13$/, () => ({ adar: true })],
  [/^(about|from|to|between|and|undated)$/, word => ({ word })],
  [/^months ([0-9]+)-([0-9]+)$/, (first, last) => ({ months: [Number(first), Number(last)] })],
  [/^part ([1-4])\/([2-4])$/, (place, parts) => ({ part: [Number(place), Number(parts)] })],
  [/^last day$/, () => ({ lastDay: true })],
  [/^century ([01])$/, first => ({ century: Number(first) })],
  [/^decade$/, () => ({ tens: true })],
  [/^weekday ([0-6])$/, weekday => ({ weekday: Number(weekday) })],
  [/^decade ([1-9]|10)$/, decade => ({ decade: Number(decade) })],
  [new RegExp(`^(${RELATIONS})$`), relation => ({ relation })],
  [/^easter (-?[0-9]+)$/, days => ({ feast: { day: ["easter", Number(days)] } })],
  [/^feast ([0-9]+)-([0-9]+)$/, (month, day) => ({ feast: { day: [[Number(month), Number(day)], 0] } })],
  [/^feast ([0-9]+)-([0-9]+) (-?[0-9]+)$/,
    (month, day, days) => ({ feast: { day: [[Number(month), Number(day)], Number(days)] } })],
  [new RegExp(`^sunday (${SEASONS}) ([0-9]+)$`), (season, count) => ({ feast: { sunday: [season, Number(count)] } })],
  [new RegExp(`^sundays (${SEASONS})$`), season => ({ season })],
];

function itemOf(means) {
  for (const [pattern, make] of MEANINGS) {
    const found = pattern.exec(means);
    if (found) return make(...found.slice(1));
  }
  throw new Error(`no meaning: ${means}`);
}

// A list from rows of a name, what it means and in which calendars, of these calendars: its names, those that mean
// calendars, those of a calendar by their first words, and its text.
function listOf(rows, calendars) {
  const names = [], fields = [], byCalendar = new Map(calendars.map(it => [it, new Map()]));
  for (const [text, means, where] of rows) {
    if (calendars.includes(means) || means === "both") {
      fields.push({ text, calendar: means === "both" ? "gregorian" : means, isBoth: means === "both" });
      continue;
    }
    const held = new Set(where === "" ? calendars : where.split(" "));
    if ([...held].some(it => !byCalendar.has(it))) throw new Error(`no calendar: ${text},${means},${where}`);
    const name = { text, words: partsOf(text).map(folded), item: itemOf(means), calendars: held };
    names.push(name);
    for (const calendar of held) {
      const own = byCalendar.get(calendar), [first] = name.words;
      own.set(first, [...(own.get(first) || []), name]);
    }
  }
  for (const own of byCalendar.values()) own.all = byCalendar;
  return { names, fields, byCalendar, text: ["name,means,in", ...rows.map(row => row.join(","))].join("\n") };
}

const STYLES = ["gregorian", "julian"], MOST_BYTES = 64;

// What a field of a calendar means by the names of a list: the first name that it is.
const nameOf = (field, { fields }) => fields.find(it => folded(bareOf(it.text)) === folded(bareOf(field)));

// The style that an end of a text names: a blank, and a name without digits that says nothing in dates.
function styleNamed(end, list) {
  if (!/^[ \t\r\n\u00a0\u202f]/.test(end) || /[0-9]/.test(end)) return null;
  const name = nameOf(end, list);
  if (!name || name.isBoth || !STYLES.includes(name.calendar)) return null;
  const items = itemsOf(end, list.byCalendar.get(name.calendar));
  return items === null || items.length === 0 ? name.calendar : null;
}

// The date and the calendar of a text in a calendar, or in none that is known: those that it names at its end, or these.
function datedIn(text, calendar, list) {
  const asItIs = { text, calendar };
  if (calendar !== null && !STYLES.includes(calendar) || /[0-9]$/.test(text)) return asItIs;
  for (let at = 0; at < text.length; at += 1) {
    const end = text.slice(at), own = Buffer.byteLength(end) > MOST_BYTES ? null : styleNamed(end, list);
    if (own === null) continue;
    const before = bareOf(bareOf(text.slice(0, at)).replace(/,$/, ""));
    return before === "" ? asItIs : { text: before, calendar: own };
  }
  return asItIs;
}

const rowsOf = text => text.split("\n").slice(1).filter(it => it !== "").map(line => line.split(","));

module.exports = { datedIn, listOf, nameOf, rowsOf };
