// The names that the patterns of a list make, as check/name_forms.csv, each with what it means and in which calendars.
//
// In a pattern (a|b|) is one of these, or nothing; {P} what the pattern makes that means `part` and stands in for P, and
// {1-31} a number in digits. What means a number is the sum of those behind its words, as in twenty<20>-one<1>; and <x100>
// takes what stands before it a hundred times.
"use strict";
const { readFileSync } = require("fs");
const { join } = require("path");

const NOTHING = { text: "", times: 1, add: 0 };
const joined = (one, other) =>
  ({ text: one.text + other.text, times: one.times * other.times, add: one.add * other.times + other.add });
const products = (all, others) => all.flatMap(one => others.map(other => joined(one, other)));
const digits = (first, last) =>
  Array.from({ length: last - first + 1 }, (_, i) => ({ text: String(first + i), times: 1, add: first + i }));

// What stands at a place of a pattern that is no group: a part, digits, a number, or letters.
const ITEM = /\{(?<first>[0-9]+)-(?<last>[0-9]+)\}|\{(?<part>[^}]+)\}|<x(?<times>[0-9]+)>|<(?<add>[0-9]+)>|(?<text>[^(|){}<>]+)/y;

// All that a pattern makes, by the parts before it.
function madeBy(pattern, parts) {
  let at = 0;
  const item = () => {
    if (pattern[at] === "(") {
      at += 1;
      const made = ways();
      if (pattern[at] !== ")") throw new Error(`no end of a group: ${pattern}`);
      at += 1;
      return made;
    }
    ITEM.lastIndex = at;
    const found = ITEM.exec(pattern), { first, last, part, times, add, text } = (found || { groups: {} }).groups;
    if (!found || part && !parts.has(part)) throw new Error(`no pattern: ${pattern.slice(at)}`);
    at = ITEM.lastIndex;
    if (first) return digits(Number(first), Number(last));
    return part ? parts.get(part) : [{ ...NOTHING, ...(text ? { text } : times ? { times: Number(times) } : { add: Number(add) }) }];
  };
  const sequence = () => {
    let made = [NOTHING];
    while (at < pattern.length && !"|)".includes(pattern[at])) made = products(made, item());
    return made;
  };
  const ways = () => {
    const made = sequence();
    while (pattern[at] === "|") {
      at += 1;
      made.push(...sequence());
    }
    return made;
  };
  const made = ways();
  if (at < pattern.length) throw new Error(`no pattern: ${pattern.slice(at)}`);
  return made;
}

// The rows that lines of patterns make: names, what they mean, and where.
function formsOf(lines) {
  const parts = new Map();
  return lines.flatMap(line => {
    const [pattern, means, where] = line.split(","), made = madeBy(pattern, parts);
    if (means === "part") parts.set(where, made);
    return means === "part" ? [] : made.map(({ text, add }) => [text, means === "number" ? String(add) : means, where]);
  });
}

const namesMade = list => formsOf(readFileSync(join(__dirname, list), "utf8").trimEnd().split("\n").slice(1));

module.exports = { formsOf, namesMade };
