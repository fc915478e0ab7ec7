// The calendars in which a record's date can be, and the columns that a table can have, as the module numbers them. All
// are those of the product's own list.

import { FACTS } from './unbuilt.mjs';

export const CALENDARS = FACTS.calendars.map(({ name }) => name);
export const TARGETS = FACTS.targets.all;
// Those of a table for which none were chosen.
export const DEFAULT_TARGETS = FACTS.targets.default;
// What a table has beside them: what stands in a record, and what every row has.
export const NO_TARGETS = FACTS.sealed.columns.filter((name) => !TARGETS.includes(name));
const OF_RECORD = ['row', ...FACTS.sealed.header];
// What can be put behind the columns of a sheet, last the Sunday or feast of a day; the refusal always is.
export const BESIDE = [
  ...NO_TARGETS.filter((name) => !OF_RECORD.includes(name) && name !== 'refusal'), ...TARGETS, 'church',
];
