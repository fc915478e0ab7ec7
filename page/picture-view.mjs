// Draws a picture of a table: its entries along one line of time, a row for each calendar.

import { button, clear, element, region, saveBlob, tableBox, textOf, withFocus } from './elements.mjs';
import { WORDS } from './language.mjs';

const SPACE = 'http://www.w3.org/2000/svg';
// What is drawn stands between names and what was refused; so high are a row, and in it the highest bar.
const LINE_AT = 200, LINE = 600, WIDTH = 960, ROW = 36, BAR = 26, MARKS = 30;
// So high is a lane, in which strokes stand below the bars for what is no single day, and what is left free above them; so
// many lanes a row can have; so long is an arrow.
const LANE = 5, FREE = 5, MOST_LANES = 6, ARROW = 5;
const FAR_COLOR = '#b3210d';

function shape(name, attributes, ...children) {
  const made = document.createElementNS(SPACE, name);
  for (const [key, value] of Object.entries(attributes)) made.setAttribute(key, String(value));
  made.append(...children);
  return made;
}

const label = (x, y, text, more = {}) => shape('text', { x, y, fill: 'currentColor', ...more }, text);
const placeOf = (day, { from, to }) => LINE_AT + LINE * (day - from) / (to - from);

// One shape of all bars of a row, each as high as the root of its count.
function bars(bins, bottom, most) {
  const width = LINE / bins.length;
  const path = bins.map((count, i) => {
    if (count === 0) return '';
    const high = Math.max(2, BAR * Math.sqrt(count / most)).toFixed(1), x = (LINE_AT + i * width).toFixed(1);
    return `M${x} ${bottom}v-${high}h${width}v${high}z`;
  });
  return shape('path', { d: path.join(''), fill: 'currentColor' });
}

// A name of the row's entries that are far from the others, on the side where they are.
function farMarks(row, bottom) {
  return [['before', LINE_AT - 6, 'end'], ['behind', LINE_AT + LINE + 6, 'start']].flatMap(([side, x, anchor]) => {
    const [first, ...others] = row.far.filter((it) => it.side === side);
    if (!first) return [];
    const years = `${first.year}${others.length ? ` +${others.length}` : ''}`;
    const text = side === 'before' ? `◀ ${years}` : `${years} ▶`;
    const mark = label(x, bottom - 4, text, { 'text-anchor': anchor, fill: FAR_COLOR, class: 'far', 'font-weight': 600 });
    return [shape('a', { href: `#${first.id}` }, mark)];
  });
}

/** Strokes in lanes, each in the first in which it has room; those that have none are one stroke in the last. */
export function lanesOf(lines) {
  const lanes = [];
  for (const line of lines) {
    const lane = lanes.find((own) => own[own.length - 1].end <= line.begin);
    if (lane) lane.push({ ...line });
    else if (lanes.length < MOST_LANES) lanes.push([{ ...line }]);
    else {
      const all = lanes[MOST_LANES - 1], last = all[all.length - 1];
      last.end = Math.max(last.end, line.end);
      last.isBefore ||= line.isBefore;
      last.isBehind ||= line.isBehind;
    }
  }
  return lanes;
}

// The strokes of a row below its bars, with an arrow at an end that is open.
function spans(lanes, bottom, parts) {
  const path = lanes.flatMap((lines, k) => lines.flatMap(({ begin, end, isBefore, isBehind }) => {
    const y = bottom + FREE + LANE * k, [x, to] = [begin, end].map((part) => LINE_AT + part * LINE / parts);
    const arrows = [[isBefore, x, ARROW], [isBehind, to, -ARROW]].filter(([isOpen]) => isOpen);
    return [`M${x} ${y - 1}H${to}v2H${x}z`, ...arrows.map(([, at, back]) => `M${at} ${y}l${back} -3v6z`)];
  }));
  return path.length === 0 ? [] : [shape('path', { d: path.join(''), fill: 'currentColor', class: 'spans' })];
}

const heightOf = ({ lanes }) => ROW + (lanes.length === 0 ? 0 : LANE * lanes.length + FREE);

function drawnRow(row, top, most) {
  const bottom = top + ROW, [before] = farMarks(row, bottom);
  const refused = label(WIDTH, bottom - 4, row.refused, { 'text-anchor': 'end', 'font-size': 13 });
  const name = label(0, bottom - (before ? 16 : 4), textOf(row.label), { 'font-size': 14 });
  const under = shape('path', { d: `M${LINE_AT} ${bottom}h${LINE}`, stroke: 'currentColor', 'stroke-opacity': 0.3 });
  const drawn = [bars(row.bins, bottom, most), ...spans(row.lanes, bottom, row.bins.length)];
  return [name, under, ...drawn, ...farMarks(row, bottom), refused];
}

/** The picture of what a report says. */
export function pictureOf(report) {
  const { marks, gaps } = report, rows = report.rows.map((row) => ({ ...row, lanes: lanesOf(row.lines) }));
  const tops = rows.map((_, i) => rows.slice(0, i).reduce((sum, row) => sum + heightOf(row), 0));
  const bottom = rows.reduce((sum, row) => sum + heightOf(row), 0), high = bottom + MARKS;
  const most = Math.max(1, ...rows.flatMap(({ bins }) => bins));
  const lines = marks.flatMap(({ day, year }) => {
    const x = placeOf(day, report);
    return [shape('path', { d: `M${x} 0V${bottom + 6}`, stroke: 'currentColor', 'stroke-opacity': 0.3 }),
      label(x, bottom + 22, String(year), { 'text-anchor': 'middle', 'font-size': 13 })];
  });
  const holes = gaps.map(({ id, from, to, words }) => {
    const [x, end] = [from, to].map((day) => placeOf(day, report));
    const hole = shape('rect',
      { x, y: 0, width: end - x, height: bottom, fill: FAR_COLOR, 'fill-opacity': 0.15, class: 'gap' });
    return shape('a', { href: `#${id}`, 'aria-label': textOf(words) }, hole);
  });
  return shape('svg', {
    xmlns: SPACE, viewBox: `0 0 ${WIDTH} ${high}`, width: WIDTH, height: high, 'font-family': 'sans-serif', 'font-size': 14,
  }, shape('title', {}, textOf(report.title)), ...lines, ...holes,
  ...rows.flatMap((row, i) => drawnRow(row, tops[i], most)));
}

// The picture as a file has it: black on white, with no links.
function savedPicture(picture) {
  const copy = picture.cloneNode(true);
  for (const link of copy.querySelectorAll('a')) link.replaceWith(...link.childNodes);
  copy.insertBefore(shape('rect', { width: '100%', height: '100%', fill: '#fff' }), copy.firstChild.nextSibling);
  return new Blob([new XMLSerializer().serializeToString(copy)], { type: 'image/svg+xml' });
}

function drawPicture(box, report) {
  const picture = pictureOf(report);
  const save = button(WORDS.savePicture, 'second', { id: `${report.id}-save` },
    () => saveBlob(savedPicture(picture), report.name));
  const lines = report.lines.map(({ id = '', words }) => element('li', words, id ? { id, tabIndex: -1 } : {}));
  box.append(element('h4', report.title), region('rows picture', report.title, picture),
    element('ul', '', {}, ...lines),
    ...report.tables.map((table) => tableBox(table, report.name)),
    ...report.hints.map((words) => element('p', words, { className: 'hint' })),
    element('p', '', { className: 'buttons' }, save));
}

/** Draws into a box the picture of a report, or a button that tells `make`; nothing for null. */
export function pictureBox(box, make) {
  let before = { picture: null, text: '' };
  return (report, picture) => {
    const text = report === null ? '' : textOf(report.title);
    if (text === before.text && picture === before.picture) return;
    before = { picture, text };
    withFocus(box, () => {
      clear(box);
      if (report === null) return;
      if (report.isMade) drawPicture(box, report);
      else box.append(button(report.title, 'second', { id: `${report.id}-save` }, make));
    });
  };
}
