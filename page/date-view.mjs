// Draws one date, and takes what is typed.

import { CALENDARS } from './calendars.mjs';
import { chosen, shown } from './date.mjs';
import { byId, element, option, setText, textOf, whenChanged } from './elements.mjs';
import { WORDS } from './language.mjs';

// What is read aloud, and what is wrong, waits until the typing rests.
const REST = 700;

const isPair = ([, , , ...more]) => more.length > 0;

// A cell of a date in a calendar: none before that begins, nor of an end that is open.
function cellPart(cell, end) {
  if (cell === null) return element('dd', WORDS.noEnds[end], { className: 'none' });
  return cell === '' ? element('dd', WORDS.noCell, { className: 'none' }) : element('dd', cell);
}

// The cells of a calendar, and below them their words: of what is no single day, those of its last day beside those of its
// first.
function drawnCells([name, ...cells]) {
  const [ends, words] = [0, 1].map((which) => cells.filter((_, i) => i % 2 === which));
  const drawn = words.some(Boolean) ? words.map((it) => element('dd', it, { className: 'words' })) : [];
  return element('div', '', { className: cells.length > 2 ? 'pair' : '' }, element('dt', name), ...ends.map(cellPart),
    ...drawn);
}

/** The answer draws the state. */
export function dateView(step) {
  byId('date-calendar').append(...CALENDARS.map((name) => option(WORDS.calendars[name], name)));
  byId('date-form').addEventListener('submit', (event) => event.preventDefault());
  byId('date-text').addEventListener('input', ({ target }) => step(chosen, { text: target.value }));
  byId('date-calendar').addEventListener('change', ({ target }) => step(chosen, { calendar: target.value }));

  const drawCalendar = whenChanged((calendar) => {
    byId('date-calendar').value = calendar;
    setText(byId('date-form-is'), WORDS.forms[calendar]);
  });
  let resting;
  const say = whenChanged((words) => {
    clearTimeout(resting);
    resting = setTimeout(() => setText(byId('date-said'), words), REST);
  });

  let typing;
  const drawLine = (line, kind) => {
    setText(byId('date-day'), line).className = `answer ${kind}`;
    byId('date-text').setAttribute('aria-invalid', String(kind === 'wrong'));
  };

  return whenChanged((state) => {
    drawCalendar(state.choice.calendar);
    if (byId('date-text').value !== state.choice.text) byId('date-text').value = state.choice.text;
    const { line, kind, cells } = shown(state);
    clearTimeout(typing);
    drawLine(kind === 'wrong' ? '' : line, kind === 'wrong' ? 'empty' : kind);
    if (kind === 'wrong') typing = setTimeout(() => drawLine(line, kind), REST);
    say(kind === 'empty' ? '' : textOf(line));
    byId('date-cells').hidden = cells.length === 0;
    byId('date-cells').className = cells.some(isPair) ? 'cells pairs' : 'cells';
    byId('date-cells').replaceChildren(...cells.map(drawnCells));
  });
}
