// Draws what is given to the page, and takes it: files and pasted cells, and what each is taken for.

import { chosen, opened, pasted, removed, sheetsTaken, taken } from './door.mjs';
import {
  byId, button, element, option, select, setText, takeFiles, takePaste, textOf, whenChanged, withFocus, wordsIn,
} from './elements.mjs';
import { WORDS } from './language.mjs';
import { doorQuestion, doorRows, doorStatus, sheetsBeside } from './reports.mjs';

// More files than these are moved in a box of their own.
const MANY = 10;

// What a file is taken for can be chosen; one that the page cannot take says why.
function entryRow({ number, name, is, as, choices, canOpen, isOpen }) {
  const line = element('li'), what = line.appendChild(element('span', name, { className: 'entry-name' }));
  if (choices.length === 0) {
    what.append(': ', ...element('span', is).childNodes);
    line.append(button(WORDS.takeOff, 'second small',
      { id: `remove-entry-${number}`, 'aria-label': textOf([WORDS.takeOff, ': ', name]) }));
  } else {
    const taken = select(`entry-${number}`, choices.map(([value, words]) => option(words, value)));
    taken.value = as;
    taken.setAttribute('aria-label', textOf(WORDS.takenFor(name)));
    line.append(taken);
  }
  if (canOpen) {
    line.append(button(WORDS.workAt, 'second small', { id: `open-entry-${number}`, 'aria-pressed': isOpen,
      'aria-label': textOf([WORDS.workAt, ': ', name]) }));
  }
  return line;
}

const numberOf = ({ id }, front) => (id.startsWith(front) ? Number(id.slice(front.length)) : null);

// What is asked before something unsaved goes. The keys go to the answer that loses nothing.
function questionView(box, answer) {
  const said = box.querySelector('p'), [yes, no] = box.querySelectorAll('button');
  yes.addEventListener('click', () => answer(true));
  no.addEventListener('click', () => answer(false));
  return whenChanged((question) => {
    const words = doorQuestion(question), had = box.contains(document.activeElement);
    box.hidden = words === null;
    if (words === null) {
      if (had) byId('files').focus();
      return;
    }
    setText(said, words.asks);
    setText(yes, words.yes);
    setText(no, words.no);
    no.focus();
  });
}

/** The answer draws the state; `page` starts anew, and answers what is asked. */
export function doorView(step, page) {
  const list = byId('files-list'), anew = byId('files-anew');
  takeFiles(byId('files'), (files, folders) => step(chosen, files, folders));
  takePaste(byId('paste'), (text) => step(pasted, text));
  anew.addEventListener('click', () => {
    page.anew();
    if (anew.hidden) byId('files').focus();
  });
  const drawQuestion = questionView(byId('files-question'), page.answer);
  list.addEventListener('change', ({ target }) => step(taken, numberOf(target, 'entry-'), target.value));
  list.addEventListener('click', ({ target }) => {
    const number = numberOf(target, 'open-entry-'), gone = numberOf(target, 'remove-entry-');
    if (number !== null) step(opened, number);
    if (gone !== null) {
      step(removed, gone);
      byId('files').focus();
    }
  });
  const all = byId('files-all'), drawStatus = wordsIn('files-said');
  all.addEventListener('click', () => {
    step(sheetsTaken);
    byId('files').focus();
  });
  const drawList = whenChanged((state) => withFocus(list, () => {
    const rows = doorRows(state);
    list.hidden = anew.hidden = rows.length === 0;
    list.classList.toggle('many', rows.length > MANY);
    list.replaceChildren(...rows.map(entryRow));
    const sheets = sheetsBeside(state);
    setText(all, sheets ? WORDS.takeSheets(sheets) : '').hidden = sheets === 0;
  }));
  return (state) => {
    drawList(state);
    drawQuestion(state.question);
    drawStatus(doorStatus(state));
  };
}
