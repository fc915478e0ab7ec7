// What the page knows, as one value: what is chosen, what runs, and what came of it. It needs no document: a view draws
// it, and a runner does what it wants done.

import * as date from './date.mjs';
import * as door from './door.mjs';
import { isSameFile } from './files.mjs';
import * as registers from './registers.mjs';
import * as sheet from './sheet.mjs';
import { Runner } from './runner.mjs';

const isRunning = (state) => registers.isRunning(state.registers) || sheet.isRunning(state.sheet);

// The files of what came that would take the place of a table that was not saved.
function unsavedNames({ door: given, registers: many, sheet: own }) {
  const isUnsaved = ({ entry, file }) => !isSameFile(entry.file, file) &&
    (registers.isUnsavedOf(many, entry.file) || sheet.isUnsavedOf(own, entry.number));
  return door.replaced(given).filter(isUnsaved).map(({ file }) => file.name);
}

// What came is told when nothing runs, and where nothing unsaved goes with it.
function told(state) {
  if (!door.hasArrived(state.door) || isRunning(state) || state.door.question !== null) return state;
  const names = unsavedNames(state);
  return { ...state, door: names.length ? door.asked(state.door, { what: 'replace', names }) : door.arrived(state.door) };
}

// The numbers of what has another file now.
function changedNumbers(before, now) {
  if (before === now) return [];
  const files = new Map(before.map(({ number, file }) => [number, file]));
  return now.filter(({ number, file }) => files.has(number) && !isSameFile(files.get(number), file)).map(({ number }) => number);
}

/** What the door has for another part than it had before is chosen there; and what was chosen there, the door has. */
function passedOn(before, state) {
  const was = door.partsOf(before.door), is = door.partsOf(state.door), { files } = state.registers.choice;
  const isSame = (one, other) => one.length === other.length && one.every((it, i) => it === other[i]);
  if (state.registers.choice.files !== before.registers.choice.files) {
    return { ...state, door: door.followed(state.door, files) };
  }
  let { registers: many } = state, own = sheet.tablesGone(state.sheet, changedNumbers(before.door.entries, state.door.entries));
  if (!isSame(was.registers, is.registers) || !isSame(was.left, is.left)) {
    many = registers.chosen(many, { files: is.registers, left: is.left });
  }
  if (was.sheet !== is.sheet) own = sheet.fileChosen(own, is.sheet);
  if (was.choices !== is.choices && is.choices !== null) own = sheet.choicesChosen(own, is.choices.file);
  return { ...state, registers: many, sheet: own };
}

export class Page {
  /**
   * `newWorker` starts a worker and `compiled` promises the module; `draw` shows the state after each step.
   */
  constructor({ newWorker, compiled, processors, now, draw }) {
    this.state = {
      date: date.initial(), door: door.initial(), registers: registers.initial(processors),
      sheet: sheet.initial(processors),
    };
    this.now = now;
    this.draw = draw;
    this.runner = new Runner(newWorker, compiled, (key, reply) => this.replied(key, reply));
  }

  /** Takes a step of a part, by its function, and gives what the part is then. */
  step(part, step, ...words) {
    const { [part]: own } = this.state, isHeld = part === 'door' && isRunning(this.state);
    this.become({ ...this.state, [part]: isHeld ? door.noticed(own, 'stopFirst') : step(own, ...words) });
    return this.state[part];
  }

  /** Nothing is given any more, and no choice is made: at once, or where something is unsaved, once that is agreed to. */
  startAnew() {
    const { door: given } = this.state;
    if (isRunning(this.state)) this.become({ ...this.state, door: door.noticed(given, 'stopFirst') });
    else if (this.isUnsaved()) this.become({ ...this.state, door: door.asked(given, { what: 'anew', names: [] }) });
    else this.empty();
  }

  /** Answers what the door asks. */
  answer(isYes) {
    const { door: given } = this.state, { question } = given;
    if (question === null) return;
    if (question.what === 'anew' && isYes) this.empty();
    else this.become({ ...this.state, door: isYes ? door.arrived(given) : door.refused(given) });
  }

  empty() {
    const { door: given, registers: many, sheet: own } = this.state;
    this.state = { ...this.state, door: { ...door.initial(), asked: given.asked + 1 }, registers: registers.emptied(many),
      sheet: sheet.emptied(own) };
    this.settle();
  }

  // An answer belongs to the part that waits for its key.
  replied(key, reply) {
    const { date: one, door: given, registers: many, sheet: own } = this.state;
    this.become({
      date: date.replied(one, key, reply), door: door.replied(given, key, reply),
      registers: registers.replied(many, key, reply, this.now()), sheet: sheet.replied(own, key, reply),
    });
  }

  become(state) {
    const { door: given } = state, isOver = given.notice === 'stopFirst' && !isRunning(state);
    this.state = passedOn(this.state, told(isOver ? { ...state, door: door.noticed(given, '') } : state));
    this.settle();
  }

  settle() {
    const { date: one, door: given, registers: many, sheet: own } = this.state;
    this.runner.want([...date.tasks(one), ...door.tasks(given), ...registers.tasks(many), ...sheet.tasks(own)],
      [...date.keptWorkers(), ...sheet.keptWorkers(own)]);
    this.draw(this.state);
  }

  /** Whether a table is shown that was not saved. */
  isUnsaved() {
    return registers.isUnsaved(this.state.registers) || sheet.isUnsaved(this.state.sheet);
  }
}
