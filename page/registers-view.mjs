// Draws the registers, and takes what is chosen.

import { TARGETS } from './calendars.mjs';
import {
  byId, clear, columnTicks, downloadLink, drawPart, drawReport, drawRunning, element, textOf, whenChanged, withFocus, wordsIn,
} from './elements.mjs';
import { WORDS } from './language.mjs';
import { registersTable } from './list-view.mjs';
import { pictureBox } from './picture-view.mjs';
import {
  archiveSaved, archiveWanted, chosen, countGiven, hasTable, isRunning, opened, pictureWanted, repeated, saved, shownRun,
  started, stopped,
} from './registers.mjs';
import { archiveReport, leftRows, registerPicture, registerReport, registersList, registersStatus } from './reports.mjs';

// An article in a box, in which the answer draws a register, if there is something else to be drawn; none for null.
function articleOf(box, id, step, now) {
  let article = null, drawPicture = null, before = { text: '', reply: null, number: 0 };
  return (job) => {
    if (job === null) {
      clear(box);
      article = null;
      return;
    }
    const report = registerReport(job, now()), text = textOf([{ own: report.title }, report.words]);
    const isSame = article !== null && text === before.text && job.reply === before.reply;
    if (article === null) {
      article = box.appendChild(element('article'));
      drawPicture = pictureBox(box.appendChild(element('div')), () => step(pictureWanted, before.number));
    }
    before = { text, reply: job.reply, number: job.number };
    if (!isSame) drawReport(article, id, report, () => step(saved, job.number));
    drawPicture(registerPicture(job), job.picture);
  };
}

// What is done with one register of a list.
const stepsOf = (step, now) => ({
  saved: (number) => step(saved, number),
  opened: (number) => {
    if (step(opened, number).run.opened !== null) byId('register-opened').scrollIntoView({ block: 'nearest' });
  },
  repeated: (number, file) => step(repeated, number, file, now()),
});

// A button that makes the archive, or a link that saves it.
function archiveOf(box, step) {
  let before = null;
  return (report) => {
    const text = report === null ? '' : textOf(report.words);
    if (before !== null && before.text === text && before.blob === (report && report.blob)) return;
    before = { text, blob: report && report.blob };
    withFocus(box, () => {
      clear(box);
      if (report) box.append(downloadLink(report, false, () => step(archiveSaved), () => step(archiveWanted)));
    });
  };
}

/** A list of registers in a box, with an archive of their tables and the one that is opened; the answer draws a run. */
function listOfRun(box, run, left, step, now) {
  const drawTable = registersTable(box, run.jobs.map(({ number }) => number), leftRows(left), stepsOf(step, now));
  const drawArchive = archiveOf(box.appendChild(element('p', '', { className: 'buttons' })), step);
  const openedBox = box.appendChild(element('div', '', { id: 'register-opened' }));
  const drawOpened = articleOf(openedBox, 'register-result', step, now);
  return (it, state) => {
    const opened = it.jobs.length === 1 ? it.jobs[0].number : it.opened;
    drawTable(registersList(it, now()), opened);
    drawArchive(archiveReport(it, countGiven(state)));
    drawOpened(it.jobs.find(({ number }) => number === opened) || null);
  };
}

/**
 * One register alone is an article, and several, or one beside others that are none, are a list; the answer draws what is
 * shown of a state.
 */
function resultsView(box, step, now) {
  let drawn = '', drawRun = null;
  return (state) => {
    const run = shownRun(state), { left } = state.choice;
    const wanted = run === null ? '' : JSON.stringify([run.number, run.jobs.map(({ number }) => number),
      left.map(({ number, as }) => [number, as])]);
    if (wanted !== drawn) {
      clear(box);
      drawn = wanted;
      const isOne = run !== null && run.jobs.length + left.length === 1, drawOne = articleOf(box, 'register-result', step, now);
      drawRun = isOne ? (it) => drawOne(it.jobs[0]) : run && listOfRun(box, run, left, step, now);
    }
    if (run !== null) drawRun(run, state);
  };
}

// While several registers run, what came of them is drawn so often, in milliseconds: to draw takes longer than they do.
const REST = 500;

// Draws a state by `draw`, but one that has nothing more than answers to a run that goes on only after a rest.
function rested(draw, now) {
  let at = -Infinity, before = '';
  return (state) => {
    const { run, choice, notice } = state, jobs = run === null ? [] : run.jobs;
    const byHand = JSON.stringify([run && run.number, run && run.opened, choice.files.length, choice.columns, notice,
      jobs.filter(({ isSaved }) => isSaved).length, jobs.map(({ tries }) => tries)]);
    if (jobs.length > 1 && isRunning(state) && byHand === before && now() - at < REST) return;
    before = byHand;
    at = now();
    draw(state);
  };
}

function takeForm(step, now) {
  byId('register-form').addEventListener('submit', (event) => {
    event.preventDefault();
    step(started, now());
  });
  byId('register-stop').addEventListener('click', () => step(stopped));
}

function drawProgress(run) {
  const bar = byId('register-progress');
  if (run === null || run.jobs.length === 1) {
    bar.removeAttribute('value');
    return;
  }
  const sizeOf = (jobs) => jobs.reduce((sum, { file }) => sum + file.size, 0);
  bar.max = sizeOf(run.jobs) + 1;
  bar.value = sizeOf(run.jobs.filter(({ status }) => status === 'ended'));
}

/** The answer draws the state. `now` gives the time in milliseconds. */
export function registersView(step, now) {
  takeForm(step, now);
  const drawColumns = whenChanged(columnTicks(byId('register-columns'), TARGETS, WORDS.noColumns,
    (columns) => step(chosen, { columns })));
  const drawStatus = wordsIn('register-said');
  const drawResults = resultsView(byId('register-results'), step, now);

  return rested((state) => {
    const { choice } = state, run = shownRun(state);
    drawPart('register', choice.files.length > 0);
    drawColumns(choice.columns);
    drawRunning('register', isRunning(state));
    drawProgress(run);
    drawResults(state);
    byId('register-saved').hidden = run === null || !run.jobs.some(hasTable);
    drawStatus(registersStatus(state, now()));
  }, now);
}
