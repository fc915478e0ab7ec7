// Registers: which files are chosen, what runs, and what came of it. Each step takes the state and gives the next.

import { DEFAULT_TARGETS } from './calendars.mjs';
import { isSameFile } from './files.mjs';
import { WORDS } from './language.mjs';

// A file that is larger is not read.
export const MOST_BYTES = 1e9;
// Registers of so many bytes in all are converted at the same time; a larger one goes alone.
const BYTES_AT_ONCE = 2 ** 24;
// Smaller registers share a worker, each so many of them: to start one takes longer than to convert them.
const SMALL = 2 ** 20, SHARE = 64;

/**
 * What is chosen are registers, and what was given beside them and is none: `left`, as the door has it. A job is a register,
 * by a number of its own; one that was given after a conversion is `new`. `slot` is its place among those that run, and
 * `tries` says how often it was converted before. `picture` holds what a picture of its entries shows, once it was wanted;
 * for a register alone that is found before, and `ready` has it. `told` is its text where that is known before its table. Of
 * a run, `aside` has the jobs of files that are taken for something else now, `opened` is the number of the register whose
 * details are shown, and `archive` holds the archive of all whole tables, once it was wanted.
 * @typedef {{ files: File[], left: any[], columns: string[] }} RegistersChoice
 * @typedef {{ number: number, file: File, tries: number, slot: number, status: 'new' | 'waits' | 'runs' | 'ended' | 'stopped',
 *   begun: number, reply: any, told: any, isSaved: boolean, picture: { reply: any } | null, ready: any }} Job
 * @typedef {{ number: number, columns: string[], begun: number, jobs: Job[], aside: Job[], opened: number | null,
 *   archive: { reply: any } | null }} Run
 * @typedef {{ choice: RegistersChoice, atOnce: number, isEarly: boolean, runs: number, run: Run | null,
 *   notice: string }} RegistersState
 */

/**
 * Whether the days of what is converted are found at the same time, where so many workers can be busy: the conversion has
 * one processor, and the page is seldom busy meanwhile. Its table is later by a fourth then where there are but two, and its
 * picture there with it, which else takes seconds.
 */
export const isEarlyBy = (processors) => processors > 1;

/**
 * `processors` says how many workers can be busy at the same time.
 * @returns {RegistersState}
 */
export function initial(processors) {
  const choice = { files: [], left: [], columns: [...DEFAULT_TARGETS] }, atOnce = Math.max(1, Math.min(4, processors - 1));
  return { choice, atOnce, isEarly: isEarlyBy(processors), runs: 0, run: null, notice: '' };
}

/**
 * Nothing is chosen any more, and nothing was converted.
 * @param {RegistersState} state
 * @returns {RegistersState}
 */
export const emptied = ({ atOnce, isEarly, runs }) => ({ ...initial(1), atOnce, isEarly, runs });

/** The run that is shown: none with other columns than those of now, and none of which nothing was converted. */
export function shownRun({ choice, run }) {
  const hasBegun = run !== null && run.jobs.some(({ status }) => status !== 'new');
  return hasBegun && run.columns.join() === choice.columns.join() ? run : null;
}

export const isRunning = ({ run }) => run !== null && run.jobs.some((job) => ['waits', 'runs'].includes(job.status));

// The job that one of these files has: one that was given again and is as it was has its table still, if no other has its name.
function jobOf(jobs, files, file) {
  const isNamesake = ({ name }) => name === file.name, isAlone = files.filter(isNamesake).length === 1;
  const own = jobs.find((it) => it.file === file), called = jobs.filter((it) => isNamesake(it.file));
  const isAgain = called.length === 1 && isWhole(called[0]) && isSameFile(called[0].file, file);
  return own || (isAgain && isAlone ? { ...called[0], file } : null);
}

/**
 * Columns are chosen; or these files are registers now, and `left` was given beside them. A conversion that goes on forbids
 * it. What was converted of files that stay stays too.
 * @param {RegistersState} state
 * @returns {RegistersState}
 */
export function chosen(state, change) {
  if (isRunning(state)) return { ...state, notice: 'stopFirst' };
  const next = { ...state, choice: { ...state.choice, ...change }, notice: '' };
  return 'files' in change && state.run !== null ? { ...next, run: runWith(state.run, next.choice) } : next;
}

const freeNumber = (jobs) => 1 + Math.max(-1, ...jobs.map(({ number }) => number));

// The run with the jobs of these files: new ones for those that have none.
function runWith(run, { files, left }) {
  const all = [...run.jobs, ...run.aside], free = freeNumber(all);
  const jobs = files.map((file, i) => jobOf(all, files, file) || newJob(file, free + i));
  const isNow = (job) => jobs.some(isNumber(job));
  const aside = all.filter((job) => !isNow(job) && left.some(({ file }) => file === job.file));
  const opened = jobs.some(({ number }) => number === run.opened) ? run.opened : null;
  return { ...run, jobs, aside, opened, archive: null };
}

const isNumber = (one) => (other) => one.number === other.number;

/** @returns {Job} */
const endedJob = (job, reply) => ({ ...job, status: 'ended', reply, told: null });

/** @returns {Job} */
const stoppedJob = (job) => ({ ...job, status: 'stopped', told: null });

/** @returns {Job} */
const waitingJob = (file, number, tries = 0) =>
  ({ number, file, tries, slot: 0, status: 'waits', begun: 0, reply: null, told: null, isSaved: false, picture: null,
    ready: null });

/** @returns {Job} */
const newJob = (file, number) => ({ ...waitingJob(file, number), status: 'new' });

// Starts what can be started now. A file that is too large has its answer at once.
function scheduled(state, now) {
  const isTooLarge = ({ status, file }) => status === 'waits' && file.size > MOST_BYTES;
  const jobs = state.run.jobs.map((job) => (isTooLarge(job) ? endedJob(job, { fault: 'tooLarge' }) : job));
  for (const [i, job] of jobs.entries()) {
    if (job.status !== 'waits') continue;
    const running = jobs.filter(({ status }) => status === 'runs');
    const bytes = running.reduce((sum, { file }) => sum + file.size, job.file.size);
    if (running.length && (running.length >= state.atOnce || bytes > BYTES_AT_ONCE)) break;
    const slot = [...Array(state.atOnce).keys()].find((it) => running.every((other) => other.slot !== it));
    jobs[i] = { ...job, status: 'runs', begun: now, slot };
  }
  return { ...state, run: { ...state.run, jobs } };
}

// The conversion goes on with what did not end yet, or else with what broke off.
function continued(state, run, now) {
  const isLeft = ({ status }) => status !== 'ended', isNext = run.jobs.some(isLeft) ? isLeft : (job) => !isWhole(job);
  const jobs = run.jobs.map((job) => (isNext(job) ? waitingJob(job.file, job.number, job.tries + 1) : job));
  return scheduled({ ...state, run: { ...run, begun: now, jobs, archive: null }, notice: '' }, now);
}

/**
 * The conversion of what is chosen begins, unless one goes on. What has a whole table is not converted again, unless all have.
 * @param {RegistersState} state
 * @returns {RegistersState}
 */
export function started(state, now) {
  if (isRunning(state)) return state;
  const { choice: { files, columns }, run: before } = state, number = state.runs + 1, shown = shownRun(state);
  if (files.length === 0) return state;
  if (shown !== null && !shown.jobs.every(isWhole)) return continued(state, shown, now);
  // What was left out has its table still, if that has the same columns.
  const aside = before !== null && before.columns.join() === columns.join() ? before.aside : [], free = freeNumber(aside);
  const jobs = files.map((file, i) => waitingJob(file, free + i));
  const run = { number, columns, begun: now, jobs, aside, opened: null, archive: null };
  return scheduled({ ...state, runs: number, run, notice: '' }, now);
}

/**
 * What runs is stopped. What has ended stays.
 * @param {RegistersState} state
 * @returns {RegistersState}
 */
export function stopped(state) {
  if (!isRunning(state)) return state;
  const jobs = state.run.jobs.map((job) => (['ended', 'new'].includes(job.status) ? job : stoppedJob(job)));
  return { ...state, run: { ...state.run, jobs }, notice: '' };
}

/**
 * A register is converted again alone, as it is now, or another file in its place.
 * @param {RegistersState} state
 * @param {File | null} file
 * @returns {RegistersState}
 */
export function repeated(state, number, file, now) {
  const run = shownRun(state), job = run && run.jobs.find((it) => it.number === number);
  if (!job || ['waits', 'runs'].includes(job.status)) return state;
  const next = waitingJob(file || job.file, number, job.tries + 1);
  const jobs = run.jobs.map((it) => (it === job ? next : it)), begun = isRunning(state) ? run.begun : now;
  const choice = file ? { ...state.choice, files: jobs.map((it) => it.file) } : state.choice;
  return scheduled({ ...state, choice, run: { ...run, begun, jobs, archive: null }, notice: '' }, now);
}

/**
 * The details of a register are shown, or no more.
 * @param {RegistersState} state
 * @returns {RegistersState}
 */
export function opened(state, number) {
  return { ...state, run: { ...state.run, opened: state.run.opened === number ? null : number } };
}

/** What the table of a register is called. */
export const tableName = ({ file }) => `${file.name}.out.csv`;

/**
 * An archive of all whole tables is wanted.
 * @param {RegistersState} state
 * @returns {RegistersState}
 */
export function archiveWanted(state) {
  const run = shownRun(state);
  if (run === null || isRunning(state) || !run.jobs.some(isWhole)) return state;
  return { ...state, run: { ...run, archive: { reply: null } } };
}

// The jobs, of which some are changed.
const jobsWith = (state, isIt, change) =>
  ({ ...state, run: { ...state.run, jobs: state.run.jobs.map((job) => (isIt(job) ? { ...job, ...change } : job)) } });

/**
 * A picture of the table of a register is wanted.
 * @param {RegistersState} state
 * @returns {RegistersState}
 */
export function pictureWanted(state, number) {
  const isIt = (job) => job.number === number && hasTable(job), job = state.run.jobs.find(isIt);
  return jobsWith(state, isIt, { picture: { reply: job ? job.ready : null } });
}

const pictureKey = (run, job) => `picture ${keyOf(run, job)}`;

// The text of a register and how it is written, once that is known.
const textOf = (job) => (hasTable(job) ? job.reply.answer : job.told);

// Whether what a picture shows is to be found: where it is wanted, or for a register alone.
function isToBeDrawn({ jobs }, job) {
  const { picture, ready } = job;
  return picture === null ? jobs.length === 1 && textOf(job) !== null && ready === null : picture.reply === null;
}

function pictureTasks(run) {
  return run.jobs.filter((job) => isToBeDrawn(run, job)).map((job) => {
    const { text, delimiter, sealed } = textOf(job), key = pictureKey(run, job);
    return { key, worker: key, name: 'picture', words: { text, delimiter, sealed } };
  });
}

const keyOf = (run, job) => `register ${run.number} ${job.number} ${job.tries}`;
const archiveKey = (run) => `archive ${run.number} ${run.jobs.map(({ number, tries }) => `${number}-${tries}`)}`;

/** How many files were given, those that are no registers too; but no choices. */
export const countGiven = ({ choice: { files, left } }) => files.length + left.length;

function archiveTasks({ run, choice }) {
  if (run.archive === null || run.archive.reply !== null) return [];
  const whole = run.jobs.filter(isWhole), key = archiveKey(run);
  const files = whole.map((job) => ({ name: tableName(job), blob: job.reply.answer.table }));
  const comment = WORDS.archiveSays(whole.length, countGiven({ choice }));
  return [{ key, worker: key, name: 'archive', words: { files, comment } }];
}

/** What workers are to be asked now: one for each register that runs, for the archive, and for each picture. */
export function tasks(state) {
  const { run, isEarly } = state;
  if (run === null) return [];
  const { columns } = run, isTold = isEarly && run.jobs.length === 1;
  return [...run.jobs.filter(({ status }) => status === 'runs').map((job) => {
    const { file, number, slot, tries } = job, key = keyOf(run, job), share = Math.floor(number / SHARE);
    const worker = file.size > SMALL ? key : `registers ${run.number} ${slot} ${share} ${tries}`;
    return { key, worker, name: 'register', words: { file, columns, isTold } };
  }), ...archiveTasks(state), ...pictureTasks(run)];
}

/**
 * An answer came. One that nothing waits for is dropped.
 * @param {RegistersState} state
 * @returns {RegistersState}
 */
export function replied(state, key, reply, now) {
  const { run } = state;
  if (run === null) return state;
  if (archiveTasks(state).some((it) => it.key === key)) return { ...state, run: { ...run, archive: { reply } } };
  const drawn = run.jobs.find((it) => isToBeDrawn(run, it) && pictureKey(run, it) === key);
  if (drawn) return jobsWith(state, (it) => it === drawn, drawn.picture === null ? { ready: reply } : { picture: { reply } });
  const job = run.jobs.find((it) => it.status === 'runs' && keyOf(run, it) === key);
  if (!job) return state;
  if (reply.news) return jobsWith(state, (it) => it === job, { told: reply.news });
  const jobs = run.jobs.map((it) => (it === job ? endedJob(job, reply) : it));
  return scheduled({ ...state, run: { ...run, jobs }, notice: '' }, now);
}

const savedIf = (state, isIt) => jobsWith(state, isIt, { isSaved: true });

/**
 * The table of a register was saved.
 * @param {RegistersState} state
 * @returns {RegistersState}
 */
export const saved = (state, number) => savedIf(state, (job) => job.number === number);

/**
 * The archive was saved, and with it all whole tables.
 * @param {RegistersState} state
 * @returns {RegistersState}
 */
export const archiveSaved = (state) => savedIf(state, isWhole);

/** Whether a register has a table, or a part of one, that can be saved. */
export const hasTable = ({ reply }) => reply !== null && Boolean(reply.answer && reply.answer.table);

const isUnsavedJob = (job) => hasTable(job) && !job.isSaved;

/** Whether there is a table that was not saved. */
export const isUnsaved = ({ run }) => run !== null && [...run.jobs, ...run.aside].some(isUnsavedJob);

/** Whether this file has a whole table that was not saved. */
export const isUnsavedOf = ({ run }, file) =>
  run !== null && [...run.jobs, ...run.aside].some((job) => job.file === file && isWhole(job) && isUnsavedJob(job));

/** Whether a register was converted to its end. */
export const isWhole = ({ reply }) => Boolean(reply && reply.answer && reply.answer.ending === 0);
