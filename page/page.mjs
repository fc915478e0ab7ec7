// The page: its state, drawn into the document.

import { newWorker, packedModule } from './unbuilt.mjs';
import { dateView } from './date-view.mjs';
import { doorView } from './door-view.mjs';
import { button, byId, clear, putWords } from './elements.mjs';
import { NAMES_OF_LANGUAGES, likelyLanguage, speak } from './language.mjs';
import { registersView } from './registers-view.mjs';
import { sheetView } from './sheet-view.mjs';
import { Page } from './state.mjs';

// The module that a text in base64 has packed by gzip.
async function unpacked(text) {
  const packed = new Blob([Uint8Array.from(atob(text), (letter) => letter.charCodeAt(0))]);
  // @ts-ignore: the checker of today knows no DecompressionStream.
  const bytes = new Response(packed.stream().pipeThrough(new DecompressionStream('gzip'))).arrayBuffer();
  return WebAssembly.compile(await bytes);
}

// Says that nothing can be converted here, and why.
function sayNoModule(why) {
  document.getElementById('no-module-why').textContent = why;
  document.getElementById('no-module').hidden = false;
}

const now = () => performance.now();
const compiled = packedModule().then(unpacked);
compiled.catch((fault) => sayNoModule(fault.message));

const views = {};
const draw = (state) => Object.entries(views).forEach(([part, drawPart]) => drawPart(state[part]));
const page = new Page({ newWorker, compiled, processors: navigator.hardwareConcurrency || 2, now, draw });
const stepOf = (part) => (step, ...words) => page.step(part, step, ...words);
const main = document.querySelector('main'), undrawn = /** @type {HTMLElement} */ (main.cloneNode(true));

// Draws the page anew in a language. What is known of it stays, and so does what is unfolded.
function open(language) {
  const isOpen = [...main.querySelectorAll('details')].map((it) => it.open);
  speak(language);
  document.documentElement.lang = language;
  clear(main);
  main.append(...undrawn.cloneNode(true).childNodes);
  main.querySelectorAll('details').forEach((it, i) => { it.open = isOpen[i]; });
  putWords();
  for (const it of byId('languages').children) it.setAttribute('aria-pressed', String(it.lang === language));
  views.date = dateView(stepOf('date'));
  views.door = doorView(stepOf('door'), { anew: () => page.startAnew(), answer: (isYes) => page.answer(isYes) });
  views.registers = registersView(stepOf('registers'), now);
  views.sheet = sheetView(stepOf('sheet'));
  page.settle();
}

byId('languages').append(...NAMES_OF_LANGUAGES.map(({ language, name }) =>
  button(name, 'plain', { lang: language }, () => open(language))));
open(likelyLanguage(navigator.languages));

// The link to what is proved unfolds it.
document.querySelector('nav a[href="#proved-part"]').addEventListener('click', () => { byId('proved-fold').open = true; });

// The seconds of what runs go on.
setInterval(() => draw(page.state), 1000);

window.addEventListener('beforeunload', (event) => {
  if (!page.isUnsaved()) return;
  event.preventDefault();
  // Older browsers ask by this.
  event.returnValue = true;
});
