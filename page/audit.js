// What assistive techniques and keys need of the page that is open: run in a browser by page/try-page, it gives what is
// wrong in what is visible, each in a line. Contrast is by the rule of WCAG: 4.5, and 3 of large texts.

const wrong = [];
const nameOf = (it) => `${it.tagName.toLowerCase()}${it.id ? `#${it.id}` : ''} ${it.textContent.trim().slice(0, 30)}`;
const tell = (what, it) => wrong.push(`${what}: ${nameOf(it)}`);
const all = (which) => [...document.querySelectorAll(which)].filter((it) => it.checkVisibility() && it.getClientRects().length);
const byId = (id) => document.getElementById(id);
const textOf = (it) => (it ? it.textContent.trim() : '');

// ---- Names ----

const named = (it) => it.getAttribute('aria-label') || (it.getAttribute('aria-labelledby') || '').split(/\s+/).map(byId).map(textOf).join('')
  || [...it.labels || []].map(textOf).join('');
const CONTROLS = 'a[href], button, input, select, textarea, summary, progress';
const hasOwnText = (it) => it.matches('a, button, summary') && (textOf(it) || [...it.querySelectorAll('[aria-label]')].some(named));
for (const it of all(CONTROLS)) if (!named(it) && !hasOwnText(it)) tell('no name', it);
for (const it of all('[role=region], nav, section')) if (!named(it)) tell('a part without a name', it);
for (const it of all('fieldset')) if (!textOf(it.querySelector(':scope > legend'))) tell('no legend', it);
for (const it of all('img')) if (!it.alt) tell('a picture without a text', it);
for (const it of all('svg')) if (!textOf(it.querySelector('title')) && !named(it)) tell('a picture without a text', it);
for (const it of all('label')) if (!it.control) tell('a label of nothing', it);

// ---- Structure ----

const ids = [...document.querySelectorAll('[id]')].map(({ id }) => id);
for (const id of new Set(ids.filter((it, i) => ids.indexOf(it) !== i))) wrong.push(`an id twice: ${id}`);
for (const name of ['aria-labelledby', 'aria-describedby', 'aria-controls']) {
  for (const it of document.querySelectorAll(`[${name}]`)) {
    if (it.getAttribute(name).split(/\s+/).some((id) => byId(id) === null)) tell(`${name} of nothing`, it);
  }
}
let level = 0;
for (const it of all('h1, h2, h3, h4, h5, h6')) {
  const own = Number(it.tagName[1]);
  if (own > level + 1) tell(`a heading of level ${own} below ${level}`, it);
  if (!textOf(it)) tell('an empty heading', it);
  level = own;
}
if (all('h1').length !== 1) wrong.push('not one first heading');
if (all('main').length !== 1) wrong.push('not one main part');
for (const it of all('table')) {
  if (!textOf(it.caption) && !named(it)) tell('a table without a name', it);
  if ([...it.querySelectorAll('thead th')].some((head) => head.scope !== 'col')) tell('a heading without a scope', it);
  if (!it.querySelector('th')) tell('a table without headings', it);
}
const isBroken = (node, { index, 0: word }) => {
  const range = document.createRange();
  range.setStart(node, index);
  range.setEnd(node, index + word.length);
  return new Set([...range.getClientRects()].map(({ top }) => top)).size > 1;
};
for (const it of all('thead th')) {
  const texts = [...it.childNodes].filter((part) => part.nodeType === 3);
  if (texts.some((node) => [...node.data.matchAll(/\S+/g)].some((found) => isBroken(node, found)))) tell('a word is broken', it);
}
for (const it of all('ul, ol')) if ([...it.children].some(({ tagName }) => tagName !== 'LI')) tell('a list of other parts', it);

// ---- Keys ----

for (const it of document.querySelectorAll('[tabindex]')) if (it.tabIndex > 0) tell('an order of its own', it);
const isFocusable = (it) => it.tabIndex >= 0 && !it.disabled;
for (const it of all('body *')) {
  const { overflowX, overflowY } = getComputedStyle(it), moves = (how) => ['auto', 'scroll'].includes(how);
  const isMoved = (moves(overflowX) && it.scrollWidth > it.clientWidth) || (moves(overflowY) && it.scrollHeight > it.clientHeight);
  const isReached = isFocusable(it) || [...it.querySelectorAll(`${CONTROLS}, [tabindex]`)].some(isFocusable);
  if (isMoved && !isReached) tell('no key moves it', it);
}
// What runs out of a box that cannot be moved is in nobody's sight, but for words whose whole stands in a title.
for (const it of all('body *')) {
  const { overflowX, overflowY } = getComputedStyle(it), cuts = (how) => ['hidden', 'clip'].includes(how);
  const isCut = (cuts(overflowX) && it.scrollWidth > it.clientWidth + 1) || (cuts(overflowY) && it.scrollHeight > it.clientHeight + 1);
  if (isCut && it.title !== textOf(it) && !it.closest('.unseen')) tell('what runs out of it is not seen', it);
}
const isMarked = (it) => {
  const { outlineStyle, outlineWidth } = getComputedStyle(it);
  return outlineStyle !== 'none' && parseFloat(outlineWidth) >= 2;
};
const before = document.activeElement, [x, y] = [scrollX, scrollY];
for (const it of all(`${CONTROLS}, [tabindex="0"]`).filter(isFocusable)) {
  it.focus({ focusVisible: true, preventScroll: true });
  const shown = it.classList.contains('unseen') ? it.closest('label') : it;
  if (document.activeElement === it && !isMarked(shown)) tell('no focus is seen', it);
}
before.focus({ preventScroll: true });
scrollTo(x, y);

// ---- Language ----

const { lang } = document.documentElement, pressed = document.querySelector('#languages [aria-pressed=true]');
if (!lang || !pressed || pressed.lang !== lang) wrong.push(`the language of the page: ${lang}`);
for (const it of document.querySelectorAll('#languages button')) if (!it.lang) tell('a language that is not said', it);

// ---- Contrast ----

const parts = (color) => color.match(/[\d.]+/g).map(Number);
const linear = (it) => (it <= 0.04045 ? it / 12.92 : ((it + 0.055) / 1.055) ** 2.4);
const light = (color) => color.slice(0, 3).map((it) => linear(it / 255))
  .reduce((sum, it, i) => sum + it * [0.2126, 0.7152, 0.0722][i], 0);
const behind = (it) => {
  for (let up = it; up; up = up.parentElement) {
    const found = parts(getComputedStyle(up).backgroundColor);
    if (found.length < 4 || found[3] === 1) return found;
  }
  return matchMedia('(prefers-color-scheme: dark)').matches ? [0, 0, 0] : [255, 255, 255];
};
for (const it of all('body *')) {
  const hasText = [...it.childNodes].some((part) => part.nodeType === 3 && part.data.trim());
  if (!hasText || it.disabled || it.ariaDisabled === 'true') continue;
  const style = getComputedStyle(it), color = it instanceof SVGElement ? style.fill : style.color;
  const [one, other] = [light(parts(color)), light(behind(it))].sort((a, b) => b - a);
  const size = parseFloat(style.fontSize), isLarge = size >= 24 || (size >= 18.7 && style.fontWeight >= 700);
  const ratio = (one + 0.05) / (other + 0.05);
  if (ratio < (isLarge ? 3 : 4.5)) tell(`a contrast of ${ratio.toFixed(2)}`, it);
}
return wrong;
