// A document, as far as the page needs one, for trials in Node: elements with their names, properties and events, that
// are found by simple selectors, and what of it is to be seen, as lines of text. A browser has more: how it looks is
// tried there.
'use strict';
const crypto = require('crypto');

const VOID = new Set(['meta', 'link', 'input', 'br', 'img']);
const FLAGS = ['hidden', 'disabled', 'checked', 'multiple', 'open'];
// Properties that have another name than their attributes.
const NAMES = { className: 'class', htmlFor: 'for', colSpan: 'colspan', tabIndex: 'tabindex' };
const ATTRIBUTES = ['id', 'href', 'download', 'title', 'name', 'type', 'lang', 'label', 'scope', 'autocomplete',
  'inputMode', 'max'];

class Text {
  constructor(data) {
    this.data = String(data);
    this.parentNode = null;
  }

  get textContent() { return this.data; }

  cloneNode() { return new Text(this.data); }
}

// What a selector without blanks asks of an element.
function partOf(selector) {
  const [, name, rest] = /^([\w-]*)(.*)$/.exec(selector);
  const asked = [...rest.matchAll(/#([\w-]+)|\.([\w-]+)|\[([\w-]+)(?:=["']?([^\]"']*)["']?)?\]/g)];
  return (element) => (name === '' || element.localName === name) && asked.every(([, id, kind, key, value]) => {
    if (id !== undefined) return element.id === id;
    if (kind !== undefined) return element.className.split(' ').includes(kind);
    return element.hasAttribute(key) && (value === undefined || element.getAttribute(key) === value);
  });
}

// Each selector that was used: of each of its alternatives the parts, the last one first.
const SELECTORS = new Map();

function matches(element, selector) {
  if (!SELECTORS.has(selector)) {
    SELECTORS.set(selector, selector.split(',').map((one) => one.trim().split(/\s+/).reverse().map(partOf)));
  }
  return SELECTORS.get(selector).some(([last, ...others]) => {
    let at = element;
    return last(element) && others.every((is) => {
      do at = at.parentNode; while (at && !is(at));
      return at;
    });
  });
}

class Element {
  constructor(localName, owner) {
    Object.assign(this, { localName, owner, parentNode: null, childNodes: [], listeners: [], own: {} });
    this.attributes = new Map();
    this.style = { setProperty: (name, value) => this.setAttribute('style', `${name}: ${value}`) };
    const keyOf = (key) => `data-${String(key)}`;
    this.dataset = new Proxy({}, {
      get: (_, key) => this.attributes.get(keyOf(key)),
      set: (_, key, value) => { this.setAttribute(keyOf(key), value); return true; },
      ownKeys: () => [...this.attributes.keys()].filter((key) => key.startsWith('data-')).map((key) => key.slice(5)),
      getOwnPropertyDescriptor: (_, key) =>
        ({ value: this.attributes.get(keyOf(key)), enumerable: true, configurable: true }),
    });
    const classes = () => this.className.split(' ').filter(Boolean);
    this.classList = {
      add: (name) => { this.className = [...new Set([...classes(), name])].join(' '); },
      remove: (name) => { this.className = classes().filter((it) => it !== name).join(' '); },
      toggle: (name, is) => this.classList[is ? 'add' : 'remove'](name),
    };
  }

  // ---- Attributes ----

  hasAttribute(key) { return FLAGS.includes(key) ? Boolean(this.own[key]) : this.getAttribute(key) !== null; }

  getAttribute(key) {
    if (key === 'value' && this.own.value !== undefined) return this.own.value;
    return this.attributes.has(key) ? this.attributes.get(key) : null;
  }

  setAttribute(key, value) {
    if (FLAGS.includes(key)) this.own[key] = true;
    else if (key === 'value') this.own.value = String(value);
    else this.attributes.set(key, String(value));
  }

  removeAttribute(key) {
    this.attributes.delete(key);
    if (key === 'value') delete this.own.value;
  }

  // ---- What is in it ----

  get children() { return this.childNodes.filter((it) => it instanceof Element); }

  get firstChild() { return this.childNodes[0] || null; }

  get nextSibling() {
    const all = this.parentNode ? this.parentNode.childNodes : [];
    return all[all.indexOf(this) + 1] || null;
  }

  get nextElementSibling() {
    const all = this.parentNode ? this.parentNode.children : [];
    return all[all.indexOf(this) + 1] || null;
  }

  get isConnected() {
    return this === this.owner.documentElement || this.parentNode !== null && this.parentNode.isConnected;
  }

  get textContent() { return this.childNodes.map((it) => it.textContent).join(''); }

  set textContent(text) { this.replaceChildren(text); }

  append(...those) { those.forEach((it) => this.insertBefore(it, null)); }

  appendChild(it) {
    this.append(it);
    return it;
  }

  insertBefore(it, before) {
    const node = it instanceof Element || it instanceof Text ? it : new Text(it);
    if (node.parentNode) node.parentNode.removeChild(node);
    node.parentNode = this;
    this.childNodes.splice(before === null ? this.childNodes.length : this.childNodes.indexOf(before), 0, node);
  }

  removeChild(it) {
    this.childNodes = this.childNodes.filter((one) => one !== it);
    it.parentNode = null;
  }

  replaceChildren(...those) {
    for (const it of this.childNodes) it.parentNode = null;
    this.childNodes = [];
    this.append(...those);
  }

  replaceWith(...those) {
    const { parentNode } = this;
    those.forEach((it) => parentNode.insertBefore(it, this));
    parentNode.removeChild(this);
  }

  contains(it) { return it === this || it !== null && it.parentNode !== null && this.contains(it.parentNode); }

  cloneNode(isDeep) {
    const copy = new Element(this.localName, this.owner);
    copy.attributes = new Map(this.attributes);
    copy.own = { ...this.own };
    if (isDeep) copy.append(...this.childNodes.map((it) => it.cloneNode(true)));
    return copy;
  }

  // ---- What is found ----

  all(found = []) {
    for (const it of this.childNodes) {
      if (!(it instanceof Element)) continue;
      found.push(it);
      it.all(found);
    }
    return found;
  }

  // The first that has this id.
  named(id) {
    for (const it of this.childNodes) {
      const found = it instanceof Element && (it.attributes.get('id') === id ? it : it.named(id));
      if (found) return found;
    }
    return null;
  }

  querySelectorAll(selector) { return this.all().filter((it) => matches(it, selector)); }

  querySelector(selector) { return this.querySelectorAll(selector)[0] || null; }

  closest(selector) { return matches(this, selector) ? this : this.parentNode && this.parentNode.closest(selector); }

  // ---- What is done with it ----

  addEventListener(name, take) { this.listeners.push([name, take]); }

  // Tells the event to it and to all that it is in.
  dispatch(name, more = {}) {
    const event = { target: this, isPrevented: false, preventDefault() { this.isPrevented = true; }, ...more };
    this.owner.used.add(this.id);
    for (let at = this; at; at = at === this.owner ? null : at.parentNode || this.owner) {
      at.listeners.filter(([kind]) => kind === name).forEach(([, take]) => take(event));
    }
    return event;
  }

  focus() { if (!this.disabled && this.isConnected) this.owner.active = this; }

  click() {
    if (this.disabled) return;
    if (this.type === 'checkbox') this.checked = !this.checked;
    if (this.type === 'radio') this.checked = true;
    this.dispatch('click');
    if (this.localName === 'a' && this.download) this.owner.log.push(`saves ${this.download}`);
    if (this.type === 'checkbox' || this.type === 'radio') this.dispatch('change');
    if (this.localName === 'button' && this.type === 'submit') this.closest('form').send();
  }

  // A form that is sent leaves the page, unless that is prevented.
  send() { if (!this.dispatch('submit').isPrevented) this.owner.log.push(`sends ${this.id}`); }

  scrollIntoView({ block }) { this.owner.log.push(`scrolls to ${this.id}, ${block}`); }

  getBoundingClientRect() { return { bottom: this.owner.bottom }; }
}

for (const name of FLAGS) {
  Object.defineProperty(Element.prototype, name, {
    get() { return Boolean(this.own[name]); },
    set(is) {
      if (name === 'checked' && is && this.type === 'radio') {
        this.owner.querySelectorAll(`input[name=${this.name}]`).forEach((it) => { it.own.checked = false; });
      }
      this.own[name] = Boolean(is);
    },
  });
}
for (const name of [...ATTRIBUTES, ...Object.keys(NAMES)]) {
  Object.defineProperty(Element.prototype, name, {
    get() { return this.getAttribute(NAMES[name] || name) ?? ''; },
    set(value) { this.setAttribute(NAMES[name] || name, value); },
  });
}
// Of a list the value is that of the option that was chosen, or else of the first one.
Object.defineProperty(Element.prototype, 'value', {
  get() {
    if (this.localName !== 'select') return this.own.value ?? '';
    const options = this.querySelectorAll('option'), { chosen } = this.own;
    const found = chosen === undefined || chosen !== null && !options.includes(chosen) ? options[0] : chosen;
    return found ? found.own.value : '';
  },
  set(value) {
    const isOne = (it) => it.own.value === value;
    if (this.localName === 'select') this.own.chosen = this.querySelectorAll('option').find(isOne) || null;
    else this.own.value = String(value);
  },
});

/**
 * The document of a text of HTML. What is done that is not to be seen, as what is saved, is told to its `log`, and what
 * is used to `used`, by its id.
 */
function documentOf(html) {
  const document = { listeners: [], log: [], used: new Set(), active: null, bottom: 0, parentNode: null };
  const root = new Element('html', document);
  let at = root;
  for (const [, isEnd, name, attributes, text] of html.matchAll(/<(\/?)(\w+)([^>]*)>|([^<]+)/g)) {
    if (text !== undefined) at.append(text);
    else if (isEnd) at = at.parentNode || at;
    else if (name !== 'html') {
      const made = at.appendChild(new Element(name, document));
      for (const [, key, value] of attributes.matchAll(/([\w-]+)(?:="([^"]*)")?/g)) made.setAttribute(key, value ?? '');
      if (!VOID.has(name)) at = made;
    }
  }
  Object.assign(document, {
    documentElement: root, createElement: (name) => new Element(name, document),
    createElementNS: (space, name) => Object.assign(new Element(name, document), { space }),
    getElementById: (id) => root.named(id),
    querySelector: (selector) => root.querySelector(selector),
    querySelectorAll: (selector) => root.querySelectorAll(selector),
    addEventListener: (kind, take) => document.listeners.push([kind, take]),
  });
  Object.defineProperty(document, 'activeElement', {
    get: () => (document.active && document.active.isConnected ? document.active : root.querySelector('body')),
  });
  return document;
}

/** An element as markup. */
function markupOf(it) {
  if (it instanceof Text) return it.data;
  const attributes = [...it.attributes].map(([key, value]) => ` ${key}="${value}"`).join('');
  return `<${it.localName}${attributes}>${it.childNodes.map(markupOf).join('')}</${it.localName}>`;
}

// ---- What is to be seen ----

const squeezed = (text) => text.replace(/\s+/g, ' ').trim();
const OF_ARIA = ['role', 'aria-label', 'aria-pressed', 'aria-expanded', 'aria-invalid', 'aria-disabled',
  'aria-labelledby', 'aria-controls', 'aria-describedby'];
const SHOWN = ['for', 'href', 'download', 'colspan', 'scope', 'data-name', 'name', 'type', 'style', 'max', 'lang',
  'tabindex'];
// What stands in a line with the text around it.
const INLINE = new Set(['code']);
// So long may a line be that has all of an element.
const WIDE = 160;
// More options than these are not told one by one.
const MANY = 6;

// What an element is, beside what is in it. A title is told where it is another than its text.
function headOf(it) {
  const said = OF_ARIA.filter((key) => it.attributes.has(key))
    .map((key) => `${key.replace('aria-', '')}=${it.getAttribute(key)}`);
  const flags = ['disabled', 'open'].filter((key) => it.own[key]);
  const title = it.title && it.title !== it.textContent ? `title=${it.title}` : '';
  const kind = it.className ? `.${it.className.replace(/ /g, '.')}` : '';
  const own = SHOWN.filter((key) => it.attributes.has(key)).map((key) => `${key}=${it.getAttribute(key)}`);
  const values = it.localName === 'input' && /checkbox|radio/.test(it.type) ? [it.checked ? '[x]' : '[ ]', it.value]
    : it.localName === 'progress' ? [`value=${it.own.value ?? 'none'}`]
      : /input|textarea|select/.test(it.localName) ? [`= ${JSON.stringify(it.value)}`] : [];
  const name = it.localName + (it.id ? `#${it.id}` : '') + kind;
  return [name, title, ...own, ...said, ...flags, ...values].filter(Boolean).join(' ');
}

// What a list offers: each option, and which of them are groups; of many the first and the last, and a digest.
function offered(it) {
  const options = it.querySelectorAll('option').map((one) => `${one.value}: ${squeezed(one.textContent)}`);
  const groups = it.querySelectorAll('optgroup').map(({ label, children }) => `${label} (${children.length})`);
  const all = [...options, ...groups];
  if (all.length <= MANY) return ` of ${all.join(' | ')}`;
  const digest = crypto.createHash('sha256').update(all.join('\n')).digest('hex').slice(0, 8);
  return ` of ${all.length}: ${all[0]} | .. | ${all[all.length - 1]}, ${digest}`;
}

/** The lines of what is to be seen of an element: each element with what it is, and the text in it. */
function linesOf(it) {
  if (it.hidden || it.localName === 'script') return [];
  if (it.localName === 'select') return [headOf(it) + offered(it)];
  if (it.localName === 'svg') return [headOf(it), ...it.children.map((one) => `  ${markupOf(one)}`)];
  const lines = [];
  let text = '';
  const tell = () => {
    if (squeezed(text)) lines.push(`“${squeezed(text)}”`);
    text = '';
  };
  for (const one of it.childNodes) {
    if (one instanceof Text) text += one.data;
    else if (INLINE.has(one.localName)) text += `\`${one.textContent}\``;
    else {
      tell();
      lines.push(...linesOf(one));
    }
  }
  tell();
  const head = headOf(it), whole = [head, ...lines].join(' · ');
  const isShort = lines.every((line) => !line.startsWith(' ')) && (whole.length <= WIDE || it.localName === 'tr');
  return isShort ? [whole] : [head, ...lines.map((line) => `  ${line}`)];
}

module.exports = { documentOf, linesOf, markupOf };
