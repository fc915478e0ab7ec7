// Markup (XML) as a list of what begins, what ends and what is text: a worker has no parser of a browser's.

const PIECE = /<!\[CDATA\[([^]*?)\]\]>|<!--[^]*?-->|<[?!][^>]*>|<(\/?)([\w.:-]+)((?:[^>"']|"[^"]*"|'[^']*')*?)(\/?)>|([^<]+)/g;
const ATTRIBUTE = /([\w.:-]+)\s*=\s*("[^"]*"|'[^']*')/g;
const SIGNS = { lt: '<', gt: '>', amp: '&', quot: '"', apos: "'" };

const localName = (name) => name.slice(name.indexOf(':') + 1);

function plain(text) {
  if (!text.includes('&')) return text;
  return text.replace(/&(?:#x([\da-fA-F]+)|#(\d+)|(\w+));/g, (all, hex, decimal, name) => {
    if (name !== undefined) return SIGNS[name] ?? all;
    return String.fromCodePoint(hex === undefined ? Number(decimal) : parseInt(hex, 16));
  });
}

// Attributes by their names, without what stands before a colon.
function attributesOf(text) {
  /** @type {Record<string, string>} */
  const found = {};
  for (const [, name, value] of text.matchAll(ATTRIBUTE)) found[localName(name)] = plain(value.slice(1, -1));
  return found;
}

/**
 * Tells `takes` each element that begins, with its name and its attributes, each that ends, and each text between
 * them, as far as it takes them.
 * @param {string} text
 * @param {{ begins(name: string, attributes: Record<string, string>): void, ends?(name: string): void,
 *   text?(text: string): void }} takes
 */
export function readMarkup(text, takes) {
  const take = { ends(_) {}, text(_) {}, ...takes };
  for (const [, data, isEnd, name, attributes, isEmpty, between] of text.matchAll(PIECE)) {
    if (data !== undefined) take.text(data);
    else if (between !== undefined) take.text(plain(between));
    else if (name !== undefined && isEnd) take.ends(localName(name));
    else if (name !== undefined) {
      take.begins(localName(name), attributesOf(attributes));
      if (isEmpty) take.ends(localName(name));
    }
  }
}
