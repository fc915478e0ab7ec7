// What the page has while it is written, and is served from this folder's repository by a local server: what the
// product knows of itself, as the stored run of register_facts has it, the list of names, the module of register.html,
// and the worker's file. page/build-page takes built.mjs in its place.

// A worker would lose what is sent to it while it waits, so this does not.
function requested(name) {
  const request = new XMLHttpRequest();
  request.open('GET', new URL(name, import.meta.url), false);
  request.send();
  return request.responseText;
}

/** @type {import('./built.mjs').Facts} */
export const FACTS = JSON.parse(requested('../crates/register_facts/stdout'));

export const NAMES = requested('../names.csv');

export async function packedModule() {
  const page = await (await fetch('../register.html')).text();
  return /REGISTER_WASM = '([^']*)'/.exec(page)[1];
}

export const newWorker = () => new Worker(new URL('worker.mjs', import.meta.url), { type: 'module' });
