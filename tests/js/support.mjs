// What the tests of the JavaScript module share. MODULE is the folder in which it stands.
import assert from "node:assert/strict";
import { pathToFileURL } from "node:url";

export { assert };
export const folder = process.env.MODULE;
export const url = (name) => new URL(name, `${pathToFileURL(folder)}/`).href;

/**
 * Counts the instances that are made and the calls that enter one. `spoil` gives each call other words, `lie` is
 * [place, number], which is put into each answer.
 */
export const watched = { instances: 0, entered: 0, spoil: null, lie: null };
const Real = WebAssembly.Instance;
WebAssembly.Instance = function (module, imports) {
  const real = new Real(module, imports);
  watched.instances++;
  const exports = { memory: real.exports.memory };
  for (const [name, call] of Object.entries(real.exports)) {
    if (typeof call !== "function") continue;
    exports[name] = (...words) => {
      watched.entered++;
      call(...(watched.spoil?.(name, words) ?? words));
      if (watched.lie === null) return;
      const [place, number] = watched.lie;
      new DataView(real.exports.memory.buffer).setUint32(words[0] + place, number, true);
    };
  }
  return { exports };
};

export const module = await import(url("shuntberry.mjs"));
export const shuntberry = await module.load();
export const hex = (bytes) => Buffer.from(bytes).toString("hex");
export const bytes = (text) => new Uint8Array(Buffer.from(text, "hex"));

let facts = 0;
export const same = (found, expected, what) => {
  facts++;
  assert.deepEqual(found, expected, what);
};
export const throws = (work, kind, what) => {
  facts++;
  assert.throws(work, kind, what);
};
export const rejects = (work, kind, what) => {
  facts++;
  return assert.rejects(work, kind, what);
};
/** The last line of a test; a test that looked at little has not looked. */
export const end = (name, least) => {
  assert.ok(facts >= least, `${name}: only ${facts} facts`);
  console.log(`js: ${name}: ${facts} facts as expected`);
};
