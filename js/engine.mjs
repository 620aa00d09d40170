// The module of WebAssembly: its instances, and its calls. What goes in is checked here, since the boundary
// cuts numbers: 2^32 would become 0. Buffers are bytes, with the low byte of a number first.
import { Trapped } from "./answers.mjs";
import {
  CALLS, MAX_ALLOWANCE, MAX_FAN_OUT, MAX_SITE, MAX_STATES, MAX_TIME, POSSIBLE_WORDS, SIZES, STORE_WORDS,
  STRUCTS,
} from "./raw.mjs";

const PAGE = 65536;
/** Room enough for the buffers of every call that is not refused. */
const ROOM = 2 * PAGE;
const MOST = 2 ** 32 - 1;
/** What the library takes of a parameter, by its name: it refuses more itself, and here it is only said. */
const TAKEN = {
  allowance: MAX_ALLOWANCE, fanOut: MAX_FAN_OUT, n: MAX_STATES, site: MAX_SITE, time: MAX_TIME,
};
const WORD = 8;
const NULL = 0;
/** What the calls of texts answer, by hand: the struct TextFields of the module. */
const TEXT_FIELDS = { mistakes: 0, n: 4, g: 8, lines: 12, length: 16, size: 20 };
export const TEXT_CALLS = ["shuntberry_text_read", "shuntberry_text_print"];

/** What something that is no number is, in words. */
const shown = (value) => {
  if (value === null || typeof value === "number" || typeof value === "boolean") return String(value);
  return typeof value === "bigint" ? `the bigint ${value}n` : `of type ${typeof value}`;
};

/** The whole number that a value is; nothing is converted to one. */
export function whole(value, what, greatest = MOST) {
  if (!Number.isInteger(value)) throw new TypeError(`${what} is a whole number, not ${shown(value)}`);
  if (value < 0 || value > greatest) {
    throw new RangeError(`${what} is ${value}: it goes from 0 to ${TAKEN[what] ?? greatest}`);
  }
  return value;
}

/** A parameter's name as JavaScript has it. */
const spoken = (name) => name.replace(/_([a-z])/g, (_, letter) => letter.toUpperCase());
const aligned = (bytes) => Math.ceil(bytes / WORD) * WORD;
const sizeOf = (kind) => SIZES[kind] ?? STRUCTS[kind].size;

/** The fields of a struct in memory; an array and a struct of one set are bytes. */
function fieldsOf(kind, memory, at) {
  const view = new DataView(memory);
  if (kind in SIZES) return view.getUint32(at, true);
  const fields = {};
  for (const [name, inner, place, count] of STRUCTS[kind].fields) {
    const isNumber = inner in SIZES && count === 0;
    fields[name] = isNumber
      ? view.getUint32(at + place, true)
      : new Uint8Array(memory, at + place, sizeOf(inner) * Math.max(count, 1)).slice();
  }
  return fields;
}

export class Engine {
  #module;
  #kept = null;

  /** Of a module that was compiled; one that is not ours is refused. */
  constructor(module) {
    this.#module = module;
    const calls = Object.keys(CALLS).map((name) => `shuntberry_${name}`);
    const exported = new Map(WebAssembly.Module.exports(module).map(({ name, kind }) => [name, kind]));
    const lacks = [...calls, ...TEXT_CALLS].filter((name) => exported.get(name) !== "function");
    if (exported.get("memory") !== "memory") lacks.push("memory");
    if (lacks.length > 0) {
      throw new Error(`this is not shuntberry.wasm of this version: it lacks ${lacks.join(", ")}`);
    }
    if (WebAssembly.Module.imports(module).length > 0) throw new Error("shuntberry.wasm imports nothing");
    this.#kept = this.#instance(ROOM);
  }

  /** An instance, with room behind its own memory. */
  #instance(bytes) {
    const { exports } = new WebAssembly.Instance(this.#module, {});
    const base = exports.memory.grow(Math.ceil(bytes / PAGE)) * PAGE;
    return { exports, base };
  }

  /** Something done in an instance; one in which anything went wrong is not used again. */
  #within(instance, work) {
    try {
      return work(instance);
    } catch (cause) {
      if (this.#kept === instance) this.#kept = null;
      throw new Trapped(`the module stopped: ${cause instanceof Error ? cause.message : cause}`, { cause });
    }
  }

  /** What a call answers. A buffer is bytes; one that the call writes has what it wrote there afterwards. */
  call(name, ...given) {
    const { answer, parameters } = CALLS[name];
    if (given.length !== parameters.length) throw new TypeError(`${name} takes ${parameters.length}`);
    const words = [];
    const lent = [];
    let size = aligned(sizeOf(answer));
    const lend = (bytes, pointer) => {
      lent.push({ bytes, pointer, place: size });
      words.push({ place: size });
      size += aligned(bytes.length);
    };
    parameters.forEach(([what, kind, pointer], k) => {
      if (pointer === "" && kind in SIZES) {
        words.push(whole(given[k], spoken(what)));
        return;
      }
      lend(given[k], pointer);
      if (pointer !== "") words.push(given[k].length / SIZES[kind]);
    });
    const instance = size > ROOM ? this.#instance(size) : (this.#kept ??= this.#instance(ROOM));
    return this.#within(instance, ({ exports, base }) => {
      const memory = () => new Uint8Array(exports.memory.buffer);
      for (const { bytes, place } of lent) memory().set(bytes, base + place);
      const numbers = words.map((word) => (typeof word === "number" ? word : base + word.place));
      exports[`shuntberry_${name}`](base, ...numbers);
      for (const { bytes, pointer, place } of lent) {
        if (pointer === "mut") bytes.set(memory().subarray(base + place, base + place + bytes.length));
      }
      return fieldsOf(answer, exports.memory.buffer, base);
    });
  }

  // ---- texts, each in an instance of its own: a text may be long, and its memory goes with it

  #text(size, work) {
    return this.#within(this.#instance(size), ({ exports, base }) => {
      work(exports, base);
      const view = new DataView(exports.memory.buffer);
      const field = (name) => view.getUint32(base + TEXT_FIELDS[name], true);
      const lines = new Uint8Array(exports.memory.buffer, field("lines"), field("length"));
      const text = new TextDecoder("utf-8", { fatal: true, ignoreBOM: true }).decode(lines);
      return { mistakes: field("mistakes"), n: field("n"), g: field("g"), text, exports, base };
    });
  }

  /** What a text says: its table in a store, rows of possible steps where it may have some, and lines of
   * names; or lines of mistakes. */
  readText(text, takesPossible = false) {
    const at = { store: aligned(TEXT_FIELDS.size) };
    at.possible = at.store + WORD * STORE_WORDS;
    at.text = at.possible + WORD * POSSIBLE_WORDS;
    const { exports, base, ...found } = this.#text(at.text + text.length, (exports, base) => {
      new Uint8Array(exports.memory.buffer).set(text, base + at.text);
      const possible = takesPossible ? base + at.possible : NULL;
      exports.shuntberry_text_read(base, base + at.text, text.length, base + at.store, possible);
    });
    const bytes = (place, words) => new Uint8Array(exports.memory.buffer, base + place, WORD * words).slice();
    return { ...found, store: bytes(at.store, STORE_WORDS), possible: bytes(at.possible, POSSIBLE_WORDS) };
  }

  /** The text of a table, with names as lines and with rows of possible steps, if there are any. */
  printText(store, n, g, names, possible = null) {
    const at = { store: aligned(TEXT_FIELDS.size) };
    at.possible = at.store + store.length;
    at.names = at.possible + WORD * POSSIBLE_WORDS;
    return this.#text(at.names + names.length + WORD, (exports, base) => {
      const memory = new Uint8Array(exports.memory.buffer);
      memory.set(store, base + at.store);
      memory.set(names, base + at.names);
      if (possible !== null) memory.set(possible, base + at.possible);
      const rows = possible === null ? NULL : base + at.possible;
      exports.shuntberry_text_print(base, base + at.store, n, g, base + at.names, names.length, rows);
    }).text;
  }
}
