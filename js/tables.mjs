// A dialogue table: its sets out of JavaScript's, out of a file and out of a text. A set is 64 bytes of a
// store, in which state s is the bit of value 2^(s % 8) in byte s / 8.
import { Mistakes, UnknownAnswer, accepted } from "./answers.mjs";
import { whole } from "./engine.mjs";
import { HEAD_SETS, MAX_GROUPS, MAX_STATES, SET_WORDS, STORE_WORDS } from "./raw.mjs";

export const SET_BYTES = 8 * SET_WORDS;
export const STORE_BYTES = 8 * STORE_WORDS;
const FIRST_ROW = HEAD_SETS + MAX_GROUPS;
const SETS = ["initial", "marked", "steps", "resting", "groups", "names"];

const typedArrays = Object.getPrototypeOf(Uint8Array.prototype);
const tagOf = Object.getOwnPropertyDescriptor(typedArrays, Symbol.toStringTag).get;
const byteLengthOf = Object.getOwnPropertyDescriptor(ArrayBuffer.prototype, "byteLength").get;

function isArrayBuffer(data) {
  try {
    byteLengthOf.call(data);
    return true;
  } catch {
    return false;
  }
}

/** A copy of bytes. A text, an array or null is no empty file; nor is a buffer that was given away. */
export function bytesOf(data, what) {
  if (tagOf.call(data) === "Uint8Array") return new Uint8Array(data);
  if (isArrayBuffer(data)) return new Uint8Array(data).slice();
  throw new TypeError(`${what} is bytes, a Uint8Array or an ArrayBuffer`);
}

/** A number that may be left out, but is not undefined where it is given. */
export function optional(passed, k, what, otherwise) {
  return passed.length > k ? whole(passed[k], what) : otherwise;
}

/** The states of a set, in order. */
export function statesIn(bytes) {
  const states = [];
  for (let s = 0; s < 8 * bytes.length; s++) if ((bytes[s >> 3] >> (s & 7)) & 1) states.push(s);
  return Object.freeze(states);
}

/** The members of a list or set. A text is iterable too, and is none. */
export function listed(values, what) {
  if (typeof values !== "object" || values === null || typeof values[Symbol.iterator] !== "function") {
    throw new TypeError(`${what} is a list`);
  }
  return [...values];
}

/** Whether something is an object of no class, of any window. */
function isPlain(value) {
  if (typeof value !== "object" || value === null || Array.isArray(value)) return false;
  const above = Object.getPrototypeOf(value);
  return above === null || Object.getPrototypeOf(above) === null;
}

/** The pairs of a Map or of a plain object, whose keys are texts: digits are the number. */
function pairsOf(mapping, what) {
  if (mapping instanceof Map) return [...mapping];
  if (!isPlain(mapping)) throw new TypeError(`${what} is a Map or an object, such as {0: ..}`);
  const number = (key) => (/^(0|[1-9][0-9]*)$/.test(key) ? Number(key) : key);
  return Object.entries(mapping).map(([key, value]) => [number(key), value]);
}

/** Names that stand for one state each. */
function checkedNames(names, n) {
  const kept = new Map();
  for (const [key, name] of names === undefined ? [] : pairsOf(names, "names")) {
    const state = whole(key, "the number of a named state");
    if (typeof name !== "string") throw new TypeError(`the name of state ${state} is a text`);
    if (state >= n) throw new RangeError(`state ${state} is named '${name}', and the table has ${n}`);
    if (/^[0-9]*$/.test(name)) throw new RangeError(`the name of state ${state} is empty, or a number`);
    if (kept.has(state) || [...kept.values()].includes(name)) {
      throw new RangeError(`state ${state} has two names, or two states are named '${name}'`);
    }
    kept.set(state, name);
  }
  return kept;
}

/** A line's number and the words behind it. */
function numbered(line) {
  const space = line.indexOf(" ");
  return [Number(line.slice(0, space)), line.slice(space + 1)];
}

/** The class of the tables of one module, and what its calls alone may do with them. */
export function tables(engine) {
  const make = Symbol("a table of a store");
  const inner = {};

  /** The table of a text, and the rows of its possible steps, where it may have some. */
  function read(text, takesPossible) {
    if (typeof text !== "string") throw new TypeError("a text is a string");
    const found = engine.readText(new TextEncoder().encode(text), takesPossible);
    const pairs = found.text.split("\n").slice(0, -1).map(numbered);
    if (found.mistakes > 0) {
      throw new Mistakes(pairs.map(([line, reason]) => ({ line, reason })), found.mistakes);
    }
    const table = inner.ofStore(found.n, found.g, found.store, new Map(pairs));
    return { table, possible: found.possible };
  }

  class Table {
    static {
      inner.Table = Table;
      inner.ofStore = (...sets) => new Table(make, null, ...sets);
      /** The store of a table, n and g, as the calls take them. */
      inner.of = (table) => {
        if (typeof table !== "object" || table === null || !(#store in table)) {
          throw new TypeError("a Table is asked about: read(bytes) makes one of a file");
        }
        return [table.#store, table.#n, table.#g];
      };
      inner.rowsOf = (table, steps, what) =>
        #store in Object(steps) ? table.#rowsOfOther(steps, what) : table.#rows(steps, what);
    }

    #n;
    #g;
    #store = new Uint8Array(STORE_BYTES);
    #names;

    constructor(n, sets, ...more) {
      if (n === make) {
        this.#hold(...more);
        return;
      }
      whole(n, "n");
      if (more.length > 0 || typeof sets !== "object" || sets === null) {
        throw new TypeError("a table is made of n and its sets: {initial, marked, steps}");
      }
      const unknown = Object.keys(sets).filter((key) => !SETS.includes(key));
      if (unknown.length > 0) throw new TypeError(`a table has no ${unknown.join(", ")}`);
      const { initial, marked, steps, resting = [], groups = [], names } = sets;
      const all = listed(groups, "groups");
      this.#names = checkedNames(names, n);
      const store = new Uint8Array(STORE_BYTES);
      const put = (states, what, k) => store.set(this.#bits(states, what), SET_BYTES * k);
      put(initial, "initial", 0);
      put(marked, "marked", 1);
      put(resting, "resting", 2);
      // More groups than there is room for are refused by their number.
      all.slice(0, MAX_GROUPS).forEach((states, j) => put(states, `group ${j}`, HEAD_SETS + j));
      store.set(this.#rows(steps, "steps"), SET_BYTES * FIRST_ROW);
      this.#hold(n, all.length, store, this.#names);
    }

    // ---- from elsewhere

    static fromBytes(data, site) {
      const store = new Uint8Array(STORE_BYTES);
      const found = engine.call("read", bytesOf(data, "a file"), optional(arguments, 1, "site", 0), store);
      accepted(found.refusal);
      return inner.ofStore(found.n, found.g, store, arguments[2]);
    }

    static fromText(text) {
      return read(text, false).table;
    }

    static fromTextWithPossible(text) {
      const { table, possible } = read(text, true);
      const store = table.#store.slice();
      const rows = store.subarray(SET_BYTES * FIRST_ROW);
      possible.forEach((byte, k) => (rows[k] |= byte));
      return Object.freeze({ table, possible: inner.ofStore(table.#n, table.#g, store, table.#names) });
    }

    static fromStore(n, g, store, names) {
      const bytes = bytesOf(store, "a store");
      if (bytes.length !== STORE_BYTES) throw new RangeError(`a store has ${STORE_BYTES} bytes`);
      return inner.ofStore(whole(n, "n"), whole(g, "g"), bytes, names);
    }

    /** Takes a store that the library accepts as a table; nobody writes to it any more. */
    #hold(n, g, store, names) {
      accepted(engine.call("within", store, n, g, 0).refusal);
      if (n > MAX_STATES || g > MAX_GROUPS) throw new UnknownAnswer(`accepted: ${n} states, ${g} groups`);
      this.#n = n;
      this.#g = g;
      this.#store = store;
      this.#names = checkedNames(names, n);
    }

    /** A set as its bytes in a store. */
    #bits(states, what) {
      const bytes = new Uint8Array(SET_BYTES);
      for (const state of listed(states, what)) {
        const s = this.#place(state, what);
        bytes[s >> 3] |= 1 << (s & 7);
      }
      return bytes;
    }

    /** The number of a state that a set has room for. */
    #place(state, what) {
      return whole(this.state(state), `a state of ${what}`, MAX_STATES - 1);
    }

    /** The rows of successors, as their bytes in a store. */
    #rows(steps, what) {
      const bytes = new Uint8Array(SET_BYTES * MAX_STATES);
      const seen = new Set();
      for (const [state, successors] of pairsOf(steps, what)) {
        const s = this.#place(state, what);
        if (seen.has(s)) throw new RangeError(`${what} has state ${s} twice, by its number and by its name`);
        seen.add(s);
        bytes.set(this.#bits(successors, `${what} of state ${s}`), SET_BYTES * s);
      }
      return bytes;
    }

    /** The rows of a table that is the same but for its steps. */
    #rowsOfOther(other, what) {
      const head = SET_BYTES * FIRST_ROW;
      const isSame = this.#store.subarray(0, head).every((byte, k) => byte === other.#store[k]);
      if (!isSame || this.#n !== other.#n || this.#g !== other.#g) {
        throw new RangeError(`the table of ${what} is not the same but for its steps`);
      }
      return other.#store.slice(head);
    }

    // ---- what is in it

    get store() {
      return this.#store.slice();
    }

    get n() {
      return this.#n;
    }

    get g() {
      return this.#g;
    }

    get names() {
      return new Map(this.#names);
    }

    state(state) {
      if (typeof state !== "string") return whole(state, "a state");
      for (const [number, name] of this.#names) if (name === state) return number;
      throw new RangeError(`no state is named '${state}'`);
    }

    #set(k) {
      return statesIn(this.#store.subarray(SET_BYTES * k, SET_BYTES * (k + 1)));
    }

    get initial() {
      return this.#set(0);
    }

    get marked() {
      return this.#set(1);
    }

    get resting() {
      return this.#set(2);
    }

    get groups() {
      return Object.freeze(Array.from({ length: this.#g }, (_, j) => this.#set(HEAD_SETS + j)));
    }

    get steps() {
      const rows = new Map();
      for (let s = 0; s < this.#n; s++) {
        const row = this.#set(FIRST_ROW + s);
        if (row.length > 0) rows.set(s, row);
      }
      return rows;
    }

    successors(state) {
      const number = this.state(state);
      if (number >= this.#n) throw new RangeError(`there is no state ${number}: the table has ${this.#n}`);
      return this.#set(FIRST_ROW + number);
    }

    whyForbidden(state) {
      const successors = this.successors(state);
      const number = this.state(state);
      if (this.marked.includes(number)) return "marked";
      return successors.length > 0 || this.resting.includes(number) ? "not" : "hang";
    }

    get isVacuous() {
      const isForbidden = (_, state) => this.whyForbidden(state) !== "not";
      return this.initial.length === 0 || !Array.from({ length: this.#n }, isForbidden).includes(true);
    }

    equals(other) {
      const [store, n, g] = inner.of(other);
      return this.#n === n && this.#g === g && this.#store.every((byte, k) => byte === store[k]);
    }

    /** The one text of the table, and of the possible steps of another. A name that a text does not take is
     * an error: the text is read back. */
    toText(possible) {
      const more = arguments.length > 0 ? this.#rowsOfOther(possible, "possible") : null;
      const rows = this.#store.subarray(SET_BYTES * FIRST_ROW);
      const only = more === null ? null : more.map((byte, k) => byte & ~rows[k]);
      const names = [...this.#names].map(([number, name]) => `${number} ${name}\n`).join("");
      const text = engine.printText(this.#store, this.#n, this.#g, new TextEncoder().encode(names), only);
      const back = read(text, more !== null);
      const isNamed = ([number, name]) => back.table.#names.get(number) === name;
      const isSame = back.table.#names.size === this.#names.size && [...this.#names].every(isNamed);
      const isStepped = only === null || only.every((byte, k) => byte === back.possible[k]);
      const isWhole = isSame && isStepped && this.equals(back.table);
      if (!isWhole) throw new RangeError("the names are none of a text's");
      return text;
    }

    [Symbol.toPrimitive]() {
      throw new TypeError("a table is no number and no text");
    }
  }
  return inner;
}
