// The draft, which never changes: an edit gives another one, which shares what it did not touch. So undo and
// redo are the drafts themselves, and what was undone is there again to the bit.
import { MAX_GROUPS, MAX_STATES } from "../shuntberry.mjs";
import { EMPTY, SET_BYTES, has, isEmpty, isSame, members, put, setOf, union, without } from "./bits.mjs";

const HEAD_SETS = 3;
const FIRST_ROW = HEAD_SETS + MAX_GROUPS;
const STORE_BYTES = SET_BYTES * (FIRST_ROW + MAX_STATES);

/** What a person did that cannot be done, in words. */
export class NotDone extends Error {}

const draft = (fields) => Object.freeze(fields);
const replaced = (list, k, value) => list.map((old, i) => (i === k ? value : old));

/** The draft without screens. */
export const NEW_DRAFT = draft({
  n: 0, names: [], initial: EMPTY, marked: EMPTY, resting: EMPTY, groups: [], certain: [], options: [],
});

// ---- from tables, and to stores

/** The draft of a table and of the same with every possible step in it. */
export function draftOf(table, possible = table) {
  const [store, more] = [table.store, possible.store];
  const set = (bytes, k) => bytes.slice(SET_BYTES * k, SET_BYTES * (k + 1));
  const rows = (bytes) => Array.from({ length: table.n }, (_, s) => set(bytes, FIRST_ROW + s));
  const certain = rows(store);
  return draft({
    n: table.n,
    names: Array.from({ length: table.n }, (_, s) => table.names.get(s) ?? null),
    initial: set(store, 0),
    marked: set(store, 1),
    resting: set(store, 2),
    groups: Array.from({ length: table.g }, (_, j) => set(store, HEAD_SETS + j)),
    certain,
    options: rows(more).map((row, s) => (
      isSame(row, certain[s]) ? EMPTY : row.map((byte, k) => byte & ~certain[s][k])
    )),
  });
}

/** The store of a draft, with the steps that only an option brings, or without them. */
export function storeOf(d, withOptions) {
  const store = new Uint8Array(STORE_BYTES);
  [d.initial, d.marked, d.resting, ...d.groups].forEach((set, k) => store.set(set, SET_BYTES * k));
  const row = (s) => (withOptions ? possible(d, s) : d.certain[s]);
  for (let s = 0; s < d.n; s++) store.set(row(s), SET_BYTES * (FIRST_ROW + s));
  return store;
}

/** The tables of a draft: of its certain steps, and of all possible ones; the same one where no option is. */
export function tablesOf(library, d, names) {
  const table = (withOptions) =>
    library.Table.fromStore(d.n, d.groups.length, storeOf(d, withOptions), names);
  const all = table(true);
  return { all, certain: hasOptions(d) ? table(false) : all };
}

/** The names of a draft, as a table takes them. */
export const namesOf = (d) => new Map(d.names.flatMap((name, s) => (name === null ? [] : [[s, name]])));

/** The text of a draft, by the library's printer, which reads it back. */
export function textOf(library, d) {
  const { all, certain } = tablesOf(library, d, namesOf(d));
  return hasOptions(d) ? certain.toText(all) : certain.toText();
}

/** The draft of a text; mistakes are thrown. */
export function draftOfText(library, text) {
  const { table, possible: more } = library.Table.fromTextWithPossible(text);
  return draftOf(table, more);
}

// ---- what is in it

/** The draft of a pump that has no option. */
export const withoutOptions = (d) => draft({ ...d, options: d.options.map(() => EMPTY) });
/** The draft in which no screen is a hang: what is forbidden is marked. */
export const allResting = (d) => draft({ ...d, resting: setOf(d.names.keys()) });
export const hasOptions = (d) => d.options.some((row) => !isEmpty(row));
/** The steps that only an option brings, each by its ends. */
export const optionSteps = (d) => d.options.flatMap((row, from) => members(row).map((to) => [from, to]));
export const possible = (d, s) => union(d.certain[s], d.options[s]);
/** The lists of successors, by the rows that they are of: rows never change. */
const listed = new WeakMap();
export function successors(d, s) {
  const [row, more] = [d.certain[s], d.options[s]];
  const known = listed.get(row);
  if (known?.more === more) return known.list;
  const list = Object.freeze(members(union(row, more)));
  listed.set(row, { more, list });
  return list;
}
export const predecessors = (d, t) => d.certain.flatMap((_, s) => (has(possible(d, s), t) ? [s] : []));
export const isHang = (d, s) => !has(d.resting, s) && isEmpty(d.certain[s]) && isEmpty(d.options[s]);
export const isForbidden = (d, s) => has(d.marked, s) || isHang(d, s);
/** A hang that would not be forbidden if it were resting. */
export const isUnmarkedHang = (d, s) => isHang(d, s) && !has(d.marked, s);

/** A screen as it is called: its name, or its number where it has none. */
export const called = (d, s) => d.names[s] ?? String(s);
/** The same with its number always. */
export const screen = (d, s) => (d.names[s] === null ? String(s) : `${s} ${d.names[s]}`);

/** The screen that words stand for, a name or a number; null where there is none. */
export function screenOf(d, words) {
  const word = words.trim();
  const named = d.names.indexOf(hyphened(word));
  if (named !== -1) return named;
  const number = /^(0|[1-9][0-9]{0,4})$/.exec(word) ? Number(word) : /^([0-9]+) /.exec(word)?.[1];
  const s = Number(number ?? NaN);
  if (!Number.isInteger(s) || s >= d.n) return null;
  return typeof number === "number" || word === screen(d, s) ? s : null;
}

/** Whether two drafts are the same, names too. */
export function isSameDraft(a, b) {
  if (a === b) return true;
  const sets = (d) => [d.initial, d.marked, d.resting, ...d.groups, ...d.certain, ...d.options];
  return a.n === b.n && a.groups.length === b.groups.length &&
    a.names.every((name, s) => name === b.names[s]) && sets(a).every((set, k) => isSame(set, sets(b)[k]));
}

// ---- edits

/** Words as a name has them: with hyphens for spaces. */
const hyphened = (words) => words.trim().replace(/\s+/g, "-");

/** A good name, or why it is none: the reader of texts says so, beside a name that is there already. */
export function checkedName(library, d, s, words) {
  const name = hyphened(words);
  const other = d.names.findIndex((old, k) => old === name && k !== s);
  if (other !== -1) throw new NotDone(`screen ${other} has the name ${name} already`);
  const beside = d.names.find((old, k) => old !== null && k !== s);
  const others = beside === undefined ? "" : `state 0 ${beside}\n`;
  const text = `states 2\n${others}state 1 ${name}\ninitial none\nforbidden none\nend\n`;
  try {
    if (library.Table.fromText(text).names.get(1) === name) return name;
  } catch (error) {
    if (!Array.isArray(error.mistakes)) throw error;
    throw new NotDone(error.mistakes[0].reason);
  }
  throw new NotDone(`'${name}' is no name: # begins a comment`);
}

export function addScreen(d, name = null) {
  if (d.n >= MAX_STATES) throw new NotDone(`a table has at most ${MAX_STATES} screens`);
  return draft({
    ...d,
    n: d.n + 1,
    names: [...d.names, name],
    certain: [...d.certain, EMPTY],
    options: [...d.options, EMPTY],
  });
}

/** The screens behind it move up by one; of the last screen's groups nothing is left. */
export function removeScreen(d, gone) {
  const rows = (all) => all.filter((_, s) => s !== gone).map((row) => without(row, gone));
  const left = d.n - 1;
  return draft({
    n: left,
    names: d.names.filter((_, s) => s !== gone),
    initial: without(d.initial, gone),
    marked: without(d.marked, gone),
    resting: without(d.resting, gone),
    groups: left === 0 ? [] : d.groups.map((group) => without(group, gone)),
    certain: rows(d.certain),
    options: rows(d.options),
  });
}

export const rename = (d, s, name) => draft({ ...d, names: replaced(d.names, s, name) });

/** A mark is initial, marked or resting. */
export const mark = (d, what, s, isOn) => draft({ ...d, [what]: put(d[what], s, isOn) });

/** A step is "certain", an "option", or "none". */
export function setStep(d, from, to, kind) {
  return draft({
    ...d,
    certain: replaced(d.certain, from, put(d.certain[from], to, kind === "certain")),
    options: replaced(d.options, from, put(d.options[from], to, kind === "option")),
  });
}

export function stepKind(d, from, to) {
  if (has(d.certain[from], to)) return "certain";
  return has(d.options[from], to) ? "option" : "none";
}

export function addGroup(d, states = EMPTY) {
  if (d.groups.length >= MAX_GROUPS) throw new NotDone(`a table has at most ${MAX_GROUPS} groups`);
  if (d.n === 0) throw new NotDone("a table without screens has no groups");
  return draft({ ...d, groups: [...d.groups, states] });
}

export const removeGroup = (d, j) => draft({ ...d, groups: d.groups.filter((_, k) => k !== j) });
export const setGroup = (d, j, s, isIn) =>
  draft({ ...d, groups: replaced(d.groups, j, put(d.groups[j], s, isIn)) });

// ---- undo and redo

/** What was done, one draft after the other, each with the text that it came from, if it did. A text with
 * mistakes is one more thing that was done: it stands beside the draft before it, as `wrong`. */
export class History {
  #past = [];
  #now;
  #future = [];

  constructor(first = NEW_DRAFT, text = null) {
    this.#now = { draft: first, text, wrong: null, what: "", titles: null };
  }

  get draft() {
    return this.#now.draft;
  }

  get text() {
    return this.#now.text;
  }

  /** The text with mistakes that stands in the field, if one does. */
  get wrong() {
    return this.#now.wrong;
  }

  /** The names of the draft before and after what was done last, where that gave it another. */
  get titles() {
    return this.#now.titles;
  }

  get undoes() {
    return this.#past.length > 0 ? this.#now.what : null;
  }

  get redoes() {
    return this.#future.at(-1)?.what ?? null;
  }

  /** One more; `merges` says that it goes on with the last edit, as typing does. */
  add(next, what, text = null, merges = false, titles = null) {
    this.#add({ draft: next, text, wrong: null, what, titles }, merges);
  }

  /** A text with mistakes: the draft stays. */
  addWrong(wrong, what, merges = false) {
    const titles = merges ? this.titles : null;
    this.#add({ draft: this.draft, text: this.text, wrong, what, titles }, merges);
  }

  #add(entry, merges) {
    if (!merges || this.#past.length === 0) this.#past.push(this.#now);
    this.#now = entry;
    this.#future = [];
  }

  undo() {
    if (this.#past.length === 0) return false;
    this.#future.push(this.#now);
    this.#now = this.#past.pop();
    return true;
  }

  redo() {
    if (this.#future.length === 0) return false;
    this.#past.push(this.#now);
    this.#now = this.#future.pop();
    return true;
  }
}
