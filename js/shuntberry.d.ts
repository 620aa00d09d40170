/** Is a forbidden state of a dialogue table reachable, and by which steps? */

export const FILE_BYTES: number;
export const MAX_ALLOWANCE: number;
export const MAX_DAYS: number;
export const MAX_FAN_OUT: number;
export const MAX_GROUPS: number;
export const MAX_LOG: number;
export const MAX_SITE: number;
export const MAX_STATES: number;
export const MAX_TIME: number;
export const MAX_WINDOWS: number;

/** A state by its number, or by its name where the table knows names. */
export type State = number | string;
/** The successors of each state that has some. The keys of an object are numbers in digits, or names. */
export type Steps = ReadonlyMap<State, Iterable<State>> | { readonly [state: string]: Iterable<State> };
export type Names = ReadonlyMap<number, string> | { readonly [state: number]: string };
export type Bytes = Uint8Array | ArrayBuffer;

/** A call, or a file, that the library refused. */
export class Refused extends Error {
  constructor(number: number);
  /** The number of the refusal, as in the header. */
  readonly number: number;
  /** Its name in the header, such as "STATES". */
  readonly code: string;
  /** Its ground, in words. */
  readonly ground: string;
}

export interface Mistake {
  /** The line, from 1 on. */
  readonly line: number;
  readonly reason: string;
}

/** A text with mistakes: the first ones by their lines, and how many there are. */
export class Mistakes extends Error {
  constructor(mistakes: readonly Mistake[], count: number);
  readonly mistakes: readonly Mistake[];
  readonly count: number;
}

/** The module stopped in a call. The next call has another instance. */
export class Trapped extends Error {}

/** The module answered with something that this version does not know. */
export class UnknownAnswer extends Error {}

/** Of an answer look at `isSafe` first: the verdict of a table without states is "safe" too. Then look at
 * `Table.isVacuous`: where nothing is initial or nothing is forbidden, safe says nothing. */
export type Verdict = "safe" | "unsafe" | "undecided" | "depends";

/** An object is true in an `if` whatever it says: look at `isSafe`. A copy by JSON or for a worker has it. */
export interface Decision {
  /** Whether the verdict is safe, and the table has states. Also true of a table that `isVacuous`. */
  readonly isSafe: boolean;
  /** The table's number of states. */
  readonly n: number;
  readonly verdict: "safe" | "unsafe" | "undecided";
  /** The number of refinements made. */
  readonly count: number;
  /** If safe, a set with the initial states, the successors of each of its own, and no forbidden state. */
  readonly invariant: readonly number[] | null;
  /** If unsafe, the smallest of the shortest paths from an initial to a forbidden state. */
  readonly path: readonly number[] | null;
}

export interface ModalDecision {
  /** Whether every choice is safe, and the table has states. Also true where the table of the possible steps
   * `isVacuous`. */
  readonly isSafe: boolean;
  readonly n: number;
  /** "safe" or "unsafe" if every choice is, else "depends". */
  readonly verdict: "safe" | "unsafe" | "depends";
  /** If safe, that of the possible steps; if it depends, that of the certain ones. */
  readonly invariant: readonly number[] | null;
  /** If unsafe, that of the certain steps; if it depends, that of the possible ones. */
  readonly path: readonly number[] | null;
}

/** What check answers. Of a file that is refused `verdict` and `n` throw the refusal; a copy by JSON or for a
 * worker lacks these two. */
export interface Checked {
  /** Whether the file was accepted, the verdict is safe and the table has states. Also true of a table that
   * `isVacuous`: read the same bytes, and ask it, before you release them. */
  readonly isSafe: boolean;
  /** What the command check prints. */
  readonly text: string;
  /** Why the file is refused, or null. */
  readonly refusal: Refused | null;
  readonly verdict: "safe" | "unsafe";
  readonly n: number;
  /** How the command check ends: 0 safe, 1 unsafe, 2 refused, 4 a table without states. */
  readonly status: 0 | 1 | 2 | 4;
}

export interface Replay {
  /** The entries before the first that breaks the walk; all of them if none does. */
  readonly followed: number;
  /** The different states that those hold. */
  readonly seen: number;
  /** 100 times `seen`, divided by the number of states that can be reached; 0 if there are none. */
  readonly percent: number;
  readonly remainder: number;
  /** The entries of the log. */
  readonly entries: number;
}

/** A weekly window of `length` minutes, from minute `start` of the week on: weeks begin on Saturday. */
export interface Window {
  readonly start: number;
  readonly length: number;
}

export interface Sets {
  readonly initial: Iterable<State>;
  readonly marked: Iterable<State>;
  readonly steps: Steps;
  readonly resting?: Iterable<State>;
  readonly groups?: Iterable<Iterable<State>>;
  readonly names?: Names;
}

/** A table never changes. A state is forbidden if it is marked, or if it has no step and is not resting. */
export interface Table {
  readonly n: number;
  readonly g: number;
  readonly initial: readonly number[];
  readonly marked: readonly number[];
  readonly resting: readonly number[];
  readonly groups: readonly (readonly number[])[];
  readonly steps: Map<number, readonly number[]>;
  readonly names: Map<number, string>;
  /** The number of a state. */
  state(state: State): number;
  successors(state: State): readonly number[];
  whyForbidden(state: State): "not" | "marked" | "hang";
  /** Whether no state is initial or none is forbidden, so that the table is safe whatever else is in it:
   * release no such table. One without states is vacuous, too. */
  readonly isVacuous: boolean;
  /** Whether two tables have the same sets. Names make no difference. */
  equals(other: Table): boolean;
  /** The one text of the table, with its names; and with lines `possible` for the further steps of a table
   * that is the same but for its steps. */
  toText(possible?: Table): string;
  /** A copy of its store, as the specification lays it out. */
  readonly store: Uint8Array;
}

export interface TableClass {
  new (n: number, sets: Sets): Table;
  /** The table in the bytes of a file for a site, else for 0. No bytes are a draft, without states. */
  fromBytes(data: Bytes, site?: number, names?: Names): Table;
  /** The table of a text, which is given itself, with its names. `language.txt` says how a text is written.
   * Throws `Mistakes`. */
  fromText(text: string): Table;
  /** The same of a text that may have lines `possible STATE -> STATE..`. `table` has its certain steps alone:
   * it is the pump without options. `possible` has all possible steps. What is released is each pump's own
   * table, with the steps of its options, and decided by itself. */
  fromTextWithPossible(text: string): { readonly table: Table; readonly possible: Table };
  /** The table in a store, which the library accepts, or refuses with 17. */
  fromStore(n: number, g: number, store: Bytes, names?: Names): Table;
}

/** Steps drawn and rubbed out in a copy of a table. A refused edit changes nothing. */
export interface Session {
  /** The states that can be reached from the initial ones, these included. */
  readonly reachable: readonly number[];
  /** The table as edited so far. */
  readonly table: Table;
  addStep(from: State, to: State): readonly number[];
  removeStep(from: State, to: State): readonly number[];
}

export interface SessionClass {
  new (table: Table): Session;
}

export interface Shuntberry {
  readonly Table: TableClass;
  readonly Session: SessionClass;
  /** A release check of a file's bytes. */
  check(data: Bytes, site?: number): Checked;
  /** With at most `allowance` refinements, from 0 to `MAX_ALLOWANCE`. That is what it is if it is left out:
   * the verdict is never "undecided" then. The library refuses more, with 20. */
  decide(table: Table, allowance?: number): Decision;
  /** The steps of the table are the certain ones; `possible` has these and the others, as steps or in a table
   * that is the same but for its steps. A state with possible steps is no hang here, even in a choice that
   * gives it none; for `decide`, of that pump's own table, it is one unless it is resting. */
  decideModal(table: Table, possible: Steps | Table): ModalDecision;
  /** For each state the steps to the nearest forbidden one; Infinity where none can be reached. */
  distances(table: Table): readonly number[];
  generate(seed: number, n: number, fanOut: number): Table;
  /** The first open minute at or after `time`; Infinity, which is never, if there is no window. Time is whole
   * minutes since 1 January 2000, 00:00, a Saturday. Days are counted from that one, which is day 0. */
  nextOpen(time: number, windows: Iterable<Window>, closedDays?: Iterable<number>): number;
  read(data: Bytes, site?: number, names?: Names): Table;
  /** Follows a pump's log: a list of state numbers of two bytes each, low byte first. The first is initial,
   * each later one a successor of the one before it. */
  replay(table: Table, log: Bytes): Replay;
  /** A file of the old form of site 0 in the new form. */
  rewrite(data: Bytes): Uint8Array;
  shortestPath(table: Table): readonly number[] | null;
  /** Whether a path of at most `k` steps leads to a forbidden state. */
  within(table: Table, k: number): boolean;
  write(table: Table, site?: number): Uint8Array;
}

/** A class of the system, where the program has its types: without `dom` it may have none. */
type Instance<Class> = Class extends { readonly prototype: infer Of } ? Of : never;
type System = typeof globalThis;
type FetchResponse = System extends { Response: infer Class } ? Instance<Class> : never;
type CompiledModule = System extends { WebAssembly: { Module: infer Class } } ? Instance<Class> : never;
export type Source = Bytes | FetchResponse | CompiledModule;
/** The calls: of shuntberry.wasm beside the module, or of what is given. */
export function load(): Promise<Shuntberry>;
export function load(source: Source | PromiseLike<Source>): Promise<Shuntberry>;
