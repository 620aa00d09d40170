// The calls, on the tables of one module.
import {
  Checked, Decision, ModalDecision, Replay, UnknownAnswer, accepted, isYes, verdictOf,
} from "./answers.mjs";
import { whole } from "./engine.mjs";
import {
  CHECK_TEXT, DEPENDS, FILE_BYTES, MAX_ALLOWANCE, NO_MINUTE, PATH_PLACES, SAFE, UNDECIDED, UNREACHABLE,
  UNSAFE,
} from "./raw.mjs";
import { STORE_BYTES, bytesOf, listed, optional, statesIn, tables } from "./tables.mjs";

const PLACE = 2;

/** The first numbers of a buffer, which the call filled. */
function front(bytes, count, width = PLACE) {
  if (count * width > bytes.length) throw new UnknownAnswer(`the module says that it filled ${count} places`);
  return bytes.subarray(0, count * width);
}

/** The 16-bit numbers of bytes. */
function places(bytes) {
  const view = new DataView(bytes.buffer, bytes.byteOffset, bytes.length);
  return Array.from({ length: bytes.length / PLACE }, (_, k) => view.getUint16(PLACE * k, true));
}

const pathOf = (path, steps) => Object.freeze(places(front(path, steps + 1)));

/** 32-bit numbers as bytes, the low one first. */
function packed(numbers) {
  const view = new DataView(new ArrayBuffer(4 * numbers.length));
  numbers.forEach((number, k) => view.setUint32(4 * k, number, true));
  return new Uint8Array(view.buffer);
}

/** The tables and calls of a module. */
export function calls(engine) {
  const { Table, of, ofStore, rowsOf } = tables(engine);

  const ask = (name, ...given) => {
    const found = engine.call(name, ...given);
    accepted(typeof found === "number" ? found : found.refusal);
    return found;
  };
  const written = (name, ...given) => {
    const output = new Uint8Array(FILE_BYTES);
    const { length } = ask(name, ...given, output);
    return front(output, length, 1).slice();
  };

  function decide(table, allowance) {
    const path = new Uint8Array(PLACE * PATH_PLACES);
    const [store, n, g] = of(table);
    const found = ask("decide", store, n, g, optional(arguments, 1, "allowance", MAX_ALLOWANCE), path);
    const verdict = verdictOf(found.verdict, SAFE, UNSAFE, UNDECIDED);
    const invariant = verdict === "safe" ? statesIn(found.invariant) : null;
    const shown = verdict === "unsafe" ? pathOf(path, found.steps) : null;
    return new Decision(n, verdict, found.count, invariant, shown);
  }

  function check(data, site) {
    const text = new Uint8Array(CHECK_TEXT);
    const found = ask("check", bytesOf(data, "a file"), optional(arguments, 1, "site", 0), text);
    return new Checked(
      String.fromCharCode(...front(text, found.length, 1)), found.n, found.file_refusal, found.verdict,
    );
  }

  function shortestPath(table) {
    const path = new Uint8Array(PLACE * PATH_PLACES);
    const found = ask("shortest_path", ...of(table), path);
    return isYes(found.found) ? pathOf(path, found.steps) : null;
  }

  function distances(table) {
    const [store, n, g] = of(table);
    const found = new Uint8Array(PLACE * n);
    ask("distances", store, n, g, found);
    return Object.freeze(places(found).map((steps) => (steps === UNREACHABLE ? Infinity : steps)));
  }

  const within = (table, k) => isYes(ask("within", ...of(table), k).within);

  const read = (...given) => Table.fromBytes(...given);

  function write(table, site) {
    return written("write", ...of(table), optional(arguments, 1, "site", 0));
  }

  const rewrite = (data) => written("rewrite", bytesOf(data, "a file"));

  function generate(seed, n, fanOut) {
    const store = new Uint8Array(STORE_BYTES);
    ask("generate", seed, n, fanOut, store);
    return ofStore(n, 0, store);
  }

  function replay(table, log) {
    const bytes = bytesOf(log, "a log");
    const found = ask("replay", ...of(table), bytes);
    return new Replay(found.followed, found.seen, found.percent, found.remainder, bytes.length / PLACE);
  }

  function decideModal(table, possible) {
    const path = new Uint8Array(PLACE * PATH_PLACES);
    const [store, n, g] = of(table);
    const found = ask("decide_modal", store, n, g, rowsOf(table, possible, "possible"), path);
    const verdict = verdictOf(found.verdict, SAFE, UNSAFE, DEPENDS);
    const invariant = verdict === "unsafe" ? null : statesIn(found.invariant);
    const shown = verdict === "safe" ? null : pathOf(path, found.steps);
    return new ModalDecision(n, verdict, invariant, shown);
  }

  function nextOpen(time, windows, closedDays) {
    const halves = listed(windows, "windows").flatMap((window) => [
      whole(window?.start, "the start of a window"), whole(window?.length, "the length of a window"),
    ]);
    const days = arguments.length > 2 ? listed(closedDays, "closedDays") : [];
    const numbers = days.map((day) => whole(day, "a closed day"));
    const found = ask("next_open", time, packed(halves), packed(numbers));
    if (isYes(found.never)) return Infinity;
    if (found.minute === NO_MINUTE) throw new UnknownAnswer("no minute, and it is not said that it is never");
    return found.minute;
  }

  class Session {
    #opened;
    #n;
    #g;
    #store;
    #reachable;

    constructor(table) {
      [this.#store, this.#n, this.#g] = of(table);
      this.#opened = table;
      this.#reachable = ask("open", this.#store, this.#n, this.#g).reachable;
    }

    #edit(name, from, to) {
      const ends = [this.#opened.state(from), this.#opened.state(to)];
      const store = this.#store.slice();
      this.#reachable = ask(name, store, this.#n, this.#g, this.#reachable, ...ends).reachable;
      this.#store = store;
      return this.reachable;
    }

    addStep(from, to) {
      return this.#edit("add_step", from, to);
    }

    removeStep(from, to) {
      return this.#edit("remove_step", from, to);
    }

    get reachable() {
      return statesIn(this.#reachable);
    }

    get table() {
      return ofStore(this.#n, this.#g, this.#store, this.#opened.names);
    }
  }

  return {
    Table, Session, check, decide, decideModal, distances, generate, nextOpen, read, replay, rewrite,
    shortestPath, within, write,
  };
}
