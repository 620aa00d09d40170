// What the library answers of a draft. The reachable screens are kept by an edit session, of the table with
// every possible step; what its calls say of one table is held together, and a contradiction is no answer.
import { has, isEmpty, isSame, members } from "./bits.mjs";
import {
  allResting, hasOptions, isForbidden, isUnmarkedHang, possible, tablesOf,
} from "./model.mjs";

/** So many steps may differ before a new session is opened in place of edits of the old one. */
const FEW_EDITS = 16;

/** An answer that contradicts itself. */
export class Contradiction extends Error {}

const hold = (isTrue, what) => {
  if (!isTrue) throw new Contradiction(`two answers contradict each other: ${what}`);
};

/** The verdict on a draft: of a release check, or of every choice between its options. */
export function decided(library, d) {
  const { all, certain } = tablesOf(library, d);
  return hasOptions(d) ? library.decideModal(certain, all) : library.decide(all);
}

const isNothingForbidden = (d) => !d.certain.some((_, s) => isForbidden(d, s));

const NO_INITIAL = "No screen is initial: choose the one in which a session starts, and tick it.";
const NO_FORBIDDEN = "No screen is forbidden: choose those that must never show, and tick them.";
const NO_MARKED = "Only unfinished screens, without a way out (hangs), count as forbidden so far, and no " +
  "session reaches one: choose those that must never show, and tick them.";
const DECLINED = "The command release declines such a table.";

/** Why it says nothing that a draft is safe, each with the word for it and what is to be done. That only
 * hangs are forbidden says no more while one drafts: they are what is not finished yet. */
const VACUOUS = [
  [(d) => isEmpty(d.initial), "nothing is initial", `${NO_INITIAL} ${DECLINED}`],
  [isNothingForbidden, "nothing is forbidden", `${NO_FORBIDDEN} ${DECLINED}`],
  [(d) => isEmpty(d.marked), "no screen is marked forbidden", NO_MARKED],
];
const whyVacuous = (d) => VACUOUS.find(([is]) => is(d)) ?? null;

/** What is to be done where it says nothing that a draft is safe; null where it says something. */
export const vacuous = (d) => whyVacuous(d)?.[2] ?? null;

const SPOKEN = { safe: "safe", unsafe: "unsafe", depends: "depends on the options" };

/** The kind of a verdict on a draft, and the word for it, wherever one is shown. "Safe" of a draft of which
 * nothing is initial, or nothing marked as forbidden, is none. */
export function spoken(d, verdict) {
  if (d.n === 0) return ["draft", "a draft without screens"];
  if (!Object.hasOwn(SPOKEN, verdict)) throw new Error("an answer that is none");
  const why = verdict === "safe" ? whyVacuous(d) : null;
  return why === null ? [verdict, SPOKEN[verdict]] : ["vacuous", `no verdict: ${why[1]}`];
}

/** Whether states are a path: each step a step, from an initial to a forbidden one. */
function isPath(d, path) {
  const isStep = (s, k) => k === 0 || has(possible(d, path[k - 1]), s);
  return path.length > 0 && path.every((s, k) => s < d.n && isStep(s, k)) && has(d.initial, path[0]) &&
    isForbidden(d, path.at(-1));
}

export class Answers {
  #library;
  #session = null;
  #drafted = null;

  constructor(library) {
    this.#library = library;
  }

  /** What is known of a draft; anything that goes wrong is thrown. */
  of(d) {
    const { all, certain } = tablesOf(this.#library, d);
    const reached = this.#reachable(d, all);
    const decision = certain === all ? this.#library.decide(all) : this.#library.decideModal(certain, all);
    const distances = this.#library.distances(all);
    const { verdict, path, invariant } = decision;
    const isUnsafe = verdict === "unsafe" || verdict === "depends";
    const meets = [...reached].some((s) => isForbidden(d, s));
    const nearest = Math.min(Infinity, ...members(d.initial).map((s) => distances[s]));
    const isFar = distances.every((away, s) => (away === 0) === isForbidden(d, s));
    hold(d.n === decision.n, "how many screens there are");
    hold(isUnsafe || verdict === "safe", "a release check is never undecided");
    hold(isUnsafe === meets && isUnsafe === (nearest !== Infinity), "whether a forbidden screen is reached");
    hold(distances.length === d.n && isFar, "how far forbidden screens are");
    hold(isUnsafe === (path !== null), "whether there is a path");
    hold(path === null || isPath(d, path), "what the path is");
    // a path on the certain steps alone may be longer than one with an option's
    const isLonger = verdict === "unsafe" && certain !== all;
    hold(path === null || isLonger || path.length - 1 === nearest, "how long the path is");
    hold(decision.isSafe === (verdict === "safe" && d.n > 0), "whether it is safe");
    const markedPath = this.#markedPath(d, path, reached);
    const { isSafe } = decision;
    return Object.freeze({ verdict, isSafe, path, markedPath, invariant, reached, distances });
  }

  /** Where the path ends in a hang that nobody marked: the library's path to a marked screen, with every
   * possible step, if one is reached; else null. */
  #markedPath(d, path, reached) {
    if (path === null || !isUnmarkedHang(d, path.at(-1))) return null;
    const found = this.#library.decide(tablesOf(this.#library, allResting(d)).all).path;
    const isReached = members(d.marked).some((s) => reached.has(s));
    hold(isReached === (found !== null), "whether a marked screen is reached");
    const isTo = isReached && isPath(d, found) && has(d.marked, found.at(-1));
    hold(isTo === isReached, "what the path to a marked screen is");
    return found;
  }

  /** The reachable screens: by edits of the session where only few steps differ, else by a new one. */
  #reachable(d, all) {
    const edits = this.#edits(d);
    const session = this.#session;
    this.#session = null; // one in which something went wrong is not used again
    const kept = edits === null ? new this.#library.Session(all) : session;
    for (const [name, from, to] of edits ?? []) kept[name](from, to);
    hold(kept.table.equals(all), "what the session edited");
    this.#session = kept;
    this.#drafted = d;
    return new Set(kept.reachable);
  }

  /** The steps that make the session's draft the new one; null where they do not, or are many. */
  #edits(d) {
    const old = this.#drafted;
    if (this.#session === null || old.n !== d.n || old.groups.length !== d.groups.length) return null;
    const sets = (one) => [one.initial, one.marked, one.resting, ...one.groups];
    if (!sets(old).every((set, k) => isSame(set, sets(d)[k]))) return null;
    const edits = [];
    for (let s = 0; s < d.n && edits.length <= FEW_EDITS; s++) {
      if (old.certain[s] === d.certain[s] && old.options[s] === d.options[s]) continue;
      const [before, after] = [possible(old, s), possible(d, s)];
      for (const t of members(before.map((byte, k) => byte ^ after[k]))) {
        edits.push([has(after, t) ? "addStep" : "removeStep", s, t]);
      }
    }
    return edits.length <= FEW_EDITS ? edits : null;
  }
}
