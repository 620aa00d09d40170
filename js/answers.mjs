// What the calls answer, and the errors. An answer is an object, which `if` takes for true whatever it says:
// so its fields are looked at, and to make a number or a text of it is an error.
import { ACCEPTED, DEPENDS, NO_VERDICT, REFUSALS, SAFE, UNDECIDED, UNSAFE } from "./raw.mjs";

const UNKNOWN = ["UNKNOWN", "no ground that this version of the module knows"];

/** A call, or a file, that the library refused, by the number of its ground. */
export class Refused extends Error {
  constructor(number) {
    const [code, ground] = REFUSALS.get(number) ?? UNKNOWN;
    super(`refused ${number}: ${ground}`);
    this.number = number;
    this.code = code;
    this.ground = ground;
  }
}

/** A text with mistakes: the first ones by their lines, and how many there are. */
export class Mistakes extends Error {
  constructor(mistakes, count) {
    const listed = mistakes.map(({ line, reason }) => `line ${line}: ${reason}`);
    const others = count - mistakes.length;
    super(listed.join("\n") + (others > 0 ? `\nand ${others} more mistakes` : ""));
    this.mistakes = mistakes;
    this.count = count;
  }
}

/** The module stopped in a call. Nothing is known of its memory then: the next call has another instance. */
export class Trapped extends Error {}

/** The module answered with something that this version does not know. The proved library never does. */
export class UnknownAnswer extends Error {}

for (const kind of [Refused, Mistakes, Trapped, UnknownAnswer]) {
  Object.defineProperty(kind.prototype, "name", { value: kind.name });
}

/** Refuses what the library refused. */
export function accepted(refusal) {
  if (refusal !== ACCEPTED) throw new Refused(refusal);
}

const VERDICTS = new Map([
  [SAFE, "safe"],
  [UNSAFE, "unsafe"],
  [UNDECIDED, "undecided"],
  [DEPENDS, "depends"],
]);

/** The verdict of a number, if the call knows it. */
export function verdictOf(number, ...known) {
  const verdict = known.includes(number) ? VERDICTS.get(number) : undefined;
  if (verdict === undefined) throw new UnknownAnswer(`the module answered with the verdict ${number}`);
  return verdict;
}

/** Whether a number says yes. Only 1 and 0 say anything. */
export function isYes(number) {
  if (number !== 0 && number !== 1) {
    throw new UnknownAnswer(`the module answered with ${number} where 1 is yes and 0 is no`);
  }
  return number === 1;
}

class Answer {
  [Symbol.toPrimitive]() {
    throw new TypeError(`an answer (${this.constructor.name}) is no number and no text: look at its fields`);
  }
}

/** Whether an answer is safe. Each has it as a field, so that a copy by JSON or for a worker has it too. */
const isSafe = (verdict, n) => verdict === "safe" && n > 0;

export class Decision extends Answer {
  constructor(n, verdict, count, invariant, path) {
    super();
    Object.freeze(Object.assign(this, { isSafe: isSafe(verdict, n), n, verdict, count, invariant, path }));
  }
}

export class ModalDecision extends Answer {
  constructor(n, verdict, invariant, path) {
    super();
    Object.freeze(Object.assign(this, { isSafe: isSafe(verdict, n), n, verdict, invariant, path }));
  }
}

/** How the command check ends. */
function statusOf(isRefused, verdict, n) {
  if (isRefused) return 2;
  if (verdict === "unsafe") return 1;
  return isSafe(verdict, n) ? 0 : 4;
}

/** What check answers. Of a file that is refused verdict and states are not there: they throw the refusal. */
export class Checked extends Answer {
  #n;
  #verdict;

  constructor(text, n, fileRefusal, verdict) {
    super();
    const isRefused = fileRefusal !== ACCEPTED;
    if (isRefused && verdict !== NO_VERDICT) {
      throw new UnknownAnswer(`a file refused with ${fileRefusal} has the verdict ${verdict}`);
    }
    this.#n = n;
    this.#verdict = isRefused ? null : verdictOf(verdict, SAFE, UNSAFE);
    this.text = text;
    this.refusal = isRefused ? new Refused(fileRefusal) : null;
    this.status = statusOf(isRefused, this.#verdict, n);
    this.isSafe = this.status === 0;
    Object.freeze(this);
  }

  #needFile() {
    if (this.refusal !== null) throw new Refused(this.refusal.number);
  }

  get verdict() {
    this.#needFile();
    return this.#verdict;
  }

  get n() {
    this.#needFile();
    return this.#n;
  }
}

export class Replay extends Answer {
  constructor(followed, seen, percent, remainder, entries) {
    super();
    Object.freeze(Object.assign(this, { followed, seen, percent, remainder, entries }));
  }
}
