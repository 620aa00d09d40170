// The place of the verdict. It is emptied before each answer is asked for, and filled by that answer alone:
// what goes wrong on the way leaves "no answer" there, and never an old verdict.
import { spoken, vacuous } from "./answer.mjs";
import { $, button, counted, element, ordinal } from "./dom.mjs";
import { has, members } from "./bits.mjs";
import { called, hasOptions, isUnmarkedHang } from "./model.mjs";

const MARKS = {
  safe: "✓", unsafe: "✕", depends: "◐", draft: "…", vacuous: "!", mistakes: "✎", none: "?",
};
const EMPTY_DRAFT = "Add a screen, open a text or a file, or look at the example.";

/** A path of more screens is printed small. */
const LONG_PATH = 40;

/** So many marked screens that are reached are named, and a way to one is told of so many screens. */
const SHOWN = 12;

/** Why a screen is forbidden. */
export const whyForbidden = (d, s) =>
  has(d.marked, s) ? "forbidden, since it is marked so" : "a hang: no step leads out, and it is not resting";

/** The marked screens that are reached, in words. */
function markedReached(d, reached) {
  const all = members(d.marked).filter((s) => reached.has(s)).map((s) => called(d, s));
  const more = all.length > SHOWN ? `, and ${all.length - SHOWN} more` : "";
  const isOne = all.length === 1;
  return `${hasOptions(d) ? "with every option " : ""}${all.slice(0, SHOWN).join(", ")}${more} ` +
    `${isOne ? "is" : "are"} reached, which ${isOne ? "is" : "are"} marked forbidden`;
}

/** What stands beside "unsafe" where the path ends in a hang that nobody marked, as most do while one drafts.
 * A hang that is nearer does not hide that a marked screen is reached. */
export function unfinished(d, { path, markedPath, reached }) {
  if (path === null || !isUnmarkedHang(d, path.at(-1))) return "";
  return markedPath === null ? "not finished: a hang is reached" : markedReached(d, reached);
}

/** By which way a marked screen is reached, where the path that is shown leads to a hang. */
function besidesHang(d, path, markedPath) {
  const to = called(d, markedPath.at(-1));
  const way = markedPath.length > SHOWN ? `in ${counted(markedPath.length - 1, "step")}`
    : `by ${markedPath.map((s) => called(d, s)).join(" → ")}`;
  const isWith = hasOptions(d) ? "With every option " : "";
  const reached = markedPath.length > 1 ? `${isWith}${to} is reached ${way}.`
    : `A session can start in ${to}.`;
  return `${reached} Also unfinished: ${called(d, path.at(-1))}, which has no way out (a hang). ` +
    "The path shown leads to the hang:";
}

/** Whether a single change can mend a path: a step rubbed out, or a hang that is marked resting. */
export const isMendable = (d, path) => path.length > 1 || isUnmarkedHang(d, path[0]);

function unsafeIn(d, path, markedPath) {
  if (markedPath !== null) return besidesHang(d, path, markedPath);
  if (path.length > 1) return `A forbidden screen is reached in ${counted(path.length - 1, "step")}:`;
  const what = has(d.marked, path[0]) ? "forbidden screen" : "screen with no way out (a hang)";
  return `A session can start in a ${what}.`;
}

/** What the verdict's place says of a draft and its answer: its kind, its word, a sentence. */
export function wordsOf(d, answer) {
  const [kind, word] = spoken(d, answer.verdict);
  if (["safe", "vacuous"].includes(kind) && !answer.isSafe) throw new Error("an answer that is none");
  return [kind, word, SENTENCES[kind](d, answer)];
}

const SENTENCES = {
  draft: () => EMPTY_DRAFT,
  unsafe(d, { path, markedPath }) {
    const what = unsafeIn(d, path, markedPath);
    return hasOptions(d) ? `On every pump, whatever options it has. ${what}` : what;
  },
  depends(d, { path, markedPath }) {
    const steps = counted(path.length - 1, "step");
    const reached = `with every option a forbidden screen is reached in ${steps}`;
    const besides = markedPath === null ? "" : ` ${besidesHang(d, path, markedPath)}`;
    return `Not safe: ${reached}, and without any option none is.${besides}`;
  },
  vacuous,
  safe: (d) => `No forbidden screen can be reached${hasOptions(d) ? ", whatever options a pump has" : ""}.`,
};

export class VerdictPlace {
  #onChoose;
  #edits = 0;

  constructor(onChoose) {
    this.#onChoose = onChoose;
  }

  #put(kind, word, words) {
    const place = $("verdict");
    place.dataset.verdict = kind;
    $("verdict-mark").textContent = MARKS[kind];
    $("verdict-word").textContent = word;
    $("verdict-beside").textContent = "";
    $("verdict-words").textContent = words;
    $("verdict-path").replaceChildren();
    $("verdict-path").hidden = true;
    $("verdict-mend").hidden = true;
    document.title = `${word}: ${$("title").value || "draft"} (Shuntberry)`;
  }

  /** Nothing is known. */
  none(why) {
    this.#put("none", "no answer", why);
  }

  /** The text that was typed is no table. */
  mistakes(count) {
    const words = `The text has ${counted(count, "mistake")}; what is drawn is the last text without.`;
    this.#put("mistakes", "no answer", words);
  }

  answer(d, answer) {
    const [kind, word, words] = wordsOf(d, answer);
    this.#put(kind, word, words);
    $("verdict-beside").textContent = unfinished(d, answer);
    if (answer.path !== null) this.#path(d, answer.path);
  }

  /** A change was shown, answered or not. */
  shown() {
    $("verdict").dataset.edit = String(++this.#edits);
  }

  #path(d, path) {
    const steps = path.map((s, k) => {
      const name = d.names[s] ?? `screen ${s}`;
      const choose = button(name, () => this.#onChoose(s), { title: `screen ${s}` });
      const item = element("li", { data: { state: s, place: ordinal(k) } }, choose);
      if (k === path.length - 1) item.append(element("strong", {}, ` ${whyForbidden(d, s)}`));
      return item;
    });
    $("verdict-path").replaceChildren(...steps);
    $("verdict-path").setAttribute("aria-label", `The path from ${called(d, path[0])}, screen by screen`);
    $("verdict-path").hidden = false;
    $("verdict-path").classList.toggle("long", path.length > LONG_PATH);
    $("verdict-mend").hidden = !isMendable(d, path);
  }
}
