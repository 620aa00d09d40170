// Questions. What is answered is of the draft that is shown: with each change the answers go, and are asked
// anew where they are looked at.
import { MAX_ALLOWANCE } from "../shuntberry.mjs";
import { decided, spoken, vacuous } from "./answer.mjs";
import { changes } from "./changes.mjs";
import { $, button, counted, element } from "./dom.mjs";
import * as files from "./files.mjs";
import {
  NotDone, called, hasOptions, isForbidden, isUnmarkedHang, mark, screen, setStep, stepKind, storeOf,
  tablesOf, withoutOptions,
} from "./model.mjs";
import { remarks } from "./remarks.mjs";
import { isMendable } from "./verdict.mjs";
import { logOf, walked } from "./walk.mjs";

const FIRST_ALLOWANCE = 8;
/** So many changes are listed, and the others counted. */
const SHOWN_CHANGES = 300;

/** So many screens that a repair costs are named. */
const SHOWN_LOST = 12;
const SEVERAL_WAYS = "There are several ways in: no single step does it. Each step of the path was tried. " +
  "Rub one of them out, and look at the next path.";
const RUB_OUT = "If one of these is rubbed out, no forbidden screen is reached any more; the cheapest first:";
const NOTHING_MARKED = "No screen is marked forbidden: mark those that must never show.";
const NO_STEP = "No single step does it by itself.";
const WAYS_ROUND = "The other steps of the path do not do it: there are several ways round them.";

/** The steps of a path, each by its ends. */
const stepsOf = (path) => path.slice(1).map((to, k) => [path[k], to]);

const reachedIn = (library, d) => new library.Session(tablesOf(library, d).all).reachable;

/** The screens that are not forbidden and that no session reaches in another draft, as the price of it. */
function lostIn(library, d, other) {
  const left = new Set(reachedIn(library, other));
  return [...reachedIn(library, d)].filter((s) => !isForbidden(d, s) && !left.has(s));
}

/** Whether a verdict's kind says that no forbidden screen is reached. */
const isUnreached = (kind) => kind === "safe" || kind === "vacuous";

/** The kind of the library's verdict on a draft, and its path. */
function asked(library, d) {
  const { verdict, isSafe, path } = decided(library, d);
  const [kind] = spoken(d, verdict);
  if (isUnreached(kind) && !isSafe) throw new Error("an answer that is none");
  return { kind, path };
}

/** The single steps without which no forbidden screen is reached, each with its price, the cheapest first.
 * Each is on the path: a step that is not leaves the path as it is. */
export function repairs(library, d, path) {
  const mends = stepsOf(path).map(([from, to]) => ({ from, to, other: setStep(d, from, to, "none") }))
    .filter(({ other }) => isUnreached(asked(library, other).kind));
  return mends.map(({ from, to, other }) => ({ from, to, lost: lostIn(library, d, other) }))
    .sort((a, b) => a.lost.length - b.lost.length);
}

/** The steps of a path whose removal would do if it did not leave a hang where they begin: with that screen
 * resting, no forbidden screen is reached. */
export function leavingHangs(library, d, path) {
  const others = stepsOf(path).map(([from, to]) => ({ from, to, other: setStep(d, from, to, "none") }));
  const isLeft = ({ from, other }) => isUnmarkedHang(other, from) && !isUnreached(asked(library, other).kind);
  const isAll = ({ from, other }) => isUnreached(asked(library, mark(other, "resting", from, true)).kind);
  return others.filter((one) => isLeft(one) && isAll(one)).map(({ from, to }) => ({ from, to }));
}

/** What the library answers if the hang at the end of a path is resting: the kind of its verdict, and where
 * the next path ends; null where the path ends otherwise. */
export function restingThere(library, d, path) {
  const state = path.at(-1);
  if (!isUnmarkedHang(d, state)) return null;
  const { kind, path: next } = asked(library, mark(d, "resting", state, true));
  return { state, then: kind, next: next?.at(-1) ?? null };
}

/** What it costs to rub out a step, in words. */
function costOf(d, lost) {
  if (lost.length === 0) return "costs nothing: every other screen is still reached";
  const more = lost.length > SHOWN_LOST ? `, and ${lost.length - SHOWN_LOST} more` : "";
  const names = lost.slice(0, SHOWN_LOST).map((s) => called(d, s)).join(", ");
  return `costs ${counted(lost.length, "other screen")}, which no session reaches then: ${names}${more}`;
}

/** What the release check prints of the file of a draft. */
export function released(library, d, withOptions, site) {
  const table = library.Table.fromStore(d.n, d.groups.length, storeOf(d, withOptions));
  const checked = library.check(library.write(table, site), site);
  if (checked.refusal !== null) throw checked.refusal;
  return checked.text;
}

const part = (words, id, ...children) => element("section", { className: "question" },
  element("h3", {}, words), ...children, element("div", { id, className: "answer" }));
const PLACES = ["quick", "release-check", "repairs", "remarks", "options", "log-answer", "other-answer"];
const QUICK = "You do not need this: the release check always decides. A check first looks at screens that " +
  "are alike as if they were one, and then more closely. Each closer look is a refinement; how many it may " +
  "take is its allowance.";
const UNDECIDED = "Move the slider to the right for a larger allowance, put screens that belong together into " +
  "a group, or take the release check's answer above, which always decides.";
const CLOSER = "(Its refinements are how often it looked more closely: a larger number is no worse.) ";
const LOG_CHANGED = "The log has changed: ask again.";
const fileField = (id, label) => element("input", { id, type: "file", hidden: true, aria: { label } });
const lines = (items) => element("ul", {}, ...items);

export class Asked {
  #app;
  #log = null;
  #other = null;
  #repairs = null; // of the draft that is shown, once they were asked for

  constructor(app) {
    this.#app = app;
    const slider = element("input", {
      id: "allowance", type: "range", min: "0", max: String(MAX_ALLOWANCE), value: String(FIRST_ALLOWANCE),
    });
    slider.addEventListener("input", () => this.#ask("quick", () => this.#quick()));
    const value = element("output", { id: "allowance-value" });
    const label = element("label", { className: "wide" }, "Allowance: at most ", value,
      " refinements (closer looks)", slider);
    const tried = () => app.attempt(() => this.#findRepairs());
    $("panel-ask").replaceChildren(
      part("Which single change mends it", "repairs",
        button("Try each step of the path", tried, { id: "repairs-ask" })),
      part("What to look at", "remarks"),
      part("The release check's answer", "release-check"),
      part("What options make of it", "options"),
      part("How much a pump's log covers", "log-answer", ...this.#logFields()),
      part("What has changed since another file", "other-answer",
        this.#fileButton("other", "Open the other file…", (file) => this.#compare(file))),
      part("A quick answer", "quick", element("p", { className: "light" }, QUICK), label),
    );
  }

  #fileButton(id, words, take) {
    const field = fileField(`${id}-file`, words);
    field.addEventListener("change", () => {
      const [file] = field.files;
      field.value = "";
      if (file !== undefined) this.#app.later(() => take(file));
    });
    const open = button(words, () => field.click(), { id: `${id}-open` });
    return element("span", {}, open, field);
  }

  #logFields() {
    const text = element("textarea", {
      id: "log-text", rows: 3, spellcheck: false, placeholder: "or its screens, by name or number",
      aria: { label: "A log as text: screens by name or number" },
    });
    const walk = () => this.#app.attempt(() => this.#takeLog({ words: text.value }));
    text.addEventListener("input", () => {
      if (this.#log !== null) this.#takeLog({ why: LOG_CHANGED });
    });
    const open = async (file) => {
      this.#takeLog({ why: `${file.name} is not read` }); // nothing is left of the log before it
      this.#takeLog({ name: file.name, bytes: await files.bytesOfFile(file) });
    };
    return [this.#fileButton("log", "Open a log…", open), text, button("Walk it", walk, { id: "log-ask" })];
  }

  // ---- what is shown

  /** Everything of another draft goes; what is looked at is asked anew. */
  show(isDrawn) {
    this.#repairs = null;
    if ($("panel-ask").hidden || !isDrawn) {
      for (const id of PLACES) {
        this.#put(id, isDrawn ? [] : ["no answer: the text has mistakes"]);
      }
      return;
    }
    this.#ask("quick", () => this.#quick());
    this.#ask("release-check", () => this.#release());
    this.#ask("repairs", () => this.#repair());
    this.#ask("remarks", () => this.#remarks());
    this.#ask("options", () => this.#options());
    this.#ask("log-answer", () => this.#walk());
    this.#ask("other-answer", () => this.#changes());
  }

  /** An answer in its place; what goes wrong is said there, and nothing of an old one is left. */
  #ask(id, work) {
    this.#put(id, ["no answer"]);
    try {
      const [verdict, ...children] = work();
      this.#put(id, children, verdict);
    } catch (error) {
      this.#put(id, [`no answer: ${error?.message ?? error}`]);
    }
  }

  #put(id, children, verdict = "none") {
    $(id).dataset.verdict = verdict;
    $(id).replaceChildren(...children);
  }

  #screens(states) {
    return states.map((s) => screen(this.#app.draft, s)).join(" → ");
  }

  #quick() {
    const allowance = Number($("allowance").value);
    $("allowance-value").value = String(allowance);
    const d = this.#app.draft;
    if (d.n === 0) return ["draft", "a draft without screens"];
    const { all } = tablesOf(this.#app.library, d);
    const found = this.#app.library.decide(all, allowance);
    const about = hasOptions(d) ? " (with every option)" : "";
    if (found.verdict === "undecided") {
      const after = `${about} after ${counted(found.count, "refinement")}. ${UNDECIDED}`;
      return ["undecided", element("strong", {}, "undecided"), after];
    }
    const [kind, word] = spoken(d, found.verdict);
    const path = found.path === null ? "" : `: ${this.#screens(found.path)}`;
    return [kind, element("strong", {}, word), `${about} after ${counted(found.count, "refinement")}${path}`];
  }

  #release() {
    const d = this.#app.draft;
    const site = files.site();
    const both = hasOptions(d) ? [[false, "without any option"], [true, "with every option"]] : [[true, ""]];
    const parts = both.flatMap(([withOptions, words]) => [
      ...(words === "" ? [] : [element("p", {}, `The file ${words}:`)]),
      this.#checked(withOptions ? d : withoutOptions(d), site),
    ]);
    const about = element("p", { className: "light" }, "What ", element("code", {}, "shuntberry check"),
      ` prints of the file${site === 0 ? "" : ` for site ${site}`}. ${CLOSER}Releasing is done by `,
      element("code", {}, "shuntberry release"), ".");
    return ["said", about, ...parts];
  }

  /** What is printed of a draft's file; where that says nothing, that it does. */
  #checked(d, site) {
    const { library } = this.#app;
    const [kind, word] = spoken(d, decided(library, d).verdict);
    if (kind !== "vacuous") return element("pre", {}, released(library, d, true, site));
    return element("p", { className: "no-verdict" }, element("strong", {}, word), `. ${vacuous(d)}`);
  }

  #repair() {
    const { answer, draft } = this.#app;
    const path = answer?.path ?? null;
    $("repairs-ask").hidden = path === null || !isMendable(draft, path);
    if (answer === null) throw new Error("there is no verdict");
    const [kind, word] = spoken(draft, answer.verdict);
    if (kind !== "safe" && path === null) return [kind, element("strong", {}, word)];
    if (path === null) return ["said", "Nothing has to be mended."];
    if (!isMendable(draft, path)) return ["said", "No step does: a session can start in a forbidden screen."];
    if (this.#repairs === null) return ["said"];
    const { resting } = this.#repairs;
    return ["said", ...this.#stepLines(draft, path, this.#repairs), ...this.#restingLines(draft, resting)];
  }

  #stepLines(d, path, { steps, hangs }) {
    if (path.length < 2) return [];
    const told = steps.length + hangs.length;
    if (told === 0) return [element("p", {}, SEVERAL_WAYS)];
    const found = steps.length === 0 ? [element("p", {}, NO_STEP)]
      : [element("p", {}, RUB_OUT), lines(steps.map((one) => this.#repairLine(d, one)))];
    const left = hangs.length === 0 ? [] : [lines(hangs.map((one) => this.#hangLine(d, one)))];
    return [...found, ...left, ...(told < path.length - 1 ? [element("p", {}, WAYS_ROUND)] : [])];
  }

  /** A step that does not do by itself, since nothing leads out of its screen then. */
  #hangLine(d, { from, to }) {
    const [name, step] = [called(d, from), `${called(d, from)} → ${called(d, to)}`];
    return element("li", { data: { hangs: from, to } }, `Removing ${step} leaves ${name} without a way out: ` +
      `then ${name} needs another step, or to be marked resting.`);
  }

  /** What comes of it if the hang at the end of the path is marked as resting, and what that costs. */
  #restingLines(d, resting) {
    if (resting === null) return [];
    const { state, then, next } = resting;
    const name = called(d, state);
    const out = `Or draw a step that leads out of ${name}.`;
    if (!isUnreached(then)) {
      const reached = next === null ? "another forbidden screen" : called(d, next);
      const words = `${name} is a hang. To mark it resting is not enough: ${reached} is reached then.`;
      return [element("p", {}, words)];
    }
    const nothing = then === "vacuous" ? ` ${NOTHING_MARKED}` : "";
    const price = `costs that ${name} is no longer found: nothing leads out of it, and a session that ` +
      `stays there counts as ended.${nothing} ${out}`;
    const rest = button("Mark it resting", () => this.#app.attempt(() => this.#app.change(
      mark(this.#app.draft, "resting", state, true), `${name} is resting`)),
    { className: "rest", aria: { label: `Mark ${name} resting` } });
    return [element("p", {}, "Or, only if a session may end there:"), lines([
      element("li", { data: { resting: state, then } }, `${name} resting `, rest, element("br"), price),
    ])];
  }

  #repairLine(d, { from, to, lost }) {
    const option = stepKind(d, from, to) === "option" ? " (option)" : "";
    const words = `${called(d, from)} → ${called(d, to)}${option}`;
    const rub = button("Rub out", () => this.#app.attempt(() =>
      this.#app.change(setStep(this.#app.draft, from, to, "none"), `rub out ${words}`)),
    { className: "rub-out", aria: { label: `Rub out ${words}` } });
    const data = { from, to, lost: lost.length };
    return element("li", { data }, words, " ", rub, element("br"), costOf(d, lost));
  }

  /** The question that the verdict's place asks. */
  mend() {
    this.#findRepairs();
    $("repairs-ask").focus();
    $("repairs").scrollIntoView({ block: "center" });
  }

  #findRepairs() {
    const { draft, answer, library } = this.#app;
    if (answer?.path == null) throw new NotDone("there is no path");
    const { path } = answer;
    const found = [repairs, leavingHangs, restingThere].map((ask) => ask(library, draft, path));
    const [steps, hangs, resting] = found;
    this.#repairs = { steps, hangs, resting };
    this.#ask("repairs", () => this.#repair());
  }

  #remarks() {
    const { draft, answer } = this.#app;
    if (answer === null) throw new Error("there is no verdict");
    const found = remarks(draft, answer);
    if (found.length === 0) return ["said", "Nothing in particular."];
    return ["said", lines(found.map(({ word, said, states }) => {
      const links = states.flatMap((s, k) => [k === 0 ? " " : ", ",
        button(screen(draft, s), () => this.#app.choose(s), { className: "link" })]);
      return element("li", { data: { remark: word } }, said + (states.length > 0 ? ":" : "."), ...links);
    }))];
  }

  #options() {
    const { draft, library } = this.#app;
    if (!hasOptions(draft)) return ["said", "No step of this draft is there only with an option."];
    const found = decided(library, draft);
    const [kind, word] = spoken(draft, found.verdict);
    const words = kind === "depends" ? "safe without any option, and unsafe with all of them"
      : "whatever options a pump has";
    const path = found.path === null ? [] : [element("p", {}, `Path: ${this.#screens(found.path)}`)];
    const without = found.verdict === "depends" ? "Without options a session" : "A session";
    const stays = (found.invariant ?? []).map((s) => screen(draft, s)).join(", ") || "none";
    const kept = found.invariant === null ? [] : [element("p", {}, `${without} stays in: ${stays}`)];
    return [kind, element("strong", {}, word), `: ${words}`, ...path, ...kept];
  }

  // ---- a log

  #takeLog(log) {
    this.#log = log;
    this.#ask("log-answer", () => this.#walk());
  }

  #walk() {
    if (this.#log === null) return ["said"];
    const { name, why } = this.#log;
    if (why !== undefined) return ["none", why];
    const { draft, library, answer } = this.#app;
    if (answer === null) throw new Error("there is no verdict");
    const { all } = tablesOf(library, draft);
    const found = walked(library, draft, all, answer.reached, logOf(draft, this.#log));
    const head = name === undefined ? [] : [element("p", {}, `Of ${name}:`)];
    return ["said", ...head, lines(found.map((words) => element("li", {}, words)))];
  }

  // ---- another file

  /** Of a file that is refused nothing is compared; nor is anything left of the file before it. */
  async #compare(file) {
    const { name } = file;
    this.#other = { name, why: "it is not read yet" };
    this.#ask("other-answer", () => this.#changes());
    try {
      const bytes = await files.bytesOfFile(file);
      this.#other = { name, draft: files.otherDraft(this.#app.library, bytes, files.site()) };
    } catch (error) {
      this.#other.why = error?.message ?? String(error);
      throw error instanceof NotDone ? new NotDone(`${name} was not compared: ${error.message}`) : error;
    } finally {
      this.#ask("other-answer", () => this.#changes());
    }
  }

  #changes() {
    if (this.#other === null) return ["said"];
    const { draft, library, answer } = this.#app;
    const { name, why } = this.#other;
    if (why !== undefined) return ["none", `${name} was not compared: ${why}`];
    if (answer === null) throw new Error("there is no verdict");
    const found = changes(library, this.#other.draft, draft);
    const nameless = this.#other.draft.names.every((one) => one === null) ? ", which has no names," : "";
    const head = element("p", {}, `From ${name}${nameless} to this draft:`);
    const item = ({ kind, words }) => element("li", { data: { change: kind } }, words);
    const items = found.slice(0, SHOWN_CHANGES).map(item);
    if (found.length > items.length) items.push(element("li", {}, `and ${found.length - items.length} more`));
    return ["said", head, items.length === 0 ? "Nothing has changed." : lines(items)];
  }
}
