// Drafts edited by chance: each is what its plain twin says, by the text; what was undone and done again is
// the same draft; and the answers, with the session kept over the edits, are those of a search by hand.
import { Answers, spoken, vacuous } from "../../js/page/answer.mjs";
import { members } from "../../js/page/bits.mjs";
import { leavingHangs, repairs, restingThere } from "../../js/page/ask.mjs";
import { changes } from "../../js/page/changes.mjs";
import { Plain, chance, edited, end, library, model, same, throws } from "./support.mjs";

const [seed, count] = process.argv.slice(2).map(Number);
const below = chance(seed);
const EDITS = 40;

/** The screens that steps lead to from some, and how far each is; by the oldest way to search. */
function layers(n, from, next) {
  const away = Array(n).fill(Infinity);
  let now = [...from];
  for (let k = 0; now.length > 0; k++) {
    now = now.filter((s) => away[s] === Infinity);
    for (const s of now) away[s] = k;
    now = now.flatMap(next);
  }
  return away;
}

/** Verdict, reachable screens and distances of a draft, with every option or without any. */
function searched(d, withOptions) {
  const every = Array.from({ length: d.n }, (_, s) => s);
  const rows = every.map((s) => [...members(d.certain[s]), ...(withOptions ? members(d.options[s]) : [])]);
  const forbidden = every.filter((s) => model.isForbidden(d, s));
  const reached = layers(d.n, members(d.initial), (s) => rows[s]);
  const back = layers(d.n, forbidden, (t) => every.filter((s) => rows[s].includes(t)));
  return {
    isUnsafe: forbidden.some((s) => reached[s] !== Infinity), back,
    reached: new Set(every.filter((s) => reached[s] !== Infinity)),
    steps: Math.min(Infinity, ...forbidden.map((s) => reached[s])),
  };
}

function hold(d, answer, what) {
  const [all, certain] = [searched(d, true), searched(d, false)];
  const word = !all.isUnsafe ? "safe" : certain.isUnsafe ? "unsafe" : "depends";
  same([answer.verdict, answer.isSafe], [word, word === "safe" && d.n > 0], what);
  same(answer.reached, all.reached, what);
  same([...answer.distances], all.back, what);
  same(answer.path === null, word === "safe", what);
  if (answer.path !== null) same(answer.path.length - 1, word === "unsafe" ? certain.steps : all.steps, what);
  const isHang = answer.path !== null && !members(d.marked).includes(answer.path.at(-1));
  const { steps } = isHang ? searched(model.allResting(d), true) : { steps: Infinity };
  same((answer.markedPath?.length ?? Infinity) - 1, steps, `${what}: to a marked screen`);
}

/** Every single step of a draft tried: those that make it safe are just those that are found on the path,
 * each with the screens that are not forbidden and are reached no more; those that cost least first. */
function holdRepairs(d, answer) {
  if (answer.path === null) return;
  const steps = d.certain.flatMap((_, from) => model.successors(d, from).map((to) => [from, to]));
  const before = [...searched(d, true).reached].filter((s) => !model.isForbidden(d, s));
  const mends = steps.flatMap(([from, to]) => {
    const other = searched(model.setStep(d, from, to, "none"), true);
    return other.isUnsafe ? [] : [{ from, to, lost: before.filter((s) => !other.reached.has(s)) }];
  });
  const found = repairs(library, d, answer.path);
  const inOrder = (list) => [...list].sort((a, b) => a.from - b.from || a.to - b.to);
  same(inOrder(found), inOrder(mends));
  const costs = found.map(({ lost }) => lost.length);
  same(costs, [...costs].sort((a, b) => a - b));
}

/** Of the steps of the path that do not mend it, those without which one screen more is a hang, and nothing
 * else that is forbidden is reached. */
function holdHangs(d, { path }) {
  if (path === null) return;
  const steps = path.slice(1).map((to, k) => [path[k], to]);
  const left = steps.filter(([from, to]) => {
    const other = model.setStep(d, from, to, "none");
    const { isUnsafe, reached } = searched(other, true);
    const forbidden = [...reached].filter((s) => model.isForbidden(other, s));
    return isUnsafe && forbidden.length === 1 && forbidden[0] === from && !members(d.marked).includes(from);
  });
  same(leavingHangs(library, d, path).map(({ from, to }) => [from, to]), left);
  if (left.length > 0) seen.add("left");
}

/** A hang at the end of the path, marked as resting: what a search by hand says then. */
function holdResting(d, { path }) {
  if (path === null) return;
  const last = path.at(-1);
  const isHang = model.successors(d, last).length === 0 && !members(d.resting).includes(last);
  const found = restingThere(library, d, path);
  same(found !== null, isHang && !members(d.marked).includes(last));
  if (found === null) return;
  const other = model.mark(d, "resting", last, true);
  const [all, certain] = [true, false].map((withOptions) => searched(other, withOptions));
  const isNothing = members(other.marked).length === 0;
  const then = all.isUnsafe ? (certain.isUnsafe ? "unsafe" : "depends") : isNothing ? "vacuous" : "safe";
  same([found.state, found.then], [last, then]);
  same(found.next === null, !all.isUnsafe);
  if (found.next !== null) same([model.isForbidden(other, found.next), found.next === last], [true, false]);
  seen.add(then);
}
const seen = new Set();

for (let k = 0; k < count; k++) {
  const answers = new Answers(library);
  const history = new model.History();
  const hasOptions = below(2) === 0;
  let [d, plain] = [model.NEW_DRAFT, new Plain()];
  const drafts = [d];
  for (let i = 3 + below(6); i > 0; i--) {
    d = model.addScreen(d);
    plain.names.push([-i, null]);
  }
  history.add(d, "screens");
  drafts.push(d);
  for (let i = 0; i < EDITS; i++) {
    const what = `SEED=${seed}, draft ${k}, edit ${i}`;
    [d, plain] = edited(below, d, plain, { hasOptions });
    history.add(d, "an edit");
    drafts.push(d);
    same(model.isSameDraft(model.draftOfText(library, plain.text()), d), true, `${what}: ${plain.text()}`);
    const answer = answers.of(d);
    hold(d, answer, what);
    if (i % 8 === 0) holdRepairs(d, answer);
    if (i % 8 === 0) holdHangs(d, answer);
    holdResting(d, answer);
    if (i % 10 === 0) same(model.isSameDraft(model.draftOfText(library, model.textOf(library, d)), d), true, what);
    if (below(4) === 0) { // back and forth: the session goes with it
      same([history.undo(), history.draft === drafts.at(-2)], [true, true], what);
      hold(history.draft, answers.of(history.draft), what);
      same([history.redo(), history.draft === d], [true, true], what);
      hold(d, answers.of(d), what);
    }
  }
  for (let i = drafts.length - 2; i >= 0; i--) same([history.undo(), history.draft === drafts[i]], [true, true]);
  same([history.undo(), history.undoes], [false, null]);
  for (let i = 1; i < drafts.length; i++) same([history.redo(), history.draft === drafts[i]], [true, true]);
  same([history.redo(), history.redoes], [false, null]);
}

const chain = model.draftOfText(library,
  "states 5\ninitial 0\nforbidden 4\nresting 0 1 2 3\nstep 0 -> 1\nstep 1 -> 2\nstep 2 -> 3 4\nend\n");
holdRepairs(chain, new Answers(library).of(chain));
same(repairs(library, chain, [0, 1, 2, 4]).map(({ from, lost }) => [from, lost]),
  [[2, []], [1, [2, 3]], [0, [1, 2, 3]]]);

same(seen.has("left"), true, "a step without which its screen is a hang");

for (const [text, then] of [
  ["states 4\ninitial 0\nforbidden 3\nresting none\nstep 0 -> 1\nstep 1 -> 2\nend\n", "safe"],
  ["states 3\ninitial 0\nforbidden none\nresting none\nstep 0 -> 1\nstep 1 -> 2\nend\n", "vacuous"],
  ["states 3\ninitial 0\nforbidden none\nresting none\nstep 0 -> 1 2\nend\n", "unsafe"],
  ["states 1\ninitial 0\nforbidden none\nresting none\nend\n", "vacuous"],
  ["states 4\ninitial 0\nforbidden 3\nstep 0 -> 1\npossible 0 -> 2\nend\n", "depends"],
]) {
  const hang = model.draftOfText(library, text);
  const { path } = new Answers(library).of(hang);
  same(restingThere(library, hang, path)?.then, then, text);
  seen.delete(then);
  holdResting(hang, { path });
  same(seen.has(then), true, text);
}

// ---- a full table, names that are none, and what says little

let full = model.NEW_DRAFT;
for (let s = 0; s < 512; s++) full = model.addScreen(full);
throws(() => model.addScreen(full), model.NotDone);
let grouped = model.addScreen(model.NEW_DRAFT, "home");
for (let j = 0; j < 64; j++) grouped = model.addGroup(grouped);
throws(() => model.addGroup(grouped), model.NotDone);
throws(() => model.addGroup(model.NEW_DRAFT), model.NotDone);
const named = model.addScreen(grouped, "over-limit");
const wrong = ["", "12", "none", "end", "home", "a#b", "ó\u0300", "дом", "a\u202eb", "x".repeat(65), "->", "<b>"];
for (const name of wrong) {
  throws(() => model.checkedName(library, named, 2, name), model.NotDone, name);
}
same(model.checkedName(library, named, 2, " hard limit "), "hard-limit");
same(model.checkedName(library, model.NEW_DRAFT, 0, "a"), "a");
same(model.checkedName(library, model.NEW_DRAFT, 0, "дом"), "дом");
const words = ["over-limit", "over limit", "1", "1 over-limit", "1 home", "2", "01", "-1", ""];
same(words.map((one) => model.screenOf(named, one)), [1, 1, 1, 1, null, null, null, null, null]);
same(spoken(named, "safe"), ["vacuous", "no verdict: nothing is initial"]);
const loop = model.mark(model.setStep(model.addScreen(model.NEW_DRAFT), 0, 0, "certain"), "initial", 0, true);
same(spoken(loop, "safe"), ["vacuous", "no verdict: nothing is forbidden"]);
same([named, loop].map((d) => /^No screen is (\w+)/.exec(vacuous(d))[1]), ["initial", "forbidden"]);
same(vacuous(model.mark(loop, "marked", 0, true)), null);
const unmarked = model.addScreen(loop); // a hang that no session reaches, and nothing is marked
same(spoken(unmarked, "safe"), ["vacuous", "no verdict: no screen is marked forbidden"]);
same([/hangs/.test(vacuous(unmarked)), /declines/.test(vacuous(unmarked))], [true, false]);
same(spoken(model.mark(unmarked, "marked", 1, true), "safe"), ["safe", "safe"]);
same(spoken(unmarked, "unsafe"), ["unsafe", "unsafe"]);
same(["unsafe", "depends"].map((verdict) => spoken(loop, verdict)),
  [["unsafe", "unsafe"], ["depends", "depends on the options"]]);
same(spoken(model.NEW_DRAFT, "safe"), ["draft", "a draft without screens"]);
for (const verdict of ["undecided", undefined, "toString"]) throws(() => spoken(loop, verdict), Error);
const compared = (old, now) => changes(library, old, now).find(({ kind }) => kind === "verdict").words;
same(compared(loop, model.mark(loop, "initial", 0, false)),
  "the verdict before: no verdict: nothing is forbidden; now: no verdict: nothing is initial");
end("edits", 100 * count);
