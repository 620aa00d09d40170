// A library that lies, stops or contradicts itself: there is no answer, and the next one is right again.
import { Answers, Contradiction } from "../../js/page/answer.mjs";
import { unfinished, whyForbidden, wordsOf } from "../../js/page/verdict.mjs";
import { assert, end, library, model, same, throws } from "./support.mjs";

const text = (steps) => `states 4\ninitial 0\nforbidden 3\nstep 0 -> 1\nstep 1 -> 0 2\nstep 3 -> 0\n${steps}end\n`;
const safe = model.draftOfText(library, text("step 2 -> 0\n"));
const unsafe = model.draftOfText(library, text("step 2 -> 3\n"));
const depends = model.draftOfText(library, text("step 2 -> 0\npossible 2 -> 3\n"));
same([safe, unsafe, depends].map((d) => new Answers(library).of(d).verdict), ["safe", "unsafe", "depends"]);

const decision = (d, change) => ({ ...library.decide(model.tablesOf(library, d).all), isSafe: false, ...change });
const stop = () => { throw new Error("stopped"); };
class Lit extends library.Session {
  get reachable() { return [0]; }
}
class Other extends library.Session {
  get table() { return library.generate(1, 4, 1); }
}
class Idle extends library.Session {
  addStep() { return this.reachable; }
  removeStep() { return this.reachable; }
}

/** Each lie: what it is of, and the library that tells it. */
const lies = [
  ["safe of an unsafe draft", unsafe, { decide: () => decision(unsafe, { verdict: "safe", path: null, isSafe: true }) }],
  ["unsafe without a path", unsafe, { decide: () => decision(unsafe, { path: null }) }],
  ["a path of a safe draft", safe, { decide: () => decision(safe, { path: [0, 1] }) }],
  ["a path that is none", unsafe, { decide: () => decision(unsafe, { path: [0, 2, 3] }) }],
  ["a path that begins elsewhere", unsafe, { decide: () => decision(unsafe, { path: [2, 3] }) }],
  ["a path that ends elsewhere", unsafe, { decide: () => decision(unsafe, { path: [0, 1, 2] }) }],
  ["undecided", unsafe, { decide: () => decision(unsafe, { verdict: "undecided", path: null }) }],
  ["safe and not safe", safe, { decide: () => decision(safe, { isSafe: false }) }],
  ["of another table", safe, { decide: () => ({ ...decision(safe), n: 5, isSafe: true }) }],
  ["nothing can be reached", unsafe, { Session: Lit }],
  ["another table was edited", safe, { Session: Other }],
  ["no distance", unsafe, { distances: () => [Infinity, Infinity, Infinity, Infinity] }],
  ["no distance at all", unsafe, { distances: () => [0, 0, 0, 0] }],
  ["too short distances", unsafe, { distances: () => [2, 1, 1, 0] }],
  ["too few distances", unsafe, { distances: () => [3, 2, 1] }],
  ["a distance of a safe draft", safe, { distances: () => [2, 1, 1, 0] }],
  ["safe for every option", depends, { decideModal: () => ({ n: 4, verdict: "safe", isSafe: true, path: null, invariant: [] }) }],
  ["no verdict", safe, { decide: () => ({}) }],
];
for (const [what, d, lie] of lies) {
  throws(() => new Answers({ ...library, ...lie }).of(d), Error, what);
}
for (const call of ["decide", "distances"]) throws(() => new Answers({ ...library, [call]: stop }).of(safe), /stopped/);

// a session that does not follow: the old reachable screens are never those of the new draft
const idle = new Answers({ ...library, Session: Idle });
same(idle.of(safe).verdict, "safe");
throws(() => idle.of(model.setStep(safe, 2, 3, "certain")), Contradiction);
same(idle.of(safe).verdict, "safe"); // a new session

// a call that stops once: the next answer is right
let stops = true;
const once = new Answers({ ...library, distances: (...given) => (stops ? stop() : library.distances(...given)) });
throws(() => once.of(unsafe), /stopped/);
stops = false;
same(once.of(unsafe).verdict, "unsafe");
same(once.of(safe).verdict, "safe");

// what stands in the verdict's place: "safe" only of an answer that is safe
for (const answer of [{ verdict: "safe", isSafe: false }, { verdict: "sure", isSafe: true }, { verdict: undefined }]) {
  throws(() => wordsOf(safe, answer), Error);
}
const word = (d) => wordsOf(d, new Answers(library).of(d))[0];
same([safe, unsafe, depends, model.NEW_DRAFT].map(word), ["safe", "unsafe", "depends", "draft"]);
same(word(model.mark(safe, "initial", 0, false)), "vacuous");
// beside "unsafe": a hang that nobody marked; the word stays
const hang = model.draftOfText(library, "states 2\ninitial 0\nforbidden none\nstep 0 -> 1\nend\n");
const beside = (d) => unfinished(d, new Answers(library).of(d));
same([word(hang), beside(hang)], ["unsafe", "not finished: a hang is reached"]);
const marked = model.mark(hang, "marked", 1, true);
same([word(marked), beside(marked)], ["unsafe", ""]);
same([safe, unsafe, depends, model.NEW_DRAFT].map(beside), ["", "", "", ""]);
// a nearer hang does not hide that a marked screen is reached, by a way that a search by hand finds
const NEARER = "states 4\nstate 0 home\nstate 1 off\nstate 2 running\nstate 3 limit\ninitial 0\n" +
  "forbidden 3\nstep 0 -> 1 2\nstep 2 -> 3\nend\n";
const sentence = (d) => wordsOf(d, new Answers(library).of(d))[2];
for (const [text, path, to, ...words] of [
  [NEARER, [0, 1], [0, 2, 3], "limit is reached by home → running → limit.", "unfinished: off",
    "to the hang:"],
  [NEARER.replace("step 2 -> 3", "step 2 -> 0\npossible 2 -> 3"), [0, 1], [0, 2, 3],
    "With every option limit"],
  [NEARER.replace("initial 0", "initial 0 1 3"), [1], [3], "A session can start in limit", "unfinished: off"],
]) {
  const d = model.draftOfText(library, text);
  const answer = new Answers(library).of(d);
  same([word(d), answer.path, answer.markedPath], ["unsafe", path, to], text);
  assert.match(beside(d), /^(with every option )?limit is reached, which is marked forbidden$/);
  for (const part of words) assert.ok(sentence(d).includes(part), `${part}: ${sentence(d)}`);
}
const two = model.draftOfText(library, NEARER.replace("forbidden 3", "forbidden 2 3"));
same(beside(two), "running, limit are reached, which are marked forbidden");
const nearer = model.draftOfText(library, NEARER);
const onlyHang = model.setStep(nearer, 2, 3, "none"); // then the marked one is not reached
same([beside(onlyHang), new Answers(library).of(onlyHang).markedPath],
  ["not finished: a hang is reached", null]);
for (const lie of [null, [0, 1], [0, 3], [2, 3]]) { // said of the marked one: of both calls the second
  let calls = 0;
  const decide = (...given) => (calls++ === 0 ? library.decide(...given) : { path: lie });
  throws(() => new Answers({ ...library, decide }).of(nearer), Contradiction, String(lie));
}
// a start that is a hang, and one that is marked; a marked one without steps is not called a hang
const starts = (text) => sentence(model.draftOfText(library, `states 1\ninitial 0\n${text}end\n`));
same(starts("forbidden none\n"), "A session can start in a screen with no way out (a hang).");
same(starts("forbidden 0\n"), "A session can start in a forbidden screen.");
same([1, 3].map((s) => /a hang|marked/.exec(whyForbidden(nearer, s))[0]), ["a hang", "marked"]);
assert.ok(lies.length > 10);
end("lies", 25);
