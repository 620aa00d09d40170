// Answers that nobody takes for a yes, tables that are none, modules that stop, lie or are not ours.
import { readFileSync } from "node:fs";
import { Worker } from "node:worker_threads";
import {
  assert, bytes, end, folder, module, rejects, same, shuntberry as s, throws, url, watched,
} from "./support.mjs";

const { Mistakes, Refused, Trapped, UnknownAnswer, load } = module;
const sets = { initial: [0], marked: [2], steps: { 0: [0], 1: [2] } };
const table = new s.Table(3, sets);
const refusedWith = (number) => (error) => error instanceof Refused && error.number === number;

// ---- answers

const draft = s.read(new Uint8Array(0));
const kept = s.write(table);
for (const answer of [
  s.decide(table), s.check(s.write(table)), s.decideModal(table, table.steps), s.replay(table, new Uint8Array(0)),
  s.decide(draft), s.check(new Uint8Array(1)), table,
]) {
  throws(() => `${answer}`, TypeError);
  throws(() => +answer, TypeError);
  throws(() => answer == true, TypeError);
  throws(() => answer == "safe", TypeError);
  throws(() => answer < 1, TypeError);
}
same([s.decide(draft).verdict, s.decide(draft).isSafe], ["safe", false]);
same([s.decideModal(draft, {}).verdict, s.decideModal(draft, {}).isSafe], ["safe", false]);
same([s.check(new ArrayBuffer(0)).status, s.check(new ArrayBuffer(0)).isSafe], [4, false]);
const decision = s.decide(new s.Table(2, { initial: [0], marked: [1], steps: { 0: [1] } }));
throws(() => { decision.verdict = "safe"; }, TypeError);
throws(() => { decision.isSafe = true; }, TypeError);
throws(() => { decision.path[0] = 1; }, TypeError);
for (const answer of [
  decision, s.decide(table), s.decide(draft), s.decideModal(table, table.steps), s.decideModal(draft, {}),
  s.check(kept), s.check(new Uint8Array(0)), s.check(new Uint8Array(1)),
]) {
  const copies = [structuredClone(answer), JSON.parse(JSON.stringify(answer))];
  same(copies.map((copy) => copy.isSafe), [answer.isSafe, answer.isSafe], "a copy says the same");
  same(copies.map((copy) => copy.status), [answer.status, answer.status], "how it ends");
  throws(() => { answer.isSafe = true; }, TypeError);
}
same([decision.isSafe, s.decide(table).isSafe, s.check(kept).isSafe], [false, true, true]);
const free = { initial: [0], marked: [], steps: { 0: [1], 1: [0] } };
const nothing = [
  draft, new s.Table(2, free), new s.Table(2, { ...free, initial: [], marked: [1] }),
  new s.Table(1, { initial: [0], marked: [], resting: [0], steps: {} }),
];
same(nothing.map((one) => [s.decide(one).verdict, one.isVacuous]), nothing.map(() => ["safe", true]));
const hang = new s.Table(2, { initial: [0], marked: [], steps: { 0: [0] } });
same([table.isVacuous, hang.isVacuous], [false, false], "state 1 is a hang");
for (const [work, most] of [
  [(v) => s.decide(table, v), 512], [(v) => s.check(kept, v), 65520], [(v) => s.write(table, v), 65520],
  [(v) => s.generate(7, 3, v), 16], [(v) => s.generate(7, v, 1), 512], [(v) => s.nextOpen(v, []), 2 ** 31 - 1],
]) {
  for (const wrong of [-1, 2 ** 32]) {
    throws(() => work(wrong), { name: "RangeError", message: new RegExp(` from 0 to ${most}$`) });
  }
  throws(() => work(most + 1), Refused, "what the library refuses itself");
}
const error = new Refused(14);
same([error instanceof Error, error.name, error.number, error.code], [true, "Refused", 14, "STATES"]);
same(error.message, `refused 14: ${error.ground}`);
same(new Refused(9).code, "UNKNOWN");

// ---- tables

for (const wrong of [
  null, undefined, {}, 3, "table", Object.create(s.Table.prototype), new Proxy(table, {}), s.write(table), { ...table },
]) {
  for (const call of [s.decide, s.shortestPath, s.distances, s.write]) throws(() => call(wrong), TypeError);
  throws(() => s.within(wrong, 1), TypeError);
  throws(() => s.replay(wrong, new Uint8Array(0)), TypeError);
  throws(() => s.decideModal(wrong, {}), TypeError);
  throws(() => new s.Session(wrong), TypeError);
  throws(() => table.equals(wrong), TypeError);
}
class Liar extends s.Table {
  get n() {
    return 0;
  }
}
same(s.decide(new Liar(3, sets)).isSafe, true, "n is the table's own, whatever is said over it");
for (const wrong of [
  undefined, null, 3, "initial", [], {}, { initial: [0], marked: [2] }, { initial: [0], steps: {} },
  { marked: [2], steps: {} }, { ...sets, forbidden: [1] }, { ...sets, initial: 0 }, { ...sets, initial: "0" },
  { ...sets, marked: null }, { ...sets, steps: [[0, 1]] }, { ...sets, steps: { 0: 1 } }, { ...sets, steps: { 0: "1" } },
  { ...sets, steps: new Date(0) }, { ...sets, groups: [0] }, { ...sets, resting: null }, { ...sets, names: ["a"] },
  { ...sets, names: { 0: 1 } },
]) throws(() => new s.Table(3, wrong), TypeError);
throws(() => new s.Table(3), TypeError);
for (const names of [{ 0: "" }, { 0: "1" }, { 0: "a", 1: "a" }, { 3: "a" }]) {
  throws(() => new s.Table(3, { ...sets, names }), RangeError);
}
throws(() => new s.Table(3, { ...sets, steps: new Map([[0, [0]], ["a", [1]]]), names: { 0: "a" } }), RangeError);
throws(() => new s.Table(3, { ...sets, groups: Array(65).fill([]) }), refusedWith(15));
throws(() => new s.Table(3, { ...sets, groups: Array(9999).fill([]) }), refusedWith(15));
throws(() => new s.Table(0, { initial: [], marked: [], steps: {}, groups: [[]] }), refusedWith(14));
const again = { *[Symbol.iterator]() { yield s.decide(table).isSafe ? 2 : 1; } };
same(new s.Table(3, { ...sets, marked: again }).marked, [2], "a list that calls meanwhile");
const named = new s.Table(3, { ...sets, names: { 0: "home", 2: "over" } });
same([named.state("over"), named.equals(table), named.whyForbidden("over")], [2, true, "marked"]);
same(new s.Session(named).addStep("home", "over"), [0, 2]);
for (const name of ["a b", "a\n1 b", "a\nend", "a#", "\u00e9\u0416", "x".repeat(65), "none"]) {
  throws(() => new s.Table(3, { ...sets, names: { 0: name } }).toText(), Error, name);
}
named.names.set(1, "mine");
named.steps.set(0, [2]);
same([named.names.size, s.decide(named).isSafe], [2, true], "what is given out is a copy");

// ---- bytes

const given = s.write(table);
structuredClone(given.buffer, { transfer: [given.buffer] });
for (const wrong of [given, given.buffer, null, undefined, "", "cut", 0, 512, [], [0], {}, { length: 0 }, new Uint16Array(256),
  new DataView(new ArrayBuffer(512)), new Proxy(kept, {}), Promise.resolve(kept)]) {
  for (const call of [s.check, s.read, s.rewrite, (data) => s.replay(table, data)]) throws(() => call(wrong), TypeError);
}
class Short extends Uint8Array {
  get length() {
    return 0;
  }
  get byteLength() {
    return 0;
  }
}
same(s.check(new Short(kept)).isSafe, true, "its own length, whatever is said over it");
same(s.check(new Uint8Array(10_000_000)).text, "refused 11\n");
throws(() => s.read(new Uint8Array(10_000_000)), refusedWith(11));
throws(() => s.replay(table, new Uint8Array(10_000_000)), refusedWith(26));
throws(() => s.replay(table, new Uint8Array(10_000_001)), refusedWith(25));
throws(() => s.nextOpen(0, Array(100_000).fill({ start: 0, length: 1 })), refusedWith(30));
throws(() => s.nextOpen(0, [], null), TypeError);
throws(() => s.nextOpen(0, [null]), TypeError);
same(s.nextOpen(0, []), Infinity);
same(s.decide(table).isSafe, true);

// ---- texts

for (const wrong of [null, undefined, 3, {}, ["states 0"], new String("states 0\nend\n"), kept]) {
  throws(() => s.Table.fromText(wrong), TypeError);
}
const text = table.toText();
for (let k = 0; k < text.length; k++) throws(() => s.Table.fromText(text.slice(0, k)), Mistakes, `cut at ${k}`);
const mistakes = (work) => {
  try {
    work();
  } catch (caught) {
    return caught;
  }
};
const optional = "states 2\ninitial 0\nforbidden 1\nresting none\nstep 0 -> 0\nstep 1 -> 0\npossible 0 -> 1\nend\n";
throws(() => s.Table.fromText(optional), Mistakes);
assert.match(mistakes(() => s.Table.fromText(optional)).message, /^line 7: .*Table\.fromTextWithPossible/);
const both = s.Table.fromTextWithPossible(optional);
same([both.table.steps, both.possible.steps], [new Map([[0, [0]], [1, [0]]]), new Map([[0, [0, 1]], [1, [0]]])]);
const over = s.Table.fromTextWithPossible(`state 1 over\n${optional}`);
same([over.table.names, over.possible.names], [new Map([[1, "over"]]), new Map([[1, "over"]])]);
same(s.Table.fromTextWithPossible(over.table.toText(over.possible)).possible.names, over.table.names);
same([both.table.toText(both.possible), s.decideModal(both.table, both.possible).verdict], [optional, "depends"]);
throws(() => both.table.toText(undefined), TypeError);
throws(() => both.table.toText(table), RangeError, "another table");
throws(() => s.decideModal(both.table, table), RangeError, "another table");
throws(() => s.decideModal(both.possible, both.table), refusedWith(28));
throws(() => s.Table.fromTextWithPossible(optional.slice(0, -1)), Mistakes);
for (const wrong of [undefined, null, [], "", new Uint8Array(0), new Uint8Array(4632 * 8 + 1), new Uint16Array(4632 * 4)]) {
  throws(() => s.Table.fromStore(2, 0, wrong), Error, "no store");
}
const store = table.store;
store[0] = 255;
throws(() => s.Table.fromStore(3, 0, store), refusedWith(17));
throws(() => s.Table.fromStore(3, 0, new Uint8Array(4632 * 8).fill(255)), refusedWith(17));
throws(() => s.Table.fromStore(513, 0, new Uint8Array(4632 * 8)), refusedWith(14));
throws(() => s.Table.fromStore(-1, 0, table.store), RangeError);
throws(() => s.Table.fromStore(3, 65, table.store), refusedWith(15));
same(table.equals(s.Table.fromStore(3, 0, table.store)), true, "a copy was written to");

const two = mistakes(() => s.Table.fromText("states 3\ninitial 5\nforbidden 4294967296\nend\n"));
same([two.name, two.count, two.mistakes.map(({ line }) => line)], ["Mistakes", 2, [2, 3]]);
assert.match(two.message, /^line 2: there is no state 5/);
const many = mistakes(() => s.Table.fromText(`${"wrong\n".repeat(300_000)}end\n`));
same([many.name, many.count > 300_000, many.mistakes.length], ["Mistakes", true, 100]);
same(mistakes(() => s.Table.fromText("x".repeat(3_000_000))).name, "Mistakes");
const half = "states 1\ninitial 0\nforbidden none\nstate 0 \ud800\nend\n";
same(mistakes(() => s.Table.fromText(half)).name, "Mistakes");
same(s.Table.fromText("states 0\nend\n").n, 0);
// states without numbers, → for ->, and names in what is printed; a text that mixes the forms is none
const ordered = "state off\nstate home\nstate over\ninitial off\nforbidden over\nstep off \u2192 home\nstep home -> off\nend\n";
const numbered = s.Table.fromText(ordered);
same([numbered.n, numbered.steps.get(0), numbered.marked], [3, [1], [2]]);
same(numbered.toText(), "states 3\nstate 0 off\nstate 1 home\nstate 2 over\ninitial off\nforbidden over\nresting none\nstep off -> home\nstep home -> off\nend\n");
same(s.Table.fromText(numbered.toText()).equals(numbered), true);
for (let k = 0; k < ordered.length; k++) throws(() => s.Table.fromText(ordered.slice(0, k)), Mistakes, `cut at ${k}`);
for (const [wrong, reason] of [
  [`states 3\n${ordered}`, /^line 2: line 1 numbers the states/], [ordered.replace("off\nfor", "of\nfor"), /did you mean 'off'\?/],
  [ordered.replace("home\nstate", "home,\nstate"), /^line 2: 'home,' has a comma/], [ordered.replace("forbidden over", "forbidden 2"), /^line 5: 2 is a number/],
]) {
  const found = mistakes(() => s.Table.fromText(wrong));
  same([found.name, found.count], ["Mistakes", 1], wrong);
  assert.match(found.message, reason);
}
const german = "states 1\r\ninitial 0\r\nforbidden none\r\nstate 0 M\u00fcller\r\nend\r\n";
same(s.Table.fromText(german).names, new Map([[0, "M\u00fcller"]]));

// ---- a module that stops: an error, and the next call has another instance

const OUTSIDE = 0xfffffff0;
for (const call of [() => s.decide(table), () => s.check(kept), () => new s.Session(table), () => s.generate(1, 3, 1)]) {
  const before = watched.instances;
  watched.spoil = (name, [, ...words]) => [OUTSIDE, ...words];
  throws(call, (caught) => caught instanceof Trapped && caught.cause instanceof WebAssembly.RuntimeError);
  watched.spoil = null;
  same(watched.instances, before, "none is made before it is needed");
  same(s.decide(table).isSafe, true);
  same(watched.instances, before + 1);
  same(s.decide(table).isSafe, true);
  same(watched.instances, before + 1, "that one is kept");
}
const open = new s.Session(table);
watched.spoil = (name, [answer, store, length, n, g, , ...ends]) => [answer, store, length, n, g, OUTSIDE, ...ends];
throws(() => open.addStep(0, 1), Trapped);
watched.spoil = null;
same([open.reachable, open.table.equals(table)], [[0], true], "an edit that stopped changed nothing");
same(open.addStep(0, 1), [0, 1, 2]);
watched.spoil = (name, words) => (name === "shuntberry_text_read" ? [OUTSIDE, ...words.slice(1)] : words);
throws(() => s.Table.fromText(text), Trapped);
watched.spoil = null;
same(s.Table.fromText(text).equals(table), true);

// ---- a module that lies: what is not known is no answer

const lies = (place, number, call) => {
  watched.lie = [place, number];
  throws(call, UnknownAnswer, `${number} at ${place}`);
  watched.lie = null;
};
const unsafe = new s.Table(2, { initial: [0], marked: [1], steps: { 0: [1] } });
for (const verdict of [3, 4, 255, 2 ** 32 - 1]) lies(68, verdict, () => s.decide(unsafe));
for (const verdict of [2, 4, 255]) lies(68, verdict, () => s.decideModal(unsafe, unsafe.steps));
for (const verdict of [2, 3, 255]) lies(16, verdict, () => s.check(kept));
for (const verdict of [0, 1]) lies(16, verdict, () => s.check(new Uint8Array(1)));
lies(12, 13, () => s.check(kept));
lies(0, 4097, () => s.check(kept));
lies(80, 512, () => s.decide(unsafe));
for (const found of [2, 255]) lies(4, found, () => s.shortestPath(unsafe));
for (const within of [2, 255]) lies(4, within, () => s.within(unsafe, 1));
lies(4, 255, () => s.nextOpen(0, [{ start: 0, length: 1 }]));
lies(8, 2 ** 32 - 1, () => s.nextOpen(0, [{ start: 0, length: 1 }]));
lies(4, 37377, () => s.write(unsafe));
watched.lie = [64, 99];
throws(() => s.decide(unsafe), refusedWith(99));
watched.lie = null;
same(s.decide(unsafe).verdict, "unsafe");

// ---- modules

const wasm = readFileSync(`${folder}/shuntberry.wasm`);
for (const length of [0, 1, 8, 100, wasm.length >> 1, wasm.length - 1]) {
  await rejects(() => load(wasm.subarray(0, length)), Error, `${length}`);
}
for (const wrong of [undefined, null, 3, "shuntberry.wasm", {}, bytes("0061736d01000000"), new Response(wasm, { status: 404 })]) {
  await rejects(() => load(wrong), Error);
}
const changed = Buffer.from(wasm);
changed.write("shuntberry_decode", changed.indexOf("shuntberry_decide"));
await rejects(() => load(changed), /lacks shuntberry_decide/);
const compiled = await WebAssembly.compile(wasm);
for (const source of [wasm, new Uint8Array(wasm).buffer, compiled, new Response(wasm), Promise.resolve(new Response(wasm))]) {
  const other = await load(source);
  same(other.decide(new other.Table(3, sets)).isSafe, true);
  same(Object.isFrozen(other), true);
}
same(await load(), s);
const worker = new Worker(
  `const { parentPort, workerData: { url, compiled } } = require("node:worker_threads");
   import(url).then(async ({ load }) => {
     const s = await load(compiled);
     parentPort.postMessage(s.decide(new s.Table(3, { initial: [0], marked: [2], steps: { 0: [0, 1], 1: [2] } })).path);
   });`,
  { eval: true, workerData: { url: url("shuntberry.mjs"), compiled } },
);
same(await new Promise((resolve, fail) => worker.once("message", resolve).once("error", fail)), [0, 1, 2]);
await worker.terminate();

// ---- types: each name is declared

const types = readFileSync(`${folder}/shuntberry.d.ts`, "utf8");
const every = ["constructor", "length", "name", "prototype"];
const members = (value) => Object.getOwnPropertyNames(value).filter((name) => !every.includes(name));
for (const name of [
  ...Object.keys(module), ...Object.keys(s), ...members(s.Table), ...members(s.Table.prototype),
  ...members(s.Session.prototype), ...members(decision), ...members(s.check(kept)),
  ...members(Object.getPrototypeOf(s.check(kept))), ...members(s.replay(table, new Uint8Array(0))),
]) same(new RegExp(`\\b${name}\\b[?]?[:(;]|(?:class|function|const) ${name}\\b`).test(types), true, name);
end("hostile", 400);
