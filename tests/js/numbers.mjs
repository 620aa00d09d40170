// What is no whole number in its range is refused, and the module is not entered.
import { readFileSync } from "node:fs";
import { end, folder, same, shuntberry as s, url, watched } from "./support.mjs";

const table = new s.Table(3, { initial: [0], marked: [2], steps: { 0: [0], 1: [2] } });
const file = s.write(table);
const session = new s.Session(table);
const sets = { initial: [0], marked: [2], steps: { 0: [0], 1: [2] } };
const windows = [{ start: 0, length: 10 }];
const WRONG = [
  -1, -0.5, 1.5, NaN, Infinity, -Infinity, "3", "", 3n, 2n ** 32n, null, undefined, true, false, {}, [], [3], () => 3,
  Symbol("3"), new Number(3), { valueOf: () => 3 }, new Date(3), new Uint8Array(1),
];
const TOO_MANY = [2 ** 32, 2 ** 32 + 1, 2 ** 32 + 512, 2 ** 33, 2 ** 52, 2 ** 53 - 1, 2 ** 53, 2 ** 64, 1e300];
const PARAMETERS = {
  "Table, n": (v) => new s.Table(v, sets),
  "Table, initial": (v) => new s.Table(3, { ...sets, initial: [v] }),
  "Table, marked": (v) => new s.Table(3, { ...sets, marked: [0, v] }),
  "Table, resting": (v) => new s.Table(3, { ...sets, resting: [v] }),
  "Table, groups": (v) => new s.Table(3, { ...sets, groups: [[v]] }),
  "Table, steps from": (v) => new s.Table(3, { ...sets, steps: new Map([[v, [0]]]) }),
  "Table, steps to": (v) => new s.Table(3, { ...sets, steps: { 0: [v] } }),
  "Table, names": (v) => new s.Table(3, { ...sets, names: new Map([[v, "home"]]) }),
  "fromBytes, site": (v) => s.Table.fromBytes(file, v),
  "read, site": (v) => s.read(file, v),
  "check, site": (v) => s.check(file, v),
  "write, site": (v) => s.write(table, v),
  "decide, allowance": (v) => s.decide(table, v),
  "within, k": (v) => s.within(table, v),
  "generate, seed": (v) => s.generate(v, 3, 2),
  "generate, n": (v) => s.generate(7, v, 2),
  "generate, fanOut": (v) => s.generate(7, 3, v),
  "addStep, from": (v) => session.addStep(v, 0),
  "addStep, to": (v) => session.addStep(0, v),
  "removeStep, from": (v) => session.removeStep(v, 0),
  "removeStep, to": (v) => session.removeStep(0, v),
  "decideModal, from": (v) => s.decideModal(table, new Map([[0, [0]], [1, [2]], [v, [0]]])),
  "decideModal, to": (v) => s.decideModal(table, { 0: [0, v], 1: [2] }),
  "nextOpen, time": (v) => s.nextOpen(v, windows),
  "nextOpen, start": (v) => s.nextOpen(0, [{ start: v, length: 10 }]),
  "nextOpen, length": (v) => s.nextOpen(0, [{ start: 0, length: v }]),
  "nextOpen, closedDays": (v) => s.nextOpen(0, windows, [v]),
  "state": (v) => table.state(v),
  "successors": (v) => table.successors(v),
  "whyForbidden": (v) => table.whyForbidden(v),
};
for (const [what, call] of Object.entries(PARAMETERS)) {
  for (const value of [...WRONG, ...TOO_MANY]) {
    const before = watched.entered;
    let said = "nothing";
    try {
      call(value);
    } catch (error) {
      said = error.constructor === TypeError || error.constructor === RangeError ? "refused" : error;
    }
    same([said, watched.entered], ["refused", before], `${what}: ${String(value)}`);
  }
}
// A state that no set has room for: a marked one that is lost is a wrong safe.
for (const what of Object.keys(PARAMETERS).filter((name) => /Table, [^n]|Modal/.test(name))) {
  for (const value of [512, 513, 519, 4096, 65535, 2 ** 32 - 1]) {
    const before = watched.entered;
    let said = "nothing";
    try {
      PARAMETERS[what](value);
    } catch (error) {
      said = error.constructor;
    }
    same([said, watched.entered], [RangeError, before], `${what}: ${value}`);
  }
}
// Digits as a key of an object are the number.
for (const key of ["-1", "1.5", "4294967296", "03", "1e0", "", "512"]) {
  const before = watched.entered;
  let said = "nothing";
  try {
    new s.Table(3, { ...sets, steps: { [key]: [0] } });
  } catch (error) {
    said = error.constructor;
  }
  same([said, watched.entered], [RangeError, before], key);
}

// The greatest numbers that go in are the library's to refuse, or to answer.
const MOST = 2 ** 32 - 1;
const LIBRARY = {
  "Table, n": 14, "Table, initial": 17, "Table, marked": 17, "Table, resting": 17, "Table, groups": 17,
  "Table, steps from": 17, "Table, steps to": 17, "fromBytes, site": 24, "read, site": 24, "check, site": 24,
  "write, site": 24, "decide, allowance": 20, "generate, n": 14, "generate, fanOut": 22, "addStep, from": 27,
  "addStep, to": 27, "removeStep, from": 27, "removeStep, to": 27, "decideModal, from": 17, "decideModal, to": 17,
  "nextOpen, time": 31, "nextOpen, start": 29, "nextOpen, length": 29,
};
for (const [what, number] of Object.entries(LIBRARY)) {
  const value = /Table, [^n]|Modal/.test(what) ? 511 : MOST;
  let found;
  try {
    found = PARAMETERS[what](value);
  } catch (error) {
    found = error.number;
  }
  same(found, number, what);
}
same(s.within(table, MOST), false);
same(s.within(new s.Table(2, { initial: [0], marked: [1], steps: { 0: [1] } }), MOST), true);
same(s.generate(MOST, 3, 2).n, 3);
same(s.nextOpen(0, windows, [MOST]), 0);
// An answer of 2^31 or more is no negative one.
const late = 2 ** 31 + 5000;
same(s.nextOpen(2 ** 31 - 1, [{ start: late % 10_080, length: 1 }]), late);
same(session.reachable, [0]);

// The calls themselves, with the greatest numbers of 32 bits in place of each: they refuse as on 64 bits, do not stop,
// and write nothing.
const { Engine } = await import(url("engine.mjs"));
const { CALLS, SIZES } = await import(url("raw.mjs"));
const engine = new Engine(await WebAssembly.compile(readFileSync(`${folder}/shuntberry.wasm`)));
const GROUNDS = { n: 14, g: 15, allowance: 20, site: 24, fan_out: 22, time: 31, from: 27, to: 27, k: 0, seed: 0 };
const GOOD = { n: 3, g: 0, allowance: 512, site: 0, fan_out: 2, time: 0, from: 0, to: 1, k: 1, seed: 7 };
const store = new Uint8Array(8 * 4632);
same(engine.call("read", file, 0, store).refusal, 0);
const ROW = 8 * 8 * (3 + 64);
const BUFFERS = {
  store, input: file, possible: store.slice(ROW), path: new Uint8Array(1024), distances: new Uint8Array(6),
  text: new Uint8Array(4096), output: new Uint8Array(37376), log: new Uint8Array(0),
  windows: new Uint8Array([0, 0, 0, 0, 1, 0, 0, 0]), closed_days: new Uint8Array(0), reachable: new Uint8Array(64),
};
let looked = 0;
for (const [name, { parameters }] of Object.entries(CALLS)) {
  for (const [what] of parameters.filter(([, kind, pointer]) => kind in SIZES && pointer === "")) {
    for (const value of [2 ** 31, 2 ** 32 - 512, MOST]) {
      const words = { ...GOOD, [what]: value };
      const given = parameters.map(([one]) => words[one] ?? BUFFERS[one].slice());
      const found = engine.call(name, ...given);
      same(found.refusal ?? found, GROUNDS[what], `${name}: ${what} is ${value}`);
      if (GROUNDS[what] !== 0) same(given, parameters.map(([one]) => words[one] ?? BUFFERS[one]), `${name} wrote`);
      looked++;
    }
  }
}
same(looked >= 3 * 33, true, "numbers of all calls");
end("numbers", 1000);
