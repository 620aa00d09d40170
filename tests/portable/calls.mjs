// What calls.c does, for WebAssembly: node calls.mjs MODULE < CASES. It reads the same lines and prints the same answers.
import { readFileSync } from "node:fs";

const PAGE = 65536;
const ROOM = 5000;
const BEHIND = 8;
const SET_WORDS = 8;
const TOO_MANY_BYTES = 1 << 17;

const { exports: library } = new WebAssembly.Instance(new WebAssembly.Module(readFileSync(process.argv[2])), {});
// Pages of our own behind the module's: each buffer has its place there.
let free = library.memory.grow(16) * PAGE;
const place = (bytes) => {
  const at = free;
  free += Math.ceil(bytes / 8) * 8;
  return at;
};
const at = {
  store: place(8 * ROOM),
  possible: place(8 * ROOM),
  windows: place(8 * ROOM),
  words: place(8 * ROOM),
  closed: place(4 * ROOM),
  places: place(2 * ROOM),
  input: place(TOO_MANY_BYTES),
  log: place(TOO_MANY_BYTES),
  bytes: place(TOO_MANY_BYTES),
  reachable: place(8 * SET_WORDS),
  answer: place(256),
};
const lent = { store: 0, possible: 0, windows: 0, closed: 0, input: 0, log: 0 };
const memory = () => library.memory.buffer;
const view = {
  words: (from, count) => new BigUint64Array(memory(), from, count),
  numbers: (from, count) => new Uint32Array(memory(), from, count),
  places: (from, count) => new Uint16Array(memory(), from, count),
  bytes: (from, count) => new Uint8Array(memory(), from, count),
};

function sum(numbers) {
  let found = 14695981039346656037n;
  for (const number of numbers) {
    let rest = BigInt(number);
    for (let k = 0; k < 8; k++) {
      found = BigInt.asUintN(64, (found ^ (rest & 255n)) * 1099511628211n);
      rest >>= 8n;
    }
  }
  return found.toString(16).padStart(16, "0");
}

function fresh() {
  view.bytes(at.places, 2 * ROOM).fill(0xa5);
  view.bytes(at.bytes, TOO_MANY_BYTES).fill(0xa5);
  view.bytes(at.words, 8 * ROOM).fill(0xa5);
}

const table = (n, g) => [at.store, lent.store, n, g];
const fields = (from, count) => [...view.numbers(at.answer + from, count)];
const invariant = () => sum(view.words(at.answer, SET_WORDS));
const placed = (room) => sum(view.places(at.places, room + BEHIND));
const written = (room) => sum(view.bytes(at.bytes, room + BEHIND));
const read = (room) => sum(view.words(at.words, room + BEHIND));
const SET = 8 * SET_WORDS;

function session(call, words) {
  library[call](at.answer, ...words);
  const reachable = view.words(at.answer, SET_WORDS);
  view.words(at.reachable, SET_WORDS).set(reachable);
  return [...fields(SET, 2), sum(reachable), sum(view.words(at.store, lent.store + BEHIND))];
}
const edit = (call) => (n, g, from, to) =>
  session(`shuntberry_${call}`, [...table(n, g), at.reachable, from, to]);

const calls = {
  decide(n, g, allowance, room) {
    library.shuntberry_decide(at.answer, ...table(n, g), allowance, at.places, room);
    return [...fields(SET, 6), invariant(), placed(room)];
  },
  check(site, room) {
    library.shuntberry_check(at.answer, at.input, lent.input, site, at.bytes, room);
    return [...fields(0, 6), written(room)];
  },
  shortest_path(n, g, room) {
    library.shuntberry_shortest_path(at.answer, ...table(n, g), at.places, room);
    return [...fields(0, 3), placed(room)];
  },
  distances(n, g, room) {
    library.shuntberry_distances(at.answer, ...table(n, g), at.places, room);
    return [...fields(0, 1), placed(room)];
  },
  within(n, g, k) {
    library.shuntberry_within(at.answer, ...table(n, g), k);
    return fields(0, 2);
  },
  read(site, room) {
    library.shuntberry_read(at.answer, at.input, lent.input, site, at.words, room);
    return [...fields(0, 3), read(room)];
  },
  write(n, g, site, room) {
    library.shuntberry_write(at.answer, ...table(n, g), site, at.bytes, room);
    return [...fields(0, 2), written(room)];
  },
  rewrite(room) {
    library.shuntberry_rewrite(at.answer, at.input, lent.input, at.bytes, room);
    return [...fields(0, 2), written(room)];
  },
  generate(seed, n, fanOut, room) {
    library.shuntberry_generate(at.answer, seed, n, fanOut, at.words, room);
    return [...fields(0, 1), read(room)];
  },
  replay(n, g) {
    library.shuntberry_replay(at.answer, ...table(n, g), at.log, lent.log);
    return fields(0, 5);
  },
  open: (n, g) => session("shuntberry_open", table(n, g)),
  add_step: edit("add_step"),
  remove_step: edit("remove_step"),
  decide_modal(n, g, room) {
    library.shuntberry_decide_modal(at.answer, ...table(n, g), at.possible, lent.possible, at.places, room);
    return [...fields(SET, 4), invariant(), placed(room)];
  },
  next_open(time) {
    library.shuntberry_next_open(at.answer, time, at.windows, lent.windows, at.closed, lent.closed);
    return fields(0, 3);
  },
  version() {
    library.shuntberry_version(at.answer);
    return fields(0, 1);
  },
};

const inputs = {
  sparse(name, [length, ...words]) {
    const all = view.words(at[name], ROOM).fill(0n);
    for (const word of words) {
      const [where, value] = word.split(":");
      all[Number(where)] = BigInt(value);
    }
    lent[name] = Number(length);
  },
  bytes(name, [word]) {
    const data = word === "-" ? Buffer.alloc(0) : Buffer.from(word, "hex");
    view.bytes(at[name], data.length).set(data);
    lent[name] = data.length;
  },
};
const kinds = { store: inputs.sparse, possible: inputs.sparse, input: inputs.bytes, log: inputs.bytes };

const out = [];
let count = 0;
for (const line of readFileSync(0, "latin1").split("\n")) {
  const [word, ...rest] = line.split(" ").filter(Boolean);
  if (word === undefined) continue;
  if (word in kinds) kinds[word](word, rest);
  else if (word === "windows") {
    view.words(at.windows, ROOM).set(rest.map(BigInt));
    lent.windows = rest.length;
  } else if (word === "closed") {
    view.numbers(at.closed, ROOM).set(rest.map(Number));
    lent.closed = rest.length;
  } else {
    fresh();
    out.push([word, ...calls[word](...rest.map(Number))].join(" "));
    count++;
  }
}
process.stdout.write(`${out.join("\n")}\ncalls ${count}\n`);
