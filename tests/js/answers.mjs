// Random tables: each answer is the archive's. The cases are read from standard input.
import { readFileSync } from "node:fs";
import { bytes, end, hex, same, shuntberry as s } from "./support.mjs";

/** What a call answers, or the number of its refusal. */
function answered(work) {
  try {
    return work();
  } catch (error) {
    if (error.name !== "Refused") throw error;
    return { refused: error.number };
  }
}
const decision = ({ isSafe, ...answer }) => ({ ...answer, is_safe: isSafe });
const checked = (answer) => ({
  text: answer.text, status: answer.status, is_safe: answer.isSafe, refusal: answer.refusal?.number ?? null,
});
const finite = (distances) => distances.map((steps) => (steps === Infinity ? null : steps));
// The calls whose arguments or answers JSON has in another way.
const calls = {
  decide: (table, allowance) => decision(s.decide(table, allowance)),
  distances: (table) => finite(s.distances(table)),
  write: (table, site) => hex(s.write(table, site)),
  replay: (table, log) => ({ ...s.replay(table, bytes(log)) }),
  decide_modal: (table, possible) => decision(s.decideModal(table, new Map(possible))),
};
const plain = (name) => s[name.replace(/_./g, (found) => found[1].toUpperCase())];

/** The same question by two tables, and by the text of both; null where the rows are of no table. */
function modal(table, possible) {
  const rows = new Map([...table.steps].map(([s, row]) => [s, [...new Set([...row, ...(possible.get(s) ?? [])])]]));
  for (const [s, row] of possible) if (!rows.has(s)) rows.set(s, row);
  const isMore = [...rows].every(([s, row]) => row.length === (possible.get(s) ?? []).length);
  const isInside = [...rows].every(([s, row]) => s < table.n && row.every((t) => t < table.n));
  if (!isMore || !isInside) return null;
  const { initial, marked, resting, groups } = table;
  const more = new s.Table(table.n, { initial, marked, resting, groups, steps: rows });
  const read = s.Table.fromTextWithPossible(table.toText(more));
  same([read.table.equals(table), read.possible.equals(more)], [true, true]);
  return decision(s.decideModal(read.table, read.possible));
}

let count = 0;
const vacuous = new Set();
for (const line of readFileSync(0, "utf8").split("\n").filter(Boolean)) {
  const one = JSON.parse(line);
  count++;
  const sets = { ...one.sets, steps: new Map(one.sets.steps) };
  const table = new s.Table(one.n, sets);
  same(table.steps, new Map(one.sets.steps.filter(([, row]) => row.length > 0)), line);
  same([table.initial, table.marked, table.resting, table.groups], [
    sets.initial, sets.marked, sets.resting, sets.groups,
  ]);
  for (const [name, given, expected] of one.asked) {
    same(answered(() => (calls[name] ?? plain(name))(table, ...given)), expected, `${name}(${given}): ${line}`);
  }
  const reaches = s.distances(table).some((steps) => steps < Infinity);
  const isVacuous = new s.Session(table).reachable.length === 0 || !reaches;
  same(table.isVacuous, isVacuous, line);
  if (isVacuous) same(s.decide(table).verdict, "safe", line);
  vacuous.add(isVacuous);
  same(table.toText(), one.text, line);
  same(s.Table.fromText(one.text).equals(table), true, line);
  same(s.Table.fromStore(table.n, table.g, table.store).equals(table), true, line);
  for (const [, [possible], expected] of one.asked.filter(([name]) => name === "decide_modal")) {
    const answer = answered(() => modal(table, new Map(possible)));
    if (answer !== null) same(answer, expected, line);
  }
  same(hex(s.rewrite(bytes(one.old))), one.rewritten, line);
  for (const [data, site, expected, refused] of one.files) {
    same(checked(s.check(bytes(data), site)), expected, line);
    const read = answered(() => s.read(bytes(data), site));
    same(read instanceof s.Table ? null : read, refused, line);
    if (read instanceof s.Table) same(hex(s.write(read, site)), data, line);
  }
  const session = new s.Session(table);
  for (const [name, from, to, expected] of one.edits) {
    const edit = {
      reachable: () => session.reachable,
      add_step: () => session.addStep(from, to),
      remove_step: () => session.removeStep(from, to),
    };
    same(answered(edit[name]), expected, line);
  }
  same(hex(s.write(session.table)), one.edited, line);
  const [seed, n, fanOut, load] = one.load;
  same(answered(() => hex(s.write(s.generate(seed, n, fanOut)))), load, line);
  const [time, windows, days, minute] = one.open;
  const weekly = windows.map(([start, length]) => ({ start, length }));
  const opened = answered(() => s.nextOpen(time, weekly, days));
  same(opened, minute ?? Infinity, line);
}
same(count, Number(process.argv[2]), "tables");
same(vacuous.size, 2, "no table is vacuous, or all are");
end(`${count} tables as the archive answers`, 30 * count);
