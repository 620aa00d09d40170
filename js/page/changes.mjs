// What has changed from one draft to another. Screens are the same by their names where both drafts name
// them, else by their numbers.
import { decided, spoken } from "./answer.mjs";
import { has, members } from "./bits.mjs";
import { called, screen, stepKind, successors } from "./model.mjs";

const MARKS = [["initial", "initial"], ["marked", "forbidden"], ["resting", "resting"]];
const WAS = { certain: "certain", option: "an option's" };
const KINDS = { certain: "", option: " (only with an option)" };

/** For each screen of the new draft the same one of the old, or null. */
function matched(old, now) {
  const byName = new Map(old.names.flatMap((name, s) => (name === null ? [] : [[name, s]])));
  const named = now.names.map((name) => byName.get(name) ?? null);
  const taken = new Set(named);
  return named.map((before, s) => {
    if (before !== null || now.names[s] !== null && byName.size > 0 || taken.has(s)) return before;
    return s < old.n ? s : null;
  });
}

const verdictOf = (library, d) => spoken(d, decided(library, d).verdict)[1];

/** Each change: its kind, for programs, and words. */
export function changes(library, old, now) {
  const before = matched(old, now);
  const after = new Map(before.flatMap((s, t) => (s === null ? [] : [[s, t]])));
  const found = [];
  const say = (kind, words) => found.push({ kind, words });
  const [was, is] = [verdictOf(library, old), verdictOf(library, now)];
  const both = was === is ? `the verdict, before and now: ${is}` : `the verdict before: ${was}; now: ${is}`;
  say("verdict", both);
  // a table's file has no names
  const areNamed = [old, now].every((d) => d.names.some((name) => name !== null));
  const gone = old.names.map((_, s) => s).filter((s) => !after.has(s));
  for (const s of gone) say("screen-gone", `screen ${screen(old, s)} is gone`);
  before.forEach((s, t) => { if (s === null) say("screen-new", `screen ${screen(now, t)} is new`); });
  for (const [s, t] of after) {
    if (s !== t) say("renumbered", `${called(now, t)} had the number ${s}, and has ${t}: logs go by number`);
    if (areNamed && old.names[s] !== now.names[t]) {
      say("renamed", `screen ${screen(old, s)} is called ${screen(now, t)}`);
    }
    for (const [key, words] of MARKS) {
      const [was, is] = [has(old[key], s), has(now[key], t)];
      if (was !== is) say(key, `${screen(now, t)} is ${is ? "" : "no longer "}${words}`);
    }
  }
  steps(old, now, before, after, say);
  groups(old, now, after, say);
  return found.length === 1 && was === is ? [] : found;
}

function steps(old, now, before, after, say) {
  const was = (s, t) => (s === null || t === null ? "none" : stepKind(old, s, t));
  for (let from = 0; from < now.n; from++) {
    for (const to of successors(now, from)) {
      const [kind, earlier] = [stepKind(now, from, to), was(before[from], before[to])];
      const words = `${called(now, from)} → ${called(now, to)}${KINDS[kind]}`;
      if (earlier === "none") say("step-new", `the step ${words} is new`);
      else if (earlier !== kind) say("step-kind", `the step ${words} was ${WAS[earlier]}`);
    }
  }
  for (let from = 0; from < old.n; from++) {
    for (const to of successors(old, from)) {
      const [f, t] = [after.get(from), after.get(to)];
      const isThere = f !== undefined && t !== undefined && stepKind(now, f, t) !== "none";
      if (!isThere) say("step-gone", `the step ${called(old, from)} → ${called(old, to)} is gone`);
    }
  }
}

/** The groups as they are listed: one more, one fewer, or with other screens. */
function groups(old, now, after, say) {
  const [was, is] = [old.groups.length, now.groups.length];
  if (was !== is) say("groups", `there were ${was} groups, and there are ${is}`);
  for (let j = 0; j < Math.min(was, is); j++) {
    const [before, behind] = [members(old.groups[j]), members(now.groups[j])];
    const isSame = before.length === behind.length && before.every((s) => behind.includes(after.get(s)));
    if (!isSame) say("group", `group ${j} has other screens`);
  }
}
