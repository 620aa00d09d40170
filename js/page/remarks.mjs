// What a reviewer should look at, in the words of the command inspect.
import { has, members } from "./bits.mjs";
import { isForbidden, isHang } from "./model.mjs";

/** Each remark: a word for programs, a sentence, and the screens that it is about. */
export function remarks(d, answer) {
  const every = Array.from({ length: d.n }, (_, s) => s);
  const forbidden = every.filter((s) => isForbidden(d, s));
  const marked = every.filter((s) => has(d.marked, s));
  const whole = [
    [d.n === 0, "no-states", "the table has no states: an untouched draft"],
    [d.n > 0 && members(d.initial).length === 0, "no-initial",
      "no state is initial, so that the table is safe whatever else is in it"],
    [d.n > 0 && forbidden.length === 0, "nothing-forbidden",
      "nothing is forbidden, so that the table is safe whatever else is in it"],
    [marked.length === 0 && forbidden.length > 0, "nothing-marked",
      "no state is marked as forbidden: only hangs are"],
  ];
  const some = [
    ["forbidden-reached", "forbidden screens that can be reached",
      forbidden.filter((s) => answer.reached.has(s))],
    ["hang", "hangs, which have no way out and do not rest", every.filter((s) => isHang(d, s))],
    // That a forbidden one is not is what is wanted.
    ["not-reached", "screens that no session reaches",
      every.filter((s) => !answer.reached.has(s) && !forbidden.includes(s))],
  ];
  return [
    ...whole.filter(([holds]) => holds).map(([, word, said]) => ({ word, said, states: [] })),
    ...some.map(([word, said, states]) => ({ word, said, states })).filter(({ states }) => states.length > 0),
  ];
}
