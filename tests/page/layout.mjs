// Where the picture puts screens and steps, on random tables: no box lies on another, no step crosses one,
// layers are distances from the initial screens, a screen keeps its place over edits that are not about it.
import assert from "node:assert/strict";
import { BOX, MANY_STEPS, arranged, shownOf } from "../../js/page/layout.mjs";
import { routesOf } from "../../js/page/routes.mjs";
import { fitted } from "../../js/page/shapes.mjs";

const [SEED, COUNT] = process.argv.slice(2).map(Number);
let facts = 0;
const holds = (fact, ...what) => {
  facts++;
  assert.ok(fact, what.join(" "));
};

let at = SEED;
/** A number below a bound. */
function random(bound) {
  at = (Math.imul(at, 1664525) + 1013904223) >>> 0;
  return Math.floor((at / 2 ** 32) * bound);
}
const some = (n, most) => new Set(Array.from({ length: random(most + 1) }, () => random(n)));

/** Distances from a set of screens, by relaxing every step until nothing changes: not as the layout does
 * it. */
function relaxed(n, roots, steps) {
  const away = Array.from({ length: n }, (_, s) => (roots.has(s) ? 0 : Infinity));
  for (let changed = true; changed;) {
    changed = false;
    for (const { from, to } of steps) {
      if (away[from] + 1 >= away[to]) continue;
      away[to] = away[from] + 1;
      changed = true;
    }
  }
  return away;
}

/** Steps as the page gives them. */
function stepping(n, steps) {
  const rows = Array.from({ length: n }, () => []);
  const columns = Array.from({ length: n }, () => []);
  const options = new Set();
  for (const { from, to, option } of steps) {
    rows[from].push(to);
    columns[to].push(from);
    if (option) options.add(from * n + to);
  }
  return {
    steps, stepCount: steps.length, successors: (s) => rows[s], predecessors: (s) => columns[s],
    isOption: (from, to) => options.has(from * n + to),
  };
}

/** A view as the page makes it, with a walk to some screen as its path. */
function viewOf(n, names, initial, steps) {
  const away = relaxed(n, initial, steps);
  const reached = new Set(away.flatMap((steps, s) => (steps < Infinity ? [s] : [])));
  let path = null;
  if (reached.size > 0 && random(2) === 0) {
    path = [[...reached][random(reached.size)]];
    while (away[path[0]] > 0) path.unshift(
      steps.find(({ from, to }) => to === path[0] && away[from] === away[to] - 1).from
    );
  }
  return {
    n, names, initial, reached, ...stepping(n, steps), path, isAnswered: true,
    chosen: random(3) === 0 && n > 0 ? random(n) : null,
    forbidden: new Set(path?.slice(-1)), hang: new Set(), resting: some(n, 3), groups: [], groupNames: [],
    distance: away,
  };
}

const NAMES = [
  "", "__proto__", "constructor", "<script>", "\u202e", "x".repeat(9999), "toString", "a", "a", "0", "1",
  "\ud800"
];
function randomView(n, most) {
  const steps = [];
  const drawn = new Set();
  for (let k = random(most + 1); k > 0; k--) {
    const [from, to] = [random(n), random(2) ? random(n) : Math.min(n - 1, 0)];
    if (!drawn.has(from * n + to)) steps.push({ from, to, option: random(9) === 0 });
    drawn.add(from * n + to);
  }
  const isOdd = random(4) === 0;
  const names = Array.from({ length: n }, (_, s) => (isOdd ? NAMES[random(NAMES.length)] : `screen-${s}`));
  return viewOf(n, names, some(n, 2), steps);
}

// ---- What must hold of each

function noOverlap(places) {
  const all = [...places.values()].sort((a, b) => a.x - b.x || a.y - b.y);
  for (let k = 0; k < all.length; k++) {
    for (let j = k + 1; j < all.length && all[j].x < all[k].x + BOX.width; j++) {
      if (Math.abs(all[j].y - all[k].y) < BOX.height) return false;
    }
  }
  return true;
}

/** Points of a line that is written as SVG's `d`, with M, L, Q and C. */
function pointsOf(d) {
  const points = [];
  let last = null;
  for (const [, command, rest] of d.matchAll(/([MLQC])([^MLQC]*)/g)) {
    const numbers = rest.trim().split(/[ ,]+/).map(Number);
    assert.ok(numbers.every(Number.isFinite), d);
    const ends = [];
    for (let k = 0; k < numbers.length; k += 2) ends.push([numbers[k], numbers[k + 1]]);
    if (command === "M") points.push(ends[0]);
    else {
      for (let k = 1; k <= 24; k++) {
        let hull = [last, ...ends];
        while (hull.length > 1) {
          hull = hull.slice(1).map(
            ([x, y], j) => [
              hull[j][0] + ((x - hull[j][0]) * k) / 24, hull[j][1] + ((y - hull[j][1]) * k) / 24
            ]
          );
        }
        points.push(hull[0]);
      }
    }
    last = ends.at(-1);
  }
  return points;
}

/** The first step whose line goes through a box; its ends touch the boxes of its own screens. */
function crossing(steps, places) {
  const lines = routesOf(steps, places);
  assert.equal(lines.length, steps.length);
  for (const [k, d] of lines.entries()) {
    const points = pointsOf(d);
    for (const place of places.values()) {
      const inside = ([x, y]) =>
        x > place.x + 1 && x < place.x + BOX.width - 1 && y > place.y + 1 && y < place.y + BOX.height - 1;
      if (points.some(inside)) return steps[k];
    }
    const touches = ([x, y], place) =>
      x >= place.x - 0.1 && x <= place.x + BOX.width + 0.1 && y >= place.y - 0.1 &&
        y <= place.y + BOX.height + 0.1;
    assert.ok(touches(points[0], places.get(steps[k].from)), d);
    assert.ok(touches(points.at(-1), places.get(steps[k].to)), d);
  }
  return null;
}

const inLayer = ({ apart, layer, inLayer, inShelf }) => JSON.stringify([apart, layer, inLayer, inShelf]);

function look(view, layout, what) {
  const { places, shown, width, height } = layout;
  holds(
    places.size === shown.states.length && shown.states.every((s) => places.has(s)), what,
    "each screen has a place"
  );
  holds(noOverlap(places), what, "no box lies on another");
  const all = [...places.values()];
  holds(
    all.every(({ x, y }) => x >= 0 && y >= 0 && x + BOX.width <= width && y + BOX.height <= height), what,
    "within the picture"
  );
  const away = relaxed(view.n, view.initial, view.steps);
  for (const [s, place] of places) {
    holds(place.apart === !view.reached.has(s), what, `${s} is apart only if it cannot be reached`);
    if (!place.apart) holds(place.layer === away[s], what, `${s} is in the layer of its distance`);
  }
  const [lowest, highest] = [true, false].map(
    (apart) => all.filter((place) => place.apart === apart).map(({ y }) => y)
  );
  holds(Math.max(0, ...highest) < Math.min(Infinity, ...lowest), what, "those apart are below");
  const [one] = all.filter(({ apart }) => !apart);
  for (const place of all) {
    if (place.apart || one.apart || place.y !== one.y) continue;
    holds(
      place.layer === one.layer || place.layer > one.layer === place.x > one.x, what,
      "later layers stand to the right"
    );
  }
  const crossed = crossing(shown.steps, places);
  holds(crossed === null, what, "crosses a box:", JSON.stringify(crossed));
  holds(
    JSON.stringify(
      [...arranged(view, view.chosen).places]
    ) === JSON.stringify([...arranged(view, view.chosen).places]), what, "the same again"
  );
}

/** One step drawn or rubbed out: who is in the same layer as before has the same place in it. */
function edited(view, layout, what) {
  const [from, to] = [random(view.n), random(view.n)];
  const there = view.steps.some((step) => step.from === from && step.to === to);
  const steps = there
    ? view.steps.filter((step) => step.from !== from || step.to !== to)
    : [...view.steps, { from, to, option: false }];
  const after = viewOf(view.n, view.names, view.initial, steps);
  const then = arranged(after, after.chosen, layout);
  look(after, then, `${what}, edited`);
  let moved = 0;
  for (const [s, place] of then.places) {
    const before = layout.places.get(s);
    if (before === undefined || before.layer !== place.layer || before.apart !== place.apart) {
      moved++;
      continue;
    }
    holds(inLayer(before) === inLayer(place), what, `${s} keeps its place in its layer`);
  }
  if (moved > 0) return;
  for (const [s, place] of then.places) {
    const before = layout.places.get(s);
    holds(before.x === place.x && before.y === place.y, what, `${s} does not move at all`);
  }
}

/** A screen taken away: the numbers above it go down by one, and each that keeps its layer keeps its
 * place. */
function without(view, layout, what) {
  const gone = random(view.n);
  const next = (s) => (s > gone ? s - 1 : s);
  const of = (states) => new Set([...states].filter((s) => s !== gone).map(next));
  const steps = view.steps.filter(({ from, to }) => from !== gone && to !== gone)
    .map(({ from, to, option }) => ({ from: next(from), to: next(to), option }));
  const after = viewOf(view.n - 1, view.names.filter((_, s) => s !== gone), of(view.initial), steps);
  const then = arranged(after, after.chosen, layout);
  look(after, then, `${what}, one taken away`);
  if (new Set(view.names).size < view.n) return;
  for (const [s, before] of layout.places) {
    const place = s === gone ? undefined : then.places.get(next(s));
    if (place === undefined || place.layer !== before.layer || place.apart !== before.apart) continue;
    holds(inLayer(before) === inLayer(place), what, `${s} keeps its place without ${gone}`);
  }
}

const SIZES = [[1, 2], [2, 4], [5, 9], [9, 14], [25, 60], [25, 25], [40, 200], [130, 260], [300, 0]];
for (let k = 0; k < COUNT; k++) {
  const [n, most] = SIZES[k % SIZES.length];
  const view = randomView(n, most);
  const what = `table ${k} of SEED=${SEED}`;
  let layout = arranged(view, view.chosen);
  look(view, layout, what);
  edited(view, layout, what);
  if (n > 1) without(view, layout, what);
  const renamed = { ...view, names: view.names.map((name, s) => (s === 0 ? "another-name" : name)) };
  if (new Set(view.names).size === n) {
    layout = arranged(renamed, renamed.chosen, layout);
    holds(
      JSON.stringify([...layout.places]) === JSON.stringify([...arranged(view, view.chosen).places]), what,
      "a new name moves nothing"
    );
  }
}

// ---- The largest: 512 screens, in a chain, at random, and dense

const chain = viewOf(512, Array.from({ length: 512 }, (_, s) => `s${s}`), new Set([0]),
  Array.from({ length: 511 }, (_, s) => ({ from: s, to: s + 1, option: false })));
look(chain, arranged(chain, null), "a chain of 512");
const { width, height } = arranged(chain, null);
holds(width / height > 0.8 && width / height < 4, "a chain of 512 is folded:", width, height);
const large = randomView(512, 1500);
look(large, arranged(large, null), "512 screens at random");

const every = [];
for (
  let from = 0; from < 512; from++
) for (let to = 0; to < 512; to++) if (to !== 9 || from === 3) every.push({ from, to, option: false });
const dense = {
  ...viewOf(512, [], new Set([0]), every), names: new Array(512).fill(""), path: [0, 3, 9], chosen: null
};
const has = ({ steps }, { from, to }) => steps.some((step) => step.from === from && step.to === to);
const part = shownOf(dense, null);
holds(part.isPart && part.isCut && part.steps.length <= MANY_STEPS, "dense: a part is drawn, and it is said");
for (const [from, to] of [[0, 3], [3, 9]]) {
  holds(
    part.steps.some((step) => step.from === from && step.to === to), "dense: the path is drawn", from, to
  );
}
holds(
  part.steps.every(({ from, to }) => [0, 3, 9].includes(from) || [0, 3, 9].includes(to)),
  "dense: only the path's neighbours"
);
for (
  const s of [0, 3, 9]
) holds(part.steps.some(({ from, to }) => from === s || to === s), "dense: each has neighbours");
const chosen = shownOf(dense, 100);
holds(
  every.filter(({ from, to }) => from === 100 || to === 100).every((step) => has(chosen, step)),
  "dense: the chosen one's own"
);
const few = shownOf({ ...dense, path: null }, null);
holds(
  few.states.length === 1 && few.steps.length === 0, "dense and safe, nothing chosen: the initial screen"
);
const wide = { ...dense, ...stepping(512, every.filter((_, k) => k % 100 === 0)) };
const beside = wide.steps.filter(({ from, to }) => [0, 3, 9].includes(from) || [0, 3, 9].includes(to));
holds(
  wide.steps.length > MANY_STEPS && !shownOf(wide, null).isCut,
  "of few neighbours it is not said that they are cut"
);
holds(
  beside.length > 20 && beside.every((step) => has(shownOf(wide, null), step)),
  "of few neighbours all are drawn"
);
look(dense, arranged(dense, null), "dense");

// ---- Names on the lines of a box: nothing is lost but what "…" stands for

const PARTS = ["over", "hard", "limit", "occlusion", "m", "alarm", "W", "12", "ü", "漢字", "x".repeat(30)];
for (let k = 0; k < 20 * COUNT; k++) {
  const parts = Array.from({ length: 1 + random(6) }, () => PARTS[random(PARTS.length)]);
  const name = `${random(512)} ${parts.join(["-", "_", ".", " "][random(4)])}`;
  const { size, lines } = fitted(name, random(2) === 0);
  const back = lines.join("").replace(/…$/u, "").replaceAll(" ", "");
  holds(lines.length <= 2 && size >= 11 && size <= 14, "lines of", name, JSON.stringify(lines), size);
  const isCut = lines.at(-1).endsWith("…");
  holds(isCut ? name.replaceAll(" ", "").startsWith(back) : name.replaceAll(" ", "") === back, "lines of", name);
}
holds(fitted("24 over-hard-limit", true).lines.join("") === "24 over-hard-limit", "a name of a screen is whole");
holds(fitted("24 over-hard-limit", true).size >= 13, "in large letters");

assert.ok(facts >= 20 * COUNT, `only ${facts} facts`);
console.log(`page: layout: ${COUNT} tables, ${facts} facts as expected`);
