// Where each screen of a table stands in its picture: by layers, from the initial screens outward, on a grid.
// No part of a page is needed for it.
//
//   shownOf(view, chosen)              what is drawn: all, or a part where steps are too many
//   arranged(view, chosen, previous, size)
//                                      the places, for a picture of that size. A screen whose layer is as it
//                                      was keeps its place in it

/** Above so many steps a part is drawn. */
export const MANY_STEPS = 2000;
/** So many steps between the path and its neighbours are then drawn at most: more are one black area. */
const MANY_NEIGHBOURS = 400;

export const BOX = { width: 114, height: 48 };
export const GAP = { across: 30, down: 18 };
/** Above the rows of a shelf: the words over its layers. */
export const HEAD = 28;
/** Between the screens that can be reached and those that cannot. */
const APART = 30;
const MARGIN = 8;
const PITCH = { across: BOX.width + GAP.across, down: BOX.height + GAP.down };

/** Drawn at this part of its size a name is legible. */
export const LEGIBLE = 0.77;
/** The size of a picture, where none is said. */
const SIZE = { width: 1140, height: 600 };
/** Into so many shelves at most layers are folded. */
const MANY_SHELVES = 40;
/** Sweeps over the layers, fewer where there are many steps. */
const SWEEPS = { few: 16, many: 6, least: 300 };
/** What a step of the path counts beside another: it is drawn as straight as can be. */
const PATH_WEIGHT = 6;

// ---- What is drawn

function pathPairs(view) {
  const path = view.path ?? [];
  return new Set(path.slice(1).map((to, k) => path[k] * view.n + to));
}

/** Lists taken from in turn, so many in all. */
function inTurn(lists, most) {
  const taken = [];
  for (let k = 0; lists.some((list) => k < list.length); k++) {
    for (const list of lists) if (k < list.length && taken.length < most) taken.push(list[k]);
  }
  return taken;
}

/** The steps that lead from a screen or to it. */
function stepsOf(view, s) {
  const step = (from, to) => ({ from, to, option: view.isOption(from, to) });
  const entering = view.predecessors(s).filter((from) => from !== s);
  return [...view.successors(s).map((to) => step(s, to)), ...entering.map((from) => step(from, s))];
}

/**
 * The screens and steps that are drawn. Of a table with too many steps that is the path and the chosen
 * screen, each with the steps that lead from it or to it; `isCut` where the path's neighbours are not all
 * there.
 */
export function shownOf(view, chosen) {
  if (view.stepCount <= MANY_STEPS) {
    return {
      states: Array.from({ length: view.n }, (_, s) => s), steps: view.steps, isPart: false, isCut: false
    };
  }
  const path = view.path ?? [];
  const steps = new Map();
  const put = (list) => list.forEach((step) => steps.set(step.from * view.n + step.to, step));
  put(path.slice(1).map((to, k) => ({ from: path[k], to, option: view.isOption(path[k], to) })));
  if (chosen !== null) put(stepsOf(view, chosen));
  const lists = path.map((s) => stepsOf(view, s).filter(({ from, to }) => !steps.has(from * view.n + to)));
  put(inTurn(lists, MANY_NEIGHBOURS));
  const states = new Set(path);
  if (chosen !== null) states.add(chosen);
  if (states.size === 0) for (const s of view.initial) states.add(s);
  for (const { from, to } of steps.values()) states.add(from).add(to);
  return {
    states: [...states].sort((a, b) => a - b), steps: [...steps.values()], isPart: true,
    isCut: summed(lists.map((list) => list.length)) > MANY_NEIGHBOURS,
  };
}

// ---- Layers

const NONE = -1;

/** The layer of each screen, by steps from the roots; `NONE` where no root leads to one. Looks no further
 * once none is left. */
function distancesFrom(roots, next, layer, left) {
  let now = roots.filter((s) => layer[s] === NONE);
  for (const s of now) layer[s] = 0;
  let missing = left - now.length;
  for (let depth = 1; now.length > 0 && missing > 0; depth++) {
    const then = [];
    for (const s of now) {
      const to = next(s);
      for (let k = 0; k < to.length; k++) { // a quarter of a million times: "of" takes five times as long
        if (layer[to[k]] !== NONE) continue;
        layer[to[k]] = depth;
        then.push(to[k]);
      }
    }
    missing -= then.length;
    now = then;
  }
  return missing;
}

/**
 * Of each screen whether it stands apart, since it cannot be reached, and its layer: of one that can be, by
 * steps from the initial ones; of one apart, from those that no other one apart leads to, then from the
 * first.
 */
export function layersOf(view) {
  const apart = Array.from({ length: view.n }, (_, s) => !view.reached.has(s));
  const layer = new Int32Array(view.n).fill(NONE);
  const of = (test) => apart.flatMap((_, s) => (test(s) ? [s] : []));
  const toApart = (s) => view.successors(s).filter((t) => apart[t] && t !== s);
  const isEntered = apart.map(() => false);
  for (const s of of((s) => apart[s])) for (const t of toApart(s)) isEntered[t] = true;
  const next = (s) => (apart[s] ? toApart(s) : view.successors(s));
  let left = distancesFrom(of((s) => !apart[s] && view.initial.has(s)), next, layer, view.n);
  left = distancesFrom(of((s) => apart[s] && !isEntered[s]), next, layer, left);
  for (let s = 0; s < view.n && left > 0; s++) left = distancesFrom([s], next, layer, left);
  return { apart, layer };
}

// ---- The order within layers

/** The neighbours of each screen in the layers beside its own, each with its weight. */
function neighbours(view, steps, { apart, layer }) {
  const pairs = pathPairs(view);
  const near = new Map();
  const put = (s, t, weight) => (near.get(s) ?? near.set(s, []).get(s)).push([t, weight]);
  for (const { from, to } of steps) {
    if (apart[from] !== apart[to] || Math.abs(layer[from] - layer[to]) !== 1) continue;
    const weight = pairs.has(from * view.n + to) ? PATH_WEIGHT : 1;
    put(from, to, weight);
    put(to, from, weight);
  }
  return near;
}

/** The weighted mean of what the neighbours have, of those that have it; else what is said. */
function mean(near, s, of, otherwise) {
  let sum = 0;
  let weights = 0;
  for (const [t, weight] of near.get(s) ?? []) {
    const value = of(t);
    if (value === undefined) continue;
    sum += weight * value;
    weights += weight;
  }
  return weights > 0 ? sum / weights : otherwise;
}

/** How often steps between two layers cross: the pairs of them that are in opposite orders. */
function crossings(above, place, near, isBelow) {
  const ends = [];
  for (const s of above) {
    const below = (near.get(s) ?? []).filter(([t]) => isBelow(t)).map(
      ([t, weight]) => [place.get(t), weight]
    );
    ends.push(...below.sort((a, b) => a[0] - b[0]));
  }
  const size = 1 + Math.max(0, ...ends.map(([at]) => at));
  const sums = new Array(size + 1).fill(0);
  let count = 0;
  let all = 0;
  for (const [at, weight] of ends) {
    let upTo = 0;
    for (let k = at + 1; k > 0; k -= k & -k) upTo += sums[k];
    count += weight * (all - upTo);
    for (let k = at + 1; k <= size; k += k & -k) sums[k] += weight;
    all += weight;
  }
  return count;
}

/** Layers, each in the order that lets few steps cross: each screen goes to the middle of its neighbours. */
function ordered(layers, near, layerOf) {
  const sweeps = near.size < SWEEPS.least ? SWEEPS.few : SWEEPS.many;
  let best = layers;
  let fewest = Infinity;
  let now = layers.map((states) => [...states]);
  for (let sweep = 0; sweep < sweeps && fewest > 0; sweep++) {
    const place = new Map();
    const settle = (states) => states.forEach((s, k) => place.set(s, k - (states.length - 1) / 2));
    now.forEach(settle);
    const downward = sweep % 2 === 0;
    for (let k = 1; k < now.length; k++) {
      const at = downward ? k : now.length - 1 - k;
      const beside = downward ? at - 1 : at + 1;
      const key = new Map(
        now[at].map(
          (s) => [s, mean(near, s, (t) => (layerOf[t] === beside ? place.get(t) : undefined), place.get(s))]
        ),
      );
      now[at].sort((a, b) => key.get(a) - key.get(b) || place.get(a) - place.get(b));
      settle(now[at]);
    }
    const index = new Map();
    for (const states of now) states.forEach((s, k) => index.set(s, k));
    let count = 0;
    now.forEach((states, k) => { count += crossings(states, index, near, (t) => layerOf[t] === k + 1); });
    if (count < fewest) [best, fewest] = [now.map((states) => [...states]), count];
  }
  return best;
}

// ---- The grid: how many rows a layer has, and how many columns stand side by side

const folded = (size, rows) => Math.max(1, Math.ceil(size / rows));
const summed = (numbers) => numbers.reduce((sum, number) => sum + number, 0);

/** The first layer of each shelf: layers stand side by side until a shelf is full, and go on below. */
function shelvesOf(columns, most) {
  const firsts = [];
  let used = Infinity;
  columns.forEach((count, k) => {
    if (used + count > most) {
      firsts.push(k);
      used = 0;
    }
    used += count;
  });
  return firsts;
}

/** The rows of each shelf: as many as its highest layer has. */
function rowsIn(sizes, columns, firsts) {
  const high = sizes.map((size, k) => Math.ceil(size / columns[k]));
  return firsts.map((first, k) => Math.max(...high.slice(first, firsts[k + 1])));
}

/** How much larger a picture of layers can be drawn, on so many rows, with so many columns side by side. */
function scaleOf(sizes, columns, wide, size) {
  const firsts = shelvesOf(columns, wide);
  const widest = Math.max(...firsts.map((first, k) => summed(columns.slice(first, firsts[k + 1]))));
  const height = 2 * MARGIN + summed(rowsIn(sizes, columns, firsts).map((rows) => HEAD + rows * PITCH.down));
  const width = 2 * MARGIN + GAP.across + widest * PITCH.across;
  return { scale: Math.min(size.width / width, size.height / height), shelves: firsts.length };
}

const isBetter = (one, other) => {
  const k = one.findIndex((value, i) => value !== other[i]);
  return k !== -1 && one[k] > other[k];
};

/** How many fit into so many pixels, legibly. */
const roomIn = (pixels, pitch) => Math.floor(pixels / LEGIBLE / pitch);

/** On how many rows layers are folded, and the frame, so that all of it is legible, or else as large as can
 * be; then with the fewest shelves, and the fewest layers folded. The frame has room for screens to come. */
function foldingFor(sizes, size) {
  const room = roomIn(size.width - 2 * MARGIN - GAP.across, PITCH.across);
  let best = null;
  for (let rows = Math.max(...sizes); rows > 0; rows--) {
    const columns = sizes.map((one) => folded(one, rows));
    const [all, least] = [summed(columns), Math.max(room, ...columns)];
    for (let wanted = 1, wide = Infinity; wanted <= MANY_SHELVES && wide > least; wanted++) {
      wide = Math.max(Math.ceil(all / wanted), least);
      const { scale, shelves } = scaleOf(sizes, columns, wide, size);
      const score = [Math.min(scale, LEGIBLE), -shelves, -all, scale];
      if (best === null || isBetter(score, best.score)) best = { score, rows, wide, shelves };
    }
  }
  const { rows, wide, shelves } = best;
  const more = shelves > 1 ? 0 : roomIn(size.height - 2 * MARGIN - HEAD, PITCH.down);
  return { rows, frame: { rows: Math.max(rows, more), columns: wide } };
}

/** The sizes that the two blocks have of a picture's, those that can be reached and those apart. */
function sizesFor(size, [reached, apart]) {
  if (reached === 0 || apart === 0) return [size, size];
  const columns = Math.max(1, Math.floor(size.width / LEGIBLE / PITCH.across));
  const wish = APART + HEAD + Math.ceil(apart / columns) * PITCH.down * LEGIBLE;
  const below = Math.min(wish, (size.height * apart) / (reached + apart) + APART);
  return [{ ...size, height: size.height - below }, { ...size, height: below }];
}

/** Places in order that are as near as can be to those wished for, each at least 1 after the one before. */
function spread(wishes, rows) {
  const pools = [];
  wishes.forEach((wish, k) => {
    let pool = { sum: wish - k, size: 1 };
    while (pools.length > 0 && pools.at(-1).sum / pools.at(-1).size > pool.sum / pool.size) {
      const before = pools.pop();
      pool = { sum: before.sum + pool.sum, size: before.size + pool.size };
    }
    pools.push(pool);
  });
  const free = rows - wishes.length;
  const levels = pools.flatMap(({ sum, size }) => new Array(size).fill(sum / size));
  return levels.map((level, k) => Math.min(Math.max(Math.round(level), 0), free) + k);
}

/** A block of layers placed from nothing: the column within its layer and the row of each screen. */
function placedAnew(layers, near, layerOf, size) {
  const sizes = layers.map((states) => states.length);
  const { rows, frame } = foldingFor(sizes, size);
  const columns = sizes.map((one) => folded(one, rows));
  const firsts = shelvesOf(columns, frame.columns);
  const high = rowsIn(sizes, columns, firsts);
  const rowsOf = (layer) => high[firsts.filter((first) => first <= layer).length - 1];
  const order = ordered(layers, near, layerOf);
  const place = new Map();
  const put = (states, at) => states.forEach((s, k) => place.set(s, at[k]));
  order.forEach((states, at) => {
    const wide = columns[at];
    const top = Math.floor((rowsOf(at) - Math.ceil(states.length / wide)) / 2);
    put(states, states.map((_, k) => ({ column: k % wide, row: top + Math.floor(k / wide) })));
  });
  for (let pass = 0; pass < 4; pass++) {
    for (let k = 0; k < order.length; k++) {
      const at = pass % 2 === 0 ? k : order.length - 1 - k;
      const states = order[at];
      if (columns[at] > 1) continue;
      const beside = (t) => (
        pass > 1 || layerOf[t] === at + (pass % 2 === 0 ? -1 : 1) ? place.get(t)?.row : undefined
      );
      const wishes = states.map((s) => mean(near, s, beside, place.get(s).row));
      put(states, spread(wishes, rowsOf(at)).map((row) => ({ column: 0, row })));
    }
  }
  firsts.forEach((first, k) => { // the first row of each shelf has a screen
    const states = order.slice(first, firsts[k + 1]).flat();
    const least = Math.min(...states.map((s) => place.get(s).row));
    for (const s of states) place.get(s).row -= least;
  });
  return { frame, place };
}

/** A block placed as it was: who is new to a layer gets the free place that is nearest to its neighbours. */
function placedAgain(layers, near, frame, kept) {
  const { rows } = frame;
  const place = new Map();
  for (const states of layers) for (const s of states) if (kept.has(s)) place.set(s, kept.get(s));
  for (const states of layers) {
    const taken = new Set();
    const key = ({ column, row }) => `${column} ${row}`;
    let columns = folded(states.length, rows);
    for (const s of states) {
      if (!place.has(s)) continue;
      taken.add(key(place.get(s)));
      columns = Math.max(columns, 1 + place.get(s).column);
    }
    for (const s of states) {
      if (place.has(s)) continue;
      const wish = mean(near, s, (t) => place.get(t)?.row, 0);
      let best = null;
      for (let column = 0; column < columns; column++) {
        for (let row = 0; row < rows; row++) {
          const cost = Math.abs(row - wish) + column;
          const isBetter = best === null || cost < best.cost;
          if (isBetter && !taken.has(key({ column, row }))) best = { column, row, cost };
        }
      }
      const found = { column: best.column, row: best.row };
      taken.add(key(found));
      place.set(s, found);
    }
  }
  return { frame, place };
}

// ---- The same screen in two tables

/** For each screen its number in the table before: the one of its name; else of its number, if that name
 * is gone. */
function formerOf(view, previous) {
  const numbers = new Map();
  previous.names.forEach((name, s) => numbers.set(name, numbers.has(name) ? null : s));
  const names = new Set(view.names);
  return Array.from({ length: view.n }, (_, s) => {
    const same = numbers.get(view.names[s]);
    if (typeof same === "number") return same;
    return s < previous.names.length && (
      view.names[s] === previous.names[s] || !names.has(previous.names[s])
    ) ? s : null;
  });
}

/** The places that screens had and keep, since they are in the same layer. */
function keptFrom(view, shown, layers, previous) {
  const kept = new Map();
  const former = formerOf(view, previous);
  let known = 0;
  for (const s of shown.states) {
    const before = former[s] === null ? undefined : previous.places.get(former[s]);
    if (before === undefined) continue;
    known++;
    if (before.apart !== layers.apart[s] || before.layer !== layers.layer[s]) continue;
    kept.set(s, { column: before.inLayer, row: before.inShelf });
  }
  return 2 * known >= Math.min(shown.states.length, previous.places.size) ? kept : null;
}

// ---- All together

/** The screens of each layer of a block. */
function layersIn(states, { apart, layer }, isApart) {
  const layers = [];
  for (const s of states) {
    if (apart[s] !== isApart) continue;
    while (layers.length <= layer[s]) layers.push([]);
    layers[layer[s]].push(s);
  }
  return layers;
}

const said = (isApart, k) => {
  if (isApart) return "";
  return k === 0 ? "start" : `${k} step${k === 1 ? "" : "s"}`;
};

/** The place of each screen drawn, the bands of the layers, and the size of all. */
export function arranged(view, chosen, previous = null, size = SIZE) {
  const shown = shownOf(view, chosen);
  const layers = layersOf(view);
  const near = neighbours(view, shown.steps, layers);
  const kept = previous === null ? null : keptFrom(view, shown, layers, previous);
  const out = {
    shown, names: view.names, frames: [], places: new Map(), bands: [], apart: null, width: 0, height: 0,
  };
  let top = MARGIN;
  let firstRow = 0;
  const blocks = [false, true].map((isApart) => layersIn(shown.states, layers, isApart));
  const sizes = sizesFor(size, blocks.map((block) => summed(block.map((states) => states.length))));
  for (const isApart of [false, true]) {
    const block = blocks[Number(isApart)];
    const isNew = kept === null || previous.frames[Number(isApart)] === null;
    if (block.length === 0) {
      out.frames.push(null);
      continue;
    }
    const { frame, place } = isNew
      ? placedAnew(block, near, layers.layer, sizes[Number(isApart)])
      : placedAgain(block, near, previous.frames[Number(isApart)], kept);
    out.frames.push(frame);
    if (isApart) {
      out.apart = { y: top + APART / 2 };
      top += APART;
    }
    const columns = block.map((states) => 1 + Math.max(0, ...states.map((s) => place.get(s).column)));
    const firsts = shelvesOf(columns, frame.columns);
    firsts.forEach((first, k) => {
      const here = block.slice(first, firsts[k + 1]);
      const rows = 1 + Math.max(0, ...here.flat().map((s) => place.get(s).row));
      const height = HEAD + rows * PITCH.down;
      let column = 0;
      here.forEach((states, j) => {
        const x = MARGIN + GAP.across + column * PITCH.across;
        const wide = columns[first + j];
        if (!isApart) {
          const width = wide * PITCH.across - 8;
          const words = said(isApart, first + j);
          const end = x + BOX.width;
          out.bands.push({ x: x - GAP.across / 2 + 4, y: top, width, height: height - 6, words, end });
        }
        for (const s of states) {
          const at = place.get(s);
          out.places.set(s, {
            apart: isApart, layer: first + j, inLayer: at.column, inShelf: at.row,
            column: column + at.column, row: firstRow + at.row,
            x: x + at.column * PITCH.across, y: top + HEAD + at.row * PITCH.down,
          });
        }
        column += wide;
        out.width = Math.max(out.width, x + wide * PITCH.across + MARGIN);
      });
      top += height;
      firstRow += rows;
    });
  }
  out.height = top + MARGIN;
  return out;
}
