// The line of each step, between the places of two screens. It runs in the gaps of the grid and crosses no
// box: to the next column straight, else along the gap beside its first screen, then along the one beside the
// row of its last. Lines to the same screen run together, and lines to others beside them.
import { BOX, GAP } from "./layout.mjs";

/** Steps to the right leave and enter above the middle of a side, steps to the left below it. */
const PORT = 6;
const CORNER = 7;
/** So many lines have a place of their own side by side in a gap. */
const LANES = 5;
const LANE = { across: 4.5, down: 3 };

const round = (number) => Math.round(number * 10) / 10;
const point = (x, y) => `${round(x)} ${round(y)}`;

/** A line round corners at right angles. */
function cornered(points) {
  let line = `M${point(...points[0])}`;
  for (let k = 1; k < points.length - 1; k++) {
    const [[x0, y0], [x1, y1], [x2, y2]] = [points[k - 1], points[k], points[k + 1]];
    const before = Math.min(CORNER, Math.hypot(x1 - x0, y1 - y0) / 2);
    const after = Math.min(CORNER, Math.hypot(x2 - x1, y2 - y1) / 2);
    const [ux, uy] = [Math.sign(x1 - x0), Math.sign(y1 - y0)];
    const [vx, vy] = [Math.sign(x2 - x1), Math.sign(y2 - y1)];
    const [start, end] = [point(x1 - ux * before, y1 - uy * before), point(x1 + vx * after, y1 + vy * after)];
    line += `L${start}Q${point(x1, y1)} ${end}`;
  }
  return `${line}L${point(...points.at(-1))}`;
}

function curve(x0, y0, x1, y1, pull) {
  return `M${point(x0, y0)}C${point(x0 + pull, y0)} ${point(x1 - pull, y1)} ${point(x1, y1)}`;
}

/** A step of a screen to itself: a loop at its upper right. */
function loop({ x, y }) {
  const right = x + BOX.width;
  const pulls = `${point(right - 26, y - 20)} ${point(right + 18, y - 16)}`;
  return `M${point(right - 26, y)}C${pulls} ${point(right, y + 8)}`;
}

/** Two screens of a column: an arc in the gap to their right. */
function arc(from, to) {
  const x = from.x + BOX.width;
  const bulge = Math.min(GAP.across - 12, 16 + 5 * Math.abs(from.row - to.row));
  const [y0, y1] = [from.y + BOX.height / 2 + PORT, to.y + BOX.height / 2 - PORT];
  return `M${point(x, y0)}C${point(x + bulge, y0)} ${point(x + bulge, y1)} ${point(x, y1)}`;
}

function straight(from, to, way) {
  const [x0, x1] = way > 0 ? [from.x + BOX.width, to.x] : [from.x, to.x + BOX.width];
  const port = BOX.height / 2 - way * PORT;
  return curve(x0, from.y + port, x1, to.y + port, way * GAP.across * 0.6);
}

function far(from, to, way, lane) {
  const port = BOX.height / 2 - way * PORT;
  const side = way > 0 ? BOX.width : 0;
  const shift = lane - (LANES - 1) / 2;
  const gapFrom = from.x + side + (way * GAP.across) / 2 + shift * LANE.across;
  const gapTo = to.x + BOX.width - side - (way * GAP.across) / 2 + shift * LANE.across;
  const along = (way > 0 ? to.y - GAP.down / 2 : to.y + BOX.height + GAP.down / 2) + shift * LANE.down;
  return cornered([
    [from.x + side, from.y + port], [gapFrom, from.y + port], [gapFrom, along], [gapTo, along],
    [gapTo, to.y + port], [to.x + BOX.width - side, to.y + port],
  ]);
}

const wayOf = (from, to) => (to.column > from.column ? 1 : -1);
const isFar = (from, to) => Math.abs(from.column - to.column) > 1;

/** The lane of each screen that lines from afar lead to: its turn among those of its row. */
function lanesOf(steps, places) {
  const entered = new Map();
  for (const { from, to } of steps) {
    const [a, b] = [places.get(from), places.get(to)];
    if (!isFar(a, b)) continue;
    const key = `${b.row} ${wayOf(a, b)}`;
    (entered.get(key) ?? entered.set(key, new Set()).get(key)).add(to);
  }
  const lanes = new Map();
  for (const [key, targets] of entered) {
    const inOrder = [...targets].sort((s, t) => places.get(s).column - places.get(t).column);
    inOrder.forEach((s, k) => lanes.set(`${key} ${s}`, k % LANES));
  }
  return lanes;
}

/** The line of each step, as SVG has it in `d`. */
export function routesOf(steps, places) {
  const lanes = lanesOf(steps, places);
  return steps.map(({ from, to }) => {
    const [a, b] = [places.get(from), places.get(to)];
    if (from === to) return loop(a);
    if (a.column === b.column) return arc(a, b);
    const way = wayOf(a, b);
    return isFar(a, b) ? far(a, b, way, lanes.get(`${b.row} ${way} ${to}`)) : straight(a, b, way);
  });
}
