// How a screen is drawn: a forbidden one has eight corners, one without a way out a broken line, one that
// rests a double line, one of the path a thick line and its number, one that can be reached is shaded.
import { ordinal } from "./dom.mjs";
import { BOX } from "./layout.mjs";

const SVG = "http://www.w3.org/2000/svg";

/** As in the record and in the command's picture: orange and blue are told apart by every eye, and as
 * greys. */
export const COLOURS = {
  lit: "#c6e2f5", forbidden: "#e8833a", forbiddenApart: "#fbe2cf", path: "#a63d00", step: "#404040",
  line: "#111",
  apartLine: "#777", quiet: "#555", band: "#f5f5f5", chosen: "#0b5394", found: "#ffd75e",
};
/** Of groups; each has its number, too. */
const GROUPS = [
  ["#56b4e9", "#111"], ["#007a5a", "#fff"], ["#f0e442", "#111"], ["#cc79a7", "#111"], ["#0b5394", "#fff"],
  ["#999999", "#111"],
  ["#b2df8a", "#111"], ["#6a3d9a", "#fff"],
];
/** So many of its groups are shown at a screen. */
const GROUPS_SHOWN = 6;
/** The width of a line of words in a box, in small letters of the larger size. */
const CHARACTERS = (BOX.width - 14) / 8.3;
/** What bold letters take of it. */
const BOLD = 1.2;
const LETTERS = { most: 14, least: 11.5, kinds: 11 };
/** Where the lines of a box stand, the last one of smaller letters: by how many a name has, and whether words
 * stand below it. */
const LINES = { 1: [29], 2: [21, 37], "1 words": [21, 37], "2 words": [16, 30, 43] };
const LONG = 200;
const LONG_GROUP = 30;
const CUT = 9;

export function element(kind, given = {}, parent = null) {
  const made = document.createElementNS(SVG, kind);
  for (const [name, value] of Object.entries(given)) if (value !== null) made.setAttribute(name, value);
  parent?.append(made);
  return made;
}

// ---- Words from outside

/** Characters that cannot be seen or move others, as the command shows them; no file of XML may have some
 * of them. */
export function plainly(text) {
  return text.replace(
    /[\p{Cc}\p{Cf}\p{Cs}\p{Cn}\p{Co}\p{Zl}\p{Zp}]/gu, (c) => `\\u{${c.codePointAt(0).toString(16)}}`
  );
}

/** About how wide a character is, in small letters. */
function widthOf(c) {
  if (/[ijlt.,:;'|! -]/.test(c)) return 0.6;
  return c.codePointAt(0) >= 0x1100 ? 1.9 : /[mwA-Z0-9@%]/.test(c) ? 1.25 : 1;
}

function cut(text, most) {
  const characters = Array.from(text.slice(0, 4 * most));
  let used = 0;
  for (let k = 0; k < characters.length; k++) {
    used += widthOf(characters[k]);
    if (used > most) return `${characters.slice(0, k).join("").trimEnd()}…`;
  }
  return characters.join("");
}

const wide = (text) => Array.from(text.slice(0, LONG)).reduce((sum, c) => sum + widthOf(c), 0);

/** A name in a box, on one line or two: broken behind a hyphen or the like where it can be, in smaller
 * letters where it is long, and cut where they would be too small. */
export function fitted(name, isBold) {
  const room = isBold ? CHARACTERS - BOLD : CHARACTERS;
  if (wide(name) <= room) return { size: LETTERS.most, lines: [name] };
  const shown = name.slice(0, LONG);
  const breaks = [...shown.matchAll(/[-_. /:](?=.)/gu)].map(({ index }) => index + 1);
  const widest = (at) => Math.max(wide(shown.slice(0, at).trimEnd()), wide(shown.slice(at)));
  const best = breaks.reduce((one, other) => (widest(other) < widest(one) ? other : one), breaks[0] ?? 0);
  const exact = best > 0 ? Math.floor((10 * LETTERS.most * room) / widest(best)) / 10 : 0;
  const size = Math.min(LETTERS.most, Math.max(LETTERS.least, exact));
  const most = (room * LETTERS.most) / size;
  const fits = breaks.filter((at) => wide(shown.slice(0, at).trimEnd()) <= most);
  const at = exact >= size ? best : fits.at(-1) ?? cut(shown, most).replace(/…$/u, "").length;
  const rest = shown.slice(at);
  return { size, lines: [shown.slice(0, at).trimEnd(), ...(rest === "" ? [] : [cut(rest, most)])] };
}

/** A screen by its number and name; one without a name has its number as one. */
export const named = (view, s) => (
  view.names[s] === String(s) ? view.names[s] : `${s} ${plainly(view.names[s])}`
);

// ---- A screen

/** A box, or one with eight corners; drawn inward by a distance. */
function outline(isForbidden, by, width = BOX.width, height = BOX.height) {
  const [l, t, r, b] = [by, by, width - by, height - by];
  if (!isForbidden) {
    const c = 7 - by / 2;
    const round = (x0, y0, x1, y1) => `Q${x0} ${y0} ${x1} ${y1}`;
    return `M${l + c} ${t}H${r - c}${round(r, t, r, t + c)}V${b - c}${round(r, b, r - c, b)}H${l + c}${
      round(l, b, l, b - c)}V${t + c}${round(l, t, l + c, t)}z`;
  }
  const c = Math.min(CUT, height / 3) - by / 3;
  return `M${l + c} ${t}H${r - c}L${r} ${t + c}V${b - c}L${r - c} ${b}H${l + c}L${l} ${b - c}V${t + c}z`;
}

function filling({ forbidden, hang, reached }) {
  if (forbidden || hang) return reached ? COLOURS.forbidden : COLOURS.forbiddenApart;
  return reached ? COLOURS.lit : "#fff";
}

/** The outline of a screen, of any size. */
function shape(facts, into, width = BOX.width, height = BOX.height) {
  const isForbidden = facts.forbidden || facts.hang;
  const colour = facts.path ? COLOURS.path : facts.reached ? COLOURS.line : COLOURS.apartLine;
  const line = { stroke: colour, "stroke-dasharray": facts.hang || facts.isDeadEnd ? "6 3" : null };
  element("path", {
    d: outline(isForbidden, 0, width, height), fill: filling(facts), "stroke-width": facts.path ? 4 : 1.3,
    ...line,
  }, into);
  if (facts.resting) element(
    "path", { d: outline(isForbidden, 3.5, width, height), fill: "none", "stroke-width": 1, ...line }, into
  );
}

/** What a screen is, in words. */
export function kindsOf({ forbidden, hang, resting, isDeadEnd }) {
  const words = [];
  if (forbidden) words.push("forbidden");
  if (hang) words.push("hang");
  if (resting) words.push(isDeadEnd ? "dead end, rests" : "resting");
  return words;
}

function swatch(j, x, y, into) {
  const [fill, ink] = GROUPS[j % GROUPS.length];
  element(
    "rect", { x, y, width: 17, height: 12, rx: 2, fill, stroke: COLOURS.line, "stroke-width": 0.8 }, into
  );
  element(
    "text", { x: x + 8.5, y: y + 9.3, "font-size": 9, "text-anchor": "middle", fill: ink }, into
  ).textContent = j;
}

function swatches(groups, into) {
  const shown = groups.slice(0, GROUPS_SHOWN);
  const rest = groups.length - shown.length;
  const left = BOX.width - 8 - 18 * shown.length - (rest > 0 ? 22 : 0);
  shown.forEach((j, k) => swatch(j, left + 18 * k, BOX.height - 6, into));
  if (rest > 0) {
    element(
      "text", { x: BOX.width - 28, y: BOX.height + 5, "font-size": 10, fill: COLOURS.line }, into
    ).textContent = `+${rest}`;
  }
}

function start(into, y = BOX.height / 2 - 1) {
  element("path", { d: `M-26 ${y}H-8`, stroke: COLOURS.line, "stroke-width": 2.4 }, into);
  element("path", { d: `M-10 ${y - 6}L0 ${y}L-10 ${y + 6}z`, fill: COLOURS.line }, into);
}

/** A screen in words. */
export function titleOf(facts, { distance, isAnswered, isSaid }) {
  const never = isSaid ? ["never leads to a forbidden screen"] : [];
  const away = distance === null ? never : [`steps to the nearest forbidden screen: ${distance}`];
  const title = element("title");
  title.textContent = [
    facts.name.slice(0, LONG), ...kindsOf(facts),
    isAnswered ? (facts.reached ? "reachable" : "not reachable") : "no answer", ...away
  ].join("\n");
  return title;
}

/** A screen, at the origin. */
export function box(s, facts) {
  const made = element(
    "g", { cursor: "pointer", opacity: facts.found === false && !facts.path ? 0.35 : null }
  );
  if (facts.found === true) {
    element(
      "rect",
      {
        x: -8, y: -8, width: BOX.width + 16, height: BOX.height + 16, rx: 10, fill: COLOURS.found,
        stroke: COLOURS.line
      }, made
    );
  }
  if (facts.chosen) {
    element("rect", {
      x: -5, y: -5, width: BOX.width + 10, height: BOX.height + 10, rx: 9, fill: "none",
      stroke: COLOURS.chosen, "stroke-width": 3,
    }, made);
  }
  shape(facts, made);
  const words = kindsOf(facts).join(", ");
  const ink = facts.reached || facts.forbidden || facts.hang ? COLOURS.line : COLOURS.quiet;
  const inside = element("g", { "clip-path": "url(#picture-clip)", fill: ink, direction: "ltr" }, made);
  const { size, lines } = fitted(facts.name, facts.path);
  const places = LINES[`${lines.length}${words === "" ? "" : " words"}`];
  const put = (line, k, given) => {
    element("text", { x: 8, y: places[k], ...given }, inside).textContent = line;
  };
  lines.forEach((line, k) => put(line, k, { "font-size": size, "font-weight": facts.path ? 700 : null }));
  if (words !== "") {
    put(words, lines.length, { "font-size": Math.min(LETTERS.kinds, (11 * 17) / words.length) });
  }
  if (facts.initial) start(made);
  if (facts.groups.length > 0) swatches(facts.groups, made);
  return made;
}

/** So far a place reaches over the left side of its screen. */
const OVER = 20;

/** The place of a screen on the path, and its name for when the picture is small. */
export function badge(k, name) {
  const made = element("g", { "pointer-events": "none", "font-weight": 700, "data-path": k });
  const place = ordinal(k);
  const width = 10 + 8 * place.length;
  element(
    "rect",
    {
      x: OVER - width, y: -11, width, height: 22, rx: 11, fill: COLOURS.path, stroke: "#fff",
      "stroke-width": 2,
    }, made
  );
  element(
    "text", { x: OVER - width / 2, y: 5, "font-size": 14, "text-anchor": "middle", fill: "#fff" }, made
  ).textContent = place;
  const label = element("text", {
    x: -6, "font-size": 12, fill: COLOURS.path, stroke: "#fff", "stroke-width": 4, "paint-order": "stroke",
    "stroke-linejoin": "round",
  }, made);
  label.textContent = cut(name, CHARACTERS);
  return { made, label, width: 8 * label.textContent.length };
}

// ---- The legend

const PLAIN = { forbidden: false, hang: false, resting: false, isDeadEnd: false, path: false, reached: true };

function sampleBox(facts) {
  const made = element("g");
  shape({ ...PLAIN, ...facts }, made, 50, 24);
  return made;
}

function sampleStart() {
  const made = element("g", { transform: "translate(38 0)" });
  start(made, 12);
  return made;
}

function samplePath() {
  const made = sampleBox({ path: true });
  const { made: number, label } = badge(0, "");
  label.remove();
  number.setAttribute("transform", "translate(22 12) scale(0.8)");
  made.append(number);
  return made;
}

function sampleStep(given, head) {
  const made = element("g");
  element("path", { d: "M2 12H48", fill: "none", "marker-end": `url(#picture-${head})`, ...given }, made);
  return made;
}

function sampleGroup(j) {
  const made = element("g");
  swatch(j, 16, 6, made);
  return made;
}

const isForbidden = (view, s) => view.forbidden.has(s) || view.hang.has(s);
/** What is forbidden has its colour by whether it can be reached; so it is in the legend. */
const ofColour = (key, set, words, facts) => [
  [key, `orange, ${words}, can be reached`, (view, s) => view[set].has(s) && view.reached.has(s),
    () => sampleBox(facts)],
  [`${key} apart`, `pale, ${words}, not reachable`,
    (view, s) => view[set].has(s) && view.isAnswered && !view.reached.has(s),
    () => sampleBox({ ...facts, reached: false })],
  [`${key} unknown`, `pale, ${words}`, (view, s) => view[set].has(s) && !view.isAnswered,
    () => sampleBox({ ...facts, reached: false })],
];

const KINDS = [
  ["start", "start: a session can begin here", (view, s) => view.initial.has(s), sampleStart],
  ["lit", "shaded: can be reached", (view, s) => view.reached.has(s) && !isForbidden(view, s),
    () => sampleBox({})],
  ["apart", "white: not reachable",
    (view, s) => view.isAnswered && !view.reached.has(s) && !isForbidden(view, s),
    () => sampleBox({ reached: false })],
  ...ofColour("forbidden", "forbidden", "eight corners: forbidden, marked so", { forbidden: true }),
  ...ofColour("hang", "hang", "broken line: a hang, no way out", { hang: true }),
  ["resting", "double line: a session may end here", (view, s) => view.resting.has(s),
    () => sampleBox({ resting: true })],
  ["dead end", "broken double line: no way out, and rests",
    (view, s) => view.resting.has(s) && view.successors(s).length === 0,
    () => sampleBox({ resting: true, isDeadEnd: true })],
];

/** For each meaning that the picture has a sample and words. */
export function legendRows(view, chosen, shown) {
  const rows = KINDS.filter(([, , is]) => shown.states.some((s) => is(view, s)))
    .map(([key, words, , sample]) => ({ key, words, sample: sample() }));
  if (view.path !== null && view.path.length > 0) {
    rows.push(
      { key: "path", words: "thick line, numbered: the path to a forbidden screen", sample: samplePath() }
    );
  }
  if (shown.steps.some(({ option }) => option)) {
    const sample = sampleStep(
      { stroke: COLOURS.step, "stroke-width": 1.6, "stroke-dasharray": "2 4" }, "step"
    );
    rows.push({ key: "option", words: "dotted: a step only with an option", sample });
  }
  if (chosen !== null) {
    const sample = sampleStep({ stroke: COLOURS.chosen, "stroke-width": 2.6 }, "chosen");
    rows.push({ key: "leaves", words: "a step that leaves the chosen screen", sample });
    const other = sampleStep(
      { stroke: COLOURS.chosen, "stroke-width": 2.2, "stroke-dasharray": "8 4" }, "chosen"
    );
    rows.push({ key: "enters", words: "a step that enters it", sample: other });
  }
  view.groups.forEach((states, j) => {
    const name = cut(plainly(view.groupNames[j]), LONG_GROUP);
    const count = `${states.length} screen${states.length === 1 ? "" : "s"}`;
    rows.push({ key: `group ${j}`, words: `${name}: ${count}`, sample: sampleGroup(j) });
  });
  return rows;
}
