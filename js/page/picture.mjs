// The picture of a table: its screens by layers, its steps, its path. Each meaning has a shape or a word
// besides its colour; the colours are those of the record. Every word from outside is the text of a text
// node.
//
//   new Picture(svg, { onChoose(state|null), onStep(from, to), onMove(scale), legend })
//   show(view)       after each change: what is as it was is not touched, and a screen keeps its place
//   choose(state)    one screen with its own steps stands out; null for none
//   find(text)       the screens with it in their name or number stand out: their numbers
//   zoom(factor), fit(), centre(state), tidy()
//   svgText(lines)   all of it as a file that stands alone, under some lines of words
import { BOX, LEGIBLE, arranged } from "./layout.mjs";
import { routesOf } from "./routes.mjs";
import { COLOURS, badge, box, element, legendRows, named, plainly, titleOf } from "./shapes.mjs";

const ZOOM = { least: 0.05, most: 4, step: 1.25 };
/** A pointer that moves less has clicked. */
const CLICK = 5;
/** Below this part of its size the path's words are drawn larger. */
const SMALL = 0.7;
/** So many screens at most get other places where their names would be small; and what that has to bring. */
const FEW = 100;
const WORTH = 1.1;
const PAN = 60;
/** So many steps side by side are drawn faintly. */
const CROWDED = 300;
const MARGIN = 12;
/** So far outside the corner of its screen a place on the path stands. */
const CORNER = 8;
/** Where the name of a screen of the path can stand, above and below its number. */
const LABELS = [-15, 25, -29, 39, -43, 53, -57, 67];
const NOTE = { top: 8, line: 20, rim: 14 };
const LEGEND = { row: 30, column: 330, sample: 60 };

const clamped = (value, least, most) => Math.min(Math.max(value, least), most);

export class Picture {
  #svg;
  #on;
  #legend;
  #view = null;
  #chosen = null;
  #layout = null;
  #parts = {};
  #boxes = new Map();
  #steps = new Map();
  #badges = [];
  #at = { x: 0, y: 0, scale: 1 };
  #isMoved = false;
  #isFitted = false;
  #wanted = "";
  #drag = null;
  #noteHeight = 0;
  /** As the observer says: to ask for it after a change would have the whole page laid out at once. */
  #size = { width: 0, height: 0 };

  constructor(svg, { onChoose, onStep, onMove, legend } = {}) {
    this.#svg = svg;
    this.#on = { choose: onChoose, step: onStep, move: onMove };
    this.#legend = legend ?? null;
    svg.setAttribute("tabindex", "0");
    svg.setAttribute("role", "application");
    svg.setAttribute(
      "aria-label", "Picture of the table. Arrow keys choose a screen, plus and minus zoom, 0 shows all."
    );
    this.#parts.heads = markers();
    this.#parts.world = element("g");
    for (const name of ["bands", "steps", "pathSteps", "boxes", "badges", "drag"]) {
      this.#parts[name] = element("g", {}, this.#parts.world);
    }
    this.#parts.note = element("g", { "pointer-events": "none" });
    svg.addEventListener("wheel", (event) => this.#wheel(event), { passive: false });
    svg.addEventListener("pointerdown", (event) => this.#down(event));
    svg.addEventListener("pointermove", (event) => this.#move(event));
    svg.addEventListener("pointerover", (event) => this.#over(event));
    svg.addEventListener("pointerup", (event) => this.#up(event));
    svg.addEventListener("pointercancel", () => this.#end());
    svg.addEventListener("keydown", (event) => this.#key(event));
    globalThis.addEventListener("beforeprint", () => this.#forPaper());
    globalThis.addEventListener("afterprint", () => svg.removeAttribute("viewBox"));
    this.#size = { width: svg.clientWidth, height: svg.clientHeight };
    new ResizeObserver(
      ([{ contentRect: { width, height } }]) => this.#resized({ width, height })
    ).observe(svg);
  }

  // ---- What is shown

  show(view) {
    const before = this.#layout;
    const isFirst = before === null;
    this.#view = view;
    this.#chosen = view.chosen;
    this.#layout = this.#arranged(before);
    this.#draw();
    const isOther = !isFirst && before.frames.some(
      (frame, k) => frame?.rows !== this.#layout.frames[k]?.rows
    );
    if (isFirst || !this.#isFitted || (!this.#isMoved && (isOther || !this.#isInside()))) this.fit();
  }

  /** Places stay over edits, as long as all is legible so, or would not be much larger with others. */
  #arranged(before) {
    const [view, chosen] = [this.#view, this.#chosen];
    const [width, height] = [this.#size.width - MARGIN, this.#size.height - MARGIN];
    const size = width > 0 && height > 0 ? { width, height } : undefined;
    const kept = arranged(view, chosen, before, size);
    if (before === null || this.#isMoved || view.n > FEW || this.#roomFor(kept) >= LEGIBLE) return kept;
    const anew = arranged(view, chosen, null, size);
    return this.#roomFor(anew) > WORTH * this.#roomFor(kept) ? anew : kept;
  }

  /** All places from nothing. */
  tidy() {
    if (this.#view === null) return;
    this.#layout = this.#arranged(null);
    this.#draw();
    this.fit();
  }

  choose(state) {
    if (this.#view === null || this.#chosen === state) return;
    this.#chosen = state;
    if (this.#layout.shown.isPart) this.#layout = this.#arranged(this.#layout);
    this.#draw();
  }

  find(text) {
    this.#wanted = text.trim().toLowerCase();
    if (this.#view === null) return [];
    this.#draw();
    const found = this.#layout.shown.states.filter((s) => this.#isFound(s) === true);
    if (found.length > 0 && !found.some((s) => this.#isSeen(s))) this.centre(found[0]);
    return found;
  }

  /** Whether a screen is what is searched; null where nothing is. It is asked anew with each draft. */
  #isFound(s) {
    return this.#wanted === "" ? null : named(this.#view, s).toLowerCase().includes(this.#wanted);
  }

  #draw() {
    const { heads, world, note } = this.#parts;
    if (world.parentNode !== this.#svg) this.#svg.replaceChildren(heads, world, note);
    const { shown, places, bands, apart } = this.#layout;
    this.#drawBands(bands, apart);
    this.#drawSteps(shown.steps, routesOf(shown.steps, places));
    this.#drawBoxes(shown.states, places);
    this.#drawBadges(places);
    this.#drawNote(shown);
    if (this.#legend !== null) fillLegend(this.#legend, this.#view, this.#chosen, shown);
    this.#placeWorld();
  }

  #drawBands(bands, apart) {
    const all = bands.map(({ x, y, width, height, words, end }) => {
      const band = element("g");
      element("rect", { x, y, width, height, rx: 6, fill: COLOURS.band }, band);
      const label = element("text", {
        x: end, y: y + 12, "font-size": 12, fill: COLOURS.quiet, "text-anchor": "end",
      }, band);
      label.textContent = words;
      return band;
    });
    if (apart !== null) {
      const band = element("g");
      const { width } = this.#layout;
      element(
        "path", { d: `M8 ${apart.y - 6}H${width - 8}`, stroke: COLOURS.quiet, "stroke-dasharray": "2 5" },
        band
      );
      const label = element("text", { x: 50, y: apart.y + 12, "font-size": 12, fill: COLOURS.quiet }, band);
      label.textContent = this.#view.isAnswered
        ? "not reachable: no steps lead here from a start"
        : "no answer: which screens can be reached is not known";
      all.push(band);
    }
    this.#parts.bands.replaceChildren(...all);
  }

  #drawSteps(steps, lines) {
    const { path } = this.#view;
    const chosen = this.#chosen;
    const onPath = new Set((path ?? []).slice(1).map((to, k) => `${path[k]} ${to}`));
    const isQuiet = onPath.size > 0 || chosen !== null || steps.length > CROWDED;
    const gone = new Set(this.#steps.keys());
    steps.forEach(({ from, to, option }, k) => {
      const key = `${from} ${to}`;
      const isOnPath = onPath.has(key);
      const kind = isOnPath ? "path" : stepKind(from, to, chosen, isQuiet);
      const look = `${kind} ${option}`;
      let drawn = this.#steps.get(key);
      gone.delete(key);
      if (drawn === undefined) {
        drawn = { line: element("path", { fill: "none" }), d: null, look: null };
        drawn.line.dataset.step = key;
        this.#steps.set(key, drawn);
      }
      if (drawn.d !== lines[k]) drawn.line.setAttribute("d", drawn.d = lines[k]);
      if (drawn.look === look) return;
      drawn.look = look;
      const { colour, width, dash, marker } = STEPS[kind];
      attributes(drawn.line, {
        stroke: colour, "stroke-width": width, "marker-end": `url(#picture-${marker})`,
        "stroke-dasharray": option ? "2 4" : dash, opacity: kind === "dim" ? 0.45 : null,
      });
      (isOnPath ? this.#parts.pathSteps : this.#parts.steps).append(drawn.line);
    });
    for (const key of gone) {
      this.#steps.get(key).line.remove();
      this.#steps.delete(key);
    }
  }

  #drawBoxes(states, places) {
    const gone = new Set(this.#boxes.keys());
    const onPath = new Set(this.#view.path ?? []);
    for (const s of states) {
      gone.delete(s);
      const facts = this.#factsOf(s, onPath.has(s));
      const look = JSON.stringify(facts);
      const { x, y } = places.get(s);
      let drawn = this.#boxes.get(s);
      if (drawn === undefined || drawn.look !== look) {
        const made = box(s, facts);
        made.dataset.state = s;
        if (drawn === undefined) this.#parts.boxes.append(made);
        else drawn.made.replaceWith(made);
        drawn = { made, look, facts, place: null };
        this.#boxes.set(s, drawn);
      }
      const place = `translate(${x} ${y})`;
      if (drawn.place !== place) drawn.made.setAttribute("transform", drawn.place = place);
    }
    for (const s of gone) {
      this.#boxes.get(s).made.remove();
      this.#boxes.delete(s);
    }
  }

  /** What is drawn of a screen. */
  #factsOf(s, path) {
    const { initial, forbidden, hang, resting, reached, groupsOf, successors } = this.#view;
    return {
      name: named(this.#view, s), initial: initial.has(s), forbidden: forbidden.has(s), hang: hang.has(s),
      resting: resting.has(s), reached: reached.has(s),
      isDeadEnd: resting.has(s) && successors(s).length === 0, path, chosen: this.#chosen === s,
      found: this.#isFound(s), groups: groupsOf[s],
    };
  }

  /** What is said of a screen when the pointer rests on it. */
  #titleOf(s) {
    const { distance, isAnswered, forbidden } = this.#view;
    const isSaid = isAnswered && forbidden.size > 0; // while none is marked, "never" says nothing
    return titleOf(this.#boxes.get(s).facts, { distance: distance[s], isAnswered, isSaid });
  }

  /** The numbers on the screens of the path; from afar also their names. */
  #drawBadges(places) {
    const wanted = (this.#view.path ?? []).map((s) => ({ name: named(this.#view, s), place: places.get(s) }));
    const isSame = wanted.length === this.#badges.length && wanted.every(
      ({ name }, k) => name === this.#badges[k].name
    );
    this.#badges = wanted.map((one, k) => ({ ...(isSame ? this.#badges[k] : badge(k, one.name)), ...one }));
    if (!isSame) this.#parts.badges.replaceChildren(...this.#badges.map(({ made }) => made));
    this.#placeBadges();
  }

  /** Numbers and names of the path are legible from afar; a name stands where no other one is. */
  #placeBadges() {
    const larger = this.#larger;
    this.#parts.pathSteps.setAttribute("stroke-width", 4 * larger);
    const taken = [];
    for (const { made, label, place, width } of this.#badges) {
      made.setAttribute("transform", `translate(${place.x - CORNER} ${place.y - CORNER}) scale(${larger})`);
      const [x, y] = [place.x / larger, place.y / larger];
      const isFree = (dy) => taken.slice(-40).every(
        (other) => other.x > x + width || other.x + other.width < x || Math.abs(other.y - y - dy) > 13,
      );
      const dy = larger > 1.3 ? LABELS.find(isFree) : undefined;
      label.setAttribute("visibility", dy === undefined ? "hidden" : "visible");
      taken.push({ x: x - 14, y: y + 5, width: 30 });
      if (dy === undefined) continue;
      label.setAttribute("y", dy);
      taken.push({ x, y: y + dy, width });
    }
  }

  get #larger() {
    return clamped(SMALL / this.#at.scale, 1, 8);
  }

  #drawNote({ isPart, isCut, steps }) {
    const lines = noteLines(this.#view, this.#chosen, { isPart, isCut, steps });
    this.#parts.note.replaceChildren(...(lines.length > 0 ? [noteOf(lines)] : []));
    this.#noteHeight = lines.length > 0 ? 2 * NOTE.top + NOTE.rim + NOTE.line * lines.length : 0;
  }

  // ---- Where the eye is

  #placeWorld() {
    const { x, y, scale } = this.#at;
    this.#parts.world.setAttribute("transform", `translate(${x} ${y}) scale(${scale})`);
  }

  #look(at) {
    const isZoom = at.scale !== this.#at.scale;
    this.#at = at;
    this.#placeWorld();
    if (isZoom) this.#placeBadges();
    this.#on.move?.(at.scale);
  }

  #isInside() {
    const { x, y, scale } = this.#at;
    const { width, height } = this.#size;
    return x >= 0 && y >= 0 && x + this.#layout.width * scale <= width &&
      y + this.#layout.height * scale <= height;
  }

  #isSeen(s) {
    const place = this.#layout.places.get(s);
    const { x, y, scale } = this.#at;
    const { width, height } = this.#size;
    const [left, top] = [x + place.x * scale, y + place.y * scale];
    return left >= 0 && top >= 0 && left + BOX.width * scale <= width && top + BOX.height * scale <= height;
  }

  fit() {
    const { width, height } = this.#size;
    this.#isFitted = this.#layout !== null && width > 0 && height > 0;
    if (!this.#isFitted) return;
    this.#isMoved = false;
    const whole = this.#layout;
    const top = this.#noteHeight;
    const scale = clamped(this.#roomFor(whole), ZOOM.least, 1.25);
    this.#look(
      { x: (width - whole.width * scale) / 2, y: top + (height - top - whole.height * scale) / 2, scale }
    );
  }

  /** How much larger a layout can be drawn, so that all of it is seen. */
  #roomFor(whole) {
    const { width, height } = this.#size;
    return Math.min((width - MARGIN) / whole.width, (height - this.#noteHeight - MARGIN) / whole.height);
  }

  centre(state) {
    const place = this.#layout?.places.get(state);
    if (place === undefined) return;
    const { width, height } = this.#size;
    const scale = Math.max(this.#at.scale, 0.8);
    this.#isMoved = true;
    this.#look({
      x: width / 2 - (place.x + BOX.width / 2) * scale, y: height / 2 - (place.y + BOX.height / 2) * scale,
      scale,
    });
  }

  zoom(factor, about = { x: this.#size.width / 2, y: this.#size.height / 2 }) {
    const scale = clamped(this.#at.scale * factor, ZOOM.least, ZOOM.most);
    const part = scale / this.#at.scale;
    this.#isMoved = true;
    this.#look(
      { x: about.x - (about.x - this.#at.x) * part, y: about.y - (about.y - this.#at.y) * part, scale }
    );
  }

  #pan(dx, dy) {
    this.#isMoved = true;
    this.#look({ ...this.#at, x: this.#at.x + dx, y: this.#at.y + dy });
  }

  /** On paper the whole picture fills its place, whatever is looked at on the screen. */
  #forPaper() {
    if (this.#layout === null) return;
    const { x, y, scale } = this.#at;
    const { width, height } = this.#layout;
    this.#svg.setAttribute(
      "viewBox", [x, y - this.#noteHeight, width * scale, height * scale + this.#noteHeight].join(" ")
    );
  }

  /** In a window of another shape layers are folded otherwise, where that helps. */
  #resized(size) {
    this.#size = size;
    if (this.#layout === null || (this.#isFitted && this.#isMoved)) return;
    const kept = this.#layout;
    this.#layout = this.#arranged(kept);
    if (this.#layout !== kept) this.#draw();
    this.fit();
  }

  // ---- The hand

  #pointOf(event) {
    const { left, top } = this.#svg.getBoundingClientRect();
    return { x: event.clientX - left, y: event.clientY - top };
  }

  #worldOf({ x, y }) {
    return { x: (x - this.#at.x) / this.#at.scale, y: (y - this.#at.y) / this.#at.scale };
  }

  /** The screen at a point of the picture. */
  #stateAt(point) {
    const { x, y } = this.#worldOf(point);
    for (const [s, place] of this.#layout?.places ?? []) {
      if (x >= place.x && x <= place.x + BOX.width && y >= place.y && y <= place.y + BOX.height) return s;
    }
    return null;
  }

  #wheel(event) {
    event.preventDefault();
    const notches = clamped(event.deltaY / (event.deltaMode === 0 ? 100 : 3), -3, 3);
    this.zoom(ZOOM.step ** -notches, this.#pointOf(event));
  }

  #down(event) {
    if (event.button !== 0 || this.#drag !== null) return;
    const point = this.#pointOf(event);
    this.#drag = {
      id: event.pointerId, from: this.#stateAt(point), start: point, last: point, isDrag: false,
      hasLeft: false
    };
    this.#svg.setPointerCapture(event.pointerId);
    this.#svg.focus({ preventScroll: true });
    event.preventDefault();
  }

  #move(event) {
    const drag = this.#drag;
    if (drag === null || event.pointerId !== drag.id) return;
    const point = this.#pointOf(event);
    drag.isDrag ||= Math.hypot(point.x - drag.start.x, point.y - drag.start.y) > CLICK;
    if (drag.isDrag && drag.from === null) this.#pan(point.x - drag.last.x, point.y - drag.last.y);
    if (drag.isDrag && drag.from !== null) this.#stretch(point);
    drag.last = point;
  }

  /** It is put to the screen when that is pointed at: 512 titles take their time, and an edit of one screen
   * can alter what is said of each. */
  #over(event) {
    const s = Number(event.target.closest?.("[data-state]")?.dataset.state);
    const made = this.#boxes.get(s)?.made;
    if (made === undefined) return;
    made.querySelector("title")?.remove();
    made.append(this.#titleOf(s));
  }

  /** The line of a step that is being drawn. */
  #stretch(point) {
    const drag = this.#drag;
    const to = this.#stateAt(point);
    drag.hasLeft ||= to !== drag.from;
    const place = this.#layout.places.get(drag.from);
    const end = this.#worldOf(point);
    const line = element("path", {
      d: `M${place.x + BOX.width / 2} ${place.y + BOX.height / 2}L${end.x} ${end.y}`, fill: "none",
      stroke: COLOURS.chosen,
      "stroke-width": 3 / this.#at.scale, "marker-end": "url(#picture-chosen)", "pointer-events": "none",
    });
    const parts = [line];
    const target = to === null || !drag.hasLeft ? undefined : this.#layout.places.get(to);
    if (target !== undefined) {
      parts.push(element("rect", {
        x: target.x - 5, y: target.y - 5, width: BOX.width + 10, height: BOX.height + 10, rx: 9, fill: "none",
        stroke: COLOURS.chosen, "stroke-width": 3,
      }));
    }
    this.#parts.drag.replaceChildren(...parts);
  }

  #up(event) {
    const drag = this.#drag;
    if (drag === null || event.pointerId !== drag.id) return;
    const to = this.#stateAt(this.#pointOf(event));
    this.#end();
    if (!drag.isDrag) this.#chosenByHand(drag.from);
    else if (drag.from !== null && to !== null && drag.hasLeft) this.#on.step?.(drag.from, to);
  }

  #end() {
    this.#drag = null;
    this.#parts.drag.replaceChildren();
  }

  #chosenByHand(state) {
    if (this.#view === null) return;
    this.choose(state);
    this.#on.choose?.(state);
  }

  #key(event) {
    if (event.ctrlKey || event.metaKey || event.altKey) return;
    const [dx, dy] = ARROWS[event.key] ?? [0, 0];
    if (event.key === "Escape" && this.#drag !== null) this.#end();
    else if (event.key === "+" || event.key === "=") this.zoom(ZOOM.step);
    else if (event.key === "-") this.zoom(1 / ZOOM.step);
    else if (event.key === "0") this.fit();
    else if (dx === 0 && dy === 0) return;
    else if (event.shiftKey) this.#pan(-dx * PAN, -dy * PAN);
    else this.#goTo(dx, dy);
    event.preventDefault();
  }

  /** Chooses the nearest screen in a direction; the first one where none is chosen. */
  #goTo(dx, dy) {
    const places = this.#layout?.places;
    if (places === undefined || places.size === 0) return;
    const here = places.get(this.#chosen);
    let best = here === undefined ? { s: places.keys().next().value } : null;
    for (const [s, { x, y }] of here === undefined ? [] : places) {
      const [ahead, aside] = [
        (x - here.x) * dx + (y - here.y) * dy, Math.abs((x - here.x) * dy) + Math.abs((y - here.y) * dx)
      ];
      const cost = ahead + 2 * aside;
      if (ahead > 0 && (best === null || cost < best.cost)) best = { s, cost };
    }
    if (best === null) return;
    this.#chosenByHand(best.s);
    if (!this.#isSeen(best.s)) this.centre(best.s);
  }

  // ---- To keep

  svgText(lines = []) {
    const {
      width, height, shown
    } = this.#layout ?? { width: 300, height: 20, shown: { isPart: false, steps: [] } };
    const words = [
      ...lines.map(plainly), ...(this.#view === null ? [] : noteLines(this.#view, this.#chosen, shown))
    ];
    const top = 24 * words.length;
    const rows = this.#view === null ? [] : legendRows(this.#view, this.#chosen, shown);
    const wide = Math.max(
      width, LEGEND.column + 2 * MARGIN, ...words.map((line) => 2 * MARGIN + 9 * line.length)
    );
    const columns = Math.max(1, Math.floor((wide - 2 * MARGIN) / LEGEND.column));
    const high = top + height + LEGEND.row * Math.ceil(rows.length / columns) + MARGIN;
    const file = element("svg", {
      width: Math.ceil(wide), height: Math.ceil(high), viewBox: `0 0 ${Math.ceil(wide)} ${Math.ceil(high)}`,
      "font-family": FONT,
    });
    file.append(markers());
    element("rect", { width: "100%", height: "100%", fill: "#fff" }, file);
    words.forEach((line, k) => {
      const text = element("text", { x: MARGIN, y: 24 + 24 * k, "font-size": 16 }, file);
      text.textContent = line;
    });
    const world = element("g", { transform: `translate(0 ${top})` }, file);
    for (const name of ["bands", "steps", "pathSteps", "boxes", "badges"]) {
      world.append(this.#parts[name].cloneNode(true));
    }
    for (const copy of world.querySelectorAll("[data-state]")) {
      copy.querySelector("title")?.remove();
      copy.append(this.#titleOf(Number(copy.dataset.state)));
    }
    const copies = [...world.lastElementChild.children];
    this.#badges.forEach(
      ({ place }, k) => copies[k].setAttribute(
        "transform", `translate(${place.x - CORNER} ${place.y - CORNER})`
      )
    );
    for (const label of world.querySelectorAll("[visibility]")) label.remove();
    world.children[2].setAttribute("stroke-width", 4);
    rows.forEach(({ sample, words: means }, k) => {
      const row = element("g", {
        transform: `translate(${MARGIN + LEGEND.column * (k % columns)} ${
          top + height + LEGEND.row * Math.floor(k / columns)})`,
      }, file);
      row.append(sample);
      element("text", { x: LEGEND.sample, y: 16, "font-size": 12 }, row).textContent = means;
    });
    return `<?xml version="1.0" encoding="UTF-8"?>\n${new XMLSerializer().serializeToString(file)}\n`;
  }
}

// ---- Looks of steps, and small parts

const FONT = 'system-ui, "Liberation Sans", Arial, sans-serif';
const ARROWS = { ArrowLeft: [-1, 0], ArrowRight: [1, 0], ArrowUp: [0, -1], ArrowDown: [0, 1] };

const STEPS = {
  plain: { colour: COLOURS.step, width: 1.3, dash: null, marker: "step" },
  dim: { colour: COLOURS.step, width: 1.2, dash: null, marker: "step" },
  leaves: { colour: COLOURS.chosen, width: 2.6, dash: null, marker: "chosen" },
  enters: { colour: COLOURS.chosen, width: 2.2, dash: "8 4", marker: "chosen" },
  path: { colour: COLOURS.path, width: null, dash: null, marker: "path" },
};

/** How a step that is not on the path is drawn. */
function stepKind(from, to, chosen, isQuiet) {
  if (from === chosen) return "leaves";
  if (to === chosen) return "enters";
  return isQuiet ? "dim" : "plain";
}

function attributes(node, given) {
  for (const [name, value] of Object.entries(given)) {
    if (value === null) node.removeAttribute(name);
    else node.setAttribute(name, value);
  }
}

/** The heads of arrows. */
function markers() {
  const defs = element("defs");
  const heads = { step: [COLOURS.step, 8], chosen: [COLOURS.chosen, 5], path: [COLOURS.path, 3.6] };
  for (const [name, [colour, size]] of Object.entries(heads)) {
    const marker = element("marker", {
      id: `picture-${name}`, viewBox: "0 0 10 10", refX: 9, refY: 5, markerWidth: size, markerHeight: size,
      orient: "auto",
    }, defs);
    element("path", { d: "M0 0.8L10 5L0 9.2z", fill: colour }, marker);
  }
  const clip = element("clipPath", { id: "picture-clip" }, defs);
  element("rect", { x: 4, y: 0, width: BOX.width - 8, height: BOX.height }, clip);
  return defs;
}

const counted = (count, what) => `${count.toLocaleString("en")} ${what}${count === 1 ? "" : "s"}`;

/** What is said where a part is drawn. */
function noteLines(view, chosen, { isPart, isCut, steps }) {
  if (view.n === 0) return ["No screens yet."];
  if (!isPart) return [];
  const hasPath = view.path !== null && view.path.length > 0;
  const parts = [
    hasPath ? "the path with its neighbours" : null,
    chosen !== null ? "the chosen screen with its own" : null,
  ].filter((part) => part !== null);
  const what = parts.length > 0 ? parts.join(", ") : "the starts; choose a screen to see its own steps";
  return [
    `${counted(view.stepCount, "step")} are too many to draw. Shown: ${what}.`,
    `Drawn: ${counted(steps.length, "step")}${isCut ? ", not all of these" : ""}. The list has all.`,
  ];
}

function noteOf(lines) {
  const note = element("g");
  const width = 24 + 7.2 * Math.max(...lines.map((line) => line.length));
  const height = NOTE.rim + NOTE.line * lines.length;
  element(
    "rect",
    { x: NOTE.top, y: NOTE.top, width, height, rx: 5, fill: "#fff", stroke: COLOURS.line, opacity: 0.95 },
    note
  );
  lines.forEach((line, k) => {
    element("text", { x: 18, y: 29 + NOTE.line * k, "font-size": 14 }, note).textContent = line;
  });
  return note;
}

/** A row for each meaning that the picture has, as HTML. */
function fillLegend(list, view, chosen, shown) {
  const rows = legendRows(view, chosen, shown);
  const look = JSON.stringify(rows.map(({ key, words }) => [key, words]));
  if (list.dataset.look === look) return;
  list.dataset.look = look;
  list.replaceChildren(...rows.map(({ sample, words }) => {
    const row = document.createElement(list.tagName === "UL" || list.tagName === "OL" ? "li" : "div");
    const drawing = element("svg", { width: 52, height: 26, viewBox: "-2 -2 56 28", "aria-hidden": "true" });
    drawing.append(sample);
    const means = document.createElement("span");
    means.textContent = words;
    row.append(drawing, means);
    return row;
  }));
}
