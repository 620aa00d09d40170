// The list of all screens: the facts of the picture in words. Sorted by each column, used by keyboard.
import { $, button, element, ordinal } from "./dom.mjs";

/** So many steps stand in a row; the others are counted until they are asked for. */
const SHOWN_STEPS = 12;
const NEVER = Number.MAX_SAFE_INTEGER;

const kinds = (view, s) => [
  ...(view.initial.has(s) ? ["initial"] : []),
  ...(view.forbidden.has(s) ? ["forbidden"] : []),
  ...(view.hang.has(s) ? ["hang"] : []),
  ...(view.resting.has(s) ? ["resting"] : []),
];

/** Each column: its words, and what it is sorted by. How far away a screen is counts the steps to the nearest
 * forbidden one. */
const COLUMNS = [
  ["number", "No.", (view, s) => s],
  ["name", "Name", (view, s) => view.names[s]],
  ["is", "What it is", (view, s) => kinds(view, s).join(" ") || "~"],
  ["reached", "Reached", (view, s) => (view.reached.has(s) ? 0 : 1)],
  ["distance", "Away", (view, s) => view.distance[s] ?? NEVER],
  ["groups", "Groups", (view, s) => view.groupsOf[s].join(" ") || "~"],
  ["steps", "Steps to", (view, s) => view.successors(s).length],
];

const TITLES = {
  distance: "Steps to the nearest forbidden screen", reached: "Whether a session can come there",
};

/** An attribute, where it is another one: to set the same again has its styles worked out anew. */
const set = (node, name, value) => {
  if (node.getAttribute(name) !== value) node.setAttribute(name, value);
};

const compare = (a, b) =>
  typeof a === "number" ? a - b : a.localeCompare(b, "en", { numeric: true, sensitivity: "base" });

export class List {
  #onChoose;
  #onAct;
  #view = null;
  #rows = [];
  #written = []; // the words of each row's cells
  #order = [];
  #by = "number";
  #isDown = false;
  #open = new Set();
  #chosen = null;

  /** `onAct(name, state)` is told of Enter ("edit") and Delete ("remove") on a row. */
  constructor({ onChoose, onAct }) {
    this.#onChoose = onChoose;
    this.#onAct = onAct;
    const heads = COLUMNS.map(([key, words]) =>
      element("th", { scope: "col", role: "columnheader", data: { sort: key } },
        button(words, () => this.sort(key), { title: TITLES[key] ?? "" })));
    $("list").tHead.rows[0].replaceChildren(...heads);
    $("list").tBodies[0].addEventListener("keydown", (event) => this.#key(event));
    this.#heads();
  }

  show(view) {
    this.#view = view;
    const body = $("list").tBodies[0];
    $("list").classList.toggle("no-groups", view.groups.length === 0);
    while (this.#rows.length > view.n) this.#rows.pop().remove();
    while (this.#rows.length < view.n) this.#rows.push(this.#row(this.#rows.length));
    this.#written.length = view.n;
    const named = new Map((view.path ?? []).map((s, k) => [s, k]));
    for (let s = 0; s < view.n; s++) this.#fill(s, named.get(s));
    this.#sorted(body);
    this.choose(view.chosen);
  }

  choose(chosen) {
    const first = this.#order[0];
    this.#rows.forEach((row, s) => {
      set(row, "aria-selected", String(s === chosen));
      set(row, "tabindex", s === (chosen ?? first) ? "0" : "-1");
    });
    // To scroll has the whole page laid out at once, so it is done where there is something to go to.
    const isOther = chosen !== this.#chosen;
    this.#chosen = chosen;
    if (!isOther || chosen === null || $("panel-list").hidden) return;
    this.#rows[chosen]?.scrollIntoView({ block: "nearest" });
  }

  sort(key) {
    this.#isDown = this.#by === key && !this.#isDown;
    this.#by = key;
    this.#heads();
    this.#sorted($("list").tBodies[0]);
  }

  #heads() {
    for (const head of $("list").tHead.rows[0].cells) {
      const isBy = head.dataset.sort === this.#by;
      head.setAttribute("aria-sort", isBy ? (this.#isDown ? "descending" : "ascending") : "none");
    }
  }

  #sorted(body) {
    if (this.#view === null) return;
    const value = COLUMNS.find(([key]) => key === this.#by)[2];
    const values = this.#rows.map((_, s) => value(this.#view, s));
    const order = this.#rows.map((_, s) => s);
    order.sort((a, b) => (this.#isDown ? -1 : 1) * compare(values[a], values[b]) || a - b);
    const isSame = order.length === this.#order.length && order.every((s, k) => s === this.#order[k]);
    this.#order = order;
    if (isSame && body.rows.length === order.length) return;
    body.replaceChildren(...order.map((s) => this.#rows[s]));
  }

  #row(s) {
    const cells = COLUMNS.map(([key]) => (key === "number"
      ? element("th", { className: key, scope: "row", role: "rowheader" })
      : element("td", { className: key, role: "cell" })));
    const row = element("tr", { role: "row", data: { state: s }, tabIndex: -1 }, ...cells);
    row.addEventListener("click", (event) => {
      if (event.target.closest("button") === null) this.#onChoose(s);
    });
    return row;
  }

  /** Writes the cells of a row that say something else than before: each has the table laid out anew. */
  #fill(s, place) {
    const view = this.#view;
    const to = view.successors(s);
    const isReached = view.reached.has(s);
    const distance = view.distance[s];
    const words = [
      String(s),
      view.names[s] === String(s) ? "" : view.names[s],
      [...kinds(view, s), ...(place === undefined ? [] : [`${ordinal(place)} on the path`])].join(", "),
      view.isAnswered ? (isReached ? "● yes" : "○ no") : "not known",
      view.isAnswered ? String(distance ?? "never") : "not known",
      view.groupsOf[s].join(", "),
    ];
    const row = this.#rows[s];
    const written = this.#written[s] ?? [];
    words.forEach((said, k) => { if (said !== written[k]) row.cells[k].textContent = said; });
    this.#written[s] = [...words, this.#fillSteps(s, to, written[words.length])];
    set(row, "data-reached", isReached ? "yes" : "no");
    set(row, "data-distance", distance === null ? "" : String(distance));
    row.classList.toggle("forbidden", view.forbidden.has(s) || view.hang.has(s));
    row.classList.toggle("on-path", place !== undefined);
  }

  /** The last cell: some steps, and how many more there are. What stands there now, in one line. */
  #fillSteps(s, to, written) {
    const { names, isOption } = this.#view;
    const shown = this.#open.has(s) ? to : to.slice(0, SHOWN_STEPS);
    const words = shown.map((t) => names[t] + (isOption(s, t) ? " (option)" : "")).join(", ");
    const left = to.length - shown.length;
    const line = `${left} ${words}`;
    if (line === written) return line;
    const more = () => button(`and ${left} more`, () => this.#more(s), { className: "more" });
    this.#rows[s].lastElementChild.replaceChildren(words, ...(left > 0 ? [" ", more()] : []));
    return line;
  }

  #more(s) {
    this.#open.add(s);
    this.show(this.#view);
    this.#rows[s].focus();
  }

  #key(event) {
    const row = event.target.closest("tr");
    if (row === null || event.target !== row) return;
    const at = this.#order.indexOf(Number(row.dataset.state));
    const last = this.#order.length - 1;
    const PAGE = 10;
    const moves = {
      ArrowDown: at + 1, ArrowUp: at - 1, Home: 0, End: last, PageDown: at + PAGE, PageUp: at - PAGE,
    };
    if (event.key in moves) {
      const s = this.#order[Math.min(Math.max(moves[event.key], 0), last)];
      this.#onChoose(s);
      this.#rows[s].focus();
    } else if (event.key === "Enter" || event.key === " ") {
      this.#onAct("edit", this.#order[at]);
    } else if (event.key === "Delete") {
      this.#onAct("remove", this.#order[at]);
    } else return;
    event.preventDefault();
  }
}
