// The chosen screen, edited by hand; and new screens.
import { EMPTY, has, isEmpty, members, put } from "./bits.mjs";
import { $, button, counted, element } from "./dom.mjs";
import {
  NotDone, addGroup, addScreen, called, checkedName, mark, predecessors, removeGroup, removeScreen, rename,
  screen, screenOf, setGroup, setStep, stepKind, successors,
} from "./model.mjs";
import { whyForbidden } from "./verdict.mjs";

const MARKS = { "screen-initial": "initial", "screen-forbidden": "marked", "screen-resting": "resting" };
/** So many steps of a screen have their fields; the others are counted until they are asked for. */
const SHOWN_STEPS = 60;
const SPOKEN = { initial: "initial", marked: "forbidden", resting: "resting" };

export class ScreenEditor {
  #app;
  #listed = null;
  #open = null; // the screen whose steps are all shown
  #shown = null; // the screen in the fields, by number and name

  constructor(app) {
    this.#app = app;
    const on = (id, event, work) => $(id).addEventListener(event, (happened) => {
      happened.preventDefault();
      app.attempt(() => work(app.draft, app.chosen));
    });
    on("screen-add-form", "submit", (d) => this.#add(d));
    on("screen-name", "change", (d, s) => this.#rename(d, s));
    on("screen-remove", "click", (d, s) => this.remove(s));
    on("step-form", "submit", (d, s) => this.#step(d, s));
    on("step-make", "click", (d, s) => this.#make(d, s));
    on("group-new", "click", (d, s) => app.change(addGroup(d, put(EMPTY, s, true)), "new group"));
    $("step-to").addEventListener("input", () => { $("step-make").hidden = true; });
    for (const [id, what] of Object.entries(MARKS)) {
      $(id).addEventListener("change", () => app.attempt(() => {
        const [s, isOn] = [app.chosen, $(id).checked];
        const words = `${called(app.draft, s)} ${isOn ? "is" : "is not"} ${SPOKEN[what]}`;
        app.change(mark(app.draft, what, s, isOn), words);
      }));
    }
  }

  /** Takes a screen away, with all its steps. */
  remove(s) {
    const d = this.#app.draft;
    const words = `remove ${called(d, s)}`;
    const next = removeScreen(d, s);
    this.#app.choose(next.n === 0 ? null : Math.min(s, next.n - 1), false);
    this.#app.change(next, words);
    this.#empty();
  }

  /** What was begun of a step goes: it was of another screen, or is drawn. */
  #empty() {
    $("step-to").value = "";
    $("step-option").checked = false;
    $("step-make").hidden = true;
  }

  #add(d) {
    const names = $("screen-new").value.split(/[,;\n]/).map((name) => name.trim()).filter(Boolean);
    let next = d;
    for (const name of names) next = addScreen(next, checkedName(this.#app.library, next, next.n, name));
    if (names.length === 0) next = addScreen(d);
    $("screen-new").value = "";
    this.#app.choose(next.n - 1, false);
    this.#app.change(next, `add ${names.length === 0 ? `screen ${d.n}` : names.join(", ")}`);
    $("screen-new").focus();
  }

  #rename(d, s) {
    const words = $("screen-name").value.trim();
    const name = words === "" ? null : checkedName(this.#app.library, d, s, words);
    if (name !== d.names[s]) this.#app.change(rename(d, s, name), `rename ${screen(d, s)}`);
  }

  #kind() {
    return $("step-option").checked ? "option" : "certain";
  }

  /** One step, or several at once: the screens with commas between them. */
  #step(d, s) {
    const words = $("step-to").value.split(",").map((word) => word.trim()).filter(Boolean);
    if (words.length === 0) throw new NotDone("no screen stands in the field: write its name or its number");
    const to = words.map((word) => screenOf(d, word));
    const unknown = words.filter((_, k) => to[k] === null);
    if (unknown.length > 0) {
      $("step-make").hidden = words.length > 1;
      throw new NotDone(`no screen is called ${unknown.join(", ")}`);
    }
    const kind = this.#kind();
    if (to.length === 1) this.draw(s, to[0], kind);
    else {
      const next = to.reduce((drawn, t) => setStep(drawn, s, t, kind), d);
      this.#app.change(next, `draw ${called(d, s)} → ${words.join(", ")}`);
    }
    this.#empty();
    $("step-to").focus();
  }

  #make(d, s) {
    const name = checkedName(this.#app.library, d, d.n, $("step-to").value);
    const next = setStep(addScreen(d, name), s, d.n, this.#kind());
    this.#empty();
    this.#app.change(next, `add ${name}, and a step from ${called(d, s)}`);
    $("step-to").focus();
  }

  /** Draws a step, or makes another kind of it, or rubs it out ("none"). */
  draw(from, to, kind) {
    const d = this.#app.draft;
    const words = `${called(d, from)} → ${called(d, to)}`;
    if (stepKind(d, from, to) === kind) throw new NotDone(`that step is there: ${words}`);
    const does = { certain: "draw", option: "only with an option:", none: "rub out" }[kind];
    this.#app.change(setStep(d, from, to, kind), `${does} ${words}`);
    $("step-option").checked = false;
  }

  // ---- what is shown

  show(d, answer, s) {
    this.#names(d);
    $("screen-edit").hidden = s === null;
    $("screen").hidden = d.n === 0;
    $("screen-none").hidden = s !== null;
    const shown = s === null ? null : screen(d, s);
    if (shown !== this.#shown) this.#empty();
    this.#shown = shown;
    if (s === null) return;
    $("screen-head").textContent = `Screen ${s}`;
    $("screen-name").value = d.names[s] ?? "";
    for (const [id, what] of Object.entries(MARKS)) $(id).checked = has(d[what], s);
    $("screen-words").textContent = this.#facts(d, answer, s);
    this.#steps("screen-steps", s, successors(d, s), (to) => this.#stepFrom(d, s, to));
    this.#steps("screen-from", s, predecessors(d, s), (from) => this.#stepTo(d, from, s));
    $("screen-groups").replaceChildren(...d.groups.map((_, j) => this.#group(d, j, s)));
  }

  #steps(id, s, others, item) {
    const shown = this.#open === s ? others : others.slice(0, SHOWN_STEPS);
    const items = shown.map(item);
    const left = others.length - shown.length;
    const more = () => button(`and ${left} more`, () => this.#all(s), { className: "more" });
    if (left > 0) items.push(element("li", {}, more()));
    $(id).replaceChildren(...items);
  }

  #all(s) {
    this.#open = s;
    this.#app.attempt(() => this.show(this.#app.draft, this.#app.answer, s));
  }

  /** The names that a field proposes; written where they changed. */
  #names(d) {
    if (this.#listed === d.names) return;
    this.#listed = d.names;
    const options = d.names.map((name, s) => element("option", { value: name ?? String(s) }));
    $("screen-list").replaceChildren(...options);
  }

  #facts(d, answer, s) {
    const forbidden = has(d.marked, s) || successors(d, s).length === 0 && !has(d.resting, s);
    const words = forbidden ? [whyForbidden(d, s)] : [];
    if (answer !== null) {
      const isApart = isEmpty(d.initial) ? "no screen is initial yet" : "no session comes here";
      words.push(answer.reached.has(s) ? "a session can come here" : isApart);
      const away = answer.distances[s];
      const never = isEmpty(d.marked) ? "no screen is marked forbidden yet"
        : "no forbidden screen can be reached from here";
      const steps = `a forbidden screen is ${counted(away, "step")} away`;
      if (!forbidden) words.push(away === Infinity ? never : steps);
    }
    return words.join("; ");
  }

  #link(d, s) {
    return button(screen(d, s), () => this.#app.choose(s), { className: "link" });
  }

  #stepFrom(d, from, to) {
    const isOption = stepKind(d, from, to) === "option";
    const box = element("input", { type: "checkbox", className: "option", checked: isOption });
    box.addEventListener("change", () =>
      this.#app.attempt(() => this.draw(from, to, box.checked ? "option" : "certain")));
    return element("li", { data: { to } }, this.#link(d, to), " ",
      element("label", { className: "check" }, box, " option"), " ", this.#rubOut(d, from, to));
  }

  #stepTo(d, from, to) {
    const option = stepKind(d, from, to) === "option" ? " (option)" : "";
    return element("li", { data: { from } }, this.#link(d, from), option, " ", this.#rubOut(d, from, to));
  }

  #rubOut(d, from, to) {
    const words = `Rub out the step from ${called(d, from)} to ${called(d, to)}`;
    const work = () => this.#app.attempt(() => this.draw(from, to, "none"));
    return button("Rub out", work, { className: "rub-out", aria: { label: words } });
  }

  #group(d, j, s) {
    const box = element("input", { type: "checkbox", data: { group: j }, checked: has(d.groups[j], s) });
    box.addEventListener("change", () => this.#app.attempt(() => this.#app.change(
      setGroup(this.#app.draft, j, s, box.checked),
      `${called(d, s)} ${box.checked ? "into" : "out of"} group ${j}`)));
    const drop = button("Remove group", () => this.#app.attempt(() =>
      this.#app.change(removeGroup(this.#app.draft, j), `remove group ${j}`)),
    { className: "drop-group", data: { group: j }, aria: { label: `Remove group ${j}` } });
    const size = members(d.groups[j]).length;
    const label = element("label", { className: "check" }, box, ` group ${j} (${counted(size, "screen")})`);
    return element("div", {}, label, " ", drop);
  }
}
