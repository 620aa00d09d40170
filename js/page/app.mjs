// The page: the draft and its history, and what is shown after each change. The verdict's place is emptied
// before each answer is asked for; whatever goes wrong on the way, it says "no answer".
import { load } from "../shuntberry.mjs";
import { Answers } from "./answer.mjs";
import { Asked } from "./ask.mjs";
import { $, button, counted } from "./dom.mjs";
import * as files from "./files.mjs";
import { List } from "./list.mjs";
import {
  History, NEW_DRAFT, NotDone, called, draftOfText, hasOptions, isSameDraft, optionSteps, screen, storeOf,
  textOf,
} from "./model.mjs";
import { Picture } from "./picture.mjs";
import { ScreenEditor } from "./screen.mjs";
import { TextEditor } from "./text.mjs";
import { VerdictPlace } from "./verdict.mjs";
import { viewOf } from "./view.mjs";

/** Typing that pauses for less than this is one edit, and is undone as one. */
const ONE_EDIT = 1500;
const TYPING = "typing";
const LARGER = 1.25;
const OLD_FORM = "This file is of the old form (versions 1 to 3): shuntberry rewrite, or the button here, " +
  "makes the same table of it, in which its dead ends, and no other screens, are resting.";
const STILL = "What is shown is still the draft from before.";
const WHICH_STEPS = "this draft has steps that are there only with an option: choose beside Save file whether " +
  "the file is to be without any option or with every option";
const GO_ON = "A file holds numbers only, no names and no options: save the text too, which is what you go " +
  "on with.";
/** So many steps of options are named where a file is saved. */
const SHOWN_OPTIONS = 12;
const TABS = ["list", "text", "ask"];

/** A file that was refused, by name, beside a draft that is not of it. */
const notOpened = (name, error) =>
  (error instanceof NotDone ? new NotDone(`${name} was not opened: ${error.message}. ${STILL}`) : error);

class App {
  library;
  chosen = null;
  #history = new History();
  #saved = NEW_DRAFT;
  #answers;
  #answer = null;
  #typedAt = -Infinity;
  #verdict;
  #picture;
  #list;
  #screen;
  #text;
  #asked;

  constructor(library) {
    this.library = library;
    this.#answers = new Answers(library);
    const choose = (s) => this.choose(s);
    this.#verdict = new VerdictPlace(choose);
    this.#screen = new ScreenEditor(this);
    this.#list = new List({ onChoose: choose, onAct: (name, s) => this.#act(name, s) });
    this.#text = new TextEditor(this);
    this.#asked = new Asked(this);
    this.#picture = new Picture($("picture"), {
      onChoose: choose,
      onStep: (from, to) => this.attempt(() => this.#screen.draw(from, to, "certain")),
      onMove: () => {},
      legend: $("legend"),
    });
    this.#wire();
    this.#tab("list");
    this.render();
    this.#offer();
  }

  get draft() {
    return this.#history.draft;
  }

  get answer() {
    return this.#answer;
  }

  /** The text of the draft: the one that was read, with its comments, if it was; else as it is printed. */
  text() {
    return this.#history.text ?? textOf(this.library, this.draft);
  }

  // ---- changes

  /** Does something; what cannot be done is said, and what goes wrong leaves no verdict. */
  attempt(work) {
    try {
      this.#say(null);
      return work();
    } catch (error) {
      this.#failed(error);
      return undefined;
    }
  }

  /** The same of what takes its time, as reading a file does. */
  later(work) {
    this.#say(null);
    work().catch((error) => this.#failed(error));
  }

  #failed(error) {
    if (error instanceof NotDone) {
      this.#say(error.message);
      this.#fields();
      return;
    }
    const why = error?.message ?? error;
    this.#verdict.none(`Something went wrong: ${why}. Save the text, and open the page anew.`);
    this.#answer = null;
  }

  /** An edit by hand. */
  change(next, what) {
    if (this.#text.mistakes !== null) {
      throw new NotDone("the text has mistakes: mend them, or put back the last text without, first");
    }
    const hadComments = this.#history.text?.includes("#") ?? false;
    this.#history.add(next, what);
    this.#typedAt = -Infinity;
    this.#text.changed();
    this.render();
    if (hadComments) this.#say("The text was written anew, without its comments. Undo brings them back.");
  }

  /** What was typed is another text of the draft, or of another one. */
  changeByText(next, text) {
    const isSame = isSameDraft(next, this.draft);
    this.#history.add(isSame ? this.draft : next, TYPING, text, this.#goesOn());
    if (this.chosen !== null && this.chosen >= next.n) this.chosen = null;
    this.render();
  }

  /** What was typed has mistakes, or is not read yet. */
  changeByMistake(text) {
    if (this.#history.wrong !== text) this.#history.addWrong(text, TYPING, this.#goesOn());
    this.render();
  }

  /** Whether what is typed now goes on with the last edit: without a pause, or with a text that is not mended
   * yet. So undo leads from text to text without mistakes. */
  #goesOn() {
    const now = performance.now();
    const isMending = this.#history.wrong !== null && this.#history.undoes === TYPING;
    const goesOn = isMending || now - this.#typedAt < ONE_EDIT;
    this.#typedAt = now;
    return goesOn;
  }

  /** Begins with another draft; nothing of the old one is left but in undo. */
  begin(next, what, { text = null, saved = next, title = $("title").value } = {}) {
    const isLost = this.isUnsaved && this.draft.n > 0;
    this.#history.add(next, what, text, false, { before: $("title").value, after: title });
    $("title").value = title;
    this.#saved = saved;
    this.chosen = null;
    $("save-which").value = "";
    this.#typedAt = -Infinity;
    this.#text.changed();
    this.render();
    this.#picture.fit();
    if (isLost) this.#say("The draft before was not saved: Undo brings it back.");
  }

  undo(isBack) {
    if (this.#move(isBack)) this.#moved();
  }

  /** One thing back or forth in what was done, with the name of the draft where that went with it. */
  #move(isBack) {
    const undone = this.#history.titles;
    if (!(isBack ? this.#history.undo() : this.#history.redo())) return false;
    const title = isBack ? undone?.before : this.#history.titles?.after;
    if (title !== undefined) $("title").value = title;
    return true;
  }

  /** The last text without mistakes again. */
  #putBack() {
    while (this.#history.wrong !== null) this.#move(true);
    this.#moved();
    $("text").focus();
  }

  /** What is shown is another one of what was done. */
  #moved() {
    this.#typedAt = -Infinity;
    this.#text.changed();
    if (this.chosen !== null && this.chosen >= this.draft.n) this.chosen = null;
    this.render();
    if (this.#history.wrong !== null) this.#text.open(this.#history.wrong);
  }

  choose(s, shows = true) {
    this.chosen = s;
    if (!shows) return;
    this.attempt(() => {
      this.#list.choose(s);
      this.#picture.choose(s);
      this.#screen.show(this.draft, this.#answer, s);
    });
  }

  /** The screens whose name or number has the words of the search. */
  #found() {
    const words = $("search").value.trim().toLowerCase();
    const every = this.draft.names.map((_, s) => s);
    return words === "" ? [] : every.filter((s) => screen(this.draft, s).toLowerCase().includes(words));
  }

  #search() {
    this.#picture.find($("search").value);
    this.#countFound();
  }

  #countFound() {
    const found = `${counted(this.#found().length, "screen")} found; Enter goes from one to the next`;
    $("picture-words").textContent = $("search").value.trim() === "" ? "" : found;
  }

  /** Chooses the next screen that was found. */
  #next() {
    const found = this.#found();
    if (found.length === 0) return;
    const next = found.find((s) => s > (this.chosen ?? -1)) ?? found[0];
    this.choose(next);
    this.#picture.centre(next);
  }

  #act(name, s) {
    this.choose(s);
    if (name === "remove") this.attempt(() => this.#screen.remove(s));
    else $("screen-name").focus();
  }

  // ---- what is shown

  /** The answer of the draft, or no answer; then all else. */
  render() {
    this.#answer = null;
    this.#verdict.none("It is being worked out.");
    const mistakes = this.#text.mistakes;
    $("drawing").classList.toggle("stale", mistakes !== null);
    $("list").classList.toggle("stale", mistakes !== null);
    if (mistakes === null) this.#answered();
    else if (mistakes.count === null) this.#verdict.none("The text is not read yet.");
    else this.#verdict.mistakes(mistakes.count);
    this.#fields();
    this.#verdict.shown();
  }

  #answered() {
    const d = this.draft;
    try {
      const answer = this.#answers.of(d);
      this.#verdict.answer(d, answer);
      this.#answer = answer;
    } catch (error) {
      this.#failed(error);
    }
    const view = viewOf(d, this.#answer, this.chosen);
    this.#part("the list", () => this.#list.show(view));
    this.#part("the picture", () => this.#picture.show(view));
  }

  /** A part that cannot be shown is said; what it showed before is of another draft, and goes. */
  #part(what, work) {
    try {
      work();
    } catch (error) {
      if (what === "the picture") $("picture").replaceChildren();
      this.#say(`${what} cannot be shown: ${error?.message ?? error}`);
    }
  }

  #fields() {
    const [undoes, redoes] = [this.#history.undoes, this.#history.redoes];
    for (const [id, what, words] of [["undo", undoes, "Undo"], ["redo", redoes, "Redo"]]) {
      $(id).disabled = what === null;
      $(id).title = what === null ? "" : `${words}: ${what}`;
    }
    const isDrawn = this.#text.mistakes === null;
    $("save-file").disabled = !isDrawn;
    $("save-which").hidden = !hasOptions(this.draft);
    this.#countFound();
    $("more-words").textContent = $("site").value.trim() === "0" ? "More" : `More (site ${$("site").value})`;
    const count = counted(this.draft.n, "screen");
    $("list-words").textContent = `${count}. Arrows go up and down, Enter edits, Delete removes.`;
    this.#part("the text", () => this.#text.show());
    this.#part("what was asked", () => this.#asked.show(isDrawn));
    if (isDrawn) {
      this.#part("the screen", () => this.#screen.show(this.draft, this.#answer, this.chosen));
    }
    this.#keep();
  }

  #say(words, ...actions) {
    $("note").hidden = words === null;
    $("note-words").textContent = words ?? "";
    $("note-actions").replaceChildren(...actions);
  }

  // ---- open and save

  async #openFile(file) {
    try {
      const title = file.name.replace(/\.[^.]*$/, "").slice(0, $("title").maxLength);
      this.#open(await files.bytesOfFile(file), file.name, title);
    } catch (error) {
      throw notOpened(file.name, error);
    }
  }

  #open(bytes, name, title) {
    const found = files.opened(this.library, bytes, files.site());
    if (found.text !== undefined) {
      this.#openText(found.text, { title });
    } else if (found.rewritten !== undefined) {
      const rewrite = () => this.attempt(() => this.begin(found.rewritten, "open", { saved: null, title }));
      this.#say(`${name}: ${OLD_FORM} ${STILL}`, button("Rewrite and open", rewrite));
    } else {
      this.begin(found.draft, "open", { title });
      if (found.isEmpty) this.#say("This file has no bytes, which is a draft without screens.");
    }
  }

  /** A text without mistakes is the draft; one with some stands in its field, beside an empty draft. */
  #openText(text, { isSaved = true, title } = {}) {
    let next = null;
    try {
      next = draftOfText(this.library, text);
    } catch (error) {
      if (!Array.isArray(error.mistakes)) throw error;
    }
    const saved = isSaved ? next : null;
    this.begin(next ?? NEW_DRAFT, "open", { text: next === null ? null : text, saved, title });
    if (next !== null) return;
    this.#history.addWrong(text, "open", true);
    this.#tab("text");
    this.#text.open(text);
    $("text").focus();
  }

  #save(kind) {
    const name = files.fileName();
    if (kind === "text") {
      const text = this.#text.mistakes === null ? this.text() : this.#text.value;
      files.download(`${name}.txt`, "text/plain;charset=utf-8", text);
      if (this.#text.mistakes === null) this.#saved = this.draft;
      else this.#say("The text was saved as it stands, with its mistakes.");
    } else if (kind === "file") {
      this.#saveFile(name);
    } else {
      const [word, beside, words] = ["word", "beside", "words"].map((id) => $(`verdict-${id}`).textContent);
      const verdict = `${word}${beside === "" ? "" : ` (${beside})`}. ${words}`;
      files.download(`${name}.svg`, "image/svg+xml", this.#picture.svgText([$("title").value, verdict]));
    }
  }

  #saveFile(name) {
    if (this.#text.mistakes !== null) throw new NotDone("the text has mistakes, and there is no file of it");
    const d = this.draft;
    const site = files.site();
    const which = hasOptions(d) ? $("save-which").value : "all";
    if (which === "") throw new NotDone(WHICH_STEPS);
    const table = this.library.Table.fromStore(d.n, d.groups.length, storeOf(d, which === "all"));
    const bytes = this.library.write(table, site);
    const isSame = this.library.read(bytes, site).equals(table);
    if (!isSame) throw new Error("what was written is not read as the same table");
    const ending = hasOptions(d) ? (which === "all" ? "-with-options" : "-without-options") : "";
    const forSite = site === 0 ? "" : `-site-${site}`;
    files.download(`${name}${ending}${forSite}.table`, "application/octet-stream", bytes);
    const isWhole = !hasOptions(d) && d.names.every((one) => one === null);
    if (isWhole) this.#saved = d;
    else this.#say(`${this.#optionsIn(d, which)}${GO_ON}`);
  }

  /** What has become of the steps that are there only with an option, in a file that was saved. */
  #optionsIn(d, which) {
    const steps = optionSteps(d).map(([from, to]) => `${called(d, from)} → ${called(d, to)}`);
    if (steps.length === 0) return "";
    const more = steps.length > SHOWN_OPTIONS ? `, and ${steps.length - SHOWN_OPTIONS} more` : "";
    const named = `${steps.slice(0, SHOWN_OPTIONS).join(", ")}${more}`;
    const count = counted(steps.length, "step");
    return which === "all" ? `The file has each option's step as any other, and none was left out: ${named}. `
      : `The file was saved without ${count} that only an option brings, left out: ${named}. `;
  }

  get isUnsaved() {
    return this.#text.mistakes !== null || this.#saved === null || !isSameDraft(this.#saved, this.draft);
  }

  #keep() {
    if (!$("keep").checked) return;
    const text = this.#text.mistakes === null ? this.text() : this.#text.value;
    if (!files.keep(JSON.stringify({ title: $("title").value, text }))) {
      $("keep").checked = false;
      this.#say("This browser keeps nothing for a page from a disk: save the text instead.");
    }
  }

  #offer() {
    const found = files.kept();
    if (found === null) return;
    $("keep").checked = true;
    $("offer-words").textContent = `A draft was kept in this browser: ${found.title || "without a name"}.`;
    $("offer").hidden = false;
    $("offer-take").addEventListener("click", () => this.attempt(() => {
      $("offer").hidden = true;
      this.#openText(found.text, { isSaved: false, title: found.title });
    }));
    $("offer-drop").addEventListener("click", () => {
      $("offer").hidden = true;
      files.forget();
    });
  }

  // ---- wires

  /** What gets the focus does not stand below what sticks at the top. */
  #keepClear() {
    const page = document.documentElement;
    const clear = () => { page.style.scrollPaddingTop = `${$("status").offsetHeight}px`; };
    new ResizeObserver(clear).observe($("status"));
  }

  #wire() {
    this.#keepClear();
    const on = (id, event, work) =>
      $(id).addEventListener(event, (happened) => this.attempt(() => work(happened)));
    on("new", "click", () => this.begin(NEW_DRAFT, "new", { title: $("title").defaultValue }));
    on("open", "click", () => $("open-file").click());
    on("example", "click", () => this.#openText($("example-text").textContent, { title: "example" }));
    on("open-file", "change", () => this.#take([...$("open-file").files]));
    on("undo", "click", () => this.undo(true));
    on("redo", "click", () => this.undo(false));
    on("text-back", "click", () => this.#putBack());
    on("save-text", "click", () => this.#save("text"));
    on("save-file", "click", () => this.#save("file"));
    on("save-svg", "click", () => this.#save("svg"));
    on("print", "click", () => globalThis.print());
    on("note-close", "click", () => {});
    on("keep", "change", () => ($("keep").checked ? this.#keep() : files.forget()));
    on("site", "change", () => { files.site(); this.#fields(); });
    on("title", "change", () => this.#keep());
    on("verdict-mend", "click", () => {
      this.#tab("ask");
      this.#asked.mend();
    });
    on("fit", "click", () => this.#picture.fit());
    on("arrange", "click", () => this.#picture.tidy());
    on("zoom-in", "click", () => this.#picture.zoom(LARGER));
    on("zoom-out", "click", () => this.#picture.zoom(1 / LARGER));
    on("search", "input", () => this.#search());
    on("search", "keydown", (event) => { if (event.key === "Enter") this.#next(); });
    for (const name of TABS) on(`tab-${name}`, "click", () => this.#tab(name));
    on("tabs", "keydown", (event) => this.#tabKey(event));
    document.addEventListener("keydown", (event) => this.#key(event));
    document.addEventListener("paste", (event) => this.#paste(event));
    document.addEventListener("dragover", (event) => event.preventDefault());
    document.addEventListener("drop", (event) => {
      event.preventDefault();
      this.attempt(() => this.#take([...(event.dataTransfer?.files ?? [])]));
    });
    globalThis.addEventListener("beforeunload", (event) => {
      if (this.isUnsaved) event.preventDefault();
    });
    for (const event of ["error", "unhandledrejection"]) {
      globalThis.addEventListener(event, ({ reason, error, message }) =>
        this.#failed(reason ?? error ?? message));
    }
  }

  #take(given) {
    $("open-file").value = "";
    if (given.length === 0) return;
    if (given.length > 1) throw new NotDone("one file at a time: open the first of them by itself");
    this.later(() => this.#openFile(given[0]));
  }

  #paste(event) {
    const target = event.target instanceof Element ? event.target.closest("input, textarea") : null;
    const text = event.clipboardData?.getData("text/plain") ?? "";
    if (target !== null || text === "") return;
    event.preventDefault();
    const name = "what was pasted";
    this.attempt(() => {
      try {
        this.#open(new TextEncoder().encode(text), name);
      } catch (error) {
        throw notOpened(name, error);
      }
    });
  }

  #tab(name) {
    for (const one of TABS) {
      $(`tab-${one}`).setAttribute("aria-selected", String(one === name));
      $(`tab-${one}`).tabIndex = one === name ? 0 : -1;
      $(`panel-${one}`).hidden = one !== name;
    }
    this.#fields();
  }

  #tabKey(event) {
    const at = TABS.findIndex((name) => $(`tab-${name}`) === event.target);
    const to = { ArrowRight: at + 1, ArrowLeft: at - 1, Home: 0, End: TABS.length - 1 }[event.key];
    if (at === -1 || to === undefined) return;
    event.preventDefault();
    const name = TABS.at(to % TABS.length);
    this.#tab(name);
    $(`tab-${name}`).focus();
  }

  #key(event) {
    if (!(event.ctrlKey || event.metaKey) || event.altKey) return;
    const fields = "input:not([type=checkbox]), textarea";
    const isTyping = event.target instanceof Element && event.target.closest(fields) !== null;
    const key = event.key.toLowerCase();
    const work = {
      s: () => this.#save("text"),
      o: () => $("open-file").click(),
      ...(isTyping ? {} : { z: () => this.undo(!event.shiftKey), y: () => this.undo(false) }),
    }[key];
    if (work === undefined) return;
    event.preventDefault();
    this.attempt(work);
  }
}

/** The bytes that stand in the page as text. */
const bytesIn = (id) => Uint8Array.from(atob($(id).textContent), (letter) => letter.charCodeAt(0));

try {
  files.setHints($("refusals").textContent);
  new App(await load(bytesIn("wasm")));
} catch (error) {
  $("verdict").dataset.verdict = "none";
  $("verdict-word").textContent = "no answer";
  $("verdict-words").textContent = `The page could not be started (${error?.message ?? error}). It needs ` +
    "WebAssembly: Chrome 94, Firefox 93, Safari 16.4 or newer.";
}
