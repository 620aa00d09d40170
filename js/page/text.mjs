// The text beside the picture. As long as it has mistakes there is no answer, and nothing is edited by hand.
import { $, button, counted, element } from "./dom.mjs";
import { draftOfText } from "./model.mjs";

/** A text of so many characters is read at once, as it is typed; a longer one when typing pauses. */
const READ_AT_ONCE = 60_000;
const PAUSE = 300;

export class TextEditor {
  #app;
  #isWritten = false; // whether the field has the text of the draft that is shown
  #isWaiting = null;
  #mistakes = null;

  constructor(app) {
    this.#app = app;
    $("text").addEventListener("input", () => this.#typed());
    $("text").addEventListener("scroll", () => this.#follow());
  }

  /** How many mistakes there are, or that it is not read yet; null where all is well. */
  get mistakes() {
    return this.#mistakes;
  }

  get value() {
    return $("text").value;
  }

  #typed() {
    clearTimeout(this.#isWaiting);
    if (this.value.length <= READ_AT_ONCE) {
      this.#read();
      return;
    }
    this.#mistakes = { count: null, first: [] };
    this.#app.changeByMistake(this.value);
    this.#isWaiting = setTimeout(() => this.#read(), PAUSE);
  }

  #read() {
    const text = this.value;
    this.#app.attempt(() => {
      try {
        const next = draftOfText(this.#app.library, text);
        this.#mistakes = null;
        this.#isWritten = true;
        this.#app.changeByText(next, text);
      } catch (error) {
        this.#mistakes = { count: error.count ?? null, first: error.mistakes ?? [] };
        this.#app.changeByMistake(text);
        if (!Array.isArray(error.mistakes)) throw error;
      }
    });
    this.#lines();
  }

  /** A text with mistakes that was opened, or done again: it stands in the field, and the draft before it in
   * the picture. */
  open(text) {
    $("text").value = text;
    this.#read();
  }

  /** The draft that is shown is another one. */
  changed() {
    this.#isWritten = false;
    this.#mistakes = null;
    clearTimeout(this.#isWaiting);
  }

  /** Writes the text of the draft, where it is looked at. */
  show() {
    if (this.#mistakes === null && !this.#isWritten && !$("panel-text").hidden) {
      const text = this.#app.text();
      if ($("text").value !== text) $("text").value = text;
      this.#isWritten = true;
    }
    if (!$("panel-text").hidden) this.#lines();
  }

  #lines() {
    const first = this.#mistakes?.first ?? [];
    const count = $("text").value.split("\n").length;
    const wrong = new Set(first.map(({ line }) => line));
    const number = (line) => element("div", { className: wrong.has(line) ? "wrong" : "" },
      wrong.has(line) ? `✕ ${line}` : String(line));
    $("text-lines").replaceChildren(...Array.from({ length: count }, (_, k) => number(k + 1)));
    this.#follow();
    const link = (line) => button(`line ${line}`, () => this.#goTo(line), { className: "link" });
    const items = first.map(({ line, reason }) =>
      element("li", { data: { line } }, link(line), `: ${reason}`));
    const others = (this.#mistakes?.count ?? 0) - first.length;
    if (others > 0) items.push(element("li", {}, `and ${counted(others, "more mistake")}`));
    $("text-mistakes").replaceChildren(...items);
    $("text").setAttribute("aria-invalid", String(this.#mistakes !== null));
    $("text-back").hidden = this.#mistakes === null;
    $("text-words").textContent = this.#mistakes === null
      ? "Each line says one fact. Edit it here, or by hand: both are the same table."
      : "Until the mistakes are mended there is no answer, and nothing can be edited by hand.";
  }

  /** The numbers go with their lines, also above the bar that wide lines have. */
  #follow() {
    const [text, lines] = [$("text"), $("text-lines")];
    lines.style.marginBottom = `${text.offsetHeight - text.clientHeight}px`;
    lines.scrollTop = text.scrollTop;
  }

  #goTo(line) {
    const lines = $("text").value.split("\n");
    const start = lines.slice(0, line - 1).reduce((sum, one) => sum + one.length + 1, 0);
    $("text").focus();
    $("text").setSelectionRange(start, start + (lines[line - 1]?.length ?? 0));
  }
}
