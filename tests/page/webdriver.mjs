// A browser by WebDriver (https://www.w3.org/TR/webdriver2/), spoken to chromedriver on a loopback port.
import { spawn } from "node:child_process";
import { writeFileSync } from "node:fs";
import { createInterface } from "node:readline";

/** How an element is written in WebDriver's JSON. */
const ELEMENT = "element-6066-11e4-a52e-4f735466cecf";
/** Keys that are no characters, as WebDriver numbers them. */
export const KEYS = {
  Backspace: "\uE003", Tab: "\uE004", Enter: "\uE007", Shift: "\uE008", Control: "\uE009", Alt: "\uE00A",
  Escape: "\uE00C",
  Space: "\uE00D", End: "\uE010", Home: "\uE011", Left: "\uE012", Up: "\uE013", Right: "\uE014",
  Down: "\uE015", Delete: "\uE017",
};
const ARGUMENTS = [
  "--headless=new", "--no-sandbox", "--disable-gpu", "--disable-dev-shm-usage", "--no-first-run",
  "--force-device-scale-factor=1",
  "--disable-background-networking", "--disable-component-update", "--disable-sync", "--disable-default-apps",
];
const STARTING = 30_000;
const POLL = 15;

/** The port that a program says it listens on. */
function portOf(program, pattern) {
  return new Promise((resolve, reject) => {
    const late = setTimeout(() => reject(new Error("the driver did not start")), STARTING);
    createInterface({ input: program.stdout }).on("line", (line) => {
      const found = pattern.exec(line);
      if (found === null) return;
      clearTimeout(late);
      resolve(Number(found[1]));
    });
    program.on("error", reject);
    program.on("exit", (status) => reject(new Error(`the driver ended with ${status}`)));
  });
}

export class Browser {
  #driver;
  #base;
  #session = "";

  /** A browser with no window of its own; its downloads go to a folder, its profile to another. */
  static async start({ downloads, profile, width = 1280, height = 860 }) {
    const browser = new Browser();
    browser.#driver = spawn("chromedriver", ["--port=0"], { stdio: ["ignore", "pipe", "ignore"] });
    browser.#base = `http://127.0.0.1:${await portOf(browser.#driver, /successfully on port (\d+)/)}`;
    const options = {
      args: [...ARGUMENTS, `--window-size=${width},${height}`, `--user-data-dir=${profile}`],
      prefs: { "download.default_directory": downloads, "download.prompt_for_download": false },
    };
    try {
      const made = await browser.#ask("POST", "/session", {
        capabilities: {
          alwaysMatch: {
            browserName: "chrome", unhandledPromptBehavior: "ignore", "goog:chromeOptions": options,
            "goog:loggingPrefs": { performance: "ALL", browser: "ALL" },
          },
        },
      });
      browser.#session = `/session/${made.sessionId}`;
    } catch (error) {
      browser.#driver.kill();
      throw error;
    }
    return browser;
  }

  async #ask(method, path, body) {
    const answer = await fetch(this.#base + this.#session + path, {
      method, body: method === "POST" ? JSON.stringify(body ?? {}) : undefined,
    });
    const { value } = await answer.json();
    if (answer.ok) return value;
    const error = new Error(`${path}: ${value.error}: ${value.message.split("\n")[0]}`);
    error.kind = value.error;
    throw error;
  }

  async end() {
    try {
      await this.#ask("DELETE", "");
    } finally {
      this.#driver.kill();
    }
  }

  // ---- Pages

  open = (url) => this.#ask("POST", "/url", { url });
  title = () => this.#ask("GET", "/title");
  size = (width, height) => this.#ask("POST", "/window/rect", { x: 0, y: 0, width, height });
  /** The browser's own words: of what goes over the network, or of what a page did wrong. */
  log = (type) => this.#ask("POST", "/se/log", { type });

  /** What a function gives back in the page; what it is given is JSON. */
  run = (work, ...given) =>
    this.#ask("POST", "/execute/sync", { script: `return (${work}).apply(null, arguments)`, args: given });

  /** A command of the browser's own protocol. */
  own = (cmd, params = {}) => this.#ask("POST", "/goog/cdp/execute", { cmd, params });

  /** The processor time that a page's scripts, styles and layouts took so far, in milliseconds: as other
   * programs' work does not count in it, it can be held to a bar. */
  async worked() {
    await this.own("Performance.enable", { timeDomain: "threadTicks" });
    const { metrics } = await this.own("Performance.getMetrics");
    const parts = ["ScriptDuration", "LayoutDuration", "RecalcStyleDuration"];
    return metrics.reduce((sum, { name, value }) => sum + (parts.includes(name) ? 1000 * value : 0), 0);
  }

  /** The page as it is printed: the bytes of a PDF. */
  print = async () => Buffer.from(await this.#ask("POST", "/print", {}), "base64");

  async screenshot(file) {
    writeFileSync(file, Buffer.from(await this.#ask("GET", "/screenshot"), "base64"));
  }

  /** Until a function gives something true in the page: that. */
  async until(work, what, ...given) {
    const end = Date.now() + 10_000;
    for (;;) {
      const found = await this.run(work, ...given);
      if (found) return found;
      if (Date.now() > end) throw new Error(`it was waited for in vain: ${what}`);
      await new Promise((resolve) => setTimeout(resolve, POLL));
    }
  }

  // ---- A person's hand

  async find(selector) {
    return (await this.#ask("POST", "/element", { using: "css selector", value: selector }))[ELEMENT];
  }

  /** A click where a person would, who scrolls there first: it fails on what is hidden or lies below
   * something else. */
  async click(selector) {
    await this.run((sought) => document.querySelector(sought)?.scrollIntoView({ block: "center" }), selector);
    await this.#ask("POST", `/element/${await this.find(selector)}/click`);
  }
  text = async (selector) => this.#ask("GET", `/element/${await this.find(selector)}/text`);
  clear = async (selector) => this.#ask("POST", `/element/${await this.find(selector)}/clear`);
  /** Words into a field, or a path into a field for files. */
  type = async (selector, text) => this.#ask("POST", `/element/${await this.find(selector)}/value`, { text });

  /** Keys, one after the other, to whatever has the focus; a list is pressed together. */
  async keys(...pressed) {
    const actions = [];
    for (const key of pressed) {
      const together = Array.isArray(key) ? key : [key];
      for (const one of together) actions.push({ type: "keyDown", value: KEYS[one] ?? one });
      for (const one of [...together].reverse()) actions.push({ type: "keyUp", value: KEYS[one] ?? one });
    }
    await this.#actions([{ type: "key", id: "keys", actions }]);
  }

  write = (text) => this.keys(...Array.from(text));

  /** The mouse from point to point of the window, its button down in between. */
  async drag(from, ...to) {
    const move = (
      { x, y }, duration = 0
    ) => ({ type: "pointerMove", origin: "viewport", x: Math.round(x), y: Math.round(y), duration });
    await this.#actions([{
      type: "pointer", id: "mouse", parameters: { pointerType: "mouse" },
      actions: [
        move(from), { type: "pointerDown", button: 0 }, ...to.map((point) => move(point, 60)),
        { type: "pointerUp", button: 0 },
      ],
    }]);
  }

  clickAt = (point) => this.drag(point);

  async wheel({ x, y }, deltaY) {
    await this.#actions([{
      type: "wheel", id: "wheel",
      actions: [
        { type: "scroll", origin: "viewport", x: Math.round(x), y: Math.round(y), deltaX: 0, deltaY }
      ],
    }]);
  }

  async #actions(sources) {
    await this.#ask("POST", "/actions", { actions: sources });
    await this.#ask("DELETE", "/actions");
  }

  // ---- What the browser asks

  /** The words of a question of the browser's own, or null where there is none. */
  async question() {
    try {
      return await this.#ask("GET", "/alert/text");
    } catch (error) {
      if (error.kind === "no such alert") return null;
      throw error;
    }
  }
  accept = () => this.#ask("POST", "/alert/accept");
  dismiss = () => this.#ask("POST", "/alert/dismiss");
}
