// What the tests of the page share. PAGE is the file, WORK a folder of the test's own.
import assert from "node:assert/strict";
import { existsSync, mkdirSync, readFileSync, readdirSync } from "node:fs";
import { join } from "node:path";
import { pathToFileURL } from "node:url";
import { Browser } from "./webdriver.mjs";

export const { PAGE, WORK } = process.env;
export const url = pathToFileURL(PAGE).href;
export const downloads = join(WORK, "downloads");

let facts = 0;
export const same = (found, expected, what) => {
  facts++;
  assert.deepEqual(found, expected, what);
};
export const holds = (fact, what) => {
  facts++;
  assert.ok(fact, what);
};
/** The last line of a test; a test that looked at little has not looked. */
export const end = (name, least) => {
  assert.ok(facts >= least, `${name}: only ${facts} facts`);
  console.log(`page: ${name}: ${facts} facts as expected`);
};

/** Does something in a browser that has the page, and looks at what the browser has to say of it at the
 * end. */
export async function onPage(work, { width = 1280, height = 860 } = {}) {
  mkdirSync(downloads, { recursive: true });
  const browser = await Browser.start(
    { downloads, profile: join(WORK, `profile-${process.pid}`), width, height }
  );
  try {
    await anew(browser);
    await work(browser);
    await quiet(browser);
  } finally {
    await browser.end();
  }
}

/** The page, opened, and after how many milliseconds at most it was ready: when it has a verdict. */
export async function anew(browser) {
  await browser.open(url);
  return browser.until(
    () => (document.getElementById("verdict").dataset.edit === undefined ? 0 : performance.now()),
    "the page is ready",
  );
}

/** Other pages of a test's own. */
const others = new Set();
export const alsoAsked = (page) => others.add(page);

/** Nothing went wrong in the page, and no request left it: the browser's own words. */
export async function quiet(browser) {
  for (const { level, message } of await browser.log("browser")) {
    holds(level !== "SEVERE", `the browser says: ${message}`);
  }
  let count = 0;
  for (const { message } of await browser.log("performance")) {
    const { method, params } = JSON.parse(message).message;
    if (method !== "Network.requestWillBeSent" && method !== "Network.webSocketCreated") continue;
    const asked = params.request?.url ?? params.url;
    const isOwnTab = params.documentURL?.startsWith("chrome:") && asked.startsWith("chrome:");
    if (isOwnTab) continue; // the browser's own first one
    count++;
    holds(
      asked === url || others.has(asked) || asked.startsWith("data:") ||
        asked.startsWith(`blob:${new URL(url).protocol}`), `a request: ${asked}`
    );
  }
  holds(count > 0, "the browser tells of requests");
}

/** What the page shows: the verdict with its path, and of each screen whether it can be reached and how
 * far it is. */
export function shown() {
  const $ = (id) => document.getElementById(id);
  const numbers = (nodes, name) => [...nodes].map((node) => Number(node.dataset[name]));
  const rows = [...$("list").tBodies[0].rows].sort((a, b) => a.dataset.state - b.dataset.state);
  const words = (row, name) => row.querySelector(`.${name}`).textContent.replace(/^[●○] /, "");
  const path = numbers($("verdict-path").children, "state");
  // Chromium says what stands there, Firefox what the style says
  const placed = (item) => getComputedStyle(item, "::before").content.replaceAll('"', "")
    .replace("attr(data-place)", item.dataset.place);
  const boxes = [...$("picture").querySelectorAll("g[data-state]")];
  const lit = boxes.filter(
    (box) => ["#c6e2f5", "#e8833a"].includes(box.querySelector("path").getAttribute("fill"))
  );
  const onPath = [...$("picture").querySelectorAll("path[data-step][marker-end='url(#picture-path)']")];
  return {
    verdict: $("verdict").dataset.verdict, word: $("verdict-word").textContent,
    hidden: $("verdict-path").hidden,
    path: path.length > 0 ? path : null, places: [...$("verdict-path").children].map(placed),
    onPath: rows.map((row) => /\w+ on the path$/.exec(words(row, "is"))?.[0] ?? null),
    states: numbers(rows, "state"), edit: Number($("verdict").dataset.edit),
    note: $("note").hidden ? null : $("note-words").textContent,
    reached: numbers(rows.filter((row) => row.dataset.reached === "yes"), "state"),
    reachedWords: rows.flatMap((row) => (words(row, "reached") === "yes" ? [Number(row.dataset.state)] : [])),
    distances: rows.map((row) => (row.dataset.distance === "" ? null : Number(row.dataset.distance))),
    distanceWords: rows.map(
      (row) => (words(row, "distance") === "never" ? null : Number(words(row, "distance")))
    ),
    drawn: numbers(boxes, "state").sort((a, b) => a - b), lit: numbers(lit, "state").sort((a, b) => a - b),
    pathSteps: onPath.map((line) => line.dataset.step).sort(),
    numbered: [
      ...$("picture").querySelectorAll("g[data-path]")
    ].map((badge) => badge.querySelector("text").textContent),
    isPart: boxes.length < rows.length,
  };
}

/** The words of the verdict that go with each kind. */
const WORDS = {
  safe: "safe", unsafe: "unsafe", depends: "depends on the options", draft: "a draft without screens",
};
/** "Safe" says nothing where nothing is initial, so that nothing is reached, or nothing is marked forbidden;
 * what is no steps away from a forbidden screen is a hang then. */
export const wordFor = ({ verdict, reached, distances }) => {
  if (verdict !== "vacuous") return WORDS[verdict];
  if (reached.length === 0) return "no verdict: nothing is initial";
  return `no verdict: ${distances.includes(0) ? "no screen is marked forbidden" : "nothing is forbidden"}`;
};

const ENDINGS = { one: "st", two: "nd", few: "rd", other: "th" };
const rules = new Intl.PluralRules("en", { type: "ordinal" });
/** A place on a path in words, which nobody takes for the number of a screen. */
export const nth = (k) => `${k + 1}${ENDINGS[rules.select(k + 1)]}`;

/** What the page shows is what is expected: in the verdict, in the list, in its words, and in the picture. */
export function agrees(found, expected, what) {
  same([found.verdict, found.word], [expected.verdict, wordFor(expected)], `${what}: the verdict`);
  same(found.path, expected.path, `${what}: the path`);
  same(found.hidden, expected.path === null, `${what}: the path can be seen`);
  same(found.reached, expected.reached, `${what}: the reachable screens`);
  same(found.reachedWords, expected.reached, `${what}: the reachable screens, in words`);
  same(found.distances, expected.distances, `${what}: the distances`);
  same(found.distanceWords, expected.distances, `${what}: the distances, in words`);
  const path = expected.path ?? [];
  same(found.pathSteps, path.slice(1).map((to, k) => `${path[k]} ${to}`).sort(), `${what}: the path, drawn`);
  const places = path.map((_, k) => nth(k));
  same(found.numbered, places, `${what}: the places on the path, in the picture`);
  same(found.places, places, `${what}: the places on the path, in the verdict`);
  const place = (s) => (path.includes(s) ? `${nth(path.indexOf(s))} on the path` : null);
  same(found.onPath, found.states.map(place), `${what}: the places on the path, in the list`);
  if (!found.isPart) same(found.lit, expected.reached, `${what}: the lit screens`);
}

/** The place of a screen in the picture, in the window. */
export function placeOf(state) {
  const shape = document.querySelector(`#picture g[data-state="${state}"] path`).getBoundingClientRect();
  return {
    x: shape.x + shape.width / 2, y: shape.y + shape.height / 2, width: shape.width, height: shape.height
  };
}

/** A file that was downloaded, once it is whole. */
export async function downloaded(name) {
  const file = join(downloads, name);
  for (let tries = 0; tries < 400; tries++) {
    const isGoingOn = readdirSync(downloads).some((one) => /\.(crdownload|part)$/.test(one));
    if (existsSync(file) && !isGoingOn) return readFileSync(file);
    await new Promise((resolve) => setTimeout(resolve, 25));
  }
  throw new Error(`${name} was not downloaded: there are ${readdirSync(downloads).join(", ")}`);
}
