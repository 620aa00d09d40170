// Names and files that attack: markup, scripts, letters that run backward, very long ones. Each stays what it
// is, a text; nothing of it is run. The reader takes few of them as names, so the picture is also given them
// by itself.
import { writeFileSync } from "node:fs";
import { join } from "node:path";
import { pathToFileURL } from "node:url";
import { WORK, alsoAsked, anew, downloaded, end, holds, onPage, quiet, same, shown } from "./support.mjs";

/** What no reader takes as a name, and says so at its line. */
const REFUSED = [
  "<script>pwned=1</script>", "\"><img/src=x/onerror=pwned=1>", "<svg/onload=pwned=1>",
  "</textarea><img/src=x/onerror=pwned=1>", "javascript:pwned=1",
  "${pwned=1}", "&lt;b&gt;", "]]><x>", "-->", "url(https://example.com/x)", "a".repeat(65), "a".repeat(5000),
  "\u202Eevil\u202C", "a\u200Bb", "a\u2066b\u2069",
  "a\u0000b", "\uFEFFx", "\u043e\u0430o",
];
/** Names that are good ones, and words of JavaScript. */
const NAMES = [
  "__proto__", "constructor", "toString", "hasOwnProperty", "pwned", "undefined", "null", "NaN",
  "a".repeat(64), "valueOf"
]
  .filter((name) => /^[A-Za-z]/.test(name));

/** Nothing was run, and nothing is there that is no text: the elements that can load or run something. */
function clean() {
  return {
    pwned: typeof globalThis.pwned, scripts: document.scripts.length,
    odd: document.querySelectorAll(
      "img, iframe, object, embed, link, base, form[action], image, use, foreignObject, animate, a[href]"
    ).length,
    handlers: [
      ...document.querySelectorAll("*")
    ].flatMap((one) => [...one.attributes]).filter(({ name }) => name.startsWith("on")).length,
    styles: document.querySelectorAll("style, [style]").length,
  };
}

const alone = pathToFileURL(process.env.ALONE).href;
alsoAsked(alone);

await onPage(async (browser) => {
  const fill = (text) => browser.run((words) => {
    const field = document.getElementById("text");
    field.value = words;
    field.dispatchEvent(new Event("input", { bubbles: true }));
  }, text);
  const first = await browser.run(clean);
  same([first.pwned, first.odd, first.handlers], ["undefined", 0, 0], "the page by itself");
  const still = async (what) => {
    const { styles, ...now } = await browser.run(clean);
    same(now, { pwned: first.pwned, scripts: first.scripts, odd: 0, handlers: 0 }, what);
  };

  // ---- names in a text, everywhere they are shown
  const n = NAMES.length;
  const every = NAMES.map((_, s) => s);
  const text = [
    `states ${n}`, ...NAMES.map((name, s) => `state ${s} ${name}`), "initial 0", `forbidden ${n - 1}`,
    "resting none", "group 0 1", ...every.slice(1).map((s) => `step ${s - 1} -> ${s}`),
    `possible ${n - 1} -> 0`, "end", "",
  ].join("\n");
  await fill(text);
  const found = await browser.run(shown);
  same([found.verdict, found.path], ["unsafe", every], "a chain of hostile names");
  await still("in list, path and picture");
  const listed = await browser.run(
    () => [...document.querySelectorAll("#list tbody td.name")].map((cell) => cell.textContent)
  );
  same(listed, NAMES, "each name as it is, in the list");
  for (const s of every) {
    await browser.run(
      (state) => document.querySelector(`#list tr[data-state="${state}"] .number`).click(), s
    );
    same(await browser.run(() => document.getElementById("screen-name").value), NAMES[s], "and in its field");
  }
  for (const tab of ["ask", "text", "list"]) await browser.click(`#tab-${tab}`);
  await browser.run(() => document.getElementById("repairs-ask").click());
  await still("in the answers");
  await browser.run(() => {
    for (const box of document.querySelectorAll("#picture g[data-state]")) {
      box.firstElementChild.dispatchEvent(new PointerEvent("pointerover", { bubbles: true }));
    }
  });
  await still("in what a pointer shows");
  await browser.type("#search", "<script>");
  await still("in the search");

  // ---- what is saved: an SVG that stands alone has the same names and nothing that runs
  await browser.run(() => { document.getElementById("title").value = "hostile"; });
  await browser.click("#save-svg");
  const svg = String(await downloaded("hostile.svg"));
  const drawn = await browser.run((file) => {
    const page = new DOMParser().parseFromString(file, "image/svg+xml");
    return {
      root: page.documentElement.localName, words: page.documentElement.textContent,
      kinds: [...new Set([...page.querySelectorAll("*")].map((one) => one.localName))].sort(),
      odd: [
        ...page.querySelectorAll("*")
      ].flatMap((one) => [...one.attributes]).filter(({ name }) => /^on|href|style/.test(name)).length,
    };
  }, svg);
  same([drawn.root, drawn.odd], ["svg", 0], "the picture is a file of XML, without handlers and links");
  same(
    drawn.kinds.filter(
      (kind) => !["svg", "defs", "marker", "clipPath", "g", "path", "rect", "text", "title"].includes(kind)
    ), [], "of plain shapes"
  );
  holds(drawn.words.includes("constructor"), "the names are words in it");
  await browser.click("#save-text");
  same(String(await downloaded("hostile.txt")), text, "the text as it was");

  // ---- what is refused is said, as words
  for (const name of REFUSED) {
    await fill(`states 1\nstate 0 ${name}\ninitial 0\nforbidden none\nresting none\nstep 0 -> 0\nend\n`);
    const { verdict, path } = await browser.run(shown);
    same([verdict, path], ["mistakes", null], `${JSON.stringify(name)} is refused`);
    same(
      await browser.run(() => document.querySelector("#text-mistakes li").dataset.line), "2", "at its line"
    );
    await still("in a mistake");
  }
  await fill("<img src=x onerror=pwned=1>\n");
  same((await browser.run(shown)).verdict, "mistakes", "markup is no text of a table");
  await browser.run(() => document.getElementById("new").click());
  for (const name of REFUSED.filter((one) => one.trim() === one)) { // a field is trimmed
    await browser.run((words) => {
      document.getElementById("screen-new").value = words.replaceAll(",", " ");
      document.getElementById("screen-add").click();
    }, name);
    same((await browser.run(shown)).verdict, "draft", `${JSON.stringify(name)} is refused by hand`);
    holds((await browser.run(shown)).note !== null, "and it is said");
    await still("in what is said");
  }
  await browser.run((words) => {
    document.getElementById("search").value = words;
    document.getElementById("search").dispatchEvent(new Event("input", { bubbles: true }));
    document.getElementById("title").value = words;
  }, REFUSED[1]);
  await still("in the fields");
  await browser.run(() => {
    document.getElementById("search").value = "";
    document.getElementById("search").dispatchEvent(new Event("input", { bubbles: true }));
  });

  // ---- a file's own name
  const file = join(WORK, "<img src=x onerror=pwned=1>.txt");
  writeFileSync(file, "states 1\ninitial 0\nforbidden none\nresting none\nstep 0 -> 0\nend\n");
  await browser.run(() => document.getElementById("new").click());
  await browser.type("#open-file", file);
  await browser.until(() => document.querySelectorAll("#list tbody tr").length === 1, "the file is opened");
  await browser.click("#tab-ask");
  await browser.type("#other-file", file);
  await browser.until(() => document.getElementById("other-answer").textContent !== "", "compared");
  await still("in the names of files");

  // ---- the picture by itself, given what no reader lets through
  await browser.open(alone);
  await browser.until(() => globalThis.picture !== undefined, "the picture by itself");
  const text2 = await browser.run((names) => {
    names.push("a\ud800b"); // which no protocol carries
    const n = names.length;
    const every = names.map((_, s) => s);
    const steps = every.slice(1).map((to) => ({ from: to - 1, to, option: false }));
    const view = {
      n, isAnswered: true, names, initial: new Set([0]), forbidden: new Set([n - 1]), hang: new Set(),
      resting: new Set(), reached: new Set(every),
      groups: [[0]], groupsOf: every.map((s) => (s === 0 ? [0] : [])), groupNames: [names[0]], distance: every.map((s) => n - 1 - s), path: every, chosen: 0,
      steps, stepCount: steps.length,
      successors: (s) => (s + 1 < n ? [s + 1] : []), predecessors: (s) => (s > 0 ? [s - 1] : []),
      isOption: () => false,
    };
    globalThis.picture.show(view);
    globalThis.picture.find("<");
    for (const box of document.querySelectorAll("g[data-state]")) {
      box.firstElementChild.dispatchEvent(new PointerEvent("pointerover", { bubbles: true }));
    }
    return globalThis.picture.svgText([names[0], names[1]]);
  }, REFUSED);
  const parsed = await browser.run((file) => {
    const page = new DOMParser().parseFromString(file, "image/svg+xml");
    const kinds = (root) => [...new Set([...root.querySelectorAll("*")].map((one) => one.localName))].sort();
    return {
      root: page.documentElement.localName, inFile: kinds(page),
      inPage: kinds(document.getElementById("picture")), pwned: typeof globalThis.pwned,
      words: page.documentElement.textContent,
      hidden: /[\u202a-\u202e\u2066-\u2069\u200b\u0000]/.test(page.documentElement.textContent),
    };
  }, text2);
  const PLAIN = ["clipPath", "defs", "g", "marker", "path", "rect", "text", "title"];
  same(parsed.inPage.filter((kind) => !PLAIN.includes(kind)), [], "the picture by itself is of plain shapes");
  same(parsed.inFile.filter((kind) => kind !== "svg" && !PLAIN.includes(kind)), [], "and so is its file");
  same(
    [parsed.root, parsed.pwned, parsed.hidden], ["svg", "undefined", false],
    "nothing is run, and nothing hidden is left"
  );
  holds(parsed.words.includes("<script>pwned=1</script>"), "the names are words");
  await anew(browser);

  await quiet(browser);

  // ---- the policy holds where the page would fail: no script, no style, no image, no connection from
  // outside
  const blocked = await browser.run(() => {
    const seen = [];
    addEventListener("securitypolicyviolation", (event) => seen.push(event.effectiveDirective));
    const script = document.createElement("script");
    script.textContent = "pwned = 1";
    const image = document.createElement("img");
    image.src = "https://example.com/x.png";
    const style = document.createElement("div");
    style.setAttribute("style", "color: red");
    document.body.append(script, image, style);
    fetch("https://example.com/").catch(() => {});
    try {
      new WebSocket("wss://example.com/");
    } catch {
      // blocked at once
    }
    globalThis.seen = seen;
    return typeof globalThis.pwned;
  });
  same(blocked, "undefined", "a script that comes in is not run");
  await browser.until(
    () => globalThis.seen.length >= 5, "the policy stops script, image, style and two connections"
  );
  const stopped = await browser.run(() => [...new Set(globalThis.seen)].sort());
  same(
    stopped, ["connect-src", "img-src", "script-src-elem", "style-src-attr"], "each by its part of the policy"
  );
  await browser.until(
    () => new Promise((resolve) => setTimeout(() => resolve(true), 200)), "what could leave had time to"
  );
  const told = (await browser.log("performance")).map(({ message }) => JSON.parse(message).message);
  const asked = told.filter(
    ({ method, params }) => method === "Network.requestWillBeSent" &&
      /^(https?|wss?):/.test(params.request.url)
  );
  holds(asked.length > 0, "the browser tells of what was tried");
  for (const { params: { requestId } } of asked) {
    const failed = told.find(
      ({ method, params }) => method === "Network.loadingFailed" && params.requestId === requestId
    );
    same(failed?.params.blockedReason, "csp", "a request from outside was stopped by the policy");
  }
  holds(!told.some(({ method }) => method === "Network.webSocketCreated"), "no socket was made");
  await browser.log("browser"); // what the policy stopped, it says there
  await anew(browser);
});
end("hostile names", 60);
