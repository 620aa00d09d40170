// How it looks at three widths: a screenshot of each, to be looked at; nothing is cut off at the sides, the
// verdict and the picture are there at once. Also at twice the size of letters, and printed.
import { mkdirSync, readFileSync, writeFileSync } from "node:fs";
import { join } from "node:path";
import { end, holds, onPage, same } from "./support.mjs";

const [OUT] = process.argv.slice(2);
const WIDTHS = [[1600, 1000], [1024, 768], [420, 900]];
/** The windows in which 25 screens are legible, and how high their letters are at least, in pixels. */
const WINDOWS = [[1280, 940], [1440, 1040], [1920, 1220]];
const LETTERS = 10.5;

/** A pump of 25 screens, ten steps deep, with names as they are. */
const PUMP = `states 25
${["off", "self-test", "home", "patient-weight", "care-area", "drug-library", "drug-picked", "rate-entry",
    "rate-confirm", "soft-limit-warning", "override-reason", "running", "bolus-entry", "bolus-confirm",
    "bolus-running", "paused", "keep-vein-open", "occlusion-alarm", "air-in-line", "door-open", "alarm-silenced",
    "battery-low", "settings", "service-menu", "over-hard-limit"].map((name, s) => `state ${s} ${name}`).join("\n")}
initial off
forbidden over-hard-limit
resting off paused
step 0 -> 1\nstep 1 -> 2\nstep 2 -> 3 22 23 0\nstep 3 -> 4 2\nstep 4 -> 5 2\nstep 5 -> 6 2\nstep 6 -> 7 5
step 7 -> 8 9 6\nstep 9 -> 10 7\nstep 10 -> 8 7\nstep 8 -> 11 7\nstep 11 -> 12 15 16 17 18 19 21 7
step 12 -> 13 11\nstep 13 -> 14 12\nstep 14 -> 11 17 18\nstep 15 -> 11 2 7\nstep 16 -> 2 15\nstep 17 -> 20
step 18 -> 20\nstep 19 -> 20 15\nstep 20 -> 15\nstep 21 -> 0 15\nstep 22 -> 2 7\nstep 23 -> 22 24\nstep 24 -> 2
end
`;

/** Of the picture: how high the letters of names are, which names are cut, and whether all of it is seen. */
function names() {
  const [, scale] = /scale\((.*)\)/.exec(document.querySelector("#picture > g").getAttribute("transform"));
  const boxes = [...document.querySelectorAll("#picture g[data-state]")];
  const lines = (box) => [...box.querySelectorAll("g > text")];
  const place = document.getElementById("picture").getBoundingClientRect();
  const isIn = ({ left, right, top, bottom }) => left >= place.left && right <= place.right &&
    top >= place.top && bottom <= place.bottom;
  return {
    letters: Math.min(...boxes.map((box) => Number(lines(box)[0].getAttribute("font-size")) * scale)),
    cut: boxes.filter((box) => {
      const right = box.querySelector("path").getBoundingClientRect().right;
      return lines(box).some((one) => one.textContent.includes("…") || one.getBoundingClientRect().right > right);
    }).map((box) => box.textContent),
    seen: boxes.filter((box) => isIn(box.querySelector("path").getBoundingClientRect())).length,
    bottom: place.bottom, high: innerHeight,
  };
}

/** What sticks out to the right, and where verdict and picture are. */
function measured() {
  const box = (id) => document.getElementById(id).getBoundingClientRect();
  return {
    over: document.documentElement.scrollWidth - innerWidth, verdict: box("verdict").top,
    bottom: box("verdict").bottom,
    picture: { top: box("picture").top, width: box("picture").width, height: box("picture").height },
    high: innerHeight, wide: innerWidth,
  };
}

function fill(words) {
  const field = document.getElementById("text");
  field.value = words;
  field.dispatchEvent(new Event("input", { bubbles: true }));
  document.getElementById("tab-list").click();
}

mkdirSync(OUT, { recursive: true });
await onPage(async (browser) => {
  const text = readFileSync(
    "examples/pump.txt", "utf8"
  ).replace(/^end/m, "step running -> over-hard-limit\ngroup off home\ngroup set-rate confirm running\nend");
  await browser.run(fill, text);
  for (const [width, height] of WIDTHS) {
    await browser.size(width, height);
    await browser.run(() => { scrollTo(0, 0); document.getElementById("fit").click(); });
    const { over, verdict, picture, high } = await browser.run(measured);
    holds(over <= 0, `at ${width}: ${over} pixels stick out`);
    holds(verdict >= 0 && verdict < high, `at ${width}: the verdict is seen at once`);
    holds(
      picture.width > 0.3 * Math.min(width, 1000) && picture.height >= 200,
      `at ${width}: the picture has its place`
    );
    await browser.screenshot(join(OUT, `unsafe-${width}.png`));
  }
  // a long verdict: it stays in sight, leaves room, and covers nothing that gets the focus
  const chain = Array.from({ length: 99 }, (_, s) => `step ${s} -> ${s + 1}\n`).join("");
  await browser.run(fill, `states 100\ninitial 0\nforbidden 99\n${chain}end\n`);
  for (const [width, height] of [[1400, 900], [1024, 700]]) {
    await browser.size(width, height);
    await browser.run(() => scrollTo(0, 1e6));
    const { verdict, bottom, high, over } = await browser.run(measured);
    holds(verdict >= 0 && bottom < 0.5 * high, `at ${width}: it has ${verdict} to ${bottom} of ${high}`);
    holds(over <= 0, `at ${width}: ${over} pixels stick out`);
    const covered = await browser.run(() => ["tab-list", "tab-text", "screen-new", "search"].filter((id) => {
      document.activeElement.blur();
      scrollTo(0, 1e6);
      document.getElementById(id).focus();
      const { x, y, width, height } = document.getElementById(id).getBoundingClientRect();
      return document.elementFromPoint(x + width / 2, y + height / 2)?.closest("#status") !== null;
    }));
    same(covered, [], `at ${width}: what the verdict covers`);
    await browser.screenshot(join(OUT, `long-${width}.png`));
  }
  // the names of 25 screens, without zooming: opened in a window, and edited into being in another
  for (const [width, height] of WINDOWS) {
    await browser.size(width, height);
    await browser.run(() => { scrollTo(0, 0); document.getElementById("new").click(); });
    await browser.run(fill, PUMP);
    const { letters, cut, seen, bottom, high } = await browser.run(names);
    holds(letters >= LETTERS, `at ${width}: the letters of names are ${letters} pixels high`);
    same([seen, cut], [25, []], `at ${width}: all are seen, and none is cut`);
    holds(bottom <= high, `at ${width}: the picture is in sight, to ${bottom} of ${high}`);
    await browser.screenshot(join(OUT, `names-${width}.png`));
  }
  const short = PUMP.replace(/^step (?!0 |1 ).*\n/gm, "");
  await browser.run(fill, short);
  await browser.run(fill, PUMP);
  holds((await browser.run(names)).letters >= LETTERS, "legible too where edits made it");

  await browser.run(fill, text);
  await browser.size(1280, 860);
  const printed = await browser.print();
  writeFileSync(join(OUT, "printed.pdf"), printed);
  same(printed.toString("latin1").match(/\/Type\s*\/Page\b/g)?.length, 1, "it prints as one sheet");
  await browser.run(() => { document.documentElement.style.fontSize = "200%"; });
  const large = await browser.run(measured);
  holds(large.over <= 0, `at twice the size: ${large.over} pixels stick out`);
  await browser.screenshot(join(OUT, "twice.png"));
  // a browser's zoom of 200 per cent: half the window for the page
  await browser.run(() => { document.documentElement.style.fontSize = ""; scrollTo(0, 0); });
  await browser.own("Emulation.setDeviceMetricsOverride", {
    width: 640, height: 430, deviceScaleFactor: 2, mobile: false,
  });
  const broken = await browser.run(() => [...document.querySelectorAll("#verdict-path li")].filter((item) => {
    const { height, fontSize } = getComputedStyle(item, "::before");
    return !(parseFloat(height) < 2 * parseFloat(fontSize));
  }).map((item) => item.dataset.place));
  same(broken, [], "at 200 per cent: places on the path that are broken into lines");
  for (const tab of ["list", "text", "ask"]) {
    await browser.run((name) => document.getElementById(`tab-${name}`).click(), tab);
    const { over, wide } = await browser.run(measured);
    same(wide, 640, "the zoom");
    holds(over <= 0, `at 200 per cent: ${over} pixels stick out beside ${tab}`);
    const cut = await browser.run(() => [...document.querySelectorAll("button, label, h1, h2, h3, p, input, select")]
      .filter((one) => one.closest(".scroll, #text-box") === null && one.getClientRects().length > 0)
      .filter((one) => one.getBoundingClientRect().right > innerWidth || one.getBoundingClientRect().left < 0)
      .map((one) => one.id || one.textContent));
    same(cut, [], `at 200 per cent: nothing is cut beside ${tab}`);
    await browser.screenshot(join(OUT, `zoom-${tab}.png`));
  }
  await browser.own("Emulation.clearDeviceMetricsOverride");
  same(
    await browser.run(() => document.getElementById("verdict").dataset.verdict), "unsafe",
    "what was looked at"
  );
});
end("looks", 10);
