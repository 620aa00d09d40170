// 512 screens: dense ones, and a pump of that size. What the archive says of them is what the page shows; how
// long an edit takes is measured.
import { readFileSync } from "node:fs";
import { agrees, anew, end, holds, onPage, same, shown } from "./support.mjs";

const [DENSE, SPARSE] = process.argv.slice(2); // files
const expected = JSON.parse(readFileSync(0, "utf8"));
/** What an edit may take of the processor, in milliseconds. */
const EDIT = 100;
/** What an edit and a start may take by the clock, on a machine that does other work too. The bars are 100 and
 * 500: look at what is printed. */
const SLOW = 1500;
const TIMES = 7;
const ROUNDS = 5;

async function open(browser, file) {
  const before = await browser.run(() => document.getElementById("verdict").dataset.edit);
  await browser.type("#open-file", file);
  await browser.until(
    (edit) => document.getElementById("verdict").dataset.edit !== edit, "the file is opened", before
  );
}

/** Draws a step and undoes it, some times: the median time until everything is shown. */
function timed(to, count) {
  const $ = (id) => document.getElementById(id);
  const times = [];
  for (let k = 0; k < count; k++) {
    $("step-to").value = String(to);
    const start = performance.now();
    $("step-add").click();
    document.body.getBoundingClientRect(); // the layout of the page belongs to it
    times.push(performance.now() - start);
    $("undo").click();
    document.body.getBoundingClientRect();
  }
  return times.sort((a, b) => a - b)[(count - 1) / 2];
}

const choose = (s) => document.querySelector(`#list tr[data-state="${s}"] .number`).click();

/** The same, and what each edit took of the processor: where that is too much, `over` has it. */
async function measured(browser, from, to, what, over) {
  await browser.run(choose, from);
  const before = await browser.worked();
  const median = await browser.run(timed, to, TIMES);
  const each = (await browser.worked() - before) / (2 * TIMES);
  holds(each > 0, `${what}: an edit takes ${each} ms of the processor`);
  if (!(each < EDIT)) over.push(`${what}: an edit takes ${each} ms of the processor`);
  holds(median < SLOW, `${what}: an edit takes ${median} ms`);
  return `${median.toFixed(0)} ms, ${each.toFixed(0)} of them at work`;
}

/** How many parts of the page stand still while a step is drawn, each of so many: cells with their buttons,
 * and boxes. */
function kept(to) {
  const parts = ["#list td.steps .more", "#picture g[data-state]"].map((sought) =>
    [...document.querySelectorAll(sought)]);
  document.getElementById("step-to").value = String(to);
  document.getElementById("step-add").click();
  const still = parts.map((all) => [all.filter((one) => one.isConnected).length, all.length]);
  document.getElementById("undo").click();
  return still;
}

/** All of it, in a browser that has the page; what takes too much of the processor, `over` has. */
async function tried(browser, over) {
  const ready = await anew(browser);
  await open(browser, DENSE);
  const dense = await browser.run(shown);
  agrees(dense, expected.dense, "dense");
  holds(dense.isPart, "a part is drawn");
  const note = await browser.run(() => document.querySelector("#picture").textContent);
  holds(/too many to draw/.test(note) && /The list has all/.test(note), "and the picture says so");
  same(dense.states.length, 512, "the list has all");
  await browser.run(() => document.querySelector("#list tr[data-state='300'] .number").click());
  const chosen = await browser.run(shown);
  holds(
    chosen.drawn.includes(300) && chosen.drawn.length > dense.drawn.length, "the chosen screen with its own"
  );
  const [from, to] = expected.missing;
  const denseTime = await measured(browser, from, to, "dense", over);
  // every distance is another one then, and nothing else but in the rows and boxes of two paths
  for (const [still, all] of await browser.run(kept, to)) {
    holds(all > 400 && still >= all - 10, `of ${all} cells or boxes ${still} are as they were`);
  }

  await open(browser, SPARSE);
  const sparse = await browser.run(shown);
  agrees(sparse, expected.sparse, "512 screens");
  same(sparse.drawn.length, 512, "all are drawn");
  const sparseTime = await measured(browser, 5, 400, "a pump", over);
  holds(ready < SLOW, `ready after ${ready} ms`);
  console.log(`page: ready after ${ready.toFixed(0)} ms; an edit of 512 dense screens is shown in ${denseTime}; ` +
    `of a pump of 512 in ${sparseTime}`);
}

// Other work only adds to what an edit takes: over the bar all is done again, in a new browser.
let over;
for (let round = 0; round < ROUNDS && over?.length !== 0; round++) {
  over = [];
  await onPage((browser) => tried(browser, over));
}
same(over, [], `what takes too much, in each of ${ROUNDS} rounds`);
end("512 screens", 20);
