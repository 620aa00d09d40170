// What a drafter does on the page by mouse: see, edit, undo, the text beside it.
import { readFileSync } from "node:fs";
import { agrees, end, holds, onPage, placeOf, same, shown } from "./support.mjs";

const OFF = 0, RUNNING = 4, ALARM = 6, LIMIT = 7, SERVICE = 8, TRANSPORT = 9;
const NEVER = null;
/** The example, as its text says; then with a step from running to over-hard-limit. */
const SAFE = {
  verdict: "safe", path: null, reached: [0, 1, 2, 3, 4, 5, 6, 8],
  distances: [...Array(7).fill(NEVER), 0, NEVER]
};
const UNSAFE = {
  verdict: "unsafe", path: [0, 1, 2, 3, 4, 7], reached: [0, 1, 2, 3, 4, 5, 6, 7, 8],
  distances: [5, 4, 3, 2, 1, 2, 3, 0, NEVER],
};

const text = (id) => document.getElementById(id).textContent;
const value = (id) => document.getElementById(id).value;
const cell = (state, name) => document.querySelector(`#list tr[data-state="${state}"] .${name}`).textContent;
const world = () => {
  const words = document.querySelector("#picture > g").getAttribute("transform");
  const [x, y, scale] = words.match(/-?[0-9][-0-9.e]*/g).map(Number);
  return { x, y, scale };
};
const fieldOf = (selector) => {
  const { x, y, width, height } = document.querySelector(selector).getBoundingClientRect();
  return { x, y, width, height };
};

await onPage(async (browser) => {
  const look = (expected, what) => browser.run(shown).then((found) => agrees(found, expected, what));
  const isShown = (selector) => browser.run((sought) => document.querySelector(sought) !== null, selector);

  // ---- begin
  same((await browser.run(shown)).verdict, "draft", "a page without a table");
  await browser.click("#example");
  await look(SAFE, "the example");
  holds(
    (await browser.text("#verdict")).includes("shuntberry release"),
    "the verdict says where a release is made"
  );

  // ---- see: each screen, and what it is by shape and word
  const words = await browser.run(
    () => [...document.querySelectorAll("#picture g[data-state]")].map((box) => box.textContent)
  );
  const names = [
    "off", "home", "set-rate", "confirm", "running", "paused", "alarm", "over-hard-limit", "service"
  ];
  names.forEach(
    (name, s) => holds(words.some((said) => said.startsWith(`${s} ${name.slice(0, 9)}`)), `${name} is drawn`)
  );
  holds(
    words[LIMIT].includes("forbidden") && words[OFF].includes("resting"), "forbidden and resting in words"
  );
  holds(words[SERVICE].includes("dead end"), "a dead end in words");
  const legend = await browser.text("#legend");
  for (
    const word of ["start", "reached", "not reachable", "forbidden", "may end"]
  ) holds(legend.includes(word), `the legend: ${word}`);

  // ---- draw a step from screen to screen
  const [from, to] = [await browser.run(placeOf, RUNNING), await browser.run(placeOf, LIMIT)];
  await browser.drag(from, { x: (from.x + to.x) / 2, y: (from.y + to.y) / 2 + 9 }, to);
  await look(UNSAFE, "a step drawn by mouse");
  holds((await browser.text("#verdict-path")).includes("over-hard-limit"), "the path by name");
  const badges = await browser.run(() => [
    ...document.querySelectorAll("#picture g[data-path]")
  ].map((badge) => {
    const { width, height, x, y } = badge.querySelector("rect").getBoundingClientRect();
    return { width, height, isIn: x >= 0 && y >= 0 && x + width <= innerWidth };
  }));
  holds(
    badges.length === 6 && badges.every(({ height, isIn }) => height >= 14 && isIn),
    "the path's numbers are large enough"
  );

  // ---- undo and redo
  await browser.click("#undo");
  await look(SAFE, "undone");
  await browser.click("#redo");
  await look(UNSAFE, "done again");

  // ---- zoom and drag the picture: the table stays
  const before = await browser.run(shown);
  const first = await browser.run(world);
  const at = await browser.run(placeOf, RUNNING);
  await browser.wheel(at, -240);
  await browser.until((before) => {
    const now = document.querySelector("#picture > g").getAttribute("transform");
    return !now.endsWith(`scale(${before})`);
  }, "the wheel is turned", first.scale);
  const near = await browser.run(world);
  holds(near.scale > 1.2 * first.scale, "the wheel makes it larger");
  const then = await browser.run(placeOf, RUNNING);
  holds(Math.hypot(then.x - at.x, then.y - at.y) < 2, "what is under the pointer stays there");
  await browser.click("#zoom-in");
  holds((await browser.run(world)).scale > near.scale, "the button makes it larger");
  await browser.click("#zoom-out");
  holds(Math.abs((await browser.run(world)).scale - near.scale) < 0.01, "and smaller");
  const field = await browser.run(fieldOf, "#picture");
  const free = { x: field.x + 8, y: field.y + field.height - 8 };
  const unmoved = await browser.run(world);
  await browser.drag(free, { x: free.x + 60, y: free.y - 40 });
  const moved = await browser.run(world);
  holds(
    Math.abs(moved.x - unmoved.x - 60) < 2 && Math.abs(moved.y - unmoved.y + 40) < 2,
    "the picture follows the hand"
  );
  await browser.click("#fit");
  holds(Math.abs((await browser.run(world)).scale - first.scale) < 0.01, "the whole picture again");
  await browser.click("#arrange");
  await look(UNSAFE, "arranged anew");
  same((await browser.run(shown)).edit, before.edit, "nothing was edited by looking");

  // ---- search
  /** Of the words in boxes those that are cut away whole; and ids that two elements have. */
  const unseen = () => {
    const ids = [...document.querySelectorAll("[id]")].map(({ id }) => id);
    const cut = [...document.querySelectorAll("#picture g[clip-path]")].filter((words) => {
      const [, id] = /^url\(#(.*)\)$/.exec(words.getAttribute("clip-path"));
      return document.getElementById(id).querySelector("rect") === null;
    });
    return [cut.length, ids.filter((id, k) => ids.indexOf(id) !== k)];
  };
  await browser.type("#search", "alarm");
  const found = () => [...document.querySelectorAll("#picture g[data-state]")]
    .filter(
      (box) => box.querySelector("rect[fill='#ffd75e']") !== null
    ).map((box) => Number(box.dataset.state));
  same(await browser.run(found), [ALARM], "what is searched stands out");
  holds((await browser.run(text, "picture-words")).startsWith("1 screen found"), "and is counted");
  same(await browser.run(unseen), [0, []], "the names are there still");
  await browser.type("#screen-new", "alarm-off");
  await browser.click("#screen-add");
  same(await browser.run(found), [ALARM, TRANSPORT], "what is searched is of the draft that is shown");
  holds((await browser.run(text, "picture-words")).startsWith("2 screens found"), "and is counted anew");
  await browser.click("#undo");
  same(await browser.run(found), [ALARM], "undone");
  await browser.click("#search");
  await browser.keys(["Control", "a"], "Delete");
  await browser.until(
    () => document.querySelector("#picture rect[fill='#ffd75e']") === null, "the search is over"
  );
  same(await browser.run(unseen), [0, []], "and are there afterwards");

  // ---- choose in the picture, and in the list
  await browser.click("#tab-list");
  await browser.clickAt(await browser.run(placeOf, ALARM));
  same(await browser.run(value, "screen-name"), "alarm", "chosen in the picture");
  same(
    await browser.run(() => document.querySelector("#list [aria-selected=true]").dataset.state),
    String(ALARM), "and in the list"
  );
  await browser.click(`#list tr[data-state="${SERVICE}"]`);
  same(await browser.run(value, "screen-name"), "service", "chosen in the list");

  // ---- add, name, mark, group, option, remove
  await browser.type("#screen-new", "transport");
  await browser.click("#screen-add");
  holds((await browser.run(cell, TRANSPORT, "is")).includes("hang"), "a new screen is a hang");
  await browser.click("#screen-resting");
  same(await browser.run(cell, TRANSPORT, "is"), "resting", "it rests");
  await browser.click("#screen-forbidden");
  same(await browser.run(cell, TRANSPORT, "is"), "forbidden, resting", "it is forbidden");
  await browser.click(`#list tr[data-state="${SERVICE}"]`);
  await browser.click("#step-option");
  await browser.type("#step-to", "transport");
  await browser.click("#step-add");
  holds(
    (await browser.run(cell, SERVICE, "steps")).includes("transport (option)"),
    "a step only with an option, in the list"
  );
  const dash = () => document.querySelector(
    "#picture path[data-step='8 9']"
  ).getAttribute("stroke-dasharray");
  holds(/^2 /.test(await browser.run(dash)), "and dotted in the picture");
  same((await browser.run(shown)).verdict, "unsafe", "it was unsafe on every pump before");
  const begun = () => [
    document.getElementById("step-to").value, document.getElementById("step-option").checked,
    document.getElementById("step-make").hidden,
  ];
  const NOTHING = ["", false, true];
  same(await browser.run(begun), NOTHING, "the next step is no option's unless that is said");
  await browser.click("#step-option");
  await browser.type("#step-to", "nowhere");
  await browser.click("#step-add");
  same(await browser.run(begun), ["nowhere", true, false], "a step that was refused stands there still");
  await browser.click(`#list tr[data-state="${ALARM}"]`);
  same(await browser.run(begun), NOTHING, "what was begun at one screen is not drawn from another");
  await browser.click(`#list tr[data-state="${SERVICE}"]`);
  await browser.click("#group-new");
  holds(
    (await browser.text("#legend")).includes("group 0: 1 screen"), "a group has its colour in the legend"
  );
  same(await browser.run(cell, SERVICE, "groups"), "0", "and stands in the list");
  await browser.clear("#screen-name");
  await browser.type("#screen-name", "maintenance");
  await browser.click("#screen-head");
  same(await browser.run(cell, SERVICE, "name"), "maintenance", "another name");
  await browser.click(`#screen-steps li[data-to="${TRANSPORT}"] .rub-out`);
  holds(!(await isShown("#picture path[data-step='8 9']")), "a step rubbed out");
  await browser.click(`#list tr[data-state="${TRANSPORT}"]`);
  await browser.click("#screen-remove");
  await look(UNSAFE, "a screen removed");
  await browser.click(`#list tr[data-state="${RUNNING}"]`);
  await browser.click(`#screen-steps li[data-to="${LIMIT}"] .rub-out`);
  await look(SAFE, "the step rubbed out");
  await browser.click(`#list tr[data-state="${LIMIT}"]`);
  await browser.click("#screen-initial");
  await look({
    verdict: "unsafe", path: [LIMIT], reached: UNSAFE.reached, distances: SAFE.distances,
  }, "a session can start in a forbidden screen");
  await browser.click("#undo");
  await look(SAFE, "and cannot");

  // ---- what is refused is said where it is seen, wherever one has scrolled
  const isSeen = (id) => {
    const { x, y, width, height } = document.getElementById(id).getBoundingClientRect();
    const there = document.elementFromPoint(x + width / 2, y + height / 2);
    return y >= 0 && y + height <= innerHeight && there?.closest(`#${id}`) !== null;
  };
  for (const [field, words, does, said] of [
    ["#step-to", "nowhere", "#step-add", "nowhere"],
    ["#screen-new", "off", "#screen-add", "has the name off"],
    ["#screen-name", "off", "#screen-head", "has the name off"],
  ]) {
    await browser.click(field);
    await browser.keys(["Control", "a"]);
    await browser.write(words);
    await browser.click(does);
    for (const to of [0, 1e6]) {
      await browser.run((y) => scrollTo(0, y), to);
      holds(await browser.run(isSeen, "note"), `${field}: the note is seen, scrolled to ${to}`);
      holds(await browser.run(isSeen, "verdict-word"), `${field}: beside the verdict, scrolled to ${to}`);
    }
    holds((await browser.text("#note-words")).includes(said), `${field}: why`);
    await browser.click("#note-close");
  }
  same(await browser.run(value, "screen-name"), "over-hard-limit", "the screen has its name still");
  await browser.clear("#step-to");
  await browser.clear("#screen-new");
  await look(SAFE, "nothing of it was done");

  // ---- the list, sorted
  await browser.click("#list th[data-sort=distance] button");
  same(
    await browser.run(() => document.querySelector("#list tbody tr").dataset.state), String(LIMIT),
    "the nearest first"
  );
  await browser.click("#list th[data-sort=name] button");
  same(
    await browser.run(() => document.querySelector("#list tbody tr").dataset.state), String(ALARM), "by name"
  );

  // ---- the text beside it, with each mistake at its line
  await browser.click("#tab-text");
  const lines = (await browser.run(value, "text")).split("\n");
  holds(lines.includes("state 8 maintenance"), "the text has what was edited");
  const bad = lines.findIndex((line) => line.startsWith("initial"));
  await browser.run((at) => {
    const field = document.getElementById("text");
    const place = field.value.split("\n").slice(0, at + 1).join("\n").length;
    field.focus();
    field.setSelectionRange(place, place);
  }, bad);
  await browser.write(" nowhere");
  same((await browser.run(shown)).verdict, "mistakes", "a text with a mistake has no answer");
  same(await browser.run(
    () => [...document.querySelectorAll("#text-mistakes li")].map((item) => item.dataset.line)
  ), [String(bad + 1)],
    "the mistake at its line");
  holds((await browser.text("#text-mistakes")).includes("nowhere"), "with why");
  same(
    await browser.run(shown).then(({ path, word }) => [path, word]), [null, "no answer"],
    "no old verdict is left"
  );
  await browser.click("#text-back");
  same((await browser.run(shown)).verdict, "safe", "the text put back");
  await browser.run(() => {
    const field = document.getElementById("text");
    const place = field.value.lastIndexOf("end");
    field.focus();
    field.setSelectionRange(place, place);
  });
  await browser.write("step running -> over-hard-limit\n");
  await look(UNSAFE, "a step written in the text");
  same(await browser.run(text, "text-mistakes"), "", "without a mistake");

  // ---- the numbers stand beside their lines, at the last one too, above a bar for wide lines
  const apart = (text) => {
    const [field, lines] = [document.getElementById("text"), document.getElementById("text-lines")];
    field.value = text;
    field.dispatchEvent(new Event("input", { bubbles: true }));
    field.scrollTop = 1e6;
    field.dispatchEvent(new Event("scroll"));
    return { bar: field.offsetHeight - field.clientHeight, apart: field.scrollTop - lines.scrollTop };
  };
  const many = `# ${"wide ".repeat(99)}\n${"# line\n".repeat(200)}`;
  const unwide = await browser.run(value, "text");
  const beside = await browser.run(apart, many + unwide);
  holds(beside.bar > 0, `there is a bar for wide lines: ${beside.bar}`);
  holds(Math.abs(beside.apart) < 1, `the numbers are ${beside.apart} pixels off`);
  await browser.run(apart, unwide);

  // ---- undo undoes one thing: a mistake in the text, and not the edit before it
  const typedAnew = (words) => browser.run((typed) => {
    const field = document.getElementById("text");
    field.value = typed;
    field.dispatchEvent(new Event("input", { bubbles: true }));
    return document.getElementById("verdict").dataset.verdict;
  }, words);
  // what is typed after a pause is an edit of its own
  await new Promise((resolve) => setTimeout(resolve, 1600));
  const good = await browser.run(value, "text");
  for (const [wrong, what] of [
    [`x${good}`, "a letter too many"], ["", "no text"], [`${"# long\n".repeat(20_000)}x`, "a long text"],
  ]) {
    await typedAnew(`y${wrong}`);
    const verdict = await typedAnew(wrong);
    holds(["mistakes", "none"].includes(verdict), `${what}: no answer, and not ${verdict}`);
    await browser.click("#undo");
    await look(UNSAFE, `${what}, undone: the step is there still`);
    same(await browser.run(value, "text"), good, `${what}, undone: the text as it was`);
    await browser.click("#redo");
    same(await browser.run(value, "text"), wrong, `${what}: done again, the mistake is there again`);
    holds((await browser.run(shown)).verdict === "mistakes", `${what}: and no answer`);
    await browser.click("#undo");
    await look(UNSAFE, `${what}, undone again`);
  }
  await typedAnew(`x${good}`);
  await new Promise((resolve) => setTimeout(resolve, 1600));
  await typedAnew(`# mended\n${good}`);
  await look(UNSAFE, "a mistake that was mended");
  await browser.click("#undo");
  same(await browser.run(value, "text"), good, "undo leads from text to text without mistakes");
  await browser.click("#undo");
  await look(SAFE, "and then undoes the step");
  await browser.click("#redo");

  // ---- a hang that nobody marked: unsafe, and not finished
  await typedAnew("states 2\ninitial 0\nforbidden none\nstep 0 -> 1\nend\n");
  same([(await browser.run(shown)).word, await browser.run(text, "verdict-beside")],
    ["unsafe", "not finished: a hang is reached"], "a path to a hang");
  // a nearer hang does not hide that a marked screen is reached
  await typedAnew("states 4\nstate 3 limit\ninitial 0\nforbidden 3\nstep 0 -> 1 2\nstep 2 -> 3\nend\n");
  same([(await browser.run(shown)).word, await browser.run(text, "verdict-beside")],
    ["unsafe", "limit is reached, which is marked forbidden"], "the marked screen is named first");
  const way = await browser.text("#verdict-words");
  holds(way.startsWith("limit is reached by 0 → 2 → limit."), `and the way: ${way}`);
  same((await browser.run(shown)).path, [0, 1], "the path is the library's");
  await typedAnew("states 2\ninitial 0\nforbidden none\nstep 0 -> 1\nend\n");
  const hangs = await browser.text("#legend");
  holds(hangs.includes("orange, broken line: a hang") && !hangs.includes("pale"), `in the legend: ${hangs}`);
  await typedAnew("states 3\ninitial 0\nforbidden 1\nresting 0 1\nend\n");
  same(
    [(await browser.run(shown)).word, await browser.run(text, "verdict-beside")], ["safe", ""],
    "nothing beside safe"
  );
  const pale = await browser.text("#legend");
  for (const words of ["pale, eight corners: forbidden", "pale, broken line: a hang"]) {
    holds(pale.includes(words) && !pale.includes("orange") && !pale.includes("white"), `${words}: ${pale}`);
  }
  const fills = () => {
    const all = (place) => [...document.querySelectorAll(`${place} path[fill^="#"]`)];
    const of = (place) => [...new Set(all(place).map((one) => one.getAttribute("fill")))];
    return [of("#picture g[data-state]"), of("#legend")];
  };
  const [drawnFills, legendFills] = await browser.run(fills);
  same(drawnFills.filter((one) => !legendFills.includes(one)), [], "each colour is in the legend");
  await browser.click("#undo");

  // ---- begin anew, and back
  await browser.click("#new");
  same((await browser.run(shown)).verdict, "draft", "begun anew");
  same(await browser.run(value, "title"), "pump", "with the name that a page begins with");
  await browser.click("#undo");
  await look(UNSAFE, "and undone");
  same(await browser.run(value, "title"), "example", "with its name");
  holds(
    readFileSync("examples/pump.txt", "utf8").includes("state 8 service"),
    "the example has the name that was changed"
  );
});
end("by mouse", 90);
