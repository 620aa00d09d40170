// What is asked on the page: a quick answer, the release check, which step to rub out, what to look at,
// options, a log, another file. Each answer is of the draft that is shown.
import { readFileSync, writeFileSync } from "node:fs";
import { join, resolve } from "node:path";
import { WORK, end, holds, onPage, same, shown } from "./support.mjs";

/** The table of js/README.md: one refinement, and only the first step of its path makes it safe. */
const SMALL = "states 3\ninitial 0\nforbidden 2\nresting none\nstep 0 -> 0 1\nstep 1 -> 2\nend\n";

await onPage(async (browser) => {
  const fill = (text) => browser.run((words) => {
    const field = document.getElementById("text");
    field.value = words;
    field.dispatchEvent(new Event("input", { bubbles: true }));
  }, text);
  const slide = (to) => browser.run((value) => {
    const field = document.getElementById("allowance");
    field.value = value;
    field.dispatchEvent(new Event("input", { bubbles: true }));
  }, to);
  const verdict = (id) => browser.run((one) => document.getElementById(one).dataset.verdict, id);
  const items = (selector, ...names) => browser.run(
    (sought, fields) => [
      ...document.querySelectorAll(sought)
    ].map((item) => fields.map((name) => item.dataset[name])), selector, names,
  );
  const printed = () => browser.run(
    () => [...document.querySelectorAll("#release-check pre")].map((one) => one.textContent)
  );

  await fill(SMALL);
  await browser.click("#tab-ask");

  // ---- a quick answer
  await slide("0");
  same(await verdict("quick"), "undecided", "with allowance 0");
  holds(/slider|group|release/i.test(await browser.text("#quick")), "undecided, with what to do");
  same((await browser.run(shown)).verdict, "unsafe", "the verdict is the release check's all the same");
  await slide("1");
  same(await verdict("quick"), "unsafe", "with allowance 1");

  // ---- the release check
  same(
    (await printed()).map((text) => text.trimEnd()), ["states 3 groups 0\nunsafe refinements 1\npath 0 1 2"],
    "what check prints"
  );
  holds((await browser.text("#release-check")).includes("shuntberry release"), "and where a release is made");

  // ---- words that nobody knows are said in plain ones where they stand
  const asks = await browser.text("#panel-ask");
  for (const words of ["Each closer look is a refinement", "how many it may take is its allowance"]) {
    holds(asks.includes(words), `${words}: ${asks}`);
  }
  await browser.run(() => { document.getElementById("more").open = true; });
  holds((await browser.text("#site-words")).includes("Leave 0"), "what a site is");
  await browser.run(() => { document.getElementById("more").open = false; });

  // ---- which single step mends it
  await browser.click("#repairs-ask");
  same(await items("#repairs li[data-from]", "from", "to"), [["0", "1"]], "the one step");
  await browser.click("#repairs li[data-from] .rub-out");
  same((await browser.run(shown)).verdict, "safe", "it is safe without it"); // by the library, asked again
  same(await items("#repairs li[data-from]", "from", "to"), [], "nothing old is left");
  same(await verdict("quick"), "safe", "the quick answer is of the new draft");
  same((await printed())[0].split("\n")[1].split(" ")[0], "safe", "and the release check's");

  // ---- what each costs, the cheapest first; and several ways in
  await fill(
    "states 5\ninitial 0\nforbidden 4\nresting 0 1 2 3\nstep 0 -> 1\nstep 1 -> 2\nstep 2 -> 3 4\nend\n"
  );
  await browser.click("#repairs-ask");
  same(await items("#repairs li[data-from]", "from", "to", "lost"),
    [["2", "4", "0"], ["1", "2", "2"], ["0", "1", "3"]], "what each costs, the cheapest first");
  const costs = await browser.text("#repairs");
  for (const words of ["costs nothing", "2 other screens", "reaches then: 2, 3", "reaches then: 1, 2, 3"]) {
    holds(costs.includes(words), `${words}: ${costs}`);
  }
  holds(!costs.includes("several ways"), "one way in");
  await fill("states 4\ninitial 0\nforbidden 3\nresting 0\nstep 0 -> 1 2\nstep 1 -> 3\nstep 2 -> 3\nend\n");
  await browser.click("#repairs-ask");
  same(await items("#repairs li[data-from]", "from"), [], "no single step");
  holds((await browser.text("#repairs")).includes("several ways in"), "there are several ways in");
  await fill(
    "states 5\ninitial 0\nforbidden 4\nresting 3\nstep 0 -> 1 2\nstep 1 -> 3\nstep 2 -> 3\nstep 3 -> 4\nend\n"
  );
  await browser.click("#repairs-ask");
  same(
    await items("#repairs li[data-from]", "from", "to", "lost"), [["3", "4", "0"]], "the step behind both ways"
  );
  holds((await browser.text("#repairs")).includes("several ways round"), "and that there are several");
  // ---- a step without which its screen has no way out: that is said, and not that there are ways round it
  await fill("states 4\nstate 1 menu\ninitial 0\nforbidden 3\nresting 2\nstep 0 -> 1\nstep 1 -> 2\n" +
    "step 2 -> 3\nend\n");
  await browser.click("#repairs-ask");
  same(await items("#repairs li[data-from]", "from", "to"), [["2", "3"]], "the one step that does by itself");
  same(await items("#repairs li[data-hangs]", "hangs", "to"), [["0", "1"], ["1", "2"]], "those that do not");
  const leaves = await browser.text("#repairs");
  holds(leaves.includes("Removing menu → 2 leaves menu without a way out: then menu needs another step, or " +
    "to be marked resting."), leaves);
  holds(!leaves.includes("ways round"), `no way is round them: ${leaves}`);
  // ---- a hang at the end of the path can be marked as resting: with its price, and never with a verdict
  const resting = () => items("#repairs li[data-resting]", "resting", "then");
  const HANG = "states 4\nstate 2 done\nstate 3 limit\ninitial 0\nforbidden 3\nstep 0 -> 1\nstep 1 -> done\nend\n";
  for (const [text, expected, ...words] of [
    [HANG, [["2", "safe"]], "only if a session may end there", "costs that done is no longer found"],
    [HANG.replace("forbidden 3", "forbidden none\nresting limit"), [["2", "vacuous"]],
      "No screen is marked forbidden:"],
    ["states 1\nstate 0 done\ninitial 0\nforbidden none\nend\n", [["0", "vacuous"]], "is no longer found"],
    [HANG.replace("step 1 -> done", "step 1 -> done limit"), [], "done is a hang. To mark it resting is not enough",
      "limit is reached then"],
    [HANG.replace("forbidden 3", "forbidden 2 3"), []],
  ]) {
    await fill(text);
    same(await resting(), [], "nothing is offered before the library was asked");
    await browser.click("#repairs-ask");
    same(await resting(), expected, text);
    const said = await browser.text("#repairs");
    for (const part of words) holds(said.includes(part), `${part}: ${said}`);
    holds(!/\bsafe\b/i.test(said), `no verdict stands in a repair: ${said}`);
    const isOffered = (await items("#repairs .rest")).length > 0 || /done (resting|is a hang)/.test(said);
    if (words.length === 0) holds(!isOffered, `a marked one is not offered: ${said}`);
  }
  await fill(HANG);
  await browser.click("#verdict-mend");
  await browser.click("#repairs .rest");
  same((await browser.run(shown)).verdict, "safe", "and the verdict is the library's");
  await browser.click("#undo");
  same((await browser.run(shown)).verdict, "unsafe", "undone");
  await fill("states 2\ninitial 0\nforbidden 0\nresting 0 1\nend\n");
  holds(await browser.run(() => document.getElementById("repairs-ask").hidden), "a start that is marked: none");
  await fill(SMALL);
  await browser.click("#repairs-ask");
  await browser.click("#repairs li[data-from] .rub-out");

  // ---- what to look at
  const remarks = (await items("#remarks li[data-remark]", "remark")).flat();
  holds(remarks.includes("hang"), `the hang is looked at: ${remarks}`);
  await browser.click("#undo");
  holds(
    (await items("#remarks li[data-remark]", "remark")).flat().includes("forbidden-reached"),
    "and what can be reached"
  );

  // ---- what options make of it
  for (const [text, expected] of [
    ["states 3\ninitial 0\nforbidden 2\nresting 1 2\nstep 0 -> 0\npossible 0 -> 1\nend\n", "safe"],
    ["states 3\ninitial 0\nforbidden 2\nresting 1 2\nstep 0 -> 2\npossible 0 -> 1\nend\n", "unsafe"],
    ["states 3\ninitial 0\nforbidden 2\nresting 1 2\nstep 0 -> 0\npossible 0 -> 2\nend\n", "depends"],
  ]) {
    await fill(text);
    same(await verdict("options"), expected, `options: ${expected}`);
    same((await browser.run(shown)).verdict, expected, `the verdict: ${expected}`);
    same((await printed()).length, 2, "a release check for each: with no option and with all");
  }

  // ---- nothing initial, or nothing forbidden: nowhere does it say that the draft is safe
  await browser.type("#other-file", resolve("examples/pump.txt"));
  await browser.until(() => document.querySelector("#other-answer li") !== null, "another file is compared");
  for (const [text, word, told = `nothing is ${word}`] of [
    // a hang that no session reaches is forbidden, and is all that is
    ["states 3\ninitial 0\nforbidden none\nstep 0 -> 1\nstep 1 -> 0\nend\n", "forbidden",
      "no screen is marked forbidden"],
    ["states 2\ninitial 0\nforbidden none\nstep 0 -> 1\nstep 1 -> 0\nend\n", "forbidden"],
    ["states 2\ninitial none\nforbidden 1\nresting 0 1\nend\n", "initial"],
    ["states 2\ninitial 0\nforbidden none\nstep 0 -> 0 1\nstep 1 -> 0\npossible 1 -> 1\nend\n", "forbidden"],
  ]) {
    await fill(text);
    const expected = `no verdict: ${told}`;
    await browser.run(() => document.querySelector('#list tr[data-state="0"]').click());
    for (const id of ["quick", "release-check", "repairs", "other-answer"]) {
      const said = await browser.text(`#${id}`);
      holds(said.includes(expected), `${id}: ${said}`);
      holds(!/\bsafe (ref|after)|is safe|now: safe|Nothing has to/.test(said), `${id}: not safe: ${said}`);
    }
    const { verdict: kind, word: place } = await browser.run(shown);
    same([kind, place], ["vacuous", expected], "the verdict's place");
    same(await printed(), [], "nothing that check would print");
    const facts = await browser.text("#screen-words");
    const yet = word === "forbidden" ? "marked forbidden" : word;
    holds(facts.includes(`no screen is ${yet} yet`), `the chosen screen: ${facts}`);
    if (text.includes("possible")) holds((await browser.text("#options")).startsWith(expected), "options");
    if (word === "forbidden") holds(!facts.includes("no forbidden screen can"), `the chosen one: ${facts}`);
  }

  // ---- a pump's log: 3 of 4 reachable screens in 3 entries
  await fill("states 5\ninitial 0\nforbidden 4\nresting 3\nstep 0 -> 1\nstep 1 -> 2\nstep 2 -> 3\nend\n");
  const log = join(WORK, "log");
  writeFileSync(log, Buffer.from([0, 0, 1, 0, 2, 0]));
  await browser.type("#log-file", log);
  await browser.until(() => document.querySelector("#log-answer li") !== null, "the log is walked");
  holds(
    (await browser.text("#log-answer")).includes("75"), `75 per cent: ${await browser.text("#log-answer")}`
  );
  await browser.type("#log-text", "0 1 0");
  await browser.click("#log-ask");
  holds(
    (await browser.text("#log-answer")).includes("50"),
    `a walk that breaks at its third entry: ${await browser.text("#log-answer")}`
  );

  // ---- a log that has changed is asked anew: nothing of the answer before stands below it
  await browser.type("#log-text", " 2");
  same(await browser.text("#log-answer"), "The log has changed: ask again.", "the log is another");
  await browser.click("#log-ask");
  holds((await browser.text("#log-answer")).includes("entries 4 followed 2"), "asked again");
  await browser.type("#log-file", log);
  await browser.until(() => document.getElementById("log-answer").textContent.startsWith("Of log:"), "a file");
  holds((await browser.text("#log-answer")).includes("entries 3 followed 3"), "of the file, not of the text");
  await browser.type("#log-text", " 3");
  await browser.click("#screen-add");
  same(await browser.text("#log-answer"), "The log has changed: ask again.", "after an edit, too");
  await browser.click("#undo");

  // ---- what has changed since another file
  await browser.run(() => document.getElementById("new").click());
  await fill(readFileSync("examples/pump.txt", "utf8"));
  await browser.type("#other-file", resolve("examples/pump.txt"));
  await browser.until(
    () => document.getElementById("other-answer").textContent !== "", "the other file is compared"
  );
  same(await items("#other-answer li[data-change]", "change"), [], "nothing has changed");
  await fill(
    readFileSync(
      "examples/pump.txt", "utf8"
    ).replace("forbidden over-hard-limit", "forbidden none").replace(/^end/m, "step alarm -> off\nend")
  );
  const changes = await browser.text("#other-answer");
  holds((await items("#other-answer li[data-change]", "change")).length >= 2, `two changes: ${changes}`);
  for (const words of ["alarm → off", "over-hard-limit"]) holds(changes.includes(words), `${words}: it changed`);
  same((await items("#other-answer li[data-change]", "change"))[0], ["verdict"], "the verdicts first");
  await browser.type("#other-file", resolve("examples/pump.table"));
  await browser.until(
    () => document.getElementById("other-answer").textContent.includes("pump.table"), "a file is compared"
  );
  const named = (await items("#other-answer li[data-change]", "change")).flat();
  same(named.filter((kind) => kind !== "renamed"), named, "what has no names is not renamed");
  same(named.length > 0 && named[0], "verdict", "but compared");

  // ---- another file that is refused, or has mistakes: nothing of the one before is left, and the verdict is
  const old = (await browser.run(shown)).verdict;
  for (const [name, data, words] of [
    ["wrong.txt", "states 2\ninitail 0\nforbidden 1\nend\n", "line 2"],
    ["letter.txt", "Dear drafter,\n", "not of a table"],
    ["bad.table", Buffer.from([137, 80, 78, 71, 13, 10, 26, 10, 0]), "refused"],
  ]) {
    await browser.type("#other-file", resolve("examples/pump.table"));
    await browser.until(() => document.querySelector("#other-answer li") !== null, "a file is compared");
    writeFileSync(join(WORK, name), data);
    await browser.type("#other-file", join(WORK, name));
    await browser.until(() => !document.getElementById("note").hidden, `${name} is refused`);
    const said = await browser.text("#other-answer");
    holds(said.startsWith(`${name} was not compared`) && said.includes(words), `${name}: ${said}`);
    same(await items("#other-answer li", "change"), [], `${name}: nothing of the file before is left`);
    same((await browser.run(shown)).verdict, old, `${name}: the verdict is as it was`);
    holds((await browser.run(shown)).note.startsWith(name), `${name}: the note names it`);
  }
  await fill("states 1\n");
  same(await verdict("quick"), "none", "with mistakes in the text there is no answer");
  same(await printed(), [], "of any kind");
});
end("asked", 30);
