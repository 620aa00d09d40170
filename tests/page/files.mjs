// What is opened and saved: every file of tests/files, texts, old files, by the field, by drop and by paste;
// what is downloaded; a draft that is kept; that a page with unsaved changes asks.
import { readFileSync, readdirSync, rmSync, writeFileSync } from "node:fs";
import { join, resolve } from "node:path";
import { WORK, anew, downloaded, downloads, end, holds, onPage, same, shown, wordFor } from "./support.mjs";

const files = resolve("tests/files");
const note = () => (
  document.getElementById("note").hidden ? null : document.getElementById("note-words").textContent
);
const title = () => document.getElementById("title").value;
/** Whether the browser would ask before the page is left. */
const asks = () => !dispatchEvent(new Event("beforeunload", { cancelable: true }));

/** A file by the page's field: until something of it is shown or said. */
async function open(browser, file) {
  await browser.run(() => {
    document.getElementById("note-close").click();
    globalThis.before = document.getElementById("verdict").dataset.edit;
  });
  await browser.type("#open-file", file);
  await browser.until(
    () => document.getElementById("verdict").dataset.edit !== globalThis.before ||
      !document.getElementById("note").hidden,
    `${file} is opened or refused`,
  );
}

await onPage(async (browser) => {
  // ---- every file: the verdict of what check must print of it, or the number of the refusal
  let opened = 0;
  const said = { safe: 0, unsafe: 0, refused: 0, old: 0 };
  for (const name of readdirSync(files).filter((one) => one.endsWith(".table"))) {
    const [
      first, second, third
    ] = readFileSync(join(files, name.replace(".table", ".expected")), "utf8").split("\n");
    await browser.click("#new");
    await open(browser, join(files, name));
    const found = await browser.run(shown);
    const words = await browser.run(note);
    opened++;
    if (first === "refused 15" && words.includes("old form")) {
      said.old++;
      same(found.verdict, "draft", `${name}: an old file is not taken for a table`);
    } else if (first.startsWith("refused")) {
      said.refused++;
      holds(words.includes(`${first}:`), `${name}: ${first}, and not ${words}`);
      same(found.verdict, "draft", `${name}: nothing of it is shown`);
    } else {
      const [verdict] = second.split(" ");
      said[verdict]++;
      holds(
        [verdict, "vacuous", "draft"].includes(found.verdict) && wordFor(found) === found.word,
        `${name}: ${found.verdict}`
      );
      if (verdict === "unsafe") same(found.verdict, "unsafe", name);
      if (verdict === "unsafe") same(found.path, third.split(" ").slice(1).map(Number), `${name}: the path`);
      same(found.states.length, Number(first.split(" ")[1]), `${name}: its screens`);
    }
  }
  holds(Math.min(...Object.values(said)) > 0, `files of each kind: ${JSON.stringify(said)}`);
  holds(opened > 70, `only ${opened} files`);

  // ---- an old file is rewritten
  await browser.click("#new");
  await open(browser, join(files, "old-d.table"));
  holds((await browser.run(note)).includes("rewrite"), "it says how it is rewritten");
  holds((await browser.run(note)).startsWith("old-d.table: "), "and which file it is");
  holds((await browser.run(title)) !== "old-d", "the draft has its own name until then");
  await browser.click("#note-actions button");
  holds((await browser.run(shown)).states.length > 0, "and the button does it");

  // ---- a text of the example, and a site of another file
  await browser.click("#new");
  await open(browser, resolve("examples/pump.txt"));
  same((await browser.run(shown)).verdict, "safe", "a text");
  same(await browser.run(title), "pump", "its name");
  same(await browser.run(asks), false, "what was opened is not unsaved");
  const site = join(WORK, "site.table");
  writeFileSync(site, readFileSync(process.env.SITE_17));
  await browser.click("#new");
  await open(browser, site);
  holds((await browser.run(note)).includes("refused 13:"), "another site's file is refused");
  for (const words of ["site.table was not opened", "still the draft from before"]) {
    holds((await browser.run(note)).includes(words), `${words}: ${await browser.run(note)}`);
  }
  same(await browser.run(title), "pump", "the draft has its name still");
  await browser.run(() => { document.getElementById("site").value = "17"; });
  await open(browser, site);
  same((await browser.run(shown)).verdict, "safe", "with its site it is opened");
  await browser.run(() => { document.getElementById("site").value = "0"; });

  // ---- what is no table says why
  for (const [name, data, words] of [
    ["letter.txt", "Dear drafter,\nthis is a letter.\n", "not of a table"],
    ["picture.png", Buffer.from([137, 80, 78, 71, 13, 10, 26, 10, 0]), "refused"],
  ]) {
    writeFileSync(join(WORK, name), data);
    await browser.click("#new");
    await open(browser, join(WORK, name));
    holds((await browser.run(note)).includes(words), `${name}: ${await browser.run(note)}`);
    same((await browser.run(shown)).verdict, "draft", `${name} is no table`);
  }
  writeFileSync(join(WORK, "cut.txt"), readFileSync("examples/pump.txt", "utf8").replace(/end\n$/, ""));
  await browser.click("#new");
  await open(browser, join(WORK, "cut.txt"));
  const cut = await browser.run(shown);
  same([cut.verdict, cut.path], ["mistakes", null], "a text that was cut has mistakes, and no verdict");

  await browser.click("#undo");
  same((await browser.run(shown)).verdict, "draft", "undo takes the opened text away, with its mistakes");
  await browser.click("#redo");
  same((await browser.run(shown)).verdict, "mistakes", "and redo brings it back");
  await browser.run(() => { // typed at, it is still one with mistakes
    const field = document.getElementById("text");
    field.value = `x${field.value}`;
    field.dispatchEvent(new Event("input", { bubbles: true }));
  });
  await browser.click("#text-back");
  same((await browser.run(shown)).verdict, "draft", "the last text without mistakes was none");

  // ---- undo of what was opened gives the draft before its name again
  await browser.click("#example");
  same(await browser.run(title), "example", "the example has its name");
  await open(browser, resolve("examples/pump.txt"));
  await open(browser, join(WORK, "cut.txt"));
  const titles = [await browser.run(title)];
  for (const id of ["undo", "undo", "redo", "redo", "undo"]) {
    await browser.click(`#${id}`);
    titles.push(await browser.run(title));
  }
  same(titles, ["cut", "pump", "example", "pump", "cut", "pump"], "the names go with the drafts");

  // ---- drop and paste
  const give = (kind, text) => {
    const data = new DataTransfer();
    if (kind === "drop") data.items.add(new File([text], "dropped.txt"));
    else data.setData("text/plain", text);
    const event = kind === "drop" ? new DragEvent(
      "drop", { dataTransfer: data, bubbles: true, cancelable: true }
    )
      : new ClipboardEvent("paste", { clipboardData: data, bubbles: true, cancelable: true });
    document.body.dispatchEvent(event);
  };
  for (const kind of ["drop", "paste"]) {
    await browser.click("#new");
    await browser.run(give, kind, "states 2\ninitial 0\nforbidden 1\nresting none\nstep 0 -> 1\nend\n");
    await browser.until(
      () => document.getElementById("verdict").dataset.verdict === "unsafe", `a text by ${kind}`
    );
  }

  // ---- save: the text, the file, the picture
  await browser.click("#new");
  await browser.click("#example");
  await browser.click("#save-text");
  same(
    String(await downloaded("example.txt")), readFileSync("examples/pump.txt", "utf8"),
    "the text is the one that was opened"
  );
  await browser.click("#save-file");
  same(
    (await downloaded("example.table")).toString("hex"), readFileSync("examples/pump.table").toString("hex"),
    "the file of the example"
  );
  const told = await browser.run(note);
  holds(told.includes("numbers only, no names") && told.includes("save the text too"), `what it has: ${told}`);
  await browser.click("#save-svg");
  const svg = String(await downloaded("example.svg"));
  for (
    const name of ["off", "set-rate", "running", "forbidden", "resting"]
  ) holds(svg.includes(name), `the picture has ${name}`);
  const drawn = await browser.run((text) => {
    const page = new DOMParser().parseFromString(text, "image/svg+xml");
    const all = [...page.querySelectorAll("*")];
    return {
      root: page.documentElement.localName, boxes: page.querySelectorAll("g[data-state]").length,
      steps: page.querySelectorAll("path[data-step]").length,
      kinds: [...new Set(all.map((one) => one.localName))].sort(),
      odd: all.flatMap((one) => [...one.attributes]).filter(
        ({ name, value }) => /^on|href|style/.test(name) || /:\/\//.test(value) && name !== "xmlns"
      ).length,
    };
  }, svg);
  same(
    [drawn.root, drawn.boxes, drawn.steps, drawn.odd], ["svg", 9, 14, 0],
    "the picture as a file that stands alone"
  );
  holds(
    !drawn.kinds.some((kind) => ["script", "image", "foreignObject", "use", "a", "style"].includes(kind)),
    `of plain shapes: ${drawn.kinds}`
  );
  for (const words of ["example", "safe. No forbidden screen"]) holds(svg.includes(words), `above it: ${words}`);
  same(await browser.run(asks), false, "saved");

  // ---- a file for a site has it in its name; one of a draft with options is asked for by name
  const choose = (id, to) => browser.run((field, value) => {
    document.getElementById(field).value = value;
    document.getElementById(field).dispatchEvent(new Event("change", { bubbles: true }));
  }, id, to);
  await choose("site", "17");
  await browser.click("#save-file");
  same(
    (await downloaded("example-site-17.table")).toString("hex"),
    readFileSync(process.env.SITE_17).toString("hex"), "the file for site 17"
  );
  await choose("site", "0");
  const [SERVICE, LIMIT] = [8, 7];
  const option = `possible running -> ${SERVICE} ${LIMIT}\nend`;
  const withOption = readFileSync("examples/pump.txt", "utf8").replace(/^end/m, option);
  await browser.run(give, "paste", withOption);
  await browser.until(() => document.getElementById("verdict").dataset.verdict === "depends", "with options");
  await browser.click("#save-file");
  holds((await browser.run(note)).includes("choose"), `it is asked which steps: ${await browser.run(note)}`);
  same(readdirSync(downloads).filter((name) => /option/.test(name)), [], "and nothing is saved");
  const stepsTo = async (name, state) => {
    await open(browser, join(downloads, name));
    const steps = await browser.run(() => document.querySelector("#list tr[data-state='4'] .steps").textContent);
    return steps.split(", ").includes(String(state));
  };
  for (const [which, name, isIn, words] of [
    ["certain", "example-without-options.table", false, "option brings, left out: "],
    ["all", "example-with-options.table", true, "none was left out: "],
  ]) {
    await browser.run(give, "paste", withOption);
    await browser.until(() => document.getElementById("verdict").dataset.verdict === "depends", "with options");
    same(await browser.run(() => document.getElementById("save-which").value), "", "the choice is made anew");
    await choose("title", "example");
    await choose("save-which", which);
    await browser.click("#save-file");
    await downloaded(name);
    const said = await browser.run(note);
    holds(said.includes(`${words}running → over-hard-limit, running → service.`), `${which}: ${said}`);
    const steps = [await stepsTo(name, LIMIT), await stepsTo(name, SERVICE)];
    same(steps, [isIn, isIn], `the steps of the file, ${which}`);
  }
  await browser.click("#new");
  await browser.click("#example");

  // ---- unsaved changes: the page asks
  await browser.type("#screen-new", "one-more");
  await browser.click("#screen-add");
  same(await browser.run(asks), true, "a change that is not saved");
  await browser.click("#undo");
  same(await browser.run(asks), false, "a change that was undone");
  await browser.click("#redo");
  rmSync(join(downloads, "example.txt"));
  await browser.click("#save-text");
  holds(String(await downloaded("example.txt")).includes("one-more"), "the text with the change");
  same(await browser.run(asks), false, "the text was saved");

  // ---- the last draft is there again, where that was switched on
  const kept = () => localStorage.length;
  same(await browser.run(kept), 0, "nothing is kept unasked");
  await browser.click("#keep");
  await browser.type("#screen-new", "kept-screen");
  await browser.click("#screen-add");
  holds((await browser.run(kept)) > 0, "kept");
  await anew(browser);
  same((await browser.run(shown)).verdict, "draft", "a new page has no table");
  await browser.click("#offer-take");
  holds(
    await browser.run(() => document.getElementById("list").textContent.includes("kept-screen")),
    "it is there again"
  );
  same(await browser.run(asks), true, "and it is not saved yet");
  await browser.click("#keep");
  same(await browser.run(kept), 0, "switched off, nothing is kept");
});
end("open and save", 180);
