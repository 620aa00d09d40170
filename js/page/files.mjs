// What is opened and saved, all by the browser's own fields and downloads; nothing is fetched.
import { MAX_SITE } from "../shuntberry.mjs";
import { $, counted } from "./dom.mjs";
import { NotDone, draftOf, draftOfText } from "./model.mjs";

const KEY = "shuntberry-draft";
const STATED = /^(states?|initial|forbidden|resting|group|step|possible)$/;
/** The number of the refusal of a file of versions 1 to 3. */
const OLD_FORM = 15;
const NEW_FORM = 0x80;

const NO_TABLE = "this is a text, but not of a table: its first word is none of states, state, initial, " +
  "forbidden, resting, group, step, possible";
const OTHER_SITE = "this file is of the old form (versions 1 to 3), which is rewritten for site 0 alone: have " +
  "it saved anew by the program that made it";

/** What to look at in a file that is refused, by the number, from the header. */
let hints = new Map();
export function setHints(table) {
  const rows = table.split("\n").filter((line) => /^[0-9]/.test(line)).map((line) => line.split("|"));
  hints = new Map(rows.map(([number, , hint]) => [Number(number), hint]));
}

/** Bytes as text, if they are such: UTF-8, or what an editor of Windows saves as Unicode. */
function textIn(bytes) {
  const [a, b] = bytes;
  const coding = a === 0xff && b === 0xfe ? "utf-16le" : a === 0xfe && b === 0xff ? "utf-16be" : "utf-8";
  try {
    const text = new TextDecoder(coding, { fatal: true }).decode(bytes);
    return text.includes("\0") ? null : text;
  } catch {
    return null;
  }
}

/** Whether a text says anything of a table: its first word that is no comment. */
function saysFacts(text) {
  const words = text.split("\n").map((line) => line.split("#")[0].trim()).find(Boolean)?.split(/\s/);
  return words !== undefined && STATED.test(words[0]);
}

function refusal(error) {
  const hint = hints.get(error.number);
  return `refused ${error.number}: ${error.ground}${hint ? `; ${hint}` : ""}`;
}

/** What bytes are: `{draft}` of a file, `{text}` that may have mistakes, `{rewritten}` of an old file; else
 * an error says why they are nothing of it. */
export function opened(library, bytes, site) {
  if (bytes.length === 0) return { draft: draftOf(library.read(bytes, site)), isEmpty: true };
  try {
    return { draft: draftOf(library.read(bytes, site)) };
  } catch (error) {
    if (error.name !== "Refused") throw error;
    const text = textIn(bytes);
    if (text !== null && saysFacts(text)) return { text };
    if (error.number === OLD_FORM && bytes[5] < NEW_FORM) return old(library, bytes, site);
    throw new NotDone(text === null ? refusal(error) : NO_TABLE);
  }
}

function old(library, bytes, site) {
  if (site !== 0) throw new NotDone(OTHER_SITE);
  try {
    return { rewritten: draftOf(library.read(library.rewrite(bytes), 0)) };
  } catch (error) {
    if (error.name !== "Refused") throw error;
    throw new NotDone(`this file is of the old form, and cannot be rewritten: ${refusal(error)}`);
  }
}

export async function bytesOfFile(file) {
  const LONGEST = 64 << 20;
  if (file.size > LONGEST) throw new NotDone("this file is far too long for a table");
  try {
    return new Uint8Array(await file.arrayBuffer());
  } catch {
    throw new NotDone("the file cannot be read: is it a folder, or was it taken away?");
  }
}

/** The draft of another file, for what has changed. */
export function otherDraft(library, bytes, site) {
  const found = opened(library, bytes, site);
  if (found.text === undefined) return found.draft ?? found.rewritten;
  try {
    return draftOfText(library, found.text);
  } catch (error) {
    if (!Array.isArray(error.mistakes)) throw error;
    const mistakes = error.mistakes.map(({ line, reason }) => `line ${line}: ${reason}`).join("; ");
    throw new NotDone(`its text has ${counted(error.count, "mistake")}: ${mistakes}`);
  }
}

/** The number of the site in its field. */
export function site() {
  const words = $("site").value.trim();
  const number = /^[0-9]{1,5}$/.test(words) ? Number(words) : MAX_SITE + 1;
  if (number > MAX_SITE) throw new NotDone(`a site is a number from 0 to ${MAX_SITE}`);
  return number;
}

/** Hands a file to the browser, to be saved under a name. */
export function download(name, kind, data) {
  const url = URL.createObjectURL(new Blob([data], { type: kind }));
  const link = document.createElement("a");
  Object.assign(link, { href: url, download: name });
  link.click();
  const LONG_ENOUGH = 60_000;
  setTimeout(() => URL.revokeObjectURL(url), LONG_ENOUGH);
}

/** The name of the draft, as a file's. */
export const fileName = () =>
  $("title").value.trim().replace(/[^\p{L}\p{N}._-]+/gu, "-").replace(/^[-.]+/, "") || "draft";

// ---- the draft that is kept in the browser, where that was switched on

const storage = () => {
  try {
    return globalThis.localStorage ?? null;
  } catch {
    return null; // it may be forbidden
  }
};

/** Keeps a text; false where the browser does not. */
export function keep(text) {
  try {
    storage().setItem(KEY, text);
    return true;
  } catch {
    return false;
  }
}

/** What was kept: its title and its text. */
export function kept() {
  try {
    const { title, text } = JSON.parse(storage().getItem(KEY));
    return typeof title === "string" && typeof text === "string" ? { title, text } : null;
  } catch {
    return null; // nothing is there, or nothing of ours
  }
}

export function forget() {
  try {
    storage().removeItem(KEY);
  } catch {
    // then nothing was kept
  }
}
