// Is a forbidden state of a dialogue table reachable, and by which steps? The proved source in WebAssembly.
import { Mistakes, Refused, Trapped, UnknownAnswer } from "./answers.mjs";
import { calls } from "./calls.mjs";
import { Engine } from "./engine.mjs";
import { bytesOf } from "./tables.mjs";

export { Mistakes, Refused, Trapped, UnknownAnswer };
export {
  FILE_BYTES, MAX_ALLOWANCE, MAX_DAYS, MAX_FAN_OUT, MAX_GROUPS, MAX_LOG, MAX_SITE, MAX_STATES, MAX_TIME,
  MAX_WINDOWS,
} from "./raw.mjs";

/** The module that stands beside this file. */
async function beside() {
  const url = new URL("shuntberry.wasm", import.meta.url);
  if (url.protocol !== "file:") return fetch(url);
  try {
    const { readFile } = await import("node:fs/promises");
    return await readFile(url);
  } catch (cause) {
    throw new Error("shuntberry.wasm cannot be read beside the module: give load its bytes", { cause });
  }
}

/** What was given, compiled. */
async function compiled(source) {
  if (source instanceof WebAssembly.Module) return source;
  if (typeof Response === "undefined" || !(source instanceof Response)) {
    return WebAssembly.compile(bytesOf(source, "shuntberry.wasm"));
  }
  if (!source.ok) throw new Error(`shuntberry.wasm was not got: status ${source.status}`);
  return WebAssembly.compile(await source.arrayBuffer());
}

let ours;

/** The calls: of the module beside this file, or of one that is given. */
export function load(...given) {
  if (given.length > 0) return make(given[0]);
  ours ??= make(beside()).catch((error) => {
    ours = undefined;
    throw error;
  });
  return ours;
}

async function make(source) {
  return Object.freeze(calls(new Engine(await compiled(await source))));
}
