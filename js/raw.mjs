// Generated from shuntberry.h, which has a comment for each call: do not edit.
// Constants, refusals, and the structs and calls as WebAssembly has them.

// ---- Sizes

/** The greatest n. */
export const MAX_STATES = 512;
/** The greatest g. */
export const MAX_GROUPS = 64;
/** The greatest allowance, and that of a release check. */
export const MAX_ALLOWANCE = 512;
/** Words of a set. */
export const SET_WORDS = 8;
/** Sets that stand before the groups: initial, marked and resting. */
export const HEAD_SETS = 3;
/** The least length of a store, in words. */
export const STORE_WORDS = 4632;
/** The least length of a path buffer, in 16-bit places. */
export const PATH_PLACES = 512;
/** The distance of a state from which no forbidden state can be reached. */
export const UNREACHABLE = 65535;
/** A file is whole blocks of this many bytes. */
export const BLOCK_BYTES = 512;
/** The length of the largest file, 73 blocks. */
export const FILE_BYTES = 37376;
/** The least length of the buffer for the text of a file, in bytes (check). */
export const CHECK_TEXT = 4096;
/** The greatest site number. */
export const MAX_SITE = 65520;
/** The greatest fan-out of a generated table. */
export const MAX_FAN_OUT = 16;
/** The greatest length of a pump's log, in bytes: 16,384 entries. */
export const MAX_LOG = 32768;
/** The least length of a buffer of possible steps, in words. */
export const POSSIBLE_WORDS = 4096;
/** The greatest time, in minutes: 2^31 - 1. */
export const MAX_TIME = 2147483647;
/** The greatest number of windows. */
export const MAX_WINDOWS = 32;
/** The greatest number of closed days. */
export const MAX_DAYS = 64;

// ---- Where the sets stand in a store, as the index of their first word

/** The initial set. */
export const INITIAL = 0;
/** The marked set: states that are forbidden, whether they are resting or not. */
export const MARKED = 8;
/** The resting set: states that may lead nowhere. */
export const RESTING = 16;

// ---- Refusal numbers

/** The call was not refused. */
export const ACCEPTED = 0;

// ---- Verdicts

/** No forbidden state can be reached from an initial one (decide modal: in no choice). */
export const SAFE = 0;
/** One can be reached: the path buffer shows how (decide modal: in every choice). */
export const UNSAFE = 1;
/** The allowance was used up before either was known (decide). */
export const UNDECIDED = 2;
/** None can be reached with the certain steps alone, one can with all possible steps: the path buffer shows how (decide modal). */
export const DEPENDS = 3;

// ---- What a refused call has in place of an answer

/** For a verdict (decide, decide modal). */
export const NO_VERDICT = 255;
/** For a yes or no, 1 or 0: found, within, never. */
export const NO_ANSWER = 255;
/** For n and g (read). Every call that takes n refuses this one, with 14 unless 10 or 24 comes first. */
export const NO_TABLE = 65535;
/** For the minute (next open), also if no minute is ever open: later than any that the call gives. */
export const NO_MINUTE = 4294967295;

// ---- Why a state is forbidden

/** It is not forbidden. */
export const FORBIDDEN_NOT = 0;
/** It is marked, whether it is a hang too or not. */
export const FORBIDDEN_MARKED = 1;
/** It is a hang: it has no successor, and is not resting. */
export const FORBIDDEN_HANG = 2;

/** The name and the ground of each refusal, by its number. */
export const REFUSALS = new Map([
  [10, ["STORE_SHORT", "the store has under 4,632 words, or the possible steps under 4,096"]],
  [11, ["INPUT_LENGTH", "the input's length is no multiple of 512, or over 37,376"]],
  [12, ["BLOCK_NUMBER", "a block does not hold its own number"]],
  [13, ["BLOCK_CHECK", "a block's stored check is not its check for the site"]],
  [14, ["STATES", "n is over 512, or 0 with groups, in a block or in a load"]],
  [15, ["GROUPS", "g is over 64, or a file's second number is not g + 32,768, as in the old form"]],
  [16, ["BLOCK_COUNT", "the number of blocks is not that of a file with this n and g"]],
  [17, ["STRAY_BIT", "a set, the resting one included, holds a state from n up, or a word of an unused group or row is not 0, also of the possible steps"]],
  [18, ["FILLER", "a filler byte is not 0"]],
  [19, ["OUTPUT_SHORT", "the output is shorter than the file, or in check under 4,096 bytes"]],
  [20, ["ALLOWANCE", "the allowance is over 512"]],
  [21, ["PATH_SHORT", "the path buffer has under 512 places"]],
  [22, ["FAN_OUT", "the fan-out is over 16"]],
  [23, ["DISTANCES_SHORT", "the distance buffer has fewer than n places"]],
  [24, ["SITE", "the site is over 65,520"]],
  [25, ["LOG_ODD", "the log's length is odd"]],
  [26, ["LOG_LONG", "the log has over 32,768 bytes"]],
  [27, ["STEP_STATE", "a state number of an edit is n or more"]],
  [28, ["NOT_POSSIBLE", "a certain step is not possible"]],
  [29, ["WINDOW_RANGE", "a window starts past minute 10,079 of the week, or is 0 or over 10,080 minutes long"]],
  [30, ["TOO_MANY", "there are over 32 windows or over 64 closed days"]],
  [31, ["TIME", "the time is over 2^31 - 1"]],
]);

/** The bytes of each number. */
export const SIZES = {
  uint8_t: 1,
  uint16_t: 2,
  uint32_t: 4,
  uint64_t: 8,
  size_t: 4,
};

/** The bytes of each struct, and its fields: name, kind, place, and how many, 0 for one alone. */
export const STRUCTS = {
  checked: {
    size: 24,
    fields: [
      ["length", "size_t", 0, 0],
      ["n", "size_t", 4, 0],
      ["refusal", "uint32_t", 8, 0],
      ["file_refusal", "uint32_t", 12, 0],
      ["verdict", "uint32_t", 16, 0],
      ["reserved", "uint32_t", 20, 0],
    ],
  },
  decision: {
    size: 88,
    fields: [
      ["invariant", "uint64_t", 0, 8],
      ["refusal", "uint32_t", 64, 0],
      ["verdict", "uint32_t", 68, 0],
      ["count", "uint32_t", 72, 0],
      ["size", "uint32_t", 76, 0],
      ["steps", "uint32_t", 80, 0],
      ["reserved", "uint32_t", 84, 0],
    ],
  },
  shortest: {
    size: 12,
    fields: [
      ["refusal", "uint32_t", 0, 0],
      ["found", "uint32_t", 4, 0],
      ["steps", "uint32_t", 8, 0],
    ],
  },
  within: {
    size: 8,
    fields: [
      ["refusal", "uint32_t", 0, 0],
      ["within", "uint32_t", 4, 0],
    ],
  },
  table: {
    size: 12,
    fields: [
      ["refusal", "uint32_t", 0, 0],
      ["n", "uint32_t", 4, 0],
      ["g", "uint32_t", 8, 0],
    ],
  },
  file: {
    size: 8,
    fields: [
      ["refusal", "uint32_t", 0, 0],
      ["length", "uint32_t", 4, 0],
    ],
  },
  replay: {
    size: 20,
    fields: [
      ["refusal", "uint32_t", 0, 0],
      ["followed", "uint32_t", 4, 0],
      ["seen", "uint32_t", 8, 0],
      ["percent", "uint32_t", 12, 0],
      ["remainder", "uint32_t", 16, 0],
    ],
  },
  set: {
    size: 64,
    fields: [
      ["words", "uint64_t", 0, 8],
    ],
  },
  session: {
    size: 72,
    fields: [
      ["reachable", "set", 0, 0],
      ["refusal", "uint32_t", 64, 0],
      ["reserved", "uint32_t", 68, 0],
    ],
  },
  modal: {
    size: 80,
    fields: [
      ["invariant", "uint64_t", 0, 8],
      ["refusal", "uint32_t", 64, 0],
      ["verdict", "uint32_t", 68, 0],
      ["size", "uint32_t", 72, 0],
      ["steps", "uint32_t", 76, 0],
    ],
  },
  minute: {
    size: 12,
    fields: [
      ["refusal", "uint32_t", 0, 0],
      ["never", "uint32_t", 4, 0],
      ["minute", "uint32_t", 8, 0],
    ],
  },
};

/**
 * What each call answers, and its parameters: name, kind, and of a buffer whether it is read or written.
 * A buffer's length goes with it.
 */
export const CALLS = {
  version: {
    answer: "uint32_t",
    parameters: [
    ],
  },
  check: {
    answer: "checked",
    parameters: [
      ["input", "uint8_t", "const"],
      ["site", "size_t", ""],
      ["text", "uint8_t", "mut"],
    ],
  },
  decide: {
    answer: "decision",
    parameters: [
      ["store", "uint64_t", "const"],
      ["n", "size_t", ""],
      ["g", "size_t", ""],
      ["allowance", "size_t", ""],
      ["path", "uint16_t", "mut"],
    ],
  },
  shortest_path: {
    answer: "shortest",
    parameters: [
      ["store", "uint64_t", "const"],
      ["n", "size_t", ""],
      ["g", "size_t", ""],
      ["path", "uint16_t", "mut"],
    ],
  },
  distances: {
    answer: "uint32_t",
    parameters: [
      ["store", "uint64_t", "const"],
      ["n", "size_t", ""],
      ["g", "size_t", ""],
      ["distances", "uint16_t", "mut"],
    ],
  },
  within: {
    answer: "within",
    parameters: [
      ["store", "uint64_t", "const"],
      ["n", "size_t", ""],
      ["g", "size_t", ""],
      ["k", "size_t", ""],
    ],
  },
  read: {
    answer: "table",
    parameters: [
      ["input", "uint8_t", "const"],
      ["site", "size_t", ""],
      ["store", "uint64_t", "mut"],
    ],
  },
  write: {
    answer: "file",
    parameters: [
      ["store", "uint64_t", "const"],
      ["n", "size_t", ""],
      ["g", "size_t", ""],
      ["site", "size_t", ""],
      ["output", "uint8_t", "mut"],
    ],
  },
  rewrite: {
    answer: "file",
    parameters: [
      ["input", "uint8_t", "const"],
      ["output", "uint8_t", "mut"],
    ],
  },
  generate: {
    answer: "uint32_t",
    parameters: [
      ["seed", "uint32_t", ""],
      ["n", "size_t", ""],
      ["fan_out", "size_t", ""],
      ["store", "uint64_t", "mut"],
    ],
  },
  replay: {
    answer: "replay",
    parameters: [
      ["store", "uint64_t", "const"],
      ["n", "size_t", ""],
      ["g", "size_t", ""],
      ["log", "uint8_t", "const"],
    ],
  },
  open: {
    answer: "session",
    parameters: [
      ["store", "uint64_t", "const"],
      ["n", "size_t", ""],
      ["g", "size_t", ""],
    ],
  },
  add_step: {
    answer: "session",
    parameters: [
      ["store", "uint64_t", "mut"],
      ["n", "size_t", ""],
      ["g", "size_t", ""],
      ["reachable", "set", ""],
      ["from", "size_t", ""],
      ["to", "size_t", ""],
    ],
  },
  remove_step: {
    answer: "session",
    parameters: [
      ["store", "uint64_t", "mut"],
      ["n", "size_t", ""],
      ["g", "size_t", ""],
      ["reachable", "set", ""],
      ["from", "size_t", ""],
      ["to", "size_t", ""],
    ],
  },
  decide_modal: {
    answer: "modal",
    parameters: [
      ["store", "uint64_t", "const"],
      ["n", "size_t", ""],
      ["g", "size_t", ""],
      ["possible", "uint64_t", "const"],
      ["path", "uint16_t", "mut"],
    ],
  },
  next_open: {
    answer: "minute",
    parameters: [
      ["time", "size_t", ""],
      ["windows", "uint64_t", "const"],
      ["closed_days", "uint32_t", "const"],
    ],
  },
};
