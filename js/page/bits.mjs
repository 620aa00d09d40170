// Sets of screens as the bytes of a store: screen s is the bit of value 2^(s % 8) in byte s / 8. A set that
// was handed out is never written to.
import { MAX_STATES } from "../shuntberry.mjs";

export const SET_BYTES = MAX_STATES / 8;
export const EMPTY = new Uint8Array(SET_BYTES);

export const has = (set, s) => ((set[s >> 3] >> (s & 7)) & 1) === 1;

/** The set with a screen in it, or without it; the same set where that is so already. */
export function put(set, s, isIn) {
  if (has(set, s) === isIn) return set;
  const other = set.slice();
  other[s >> 3] ^= 1 << (s & 7);
  return other;
}

/** The screens of a set, in order. */
export function members(set) {
  const found = [];
  for (let byte = 0; byte < set.length; byte++) {
    for (let bits = set[byte]; bits !== 0; bits &= bits - 1) {
      found.push(8 * byte + 31 - Math.clz32(bits & -bits));
    }
  }
  return found;
}

export const setOf = (states) => {
  const set = new Uint8Array(SET_BYTES);
  for (const s of states) set[s >> 3] |= 1 << (s & 7);
  return set;
};

export const isEmpty = (set) => set === EMPTY || set.every((byte) => byte === 0);
export const isSame = (a, b) => a === b || a.every((byte, k) => byte === b[k]);
export const union = (a, b) => (isEmpty(b) ? a : a.map((byte, k) => byte | b[k]));

/** The set when a screen goes and those behind it move up by one. */
export const without = (set, gone) =>
  setOf(members(set).filter((s) => s !== gone).map((s) => (s > gone ? s - 1 : s)));
