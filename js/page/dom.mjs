// Elements. Every word from outside goes in as text, and never as markup.

/** The element of an id. */
export function $(id) {
  const found = document.getElementById(id);
  if (found === null) throw new Error(`the page has no element ${id}`);
  return found;
}

/** An element with properties, data and children; a child that is a word is text. */
export function element(name, { data = {}, aria = {}, ...properties } = {}, ...children) {
  const made = Object.assign(document.createElement(name), properties);
  Object.assign(made.dataset, data);
  for (const [key, value] of Object.entries(aria)) made.setAttribute(`aria-${key}`, value);
  made.append(...children);
  return made;
}

export const button = (words, work, properties = {}) => {
  const made = element("button", { type: "button", ...properties }, words);
  made.addEventListener("click", work);
  return made;
};

/** Several in words: "1 step", "2 steps". */
export const counted = (count, what) => `${count} ${what}${count === 1 ? "" : "s"}`;

/** A place in words: 0 is "1st". Numbers are of screens, so that neither is taken for the other. */
export function ordinal(place) {
  const number = place + 1;
  const isTeen = Math.floor(number / 10) % 10 === 1;
  return `${number}${(isTeen ? undefined : { 1: "st", 2: "nd", 3: "rd" }[number % 10]) ?? "th"}`;
}
