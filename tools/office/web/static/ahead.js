// @ts-check
// What is typed in the week behind a key that opens a box, before the box has come: it was meant
// for the box.
import { find } from "./dom.js";

// the letters that were pressed in the week, and those of them up to the key
let run = "";
let opening = "";

/** @type {(letters: string) => void} */
export function pressedNow(letters) {
  run = letters;
}

/** @type {(letters: string) => void} */
export function opensBy(letters) {
  opening = letters;
}

// what was typed behind the key; it is taken once
export function takeAhead() {
  const found = opening && run.startsWith(opening) ? run.slice(opening.length) : "";
  opening = "";
  return found;
}

// what was typed for a line is gone on with
/** @type {(why: WhyData) => void} */
export function goOn({ doubt, text }) {
  if (doubt || !text) find("why").setSelectionRange(-1, -1);
}
