// @ts-check
// The keyboard. Letters are keys only in the week, so that they disturb nobody who types or
// dictates elsewhere.
import { pressedNow } from "./ahead.js";
import { find, isTyping } from "./dom.js";
import { isMenuOpen } from "./menu.js";
import { slotOf } from "./numbers.js";

/** @type {Record<string, [number, number]>} */
const STEPS = {
  ArrowLeft: [-1, 0],
  ArrowRight: [1, 0],
  ArrowUp: [0, -1],
  ArrowDown: [0, 1],
  Home: [-99, 0],
  End: [99, 0],
};

/** @type {(event: KeyboardEvent) => boolean} */
const isPlain = (event) => !event.ctrlKey && !event.metaKey && !event.altKey;

// what other programs take back, and make again, by these keys
/** @type {(event: KeyboardEvent) => string} */
function undoingOf({ ctrlKey, metaKey, altKey, shiftKey, key }) {
  const letter = key.toLowerCase();
  if (!(ctrlKey || metaKey) || altKey || !["z", "y"].includes(letter)) return "";
  return letter === "y" || shiftKey ? "undo undo" : "undo";
}

/** @type {(acts: Acting, keys: KeyData[]) => void} */
export function listenToKeys(acts, keys) {
  const names = new Map(keys.flatMap((one) => one.keys.map((key) => [key, one.name])));

  // the letters that were pressed last, one after another: perhaps a name that is looked for
  let run = "";

  // any other key ends it, also one that a box or a line has; not while a box may be coming
  /** @type {(event: KeyboardEvent) => void} */
  function endRun(event) {
    if (event.key.length > 1 && document.body.dataset.acts === "0") run = "";
  }

  /** @type {(event: KeyboardEvent) => void} */
  function inWeek(event) {
    if (event.key.length === 1 && isPlain(event)) run += event.key;
    pressedNow(run);
    const slot = slotOf(/** @type {HTMLElement} */ (event.target).dataset.at || "0,0");
    if (event.key === "ContextMenu" || (event.shiftKey && event.key === "F10")) {
      event.preventDefault();
      acts.menu(slot);
    }
    if (!isPlain(event) || isMenuOpen() || event.defaultPrevented) return;
    const step = STEPS[event.key];
    const name = names.get(event.key) || names.get(event.key.toLowerCase());
    if (step) acts.go(...step);
    else if (name) acts.act(name, run.slice(-40));
    else return;
    event.preventDefault();
  }

  /** @type {(event: KeyboardEvent) => void} */
  function anywhere(event) {
    if (event.defaultPrevented || isTyping() || isMenuOpen() || find("box").open) return;
    const undoing = undoingOf(event);
    if (undoing) {
      event.preventDefault();
      acts.act(undoing);
    }
    if (!isPlain(event)) return;
    if (event.key === "Escape" && acts.isHolding()) acts.act("lay down");
    else if (event.key === "/") acts.act("view");
    else if (event.key === "?") acts.act("help");
    else return;
    event.preventDefault();
  }

  find("week").addEventListener("keydown", inWeek);
  document.addEventListener("pointerdown", () => {
    run = "";
  });
  document.addEventListener("keydown", endRun, true);
  document.addEventListener("keydown", anywhere);
  find("help-button").addEventListener("click", () => acts.act("help"));
  find("skip").addEventListener("click", (event) => {
    event.preventDefault();
    acts.toWeek();
  });
}
