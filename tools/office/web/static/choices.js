// @ts-check
// A list to choose from, which narrows as one types. There may be thousands: the first ones that
// have what was typed are drawn.
import { button, el, fill, name } from "./dom.js";
import { folded, searched } from "./folding.js";

/** @type {Record<string, number>} */
const STEPS = { ArrowDown: 1, ArrowUp: -1 };
const MOST = 100;
// from so many on there is a line to type
const FEW = 6;
// what was typed last in a list of this kind
/** @type {Map<string, string>} */
const typedIn = new Map();

/** @type {(kind: string, choices: string[], choose: (at: number) => void) => HTMLElement} */
export function choiceList(kind, choices, choose) {
  /** @type {?string[]} */
  let texts = null;
  const list = el("ul", { cls: "choices" });
  const label = "Letters narrow the list";
  const value = choices.length > FEW ? typedIn.get(kind) : "";
  const input = el("input", { type: "text", autofocus: true, "aria-label": label, value });

  /** @type {() => number[]} */
  function found() {
    const words = folded(input.value).split(/\s+/).filter(Boolean);
    const all = [...choices.keys()];
    if (!words.length) return all;
    texts ??= choices.map(searched);
    return all.filter((at) => words.every((word) => texts[at].includes(word)));
  }

  /** @type {(at: number) => void} */
  function take(at) {
    typedIn.set(kind, input.value);
    choose(at);
  }

  function draw() {
    const places = found();
    /** @type {(at: number) => HTMLElement} */
    const item = (at) =>
      el("li", {}, button(`choice-${at}`, name(choices[at]), () => take(at), { cls: "choice" }));
    const rest = places.length - MOST;
    fill(
      list,
      places.slice(0, MOST).map(item),
      rest > 0 ? el("li", { cls: "more" }, `${rest} more: type on`) : null,
      places.length ? null : el("li", { cls: "more" }, "nothing has these letters")
    );
  }

  /** @type {(event: KeyboardEvent) => void} */
  function walk(event) {
    const shown = [...list.querySelectorAll("button")];
    const all = [input, ...shown];
    const at = all.indexOf(/** @type {any} */ (document.activeElement));
    const step = STEPS[event.key];
    if (step) all[Math.max(0, Math.min(all.length - 1, at + step))].focus();
    else if (event.key === "Enter" && at === 0) shown[0]?.click();
    else return;
    event.preventDefault();
  }

  input.addEventListener("input", draw);
  draw();
  return el("div", { on: { keydown: walk } }, choices.length > FEW ? input : null, list);
}
