// @ts-check
// The panel about the lecture at the cursor, or about the one that is held.
import { button, el, find, key, name, refill } from "./dom.js";

/** @typedef {import("./week.js").Week} Week */

/** @type {(text: string) => HTMLElement} */
const line = (text) => el("p", { cls: "told" }, name(text));
/** @type {(text: string, more: string) => HTMLElement} */
const title = (text, more) =>
  el("div", { cls: "who-line" }, name(text, "big"), el("span", { cls: "where" }, more));

/**
 * @param {Acting} acts
 * @param {string} id
 * @param {string} text
 * @param {string} letter
 */
function act(acts, id, text, letter, more = {}) {
  return button(id, [text, " ", key(letter)], () => acts.act(id), more);
}

/** @type {(held: HeldData, acts: Acting) => HTMLElement[]} */
function heldParts(held, acts) {
  const isSwap = held.kind === "swap";
  const [id, text] = isSwap ? ["move", "Move"] : ["swap", "Swap"];
  const more = isSwap ? "is held, to swap" : "is held";
  return [
    el("div", { css: { "--hue": held.hue } }, title(held.said, more)),
    line(held.about),
    el("p", { cls: "hint" }, held.hint),
    el(
      "div",
      { cls: "buttons" },
      held.best ? act(acts, "cheapest", "Cheapest", "B", { cls: "primary" }) : null,
      held.at ? act(acts, id, text, "S") : null,
      act(acts, "lay down", "Leave it", "Esc")
    ),
  ];
}

/** @type {(about: AboutLectureData, seen: PairData, here: LectureData, acts: Acting) => any[]} */
function chosenParts(about, seen, here, acts) {
  /** @type {(view: PairData) => boolean} */
  const isSeen = (view) => view.join() === seen.join();
  const weeks = about.weeks.map(([view, said]) =>
    button(view.join(), name(said), () => acts.show(view), {
      cls: "link",
      "aria-current": isSeen(view) ? "true" : null,
    })
  );
  return [
    el("div", { css: { "--hue": here.hue } }, title(about.said, about.where)),
    about.lines.map(line),
    el(
      "div",
      { cls: "buttons" },
      act(acts, "move", "Move", "Enter", { cls: "primary" }),
      act(acts, "swap", "Swap", "S"),
      act(acts, "next", "Room", "O"),
      act(acts, "take out", "Take out", "X")
    ),
    el("div", { cls: "weeks" }, el("span", { cls: "label" }, "Week of"), weeks),
    // at the end, so that no button moves when others do something
    about.notices.map(line),
  ];
}

/**
 * @param {PictureData} picture
 * @param {?AboutLectureData} about
 * @param {Week} week
 * @param {Acting} acts
 */
export function drawInspector({ held, week: { view } }, about, week, acts) {
  const box = find("inspector");
  if (held) return refill(box, ...heldParts(held, acts));
  const here = week.at(week.cursor).lectures[0];
  if (here && about?.course === here.course) {
    return refill(box, ...chosenParts(about, view, here, acts));
  }
  // what is about to be told takes the same room
  if (here) return refill(box, el("div", { css: { "--hue": here.hue } }, title(here.said, "")));
  const { changed, blocked } = week.at(week.cursor);
  return refill(
    box,
    el("h2", {}, name(week.said(week.cursor))),
    changed ? line(changed) : null,
    blocked.map(({ text }) => line(text)),
    el("p", { cls: "hint" }, "Nothing stands here. Choose a lecture and press ", key("Enter")),
    el("p", { cls: "hint" }, "to see what each slot costs, or drag it there.")
  );
}
