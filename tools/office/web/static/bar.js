// @ts-check
// What can be done, by mouse and finger: a bar above the week, and a menu at a slot.
import { button, el, find, key, name } from "./dom.js";
import { openMenu } from "./menu.js";

/** @type {[string, string][]} */
const BAR = [
  ["undo", "Undo"],
  ["undo undo", "Redo"],
  ["edits", "Edits"],
  ["findings", "To mend"],
  ["history", "History"],
  ["pin", "Pin…"],
  ["block", "Block…"],
  ["put aside", "Put aside…"],
  ["variants", "Variants"],
  ["who", "Who"],
  ["print", "Print"],
  ["line", "Line…"],
  ["leave", "Leave"],
];
// at a lecture, each with its key; and at a slot without one
/** @type {[string, string, string][]} */
const AT_LECTURE = [
  ["move", "Move", "Enter"],
  ["swap", "Swap", "S"],
  ["next", "Other rooms", "O"],
  ["take out", "Take out", "X"],
  ["weeks", "Week of its course, teacher, room…", "W"],
  ["history", "History", "H"],
  ["pin", "Pin, or take the pin off", "P"],
  ["block", "Block or lift…", "Shift B"],
];
/** @type {[string, string, string][]} */
const AT_SLOT = [
  ["missing", "Place a missing lecture", "M"],
  ["history", "History of the week", "H"],
  ["block", "Block or lift…", "Shift B"],
];
/** @type {[string, string, string][]} */
const AT_HELD = [
  ["pick up", "Put it down here", "Enter"],
  ["next", "Rooms by price", "O"],
  ["lay down", "Leave it where it was", "Esc"],
];

/** @type {(keys: KeyData[], acts: Acting) => void} */
export function drawBar(keys, acts) {
  const known = new Map(keys.map((one) => [one.name, one]));
  const made = BAR.map(([id, text]) => {
    const told = known.get(id);
    const title = told ? `${told.said}: ${told.help}` : text;
    return button(id, text, () => acts.act(id), { title });
  });
  find("bar").replaceChildren(...made);
}

// what can be done at a slot
/**
 * @param {import("./week.js").Week} week
 * @param {SlotData} slot
 * @param {(name: string) => any} act
 * @param {() => void} back
 */
export function verbMenu(week, slot, act, back) {
  const lecture = week.at(slot).lectures[0];
  const isHolding = find("week").classList.contains("holding");
  const verbs = isHolding ? AT_HELD : lecture ? AT_LECTURE : AT_SLOT;
  const label = lecture ? `${lecture.told}, ${week.said(slot)}` : week.said(slot);
  const rows = verbs.map(([, text, letter]) => [
    name(text, "strong"),
    el("span", { cls: "menu-key" }, key(letter)),
  ]);
  /** @type {(at: number) => void} */
  const take = (at) => {
    back();
    act(verbs[at][0]);
  };
  openMenu(week.cell(slot), label, rows, take, back);
}
