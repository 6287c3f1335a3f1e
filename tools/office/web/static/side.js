// @ts-check
// The panels beside the week: the draft, what is missing, what is blocked; and who sits.
import { button, el, find, key, name, refill } from "./dom.js";
import { counted, delta, sum } from "./numbers.js";

// so many courses are listed
const COURSES = 60;

/** @type {(text: string, count?: number) => HTMLElement} */
export const title = (text, count) =>
  el("h2", {}, text, count === undefined ? null : el("span", { cls: "count" }, String(count)));

// who sits

/** @type {(seat: number) => string} */
const hueOf = (seat) => String((seat * 137 + 300) % 360);
/** @type {(text: string) => string} */
const initials = (text) =>
  text
    .split(/\s+/)
    .map((word) => [...word][0] || "")
    .slice(0, 2)
    .join("")
    .toUpperCase();

/** @type {(seat: number, who: string, cls?: string) => HTMLElement} */
export function face(seat, who, cls = "") {
  const css = { "--hue": hueOf(seat) };
  return el("span", { cls: `face ${cls}`, "aria-hidden": "true", css }, initials(who) || "?");
}

/** @type {(people: PersonData[], day: HelloData) => void} */
export function drawPeople(people, day) {
  const items = people.map(({ seat, who, title: told }) =>
    el(
      "li",
      { cls: seat === day.seat ? "person me" : "person", title: told },
      face(seat, who),
      name(who),
      seat === day.seat ? " (you)" : null
    )
  );
  find("people").replaceChildren(...items);
}

// the draft

/** @type {(edit: { text: string, price?: ?number }, more?: ?HTMLElement) => HTMLElement} */
const editItem = (edit, more) => {
  const price = edit.price ?? null;
  const told = price === null ? null : delta(price);
  return el("li", {}, name(edit.text), told, more);
};

/** @type {(app: Known, acts: Acting) => void} */
export function drawDraft({ picture }, acts) {
  const { draft, ended } = picture.state;
  const box = find("draft");
  /** @type {(id: string, text: any, more?: object) => HTMLElement} */
  const act = (id, text, more) => button(id, text, () => acts.act(id), more);
  if (ended.length) {
    return refill(
      box,
      title("Your last draft", ended.length),
      el("p", { cls: "hint" }, "Nothing is lost. Decide on its edits before you go on."),
      el("ol", { cls: "edits" }, ended.map((text) => editItem({ text }))),
      el(
        "div",
        { cls: "buttons" },
        act("redo", ["Make them again ", key("R")], { cls: "primary" }),
        act("abandon", ["Give up… ", key("A")])
      )
    );
  }
  if (!draft) {
    const hint = "The first edit opens a draft. Others see it when you commit it.";
    return refill(box, title("Your draft"), el("p", { cls: "hint" }, hint));
  }
  const { edits, taken_back: gone, left_out: left, stale_preview: stale } = draft;
  const last = edits.length - 1;
  /** @type {(edit: EditData, at: number) => HTMLElement} */
  const undo = ({ edit }, at) =>
    button(`undo ${at}`, "Undo", () => acts.takeBack(at, edit), {
      cls: "link",
      title: at === last ? "U or Ctrl-Z" : "takes this edit back",
    });
  /** @type {(edit: EditData) => HTMLElement} */
  const again = ({ edit }) =>
    button(`again ${edit}`, "Make again", () => acts.makeOne(edit), { cls: "link" });
  refill(
    box,
    title("Your draft", edits.length),
    el("ol", { cls: "edits" }, edits.map((edit, at) => editItem(edit, undo(edit, at)))),
    gone.length ? el("h3", {}, "Taken back") : null,
    gone.length ? el("ul", { cls: "gone" }, gone.map((one) => editItem(one, again(one)))) : null,
    left.length ? [el("h3", {}, "Not made again"), el("ul", {}, left.map(told))] : null,
    el(
      "div",
      { cls: "buttons" },
      act("commit", ["Commit… ", key("C")], { cls: "primary", disabled: !edits.length }),
      act("refresh", ["Bring up to date ", key("F")]),
      act("abandon", ["Give up… ", key("A")])
    ),
    // always there, so that what is below stays where it is when others commit
    el("p", { cls: stale ? "stands warn" : "stands" }, name(stale || STANDS))
  );
}

const STANDS = "Nothing that it stands on has changed.";
/** @type {(text: string) => HTMLElement} */
export const told = (text) => el("li", {}, name(text));

// what is missing

/** @type {(app: Known, acts: Acting) => void} */
export function drawMissing({ picture }, acts) {
  const { missing } = picture.state;
  const box = find("missing");
  const count = sum(missing.map((one) => one.count));
  box.hidden = count === 0 && !box.contains(document.activeElement);
  /** @type {(one: MissingData) => HTMLElement} */
  const card = (one) =>
    button(
      one.course,
      [
        el(
          "span",
          { cls: "line" },
          name(one.said, "course"),
          el("span", { cls: "grip", "aria-hidden": "true" }, "⠿")
        ),
        el("span", { cls: "line place" }, `${one.count} missing`, name(one.teacher_said)),
        one.stood.map((place) =>
          el("span", { cls: "line foot" }, el("span", {}, "stood on ", name(place)))
        ),
        el("span", { cls: "line foot" }, counted(one.students, "student")),
      ],
      () => acts.place(one.course),
      {
        cls: "card",
        css: { "--hue": one.hue },
        data: { missing: one.course, id: one.course },
        title: one.told,
        "aria-label": `Pick up ${one.told}, ${one.count} missing, ${one.students} students`,
      }
    );
  const rest = missing.length - COURSES;
  refill(
    box,
    title("Missing lectures", count),
    el("ul", { cls: "to-place" }, missing.slice(0, COURSES).map((one) => el("li", {}, card(one)))),
    rest > 0 ? el("p", { cls: "hint" }, `and ${rest} other courses`) : null
  );
}

// what is blocked, below all others, so that it moves none

/** @type {(app: Known) => void} */
export function drawBlocked({ picture }) {
  const { blocked } = picture.state;
  const box = find("blocked");
  box.hidden = blocked.length === 0;
  refill(box, title("Blocked", blocked.length), el("ul", {}, blocked.map(told)));
}
