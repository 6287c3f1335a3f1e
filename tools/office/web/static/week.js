// @ts-check
// The week: days as columns, periods as rows. Cells stay, what is in them is drawn anew.
import { card, cardSaid } from "./card.js";
import { el, fill, find, isTyping, name } from "./dom.js";
import { heldParts, heldSaid } from "./held.js";
import { keyOf, same, slotOf } from "./numbers.js";

/** @type {Cell} */
const EMPTY = {
  lectures: [],
  mine: false,
  others: [],
  changed: "",
  now: null,
  closed: false,
  gone: [],
  working: [],
  pinned: false,
  blocked: [],
};

export class Week {
  // slots: for each day what each of its periods is called
  constructor(/** @type {NamesData} */ { days, periods, slots }, /** @type {boolean} */ canMove) {
    this.days = days;
    this.periods = periods;
    this.slots = slots;
    this.canMove = canMove;
    /** @type {Map<string, HTMLElement>} */
    this.cells = new Map();
    /** @type {SlotData} */
    this.cursor = [0, 0];
    // what is drawn
    /** @type {Map<string, CellData>} */
    this.told = new Map();
    this.build();
  }

  // what days, periods and slots are called now; they are as many as before
  /** @type {(names: NamesData) => void} */
  rename({ days, periods, slots }) {
    this.days = days;
    this.periods = periods;
    this.slots = slots;
    /** @type {(place: string, texts: string[]) => void} */
    const write = (place, texts) =>
      find("week").querySelectorAll(place).forEach((one, at) => fill(one, name(texts[at])));
    write(".day", days);
    write(".period", periods);
  }

  build() {
    const grid = find("week");
    grid.style.setProperty("--days", String(this.days.length));
    grid.style.setProperty("--periods", String(this.periods.length));
    grid.classList.toggle("dense", this.days.length > 7 || this.periods.length > 8);
    const corner = el("span", { cls: "visually-hidden" }, "period");
    const head = el(
      "div",
      { role: "row", cls: "row head" },
      el("div", { role: "columnheader", cls: "corner" }, corner),
      this.days.map((day) => el("div", { role: "columnheader", cls: "day" }, name(day)))
    );
    grid.replaceChildren(head, ...this.periods.map((label, period) => this.row(label, period)));
    this.cell(this.cursor).tabIndex = 0;
  }

  /** @type {(label: string, period: number) => HTMLElement} */
  row(label, period) {
    const cells = this.days.map((_, day) => {
      const key = keyOf([day, period]);
      const made = el("div", { role: "gridcell", tabindex: "-1", cls: "cell", data: { at: key } });
      this.cells.set(key, made);
      return made;
    });
    const head = el("div", { role: "rowheader", cls: "period" }, name(label));
    return el("div", { role: "row", cls: "row" }, head, cells);
  }

  /** @type {(slot: SlotData) => HTMLElement} */
  cell(slot) {
    return this.cells.get(keyOf(slot));
  }

  /** @type {(slot: SlotData) => string} */
  said([day, period]) {
    return this.slots[day][period];
  }

  /** @type {(slot: SlotData) => boolean} */
  isInside([day, period]) {
    return this.days[day] !== undefined && this.periods[period] !== undefined;
  }

  /** @type {(target: ?EventTarget) => ?SlotData} */
  slotAt(target) {
    /** @type {?HTMLElement} */
    const cell = target instanceof Element ? target.closest(".cell") : null;
    return cell && slotOf(cell.dataset.at);
  }

  // what was drawn at a slot
  /** @type {(slot: SlotData) => Cell} */
  at(slot) {
    return this.told.get(keyOf(slot)) || EMPTY;
  }

  // the lecture that is seen at a slot, as the office has to know it
  /** @type {(slot: SlotData) => ?Seen} */
  seen(slot) {
    const one = this.at(slot).lectures[0];
    return one ? { course: one.course, room: one.room, at: slot } : null;
  }

  /** @type {(slot: SlotData, focus: boolean) => void} */
  setCursor(slot, focus) {
    const old = this.cell(this.cursor);
    old.tabIndex = -1;
    old.classList.remove("at");
    this.cursor = slot;
    const cell = this.cell(slot);
    cell.tabIndex = 0;
    cell.classList.add("at");
    if (!focus || isTyping()) return;
    cell.focus({ preventScroll: true });
    cell.scrollIntoView({ block: "nearest", inline: "nearest" });
  }

  // draws the week, and what is offered if something is held
  /** @type {(week: WeekData, held: ?HeldData, recent?: ReadonlyMap<string, string>) => void} */
  draw(week, held, recent = new Map()) {
    this.told = new Map(week.cells.map((one) => [keyOf(one.at), one]));
    const offers = new Map((held?.slots || []).map((one) => [keyOf(one.at), one]));
    find("week").classList.toggle("holding", !!held);
    for (const [key, cell] of this.cells) {
      const slot = slotOf(key);
      const one = this.told.get(key) || EMPTY;
      const who = one.others.join(", ");
      // a hand that rests over it stays over it
      const isOver = cell.classList.contains("over");
      cell.className = "cell";
      cell.classList.toggle("over", isOver);
      cell.classList.toggle("at", same(slot, this.cursor));
      cell.classList.toggle("mine", !!one.mine);
      cell.classList.toggle("theirs", one.others.length > 0);
      cell.classList.toggle("closed", !!one.closed || one.blocked.length > 0);
      cell.classList.toggle("fresh", !!who && recent.has(key));
      const parts = held
        ? heldParts(cell, one, held, offers.get(key), week.view)
        : this.freeParts(one, week.view);
      if (who) parts.push(el("span", { cls: "who" }, name(who)));
      if (!held) parts.push(...courtesies(one));
      cell.replaceChildren(...parts);
      cell.setAttribute("aria-label", this.label(slot, one, held && offers.get(key), held, who));
    }
  }

  /** @type {(one: Cell, view: PairData) => HTMLElement[]} */
  freeParts(one, view) {
    // what stands there for all others, if that is not what is drawn
    const now = one.now && name(one.now.join(", ") || "empty");
    const news = now ? [el("div", { cls: "now" }, "now ", now)] : [];
    if (one.lectures.length) {
      /** @type {(lecture: LectureData) => HTMLElement} */
      const made = (lecture) => card(lecture, view, this.canMove, one.mine);
      return [...one.lectures.map(made), ...news];
    }
    if (now) return news;
    if (one.gone.length) return [el("div", { cls: "ghost" }, "was ", name(one.gone.join(", ")))];
    if (one.blocked.length) return one.blocked.map(blockedText);
    return one.closed ? [el("span", { cls: "closed-text" }, "closed")] : [];
  }

  /**
   * @param {SlotData} slot
   * @param {Cell} one
   * @param {?HeldSlotData} offer
   * @param {?HeldData} held
   * @param {string} who
   */
  label(slot, one, offer, held, who) {
    const was = one.gone.length ? `empty, was ${one.gone.join(", ")}` : "";
    const empty = was || (one.closed ? "closed" : "empty");
    const parts = [this.said(slot)];
    if (offer) parts.push(heldSaid(held, offer));
    parts.push(one.lectures.map(cardSaid).join("; ") || empty);
    if (one.mine) parts.push("changed in your draft");
    if (who) parts.push(`changed by ${who}`);
    if (one.pinned) parts.push("pinned");
    parts.push(...one.blocked.map(({ text }) => text));
    if (one.working.length) parts.push(`${one.working.join(", ")} works on it`);
    return parts.join(". ");
  }
}

// a slot that is blocked, and why
/** @type {(one: BlockedData) => HTMLElement} */
function blockedText({ why, text }) {
  const told = why ? [": ", name(why)] : null;
  return el("span", { cls: "closed-text blocked-text", title: text }, "blocked", told);
}

// who works on what stands in a slot, and whether it is pinned
/** @type {(one: Cell) => HTMLElement[]} */
function courtesies(one) {
  const found = [];
  if (one.pinned) found.push(el("span", { cls: "note", title: "pinned" }, "pin"));
  for (const who of one.working) {
    const title = `${who} has a draft open on it`;
    found.push(el("span", { cls: "note", title }, "@", name(who)));
  }
  return found.length ? [el("div", { cls: "notes" }, found)] : [];
}
