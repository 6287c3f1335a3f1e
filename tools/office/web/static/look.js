// @ts-check
// The cursor, and what is known of the lecture at it.
import { el, fill, find, key, name } from "./dom.js";
import { heldSaid } from "./held.js";
import { drawInspector } from "./inspector.js";
import { ask } from "./link.js";
import { same } from "./numbers.js";

// so long the cursor rests before the office is asked
const REST = 60;

/** @type {(cls: string, sign: string, text: string) => HTMLElement} */
const legend = (cls, sign, text) => el("span", {}, el("span", { cls: `sign ${cls}` }, sign), text);

export class Look {
  /**
   * @param {Known} app
   * @param {import("./week.js").Week} week
   */
  constructor(app, week) {
    this.app = app;
    this.week = week;
    // what is done by its buttons, as soon as that is known
    /** @type {?Acting} */
    this.acts = null;
    // when the office is asked about the lecture at the cursor, and what it has said of it
    this.later = 0;
    /** @type {?AboutLectureData & { wanted: string }} */
    this.about = null;
    // the place of the offer that is meant in the cursor's slot, if one was chosen
    /** @type {?number} */
    this.place = null;
  }

  get held() {
    return this.app.picture.held;
  }

  /** @type {(days: number, periods: number) => void} */
  go(days, periods) {
    const { cursor, days: all, periods: rows } = this.week;
    /** @type {(at: number, count: number) => number} */
    const inside = (at, count) => Math.max(0, Math.min(count - 1, at));
    this.goTo([inside(cursor[0] + days, all.length), inside(cursor[1] + periods, rows.length)]);
  }

  /** @type {(slot: SlotData, place?: ?number) => void} */
  goTo(slot, place = null) {
    this.place = place;
    this.week.setCursor(slot, true);
    if (this.held) this.drawTray();
    else this.choose();
  }

  // a mouse or a finger is over a slot
  /** @type {(slot: SlotData) => void} */
  hover(slot) {
    this.place = null;
    this.week.setCursor(slot, false);
    if (this.held) this.drawTray();
  }

  // the cursor goes to the first lecture of a week, or stays if it is at one
  toFirst() {
    const cells = this.app.picture.week.cells.filter((cell) => cell.lectures.length);
    const isAtOne = cells.some((cell) => same(cell.at, this.week.cursor));
    if (!this.held && cells.length && !isAtOne) this.week.setCursor(cells[0].at, false);
    this.choose();
  }

  // asks what is known of the lecture at the cursor, once it rests there
  choose() {
    const lecture = this.held ? null : this.week.seen(this.week.cursor);
    const wanted = lecture && JSON.stringify([lecture, this.app.picture.number]);
    clearTimeout(this.later);
    if (!lecture || this.about?.course !== lecture.course) this.about = null;
    this.draw();
    if (!lecture || this.about?.wanted === wanted) return;
    this.later = setTimeout(async () => {
      const found = await ask("about", { lecture }).catch(() => null);
      if (!found?.about || !same(lecture.at, this.week.cursor)) return;
      this.about = { ...found.about, wanted };
      this.draw();
    }, REST);
  }

  draw() {
    drawInspector(this.app.picture, this.about, this.week, this.acts);
  }

  // the line below the week
  drawTray() {
    const { held, week } = this;
    if (!held) {
      fill(
        find("tray"),
        legend("short", "● 9", " students without a seat"),
        legend("alone", "○ 2", " points for standing alone"),
        el("span", { cls: "keys-hint" }, key("Enter"), " picks up, ", key("?"), " all keys")
      );
      return;
    }
    const offer = held.slots.find((one) => same(one.at, week.cursor));
    const can = offer.offers.length > 0 || same(offer.at, held.at);
    const more = held.kind === "swap" ? " others" : " rooms";
    fill(
      find("tray"),
      el("strong", {}, name(week.said(week.cursor))),
      el("span", { cls: can ? "" : "no" }, name(heldSaid(held, offer, this.place))),
      el(
        "span",
        { cls: "keys-hint" },
        ...(can ? [key("O"), `${more}, `] : []),
        key("Enter"),
        " puts it down, ",
        key("Esc"),
        " leaves it"
      )
    );
  }
}
