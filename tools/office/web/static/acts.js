// @ts-check
// What each key, button and drag does: it is asked of the office, with what was seen.
import { opensBy } from "./ahead.js";
import * as boxes from "./boxes.js";
import { announce, find, isTyping, save } from "./dom.js";
import { chosen, heldSaid, heldShort } from "./held.js";
import { help } from "./help.js";
import { offerRow, openMenu } from "./menu.js";
import { same } from "./numbers.js";
import { toast } from "./toasts.js";

// these wait for nothing: what is typed after them is text
const AT_ONCE = ["view", "line", "help"];

export class Acts {
  constructor(/** @type {Parts} */ parts) {
    this.app = parts.app;
    this.week = parts.week;
    this.look = parts.look;
    this.turn = parts.turn;
    this.queue = parts.queue;
    this.search = parts.search;
    /** @type {(name: string, key?: string) => any} */
    this.queued = (name, key = "") => {
      const act = () => this.act(name, key);
      return AT_ONCE.includes(name) ? act() : this.queue(act);
    };
    this.toWeek = () => this.week.setCursor(this.week.cursor, true);
  }

  get held() {
    return this.app.picture?.held || null;
  }

  isHolding() {
    return this.held !== null;
  }

  /** @type {(slot: SlotData) => ?HeldSlotData} */
  offerAt(slot) {
    return this.held?.slots.find((one) => same(one.at, slot));
  }

  // what a slot offers, beside the hand
  /** @type {(slot: SlotData) => [string, string]} */
  told(slot) {
    return heldShort(this.held, this.offerAt(slot));
  }

  // the week

  /** @type {(view: PairData) => Promise<void>} */
  async show(view) {
    await this.turn("show", { view });
    this.look.toFirst();
    this.toWeek();
    announce(`Week of ${this.app.picture.week.title}`);
  }

  /** @type {(lecture: ?Seen) => Promise<void>} */
  async nextWeek(lecture) {
    await this.turn("next_week", { lecture });
    announce(`Week of ${this.app.picture.week.title}`);
  }

  // what is held

  /**
   * @param {string} verb
   * @param {object} [told]
   */
  async hold(verb, told) {
    const begun = performance.now();
    await this.turn(verb, told);
    if (this.held) performance.measure("prices", { start: begun });
    this.toWeek();
  }

  /** @type {(slot: SlotData, lecture?: ?Seen, kind?: "move" | "swap") => Promise<void>} */
  pickUp(slot, lecture = this.week.seen(slot), kind = "move") {
    this.look.place = null;
    this.week.setCursor(slot, true);
    return this.hold("pick_up", { lecture, kind });
  }

  /** @type {(course: string) => Promise<void>} */
  async place(course) {
    await this.turn("pick_up_missing", { course });
    const isDragging = document.body.classList.contains("dragging");
    if (this.held?.best && !isDragging) this.look.goTo(this.held.best, this.held.place);
    else this.look.drawTray();
  }

  /** @type {(slot: SlotData, lecture: ?Seen) => Promise<void>} */
  swap(slot, lecture) {
    return this.held ? this.hold("swap_instead") : this.pickUp(slot, lecture, "swap");
  }

  /** @type {(slot: SlotData, lecture: ?Seen) => Promise<void>} */
  move(slot, lecture) {
    return this.held ? this.hold("move_instead") : this.pickUp(slot, lecture);
  }

  // puts down what is held, or picks up what was seen
  /** @type {(slot: SlotData, lecture: ?Seen) => Promise<void>} */
  enter(slot, lecture) {
    return this.held ? this.drop(slot) : this.pickUp(slot, lecture);
  }

  /** @type {(slot: SlotData) => Promise<void>} */
  drop(slot) {
    const offer = this.offerAt(slot);
    const place = same(slot, this.week.cursor) ? this.look.place : null;
    return offer && this.putDown(slot, chosen(this.held, offer, place));
  }

  /** @type {(slot: SlotData, offer: ?OfferData) => Promise<void>} */
  async putDown(slot, offer) {
    const [price, about] = offer || [null, null];
    this.week.setCursor(slot, false);
    await this.turn("put_down", { to: slot, price, about });
    this.toWeek();
  }

  async layDown() {
    if (!this.held) return;
    await this.turn("lay_down");
    this.toWeek();
  }

  best() {
    if (this.held && !this.held.best) return toast("said", this.held.hint);
    if (this.held?.best) this.look.goTo(this.held.best, this.held.place);
    else return this.turn("best");
    return null;
  }

  // the rooms of a slot by price, or the partners of a swap
  /** @type {(slot: SlotData, lecture: ?Seen) => Promise<void>} */
  async rooms(slot, lecture) {
    if (!this.held) await this.pickUp(slot, lecture);
    if (!this.held || isTyping()) return;
    const { offers: all = [], told = [] } = await this.turn("offers", { at: slot });
    const { held, week } = this;
    if (!held || isTyping()) return;
    const isHome = same(slot, held.at);
    /** @type {(offer: OfferData, at: number) => OfferData} */
    const named = ([price, code], at) => [price, code, told[at]];
    const offers = all.map(named).filter(([, code]) => !isHome || code !== held.room);
    if (!offers.length) {
      toast("said", isHome ? "No other room is free then." : heldSaid(held, this.offerAt(slot)));
      return;
    }
    this.look.goTo(slot);
    const what = held.kind === "swap" ? "swap with" : "rooms by price";
    const label = `${held.said}, ${week.said(slot)}: ${what}`;
    /** @type {(at: number) => Promise<void>} */
    const take = (at) => this.queue(() => this.putDown(slot, offers[at]));
    openMenu(week.cell(slot), label, offers.map(offerRow), take, this.toWeek);
  }

  /** @type {(lecture: ?Seen) => Promise<Found>} */
  takeOut(lecture) {
    return this.turn("take_out", { lecture });
  }

  toMissing() {
    const first = find("missing").querySelector("button");
    if (first && !find("missing").hidden) first.focus();
    else return this.turn("missing");
    return null;
  }

  // what is asked in front of the week

  /** @type {(question: number, answer: ?string, more: object) => Promise<Found>} */
  answer(question, answer, more) {
    return this.turn("answer", { question, answer, ...more });
  }

  // the week that is seen as a page of its own
  async print() {
    const { page } = await this.turn("print");
    if (page) save(page.name, page.text);
  }

  typeLine() {
    boxes.askLine((line) => this.queue(() => this.turn("line", { line })));
  }

  // an action by the name that keys have, on what is seen when all before it is done; key is what
  // was pressed for it
  /** @type {(name: string, key: string) => any} */
  act(name, key) {
    const slot = this.week.cursor;
    const lecture = this.week.seen(slot);
    const own = {
      "pick up": () => this.enter(slot, lecture),
      move: () => this.move(slot, lecture),
      cheapest: () => this.best(),
      swap: () => this.swap(slot, lecture),
      missing: () => this.toMissing(),
      "take out": () => this.takeOut(lecture),
      view: () => this.search(),
      weeks: () => this.nextWeek(lecture),
      print: () => this.print(),
      line: () => this.typeLine(),
      help: () => help(this.app.day, this.queued),
      next: () => this.rooms(slot, lecture),
      "lay down": () => this.layDown(),
    }[name];
    if (own) return own();
    opensBy(key);
    return this.turn("act", { name, lecture, at: slot, key });
  }
}
