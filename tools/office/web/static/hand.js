// @ts-check
// The pointer: a lecture is dragged by mouse, pen or finger, and dropped on a slot.
import { el, find, name } from "./dom.js";
import { keyOf } from "./numbers.js";

// so many pixels are no drag yet
const NEAR = 6;
// so long a finger rests that wants the menu, and what ends that
const RESTS = 550;
const ENDS = ["pointermove", "pointerup", "pointercancel", "contextmenu"];

/**
 * @typedef {{ card: HTMLElement, slot: ?SlotData, missing?: string, x: number, y: number,
 *   id: number, isDragging: boolean }} Pressed
 */

class Hand {
  /**
   * @param {import("./week.js").Week} week
   * @param {Acting} acts
   */
  constructor(week, acts) {
    this.week = week;
    this.acts = acts;
    // what is pressed; what is drawn at a pointer that drags it, with the price there
    /** @type {?Pressed} */
    this.pressed = null;
    /** @type {?HTMLElement} */
    this.ghost = null;
    /** @type {?HTMLElement} */
    this.price = null;
    // the slot over which it is, and where the pointer was last
    /** @type {?SlotData} */
    this.over = null;
    /** @type {?string} */
    this.at = null;
  }

  /** @type {(event: PointerEvent) => void} */
  begin(event) {
    const target = elementOf(event);
    /** @type {?HTMLElement} */
    const card = target?.closest(".card");
    if (event.pointerType === "touch") this.waitForMenu(event);
    if (event.button !== 0 || !card || this.pressed || this.acts.isHolding()) return;
    // a finger scrolls, unless it takes the grip
    if (event.pointerType === "touch" && !target.closest(".grip")) return;
    /** @type {?HTMLElement} */
    const missing = target.closest("[data-missing]");
    this.pressed = {
      card,
      slot: this.week.slotAt(event.target),
      missing: missing?.dataset.missing,
      x: event.clientX,
      y: event.clientY,
      id: event.pointerId,
      isDragging: false,
    };
  }

  // a finger that rests for a while asks for the menu, also where the browser does not say so
  /** @type {(event: PointerEvent) => void} */
  waitForMenu(event) {
    const slot = this.week.slotAt(event.target);
    const { clientX: x, clientY: y } = event;
    const timer = setTimeout(() => done(true), RESTS);
    /** @type {(has: boolean) => void} */
    const done = (has) => {
      clearTimeout(timer);
      for (const one of ENDS) document.removeEventListener(one, leave, true);
      if (!has || !slot || this.pressed?.isDragging) return;
      this.stop();
      this.acts.menu(slot);
      swallowClick(RESTS * 4);
    };
    /** @type {(event: Event) => void} */
    const leave = (next) => {
      const { clientX, clientY, type } = /** @type {PointerEvent} */ (next);
      if (type !== "pointermove" || Math.hypot(clientX - x, clientY - y) > NEAR) done(false);
    };
    for (const one of ENDS) document.addEventListener(one, leave, true);
  }

  /** @type {(event: PointerEvent) => void} */
  move(event) {
    const { pressed } = this;
    if (!pressed || event.pointerId !== pressed.id) return;
    if (!pressed.isDragging) {
      if (Math.hypot(event.clientX - pressed.x, event.clientY - pressed.y) < NEAR) return;
      this.lift();
    }
    event.preventDefault();
    // under a mouse, above a finger
    const up = event.pointerType === "touch" ? -64 : 16;
    const left = Math.max(4, Math.min(event.clientX + 14, innerWidth - 190));
    const top = Math.max(4, Math.min(event.clientY + up, innerHeight - 44));
    this.ghost.style.transform = `translate(${left}px, ${top}px)`;
    const slot = this.week.slotAt(document.elementFromPoint(event.clientX, event.clientY));
    if (slot && (!this.over || keyOf(slot) !== keyOf(this.over))) this.acts.hover(slot);
    this.mark(slot);
    this.tell(slot);
    this.at = [event.clientX, event.clientY].join();
  }

  // where a hand lets go: where it is marked if it has rested, whatever has been drawn under it
  /** @type {(event: PointerEvent) => ?SlotData} */
  slotOf(event) {
    if (this.at === [event.clientX, event.clientY].join()) return this.over;
    return this.week.slotAt(document.elementFromPoint(event.clientX, event.clientY));
  }

  lift() {
    const { pressed } = this;
    pressed.isDragging = true;
    const hue = pressed.card.style.getPropertyValue("--hue");
    const label = pressed.card.querySelector(".course").textContent;
    this.price = el("span", { cls: "held-price" });
    this.ghost = el(
      "div",
      { cls: "held-card", css: { "--hue": hue } },
      name(label, "strong"),
      this.price
    );
    document.body.append(this.ghost);
    document.body.classList.add("dragging");
    const { pickUp, place } = this.acts;
    const ready = pressed.missing ? place(pressed.missing) : pickUp(pressed.slot);
    // a hand that rests sees the prices, too, when they come, and is where the cursor is
    ready.then(() => {
      if (this.pressed !== pressed || !this.over) return;
      this.acts.hover(this.over);
      this.renew();
    });
  }

  // what is drawn anew is told anew, also if the hand rests
  renew() {
    if (this.ghost) this.tell(this.over);
  }

  /** @type {(slot: ?SlotData) => void} */
  tell(slot) {
    const [kind, text] = slot ? this.acts.told(slot) : ["", ""];
    this.price.className = `held-price delta ${kind}`;
    this.price.replaceChildren(name(text));
  }

  /** @type {(slot: ?SlotData) => void} */
  mark(slot) {
    if (this.over) this.week.cell(this.over).classList.remove("over");
    this.over = slot;
    if (slot) this.week.cell(slot).classList.add("over");
  }

  // a drop has its turn after the picking up, which may not be answered yet
  /** @type {(event: PointerEvent) => void} */
  end(event) {
    const { pressed } = this;
    if (!pressed || event.pointerId !== pressed.id) return;
    const slot = this.slotOf(event);
    this.stop();
    if (!pressed.isDragging) return;
    swallowClick();
    if (event.type === "pointerup" && slot) this.acts.drop(slot);
    else this.acts.layDown();
  }

  stop() {
    this.pressed = this.at = null;
    this.mark(null);
    this.ghost?.remove();
    this.ghost = null;
    document.body.classList.remove("dragging");
  }

  /** @type {(event: Pick<KeyboardEvent, "key" | "stopPropagation">) => void} */
  escape(event) {
    if (event.key !== "Escape" || !this.pressed?.isDragging) return;
    event.stopPropagation();
    this.stop();
    this.acts.layDown();
  }
}

// the click that follows a drag means nothing
function swallowClick(during = 50) {
  /** @type {(event: Event) => void} */
  const eat = (event) => {
    event.stopPropagation();
    event.preventDefault();
  };
  window.addEventListener("click", eat, { capture: true, once: true });
  setTimeout(() => window.removeEventListener("click", eat, { capture: true }), during);
}

/** @type {(event: Event) => ?Element} */
const elementOf = (event) => (event.target instanceof Element ? event.target : null);

/** @type {(week: import("./week.js").Week, acts: Acting) => Hand} */
export function makeHand(week, acts) {
  const hand = new Hand(week, acts);
  document.addEventListener("pointerdown", (event) => hand.begin(event));
  document.addEventListener("pointermove", (event) => hand.move(event), { passive: false });
  document.addEventListener("pointerup", (event) => hand.end(event));
  document.addEventListener("pointercancel", (event) => hand.end(event));
  document.addEventListener("keydown", (event) => hand.escape(event), true);
  window.addEventListener("blur", () => hand.pressed && hand.escape(leaving));
  const grid = find("week");
  grid.addEventListener("click", (event) => {
    const slot = week.slotAt(event.target);
    if (!slot) return;
    if (elementOf(event).closest("button.more")) acts.more(slot);
    else acts.tap(slot);
  });
  // by the right button, and by a finger that rests
  grid.addEventListener("contextmenu", (event) => {
    const slot = week.slotAt(event.target);
    if (!slot) return;
    event.preventDefault();
    hand.stop();
    acts.menu(slot);
  });
  grid.addEventListener("dblclick", (event) => {
    const slot = week.slotAt(event.target);
    if (slot && elementOf(event).closest(".card") && !acts.isHolding()) acts.pickUp(slot);
  });
  // a mouse that rests points nowhere, whatever is drawn under it
  grid.addEventListener("pointermove", (event) => {
    const rests = !event.movementX && !event.movementY;
    if (event.pointerType !== "mouse" || rests || !acts.isHolding()) return;
    const slot = week.slotAt(event.target);
    if (slot && keyOf(slot) !== keyOf(week.cursor)) acts.hover(slot);
  });
  return hand;
}

const leaving = { key: "Escape", stopPropagation() {} };
