// @ts-check
// A slot while a lecture is held: its cheapest price and room, or why it cannot stand there. What
// else it offers is asked when it is wanted.
import { el, name } from "./dom.js";
import { kindOf, priceSaid, same, signed } from "./numbers.js";

/** @type {(held: HeldData) => string} */
const preposition = (held) => (held.kind === "swap" ? "with" : "in");

// the button that asks for all that a slot offers
/** @type {(said: string, ...label: any[]) => HTMLElement} */
function more(said, ...label) {
  const told = { type: "button", cls: "more", tabindex: "-1", "aria-label": `${said} by price` };
  return el("button", told, label, "▾");
}

/** @type {(text: string) => HTMLElement} */
const word = (text) => el("span", { cls: "word" }, `${text} `);

// what stands in the slot now
/** @type {(one: Cell, view: PairData) => HTMLElement[]} */
function here(one, [kind]) {
  return one.lectures.map((lecture) =>
    el(
      "div",
      { cls: "here" },
      kind === "course" ? null : name(lecture.said, "strong"),
      " ",
      kind === "room" ? null : name(lecture.room_said)
    )
  );
}

// where it comes from: it stays, unless the cheapest of all is another room there
/** @type {(held: HeldData, offer: HeldSlotData) => HTMLElement[]} */
function homeParts(held, offer) {
  const isSwap = held.kind === "swap";
  const count = offer.offers.filter(([, code]) => isSwap || code !== held.room).length;
  const [price, , said] = offer.offers[held.place] || [];
  const isBest = same(held.best, offer.at);
  const few = isSwap ? [word("swap rooms")] : [`+${count} `, word(count > 1 ? "rooms" : "room")];
  const label = isBest ? [signed(price), " ", name(said), " "] : few;
  return [
    el("div", { cls: "price same" }, isSwap ? "from here" : "stays"),
    el("div", { cls: "in" }, name(held.room_said)),
    ...(count ? [more(isSwap ? "swaps of rooms" : "other rooms", ...label)] : []),
  ];
}

/**
 * @param {HTMLElement} cell
 * @param {Cell} one
 * @param {HeldData} held
 * @param {HeldSlotData} offer
 * @param {PairData} view
 * @returns {HTMLElement[]}
 */
export function heldParts(cell, one, held, offer, view) {
  if (same(offer.at, held.at)) {
    cell.classList.add("home", "can");
    cell.classList.toggle("best", same(held.best, offer.at));
    return homeParts(held, offer);
  }
  if (!offer.offers.length) {
    cell.classList.add("cannot");
    const why = el("div", { cls: "why", title: offer.why }, name(offer.shortly ?? ""));
    return [...here(one, view), why];
  }
  const [price, , said] = offer.offers[0];
  const isSwap = held.kind === "swap";
  cell.classList.add("can", kindOf(price));
  if (same(offer.at, held.best)) cell.classList.add("best");
  return [
    ...(isSwap ? [] : here(one, view)),
    el("div", { cls: `price ${kindOf(price)}` }, signed(price)),
    el("div", { cls: "in" }, isSwap ? "with " : null, name(said)),
    more(isSwap ? "lectures to swap with" : "rooms", word(isSwap ? "others" : "rooms")),
  ];
}

// which offer of a slot is meant: none where it stays
/** @type {(held: HeldData, offer: HeldSlotData, place: ?number) => ?OfferData} */
export function chosen(held, offer, place) {
  if (place !== null) return offer.offers[place];
  return same(offer.at, held.at) ? null : offer.offers[0];
}

// the same in a sentence; place is that of the offer that is meant, if one was chosen
/** @type {(held: HeldData, offer: HeldSlotData, place?: ?number) => string} */
export function heldSaid(held, offer, place = null) {
  const one = chosen(held, offer, place);
  if (!one && same(offer.at, held.at)) return `${held.said} stays here`;
  if (!one) return `not possible: ${offer.why}`;
  const [price, , said] = one;
  return `${priceSaid(price)}, ${preposition(held)} ${said}`;
}

// the same beside the hand: its kind and a few letters
/** @type {(held: ?HeldData, offer: ?HeldSlotData) => [string, string]} */
export function heldShort(held, offer) {
  if (!held || !offer) return ["", "…"];
  if (same(offer.at, held.at)) return ["same", "stays"];
  if (!offer.offers.length) return ["no", offer.shortly ?? ""];
  const [price, , said] = offer.offers[0];
  return [kindOf(price), `${signed(price)} ${said}`];
}
