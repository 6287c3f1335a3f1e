// @ts-check
// Numbers, prices and slots as they are read.
import { el } from "./dom.js";

/** @type {(n: number) => string} */
export const number = (n) => n.toLocaleString("en-GB");
/** @type {(n: number) => string} */
export const signed = (n) => (n > 0 ? `+${number(n)}` : n < 0 ? `−${number(-n)}` : "±0");
/** @type {(n: number, noun: string) => string} */
export const counted = (n, noun) => `${number(n)} ${noun}${n === 1 ? "" : "s"}`;
/** @type {(price: number) => "good" | "dear" | "same"} */
export const kindOf = (price) => (price < 0 ? "good" : price > 0 ? "dear" : "same");
/** @type {(price: number) => HTMLElement} */
export const delta = (price) => el("span", { cls: `delta ${kindOf(price)}` }, signed(price));
/** @type {(numbers: number[]) => number} */
export const sum = (numbers) => numbers.reduce((all, one) => all + one, 0);
/** @type {(slot: SlotData) => string} */
export const keyOf = ([day, period]) => `${day},${period}`;
/** @type {(key: string) => SlotData} */
export const slotOf = (key) => /** @type {SlotData} */ (key.split(",").map(Number));
/** @type {(one: ?SlotData, other: ?SlotData) => boolean} */
export const same = (one, other) => !!one && !!other && keyOf(one) === keyOf(other);

/** @type {(price: number) => string} */
export function priceSaid(price) {
  if (price === 0) return "costs the same";
  return price < 0 ? `saves ${number(-price)}` : `costs ${number(price)} more`;
}
