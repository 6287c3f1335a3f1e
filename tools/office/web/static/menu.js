// @ts-check
// A short list beside a slot: rooms, or partners of a swap, by price, or what can be done there.
import { el, name } from "./dom.js";
import { delta } from "./numbers.js";

// an offer as a row of a list
/** @type {(offer: OfferData) => HTMLElement[]} */
export const offerRow = ([price, , said]) => [delta(price), name(said, "strong")];

/** @type {?{ box: HTMLElement, back: () => void }} */
let shown = null;

export const isMenuOpen = () => shown !== null;
export const menuInFront = () => shown;

export function closeMenu() {
  if (!shown) return;
  shown.box.remove();
  document.removeEventListener("pointerdown", outside, true);
  shown = null;
}

/** @type {(event: Event) => void} */
function outside(event) {
  if (!shown || shown.box.contains(/** @type {Node} */ (event.target))) return;
  const { back } = shown;
  closeMenu();
  back();
}

/** @type {(box: HTMLElement, anchor: HTMLElement) => void} */
function put(box, anchor) {
  const spot = anchor.getBoundingClientRect();
  const size = box.getBoundingClientRect();
  const left = Math.min(spot.left + 4, innerWidth - size.width - 8);
  const isBelow = spot.bottom + size.height + 8 < innerHeight;
  const top = isBelow ? spot.bottom + 2 : spot.top - size.height - 2;
  box.style.left = `${Math.max(8, left)}px`;
  box.style.top = `${Math.max(8, Math.min(top, innerHeight - size.height - 8))}px`;
}

// choose(place) when one is taken, back() when none is
/**
 * @param {HTMLElement} anchor
 * @param {string} label
 * @param {any[][]} rows
 * @param {(place: number) => void} choose
 * @param {() => void} back
 */
export function openMenu(anchor, label, rows, choose, back) {
  closeMenu();
  const list = el("ul", { role: "listbox", tabindex: "0", "aria-label": label, cls: "menu" });
  let at = 0;
  const items = rows.map((parts, place) =>
    el(
      "li",
      {
        role: "option",
        id: `offer-${place}`,
        on: { click: () => take(place), pointermove: () => go(place) },
      },
      ...parts
    )
  );
  list.append(...items);
  const box = el("div", { cls: "menu-box" }, el("div", { cls: "menu-title" }, label), list);
  document.body.append(box);
  put(box, anchor);
  shown = { box, back };

  /** @type {(place: number) => void} */
  function go(place) {
    at = Math.max(0, Math.min(items.length - 1, place));
    items.forEach((item, n) => item.setAttribute("aria-selected", String(n === at)));
    list.setAttribute("aria-activedescendant", `offer-${at}`);
    items[at].scrollIntoView({ block: "nearest" });
  }
  /** @type {(place: number) => void} */
  function take(place) {
    closeMenu();
    choose(place);
  }
  list.addEventListener("keydown", (event) => {
    const step = { ArrowDown: 1, ArrowUp: -1, Home: -999, End: 999 }[event.key];
    if (step) go(at + step);
    else if (event.key === "Enter" || event.key === " ") take(at);
    else if (event.key === "Escape" || event.key === "Tab") {
      closeMenu();
      back();
    } else return;
    event.preventDefault();
    event.stopPropagation();
  });
  // without the focus no key would close it
  list.addEventListener("focusout", (event) => event.relatedTarget && closeMenu());
  document.addEventListener("pointerdown", outside, true);
  go(0);
  list.focus();
}
