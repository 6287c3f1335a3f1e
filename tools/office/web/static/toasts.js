// @ts-check
// What the last step has to say, in the line below the week.
import { announce, button, el, find, name } from "./dom.js";
import { kindOf, priceSaid, signed } from "./numbers.js";

// how long it stays
/** @type {Record<string, number>} */
const STAYS = { bad: 15000, news: 8000, said: 6000 };

/** @type {(kind: string, text: string, more?: HTMLElement[]) => void} */
export function toast(kind, text, more = []) {
  const gone = () => {
    one.remove();
    const isCovered = find("toasts").childElementCount > 0;
    find("tray").classList.toggle("covered", isCovered);
  };
  const close = button("close", "×", gone, { cls: "link close", "aria-label": "Close" });
  const one = el("div", { cls: `toast ${kind}` }, el("span", {}, name(text)), more, close);
  find("toasts").replaceChildren(one);
  find("tray").classList.add("covered");
  setTimeout(gone, STAYS[kind] || STAYS.said);
}

// what is seen beside the week already is heard alone
const SEEN = ["cheapest in", "cheapest with", "stands best", "stays"];

/** @type {(notice: NoticeData, acts: Acting) => void} */
export function toastNotice({ code, text, isBad, price }, acts) {
  if (!text) return;
  announce(price === undefined ? text : `${text} ${priceSaid(price)}`);
  if (SEEN.includes(code)) return;
  const undo = () => {
    acts.toWeek();
    acts.act("undo");
  };
  const told = el("span", { cls: `delta ${kindOf(price)}` }, signed(price ?? 0));
  const more = [price === undefined ? null : told, button("undo", "Undo", undo, { cls: "link" })];
  toast(isBad ? "bad" : "said", text, code === "done" ? more.filter(Boolean) : []);
}
