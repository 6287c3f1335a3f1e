// @ts-check
// The panel of what was accepted.
import { button, el, find, name, refill } from "./dom.js";
import { face, title, told } from "./side.js";

// so many drafts are listed
const DRAFTS = 30;

/** @type {(app: Known, acts: ?Acting) => void} */
export function drawNews({ news, day, unseen }, acts) {
  /** @type {(one: NewsData) => HTMLElement} */
  const item = (one) =>
    el(
      "li",
      { cls: unseen.has(one.number) ? "fresh" : "" },
      el(
        "div",
        { cls: "by" },
        face(one.seat, one.who, "small"),
        name(one.who, "strong"),
        one.seat === day.seat ? " (you)" : null,
        button(`draft ${one.number}`, `draft ${one.number} · ${one.when}`, shows(one.number), {
          cls: "link when",
          title: "shows it; it can be taken back there",
        })
      ),
      one.why ? el("p", { cls: "reason" }, "“", name(one.why), "”") : null,
      el("ul", {}, one.edits.map(told))
    );
  /** @type {(number: number) => () => any} */
  const shows = (number) => () => acts?.draft(number);
  const hint = "Nothing yet. What others commit appears here at once.";
  const list = [...news].reverse().slice(0, DRAFTS).map(item);
  refill(
    find("news"),
    title("Accepted today", news.length || undefined),
    news.length ? el("ol", { cls: "drafts" }, list) : el("p", { cls: "hint" }, hint)
  );
}
