// @ts-check
// The box in which one types whose week is to be seen.
import { el, find, name } from "./dom.js";
import { folded, searched } from "./folding.js";

const MOST = 40;
/** @type {Record<string, number>} */
const STEPS = { ArrowDown: 1, ArrowUp: -1, PageDown: 10, PageUp: -10 };

/** @typedef {{ kind: string, code: string, said: string, text: string }} Hit */

class Search {
  // choose(view) when a week is taken, and back() then, or when none is
  /**
   * @param {(view: PairData) => void} choose
   * @param {() => void} back
   */
  constructor(choose, back) {
    this.choose = choose;
    this.back = back;
    /** @type {Hit[]} */
    this.all = [];
    /** @type {Hit[]} */
    this.found = [];
    this.at = 0;
    this.input = find("search-input");
    this.list = find("search-list");
    const begin = () => {
      this.at = 0;
      this.show();
    };
    this.input.addEventListener("input", begin);
    this.input.addEventListener("focus", begin);
    this.input.addEventListener("blur", () => this.close());
    this.input.addEventListener("keydown", (event) => this.press(event));
  }

  // named: for each kind its codes, each with what it is called
  /** @type {(named: NamesData["named"]) => void} */
  rename(named) {
    this.all = Object.entries(named).flatMap(([kind, names]) =>
      names.map(([code, said]) => ({ kind, code, said, text: searched(`${said} ${code}`) }))
    );
  }

  focus() {
    this.input.focus();
  }

  matches() {
    const words = folded(this.input.value).split(/\s+/).filter(Boolean);
    /** @type {(one: Hit, word: string) => boolean} */
    const isIn = (one, word) => one.text.includes(word) || one.kind.startsWith(word);
    /** @type {(one: Hit) => boolean} */
    const has = (one) => words.every((word) => isIn(one, word));
    /** @type {(one: Hit) => boolean} */
    const begins = (one) =>
      words.some((word) => one.text.startsWith(word) || one.code.toLowerCase().startsWith(word));
    const hits = this.all.filter(has);
    return [...hits.filter(begins), ...hits.filter((one) => !begins(one))];
  }

  /** @type {(one: Hit, place: number) => HTMLElement} */
  item(one, place) {
    /** @type {(event: Event) => void} */
    const press = (event) => {
      event.preventDefault();
      this.take(place);
    };
    return el(
      "li",
      {
        role: "option",
        id: `hit-${place}`,
        "aria-selected": String(place === this.at),
        on: { pointerdown: press },
      },
      name(one.said, "hit"),
      el("span", { cls: "kind" }, one.kind)
    );
  }

  show() {
    const hits = this.matches();
    this.found = hits.slice(0, MOST);
    this.at = Math.min(this.at, Math.max(0, this.found.length - 1));
    const rest = hits.length - this.found.length;
    const more = hits.length ? `${rest} more: type on` : "nothing has these letters";
    const last = rest || !hits.length ? [el("li", { cls: "more", role: "none" }, more)] : [];
    const items = this.found.map((one, place) => this.item(one, place));
    this.list.replaceChildren(...items, ...last);
    this.list.hidden = false;
    this.input.setAttribute("aria-expanded", "true");
    if (items.length) this.input.setAttribute("aria-activedescendant", `hit-${this.at}`);
    else this.input.removeAttribute("aria-activedescendant");
    find(`hit-${this.at}`)?.scrollIntoView({ block: "nearest" });
  }

  close() {
    this.input.value = "";
    this.list.hidden = true;
    this.input.setAttribute("aria-expanded", "false");
    this.input.removeAttribute("aria-activedescendant");
  }

  /** @type {(place: number) => void} */
  take(place) {
    const one = this.found[place];
    if (!one) return;
    this.choose([one.kind, one.code]);
    this.leave();
  }

  // the keyboard is the week's again at once, so that what is typed ahead has its effect there
  leave() {
    this.input.blur();
    this.back();
  }

  /** @type {(event: KeyboardEvent) => void} */
  press(event) {
    const step = STEPS[event.key];
    if (step) {
      this.at = Math.max(0, Math.min(this.found.length - 1, this.at + step));
      this.show();
    } else if (event.key === "Enter") this.take(this.at);
    else if (event.key === "Escape") this.leave();
    else return;
    event.preventDefault();
    event.stopPropagation();
  }
}

/**
 * @param {NamesData["named"]} named
 * @param {(view: PairData) => void} choose
 * @param {() => void} back
 */
export function makeSearch(named, choose, back) {
  const search = new Search(choose, back);
  search.rename(named);
  return search;
}
