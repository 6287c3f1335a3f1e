// @ts-check
// Elements of the page. Text is only ever set as text.

/**
 * @typedef {{ box: HTMLDialogElement, name: HTMLInputElement, line: HTMLInputElement,
 *   why: HTMLInputElement, "search-input": HTMLInputElement }} Kinds
 */
/** @type {<K extends string>(id: K) => K extends keyof Kinds ? Kinds[K] : HTMLElement} */
export const find = (id) => /** @type {any} */ (document.getElementById(id));

/**
 * @template {keyof HTMLElementTagNameMap} K
 * @param {K} tag
 * @param {Record<string, any>} more
 * @param {any[]} children
 * @returns {HTMLElementTagNameMap[K]}
 */
export function el(tag, more = {}, ...children) {
  const made = document.createElement(tag);
  for (const [name, value] of Object.entries(more)) {
    if (value === undefined || value === null || value === false) continue;
    if (name === "on") listen(made, value);
    else if (name === "css") style(made, value);
    else if (name === "data") Object.assign(made.dataset, value);
    else made.setAttribute(name === "cls" ? "class" : name, value === true ? "" : value);
  }
  fill(made, ...children);
  return made;
}

/** @type {(made: Element, acts: Record<string, EventListener>) => void} */
function listen(made, acts) {
  for (const [event, act] of Object.entries(acts)) made.addEventListener(event, act);
}

/** @type {(made: HTMLElement, values: Record<string, string>) => void} */
function style(made, values) {
  for (const [name, value] of Object.entries(values)) made.style.setProperty(name, value);
}

/** @type {(box: Element, ...children: any[]) => void} */
export function fill(box, ...children) {
  /** @type {(child: any) => boolean} */
  const isThere = (child) => child !== null && child !== undefined && child !== false;
  box.replaceChildren(...children.flat(3).filter(isThere));
}

// a name of the day may be written from right to left
/** @type {(text: string, cls?: string) => HTMLElement} */
export const name = (text, cls) => el("bdi", { cls }, text);

// `id` is what a button is known by when its panel is drawn anew
/** @type {(id: string, text: any, act: () => any, more?: object) => HTMLButtonElement} */
export function button(id, text, act, more = {}) {
  return el("button", { type: "button", data: { id }, ...more, on: { click: act } }, text);
}

// draws a panel anew; the focus stays at the same button, or goes to the week
/** @type {(box: HTMLElement, ...children: any[]) => void} */
export function refill(box, ...children) {
  const before = /** @type {?HTMLElement} */ (document.activeElement);
  const at = box.contains(before) ? before.dataset.id : null;
  fill(box, ...children);
  if (at === null) return;
  /** @type {NodeListOf<HTMLButtonElement>} */
  const all = box.querySelectorAll("[data-id]");
  const again = [...all].find((one) => one.dataset.id === at);
  const week = weekCell();
  (again && !again.disabled ? again : week)?.focus({ preventScroll: true });
}

// the cell of the week at which the cursor is
/** @type {() => ?HTMLElement} */
export const weekCell = () => find("week").querySelector("[tabindex='0']");

// hands a page to the browser, to be kept as a file
/** @type {(file: string, text: string) => void} */
export function save(file, text) {
  const href = URL.createObjectURL(new Blob([text], { type: "text/html" }));
  el("a", { href, download: file }).click();
  setTimeout(() => URL.revokeObjectURL(href), 60000);
}

/** @type {(text: string) => HTMLElement} */
export const key = (text) => el("kbd", {}, text);

// what is typed goes on where it was begun, whatever comes meanwhile
export const isTyping = () => document.activeElement?.matches("input, textarea") ?? false;

// what a person hears who does not see
/** @type {(text: string) => void} */
export function announce(text) {
  find("said").textContent = text;
}

/** @type {(text: string, more?: ?HTMLElement) => void} */
export function banner(text, more = null) {
  const box = find("banner");
  box.hidden = !text;
  if (box.dataset.text !== (text || "")) fill(box, text || "", more);
  box.dataset.text = text || "";
}
