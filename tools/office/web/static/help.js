// @ts-check
// The box that explains keys and signs.
import { backTo, buttons, close, open } from "./boxes.js";
import { button, el, key } from "./dom.js";

// each key in a sentence, which does the same if it is pressed here; the signs, and the costs
/** @type {(day: HelloData, act: (name: string) => void) => void} */
export function help({ keys, parts, meanings }, act) {
  const keyList = keys.filter((one) => one.help);
  /** @type {(one: string | HTMLElement, text: string) => HTMLElement[]} */
  const term = (one, text) => [el("dt", {}, one), el("dd", {}, text)];
  /** @type {(cls: string, text: string) => HTMLElement} */
  const sign = (cls, text) => el("span", { cls: `${cls} static` }, text);
  /** @type {(one: KeyData) => () => void} */
  const press = (one) => () => {
    backTo(null);
    close();
    act(one.name);
  };
  /** @type {(one: KeyData) => HTMLElement} */
  const made = (one) => button(one.name, key(one.said), press(one), { "aria-label": one.name });
  open(
    "Keys and signs",
    [
      el("h3", {}, "Keys, in the week; each can be pressed here, too"),
      el(
        "dl",
        { cls: "keys" },
        term(key("arrows"), "move the cursor over the week; Tab leaves the week for the panels"),
        keyList.map((one) => term(made(one), one.help))
      ),
      el("h3", {}, "Signs"),
      el(
        "dl",
        { cls: "keys" },
        term(sign("sign short", "● 21"), "so many students have no seat"),
        term(sign("sign alone", "○ 2"), "points for standing alone on its day"),
        term(sign("pencil", "✎"), "changed in your draft"),
        term(sign("who", "name"), "changed by somebody else since"),
        term(sign("delta good", "−22"), "saves 22 points")
      ),
      el("h3", {}, "Costs, in points"),
      el(
        "dl",
        { cls: "keys" },
        parts.map((part) => term(part, meanings[part]))
      ),
      buttons(button("back", "Back", close, { cls: "primary", autofocus: true })),
    ],
    { cancel: close }
  );
}
