// @ts-check
// Boxes in front of the week: what is to be read or answered.
import { goOn, takeAhead } from "./ahead.js";
import { choiceList } from "./choices.js";
import { costTable } from "./costs.js";
import { button, el, find, key, name, weekCell } from "./dom.js";

// where the keyboard was; whether what is in front is a question of the office; and one that has
// come while something else was typed or read
/** @type {?HTMLElement} */
let before = null;
let isAsked = false;
/** @type {?() => void} */
let later = null;
// so many letters that are no answer are the beginning of a word, which answers nothing
const WORD = 2;
let typed = 0;
// what was typed for a question, by its label, until it was answered: the office may have been away
let kept = { label: "", text: "" };

// a letter was pressed before the box was seen
export function typedAhead() {
  typed += 1;
}

// where the keyboard goes when a box is closed
/** @type {(element: ?HTMLElement) => void} */
export function backTo(element) {
  before = element;
}

// letters: what is done by a letter, where nothing is typed
/**
 * @typedef {{ cls?: string, cancel?: () => void, letters?: Record<string, () => void> }} Settings
 * @type {(title: string, parts: (?HTMLElement)[], settings?: Settings) => void}
 */
export function open(title, parts, { cls = "", cancel = null, letters = {} } = {}) {
  const box = find("box");
  if (!box.open) before = /** @type {HTMLElement} */ (document.activeElement);
  isAsked = false;
  box.className = cls;
  box.oncancel = (event) => {
    event.preventDefault();
    cancel?.();
  };
  // a browser may close a box by itself, whatever the page says
  box.onclose = () => {
    if (!find("box-title") || box.open) return;
    if (cancel) cancel();
    else box.showModal();
  };
  typed = 0;
  box.onkeydown = (event) => {
    const act = letters[event.key.toLowerCase()];
    const isInput = event.target instanceof HTMLInputElement;
    const isKey = event.ctrlKey || event.metaKey || event.altKey || isInput;
    if (isKey || event.repeat) return;
    if (event.key.length === 1 && event.key !== " " && (!act || typed >= WORD)) typed += 1;
    else if (act) {
      event.preventDefault();
      act();
    } else typed = 0;
  };
  box.replaceChildren(el("h2", { id: "box-title" }, name(title)), ...parts.filter(Boolean));
  if (!box.open) box.showModal();
  /** @type {?HTMLElement} */
  const first = box.querySelector("[autofocus]") || box.querySelector("button");
  first?.focus();
  if (first instanceof HTMLInputElement) first.select();
}

export function close() {
  const box = find("box");
  if (!find("box-title")) return;
  box.replaceChildren();
  if (box.open) box.close();
  const target = before?.isConnected && before !== document.body ? before : weekCell();
  target?.focus();
  askLater();
}

// asks what has come meanwhile, if it is asked still
export function askLater() {
  const next = later;
  later = null;
  next?.();
}

export const hasLater = () => later !== null;

function keepTyped() {
  const input = isAsked ? /** @type {?HTMLInputElement} */ (document.getElementById("why")) : null;
  if (input?.value) kept = { label: input.labels[0].textContent, text: input.value };
}

// the office asks nothing any more; a box that it has not opened stays
export function closeAsked() {
  later = null;
  keepTyped();
  if (isAsked) close();
}

/** @type {(...made: any[]) => HTMLElement} */
export const buttons = (...made) => el("div", { cls: "buttons end" }, ...made);

// a line of text in a box, and what Enter does with it
/** @type {(id: string, label: string, more: object, go: () => void) => HTMLElement[]} */
function field(id, label, more, go) {
  const input = el("input", { type: "text", id, autocomplete: "off", ...more });
  input.addEventListener("keydown", (event) => {
    if (event.key !== "Enter" || event.isComposing) return;
    event.preventDefault();
    go();
  });
  return [el("label", { for: id }, label), input];
}

// who sits down; a promise of the name
/** @type {(wants: WantsData, proposed: string) => Promise<string>} */
export function askName({ seat, last }, proposed) {
  return new Promise((done) => {
    const go = () => {
      const given = find("name").value.trim();
      if (!given) return;
      close();
      done(given);
    };
    const value = last || proposed;
    const more = { maxlength: "40", value, autofocus: true, autocomplete: "name" };
    const told = [
      `This link is seat ${seat} of the day. `,
      "Your name is shown to the other planners, and is in the log.",
    ];
    open(
      "Who sits down?",
      [
        el("p", {}, told),
        ...field("name", "Your name", more, go),
        buttons(button("sit", "Sit down", go, { cls: "primary" })),
      ],
      { cls: "small" }
    );
  });
}

// a line of the desk that is typed by hand
/** @type {(send: (line: string) => void) => void} */
export function askLine(send) {
  const go = () => {
    const line = find("line").value.trim();
    if (line) send(line);
    close();
  };
  const more = { maxlength: "500", spellcheck: "false", autofocus: true };
  open(
    "A line of the desk",
    [
      ...field("line", "such as: peek course c0109", more, go),
      buttons(button("back", "Back", close), button("send", "Send", go, { cls: "primary" })),
    ],
    { cls: "small", cancel: close }
  );
}

// lines of a question by what they are: titles, edits, and what else is told
/** @type {(line: LineData) => ?HTMLElement} */
function linePart({ code, text }) {
  if (!text) return null;
  return el("p", { cls: `line-${code.replace(/ /g, "-")}` }, name(text.trim()));
}

// a line for a reason, and what is asked about it; what was typed on since then stays
/** @type {(why: WhyData, go: () => void) => (?HTMLElement)[]} */
function reasonParts({ label, text, doubt }, go) {
  keepTyped();
  const ahead = takeAhead();
  const value = kept.label === label ? kept.text : text || ahead;
  const more = { maxlength: "200", autofocus: true, value };
  const asked = doubt ? el("p", { cls: "warn", role: "alert" }, name(doubt), ONCE_MORE) : null;
  return [...field("why", label, more, go), asked];
}

// a question of the office: its title and lines, perhaps costs, a list, a line to type, and a
// button an answer. What is typed or read meanwhile is ended first, so that no key meant for that
// answers it.
/** @type {(question: QuestionData, acts: Acting) => void} */
export function ask(question, acts) {
  const isBusy = document.activeElement === find("search-input") || (find("box").open && !isAsked);
  if (isBusy) {
    later = () => ask(question, acts);
    return;
  }
  const { number: id, title, lines, answers, choices, costs, why, canWait, isCareful } = question;
  const told = () => (why ? { why: find("why").value.trim() } : {});
  const back = () => {
    const more = told();
    kept.label = "";
    close();
    acts.closeQuestion(id, more);
  };
  /** @type {(answer: string) => () => Promise<void>} */
  const go = (answer) => async () => {
    const found = await acts.answer(id, answer, told());
    if (found?.notice) kept.label = "";
  };
  /** @type {(choice: number) => Promise<any>} */
  const choose = (choice) => acts.answer(id, null, { choice });
  const first = answers.length ? go(answers[0].name) : back;
  const isRead = !answers.length && !choices.length;
  const made = answers.map((one, at) =>
    button(one.name, [one.said, one.key ? [" ", key(one.key.toUpperCase())] : null], go(one.name), {
      cls: at === 0 ? "primary" : "",
      autofocus: at === 0 && !why && !isCareful,
    })
  );
  const shown = el("div", { cls: "lines" }, lines.map(linePart));
  const isFirst = isRead || isCareful;
  const backButton = button("back", isRead ? "Go on" : "Back", back, { autofocus: isFirst });
  open(
    title,
    [
      costs ? el("div", { cls: "two" }, shown, costTable(costs)) : shown,
      el("p", { id: "stale-preview", cls: "warn", hidden: true }),
      choices.length ? choiceList(title.split(":")[0], choices, choose) : null,
      ...(why ? reasonParts(why, first) : []),
      buttons(canWait ? backButton : null, made.reverse()),
    ],
    {
      cancel: canWait ? back : null,
      letters: Object.fromEntries(answers.map((one) => [one.key, go(one.name)])),
    }
  );
  if (why) goOn(why);
  isAsked = true;
}

const ONCE_MORE = " Enter once more goes on.";

// what has become of the draft while its box is in front
/** @type {(text: string) => void} */
export function previewStale(text) {
  const line = document.getElementById("stale-preview");
  if (!line) return;
  line.hidden = !text;
  line.replaceChildren(name(text));
}
