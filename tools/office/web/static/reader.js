// @ts-check
// The timetable as it stands, for who reads: weeks by name, live.
import { announce, banner, el, fill, find, name } from "./dom.js";
import { act, ask, keepListening, takeKey } from "./link.js";
import { makeSearch } from "./search.js";
import { Week } from "./week.js";

const VIEW = "read-view";
const app = { isBuilt: false, isOver: false };
/** @type {Week} */
let week;
/** @type {ReturnType<typeof makeSearch>} */
let search;

/** @type {(told: WeekData) => void} */
function draw(told) {
  week.draw(told, null);
  sessionStorage.setItem(VIEW, JSON.stringify(told.view));
  fill(find("week-title"), el("span", { cls: "kind" }, told.view[0]), name(told.title));
  fill(find("week-about"), name(told.about));
}

/** @type {(view: PairData) => Promise<void>} */
async function show(view) {
  /** @type {?ReaderTurnData} */
  const found = await act("show", { view }).catch(lost);
  if (!found) return;
  draw(found.picture.week);
  week.setCursor(week.cursor, true);
  announce(`Week of ${found.picture.week.title}`);
}

/** @type {(found: ReaderHelloData) => void} */
function build(found) {
  find("day").textContent = found.day;
  document.title = `${found.day} · timedesk`;
  week = new Week(found, false);
  search = makeSearch(found.named, show, () => week.setCursor(week.cursor, true));
  /** @type {Record<string, number[]>} */
  const steps = { ArrowLeft: [-1, 0], ArrowRight: [1, 0], ArrowUp: [0, -1], ArrowDown: [0, 1] };
  find("week").addEventListener("keydown", (event) => {
    const [days, periods] = steps[event.key] || [0, 0];
    /** @type {SlotData} */
    const slot = [week.cursor[0] + days, week.cursor[1] + periods];
    if ((!days && !periods) || !week.isInside(slot)) return;
    week.setCursor(slot, true);
    event.preventDefault();
  });
  document.addEventListener("keydown", (event) => {
    if (event.key !== "/" || document.activeElement?.matches("input")) return;
    search.focus();
    event.preventDefault();
  });
}

async function begin() {
  const view = JSON.parse(sessionStorage.getItem(VIEW) || "null");
  /** @type {ReaderHelloData} */
  const found = await ask("hello", { view });
  if (app.isBuilt) rename(found);
  else build(found);
  app.isBuilt = true;
  banner("");
  draw(found.picture.week);
  performance.mark("ready");
}

/** @type {(names: NamesData) => void} */
function rename(names) {
  week.rename(names);
  search.rename(names.named);
}

/** @type {(event: ReaderEventData) => void} */
function hear(event) {
  if (event.names) rename(event.names);
  if (event.picture) draw(event.picture.week);
  if (event.over) {
    app.isOver = true;
    banner("The office has closed; this is the timetable that it leaves.");
  }
}

/** @type {(fault: import("./link.js").Fault) => null} */
function lost(fault) {
  banner(fault.message);
  return null;
}

/** @type {(text: string) => void} */
function silent(text) {
  if (!app.isOver) banner(text);
}

takeKey();
keepListening({ begin, hear, lost, silent, isOver: () => app.isOver });
