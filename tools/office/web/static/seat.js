// @ts-check
// The seat in a browser: what is known, and what is drawn when it changes.
import { makeActs } from "./acting.js";
import { drawBar } from "./bar.js";
import * as boxes from "./boxes.js";
import { hasClosed, LEFT, makeBanner } from "./closing.js";
import { drawCosts } from "./costs.js";
import { announce, el, fill, find, name } from "./dom.js";
import { makeHand } from "./hand.js";
import { listenToKeys } from "./keys.js";
import { act, ask, Fault, keepListening, takeKey } from "./link.js";
import { Look } from "./look.js";
import { drawNews } from "./news.js";
import { keyOf } from "./numbers.js";
import { makeQueue } from "./queue.js";
import { makeSearch } from "./search.js";
import * as side from "./side.js";
import { toast, toastNotice } from "./toasts.js";
import { Week } from "./week.js";

const VIEW = "view";
const NAME = "name";
// so long a draft of somebody else is marked as new
const NEW = 20000;

/** @type {State} */
const app = {
  day: null,
  picture: null,
  question: null,
  news: [],
  unseen: new Set(),
  recent: new Map(),
  closes: null,
  ahead: 0,
  isOver: false,
  lost: "",
  fault: "",
  old: "",
  waits: "",
};
const drawBanner = makeBanner(app);
/** @type {Week} */ let week;
/** @type {Acting} */ let acts;
/** @type {Look} */ let look;
/** @type {ReturnType<typeof makeSearch>} */ let search;
/** @type {ReturnType<typeof makeHand>} */ let hand;

function drawWeek() {
  const { week: told, held } = app.picture;
  week.draw(told, held, app.recent);
  fill(find("week-title"), el("span", { cls: "kind" }, told.view[0]), name(told.title));
  const missing = told.missing ? el("span", { cls: "pill bad" }, told.missing) : null;
  const names = told.working.join(", ");
  const working = names ? el("span", { cls: "pill" }, "at work on it: ", name(names)) : null;
  fill(find("week-about"), name(told.about), missing, working);
  look.drawTray();
  hand?.renew();
}

function drawState() {
  drawCosts(app, acts);
  side.drawDraft(app, acts);
  side.drawMissing(app, acts);
  side.drawBlocked(app);
  drawBanner();
}

function leave() {
  app.isOver = true;
  app.day.farewell = LEFT;
  boxes.close();
  drawBanner();
}

// takes up what the office tells; what is older than what is seen is left
/** @type {(found: TurnData) => void} */
function take(found) {
  if (found.left) leave();
  if (found.picture && found.picture.number >= (app.picture?.number ?? 0)) {
    app.picture = found.picture;
    sessionStorage.setItem(VIEW, JSON.stringify(app.picture.week.view));
    app.waits = "";
    if (found.picture.goal) week.setCursor(found.picture.goal, false);
    drawWeek();
    drawState();
    look.choose();
    boxes.previewStale(app.picture.state.draft?.stale_preview || "");
  }
  if (found.question !== undefined) {
    app.question = found.question;
    if (found.question) boxes.ask(found.question, acts);
    else boxes.closeAsked();
  }
  if (found.notice) toastNotice(found.notice, acts);
}

/** @type {(state: StateData) => void} */
function takeState(state) {
  if (!app.picture) return;
  app.picture = { ...app.picture, state };
  drawState();
  boxes.previewStale(state.draft?.stale_preview || "");
}

// what is asked
/** @type {Parts["turn"]} */
async function turn(verb, told = {}) {
  try {
    const found = await act(verb, told);
    take(found);
    return found;
  } catch (fault) {
    if (!(fault instanceof Fault)) throw fault;
    toast("bad", fault.message);
    announce(fault.message);
    return {};
  }
}

// what the office says by itself
/** @type {(event: EventData) => void} */
function hear(event) {
  if (event.names) rename(event);
  if (event.people) side.drawPeople(event.people, app.day);
  if (event.closes !== undefined) app.closes = event.closes;
  if (event.fault) app.lost = app.fault = event.fault;
  if (event.waits !== undefined) app.waits = event.waits;
  if (event.over) app.isOver = true;
  if (event.left) leave();
  if (event.news) event.news.forEach(tellNews);
  if (event.picture) take(event);
  else if (event.state) takeState(event.state);
  if (event.news) drawNews(app, acts);
  drawBanner();
}

// names and times have changed
/** @type {(event: Pick<EventData, "names" | "accepted">) => void} */
function rename({ names, accepted }) {
  Object.assign(app.day, names);
  app.news = accepted;
  week.rename(names);
  search.rename(names.named);
  drawNews(app, acts);
}

/** @type {(one: NewsData) => void} */
function tellNews(one) {
  // who has committed it, and why, may be known a little later
  const at = app.news.findIndex((known) => known.number === one.number);
  if (at >= 0) app.news[at] = one;
  else newsOf(one);
}

/** @type {(one: NewsData) => void} */
function newsOf(one) {
  app.news.push(one);
  if (one.seat === app.day.seat) return;
  app.unseen.add(one.number);
  for (const slot of one.slots) app.recent.set(keyOf(slot), one.who);
  toast("news", one.text);
  announce(one.text);
  setTimeout(() => {
    app.unseen.delete(one.number);
    drawNews(app, acts);
  }, NEW);
}
/** @type {(fault: Fault) => void} */
function lost(fault) {
  // an office that has closed answers no more
  if (hasClosed(app)) app.isOver = true;
  app.lost = app.fault || fault.message;
  document.body.classList.add("lost");
  drawBanner();
}

/** @type {(text: string) => void} */
function silent(text) {
  app.old = text;
  drawBanner();
}

// the beginning, and each time that the office has been away

function where() {
  const view = JSON.parse(sessionStorage.getItem(VIEW) || "null");
  const held = app.picture?.held;
  if (!held) return { view };
  const { kind, course, at, room } = held;
  return { view, held: { kind, course, at, room } };
}

async function begin() {
  const told = { name: sessionStorage.getItem(NAME) || "", ...where() };
  let found = /** @type {HelloData & WantsData} */ (await ask("hello", told));
  while (found.wants) {
    drawBanner();
    told.name = await boxes.askName(found, localStorage.getItem(NAME) || "");
    // for the next time that this tab comes back, and as what another one proposes
    sessionStorage.setItem(NAME, told.name);
    localStorage.setItem(NAME, told.name);
    found = await ask("hello", told);
  }
  const isFirst = app.day === null;
  app.ahead = Date.now() / 1000 - found.now;
  Object.assign(app, { day: found, news: found.news, closes: found.closes, lost: "", fault: "" });
  app.picture = null;
  document.body.classList.remove("lost");
  if (isFirst) build(found);
  else rename({ names: found, accepted: found.news });
  side.drawPeople(found.people, app.day);
  drawNews(app, acts);
  take(found);
  if (isFirst) look.toFirst();
  if (isFirst && !app.question) acts.toWeek();
  performance.mark("ready");
}
/** @type {(found: HelloData) => void} */
function build(found) {
  find("day").textContent = found.day;
  document.title = `${found.day} · ${found.name} · timedesk`;
  week = new Week(found, true);
  look = new Look(app, week);
  search = makeSearch(found.named, (view) => acts.show(view), () => acts.toWeek());
  acts = makeActs({
    app,
    week,
    look,
    turn,
    queue: makeQueue(app),
    search: () => search.focus(),
    closed: () => {
      app.question = null;
    },
    seen: () => app.recent.clear(),
  });
  look.acts = acts;
  hand = makeHand(week, acts);
  listenToKeys(acts, found.keys);
  drawBar(found.keys, acts);
  find("search-input").addEventListener("blur", boxes.askLater);
  setInterval(() => (app.closes || app.isOver) && drawBanner(), 1000);
}

takeKey();
keepListening({ begin, hear, lost, silent, isOver: () => app.isOver });
