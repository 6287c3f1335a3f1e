// @ts-check
// What is said to the office, and what it says by itself.
import { hasHeard, silence, watch } from "./silence.js";

const KEY = "seat-key";
const windowName = [...crypto.getRandomValues(new Uint8Array(12))]
  .map((byte) => byte.toString(16).padStart(2, "0"))
  .join("");
let key = "";

const linkKey = () => (location.hash.length > 20 ? location.hash.slice(1) : "");

// The key comes behind the # of the link, is kept for this tab, and leaves the address line.
export function takeKey() {
  if (linkKey()) {
    sessionStorage.setItem(KEY, linkKey());
    history.replaceState(null, "", location.pathname);
  }
  key = sessionStorage.getItem(KEY) || "";
}

// another link that is opened in this tab is followed
addEventListener("hashchange", () => linkKey() && location.reload());

// A status of the office, or one of these: it does not answer, a login has ended.
const [AWAY, LOGGED_OUT] = [0, 1];

export class Fault extends Error {
  constructor(/** @type {number} */ status, /** @type {string} */ text) {
    super(text);
    this.status = status;
  }
}

const PERHAPS =
  "The office was away before it had answered: look whether your last step was done.";
const LOGIN =
  "The login of your house has ended: load this page anew to log in. Your draft stays where it is.";
const fields = () => ({ "X-Seat-Key": key, "X-Window": windowName });
// so long an answer is waited for at most: longer than the office waits for its desk
const LIMIT = 40000;
// the requests that are under way
/** @type {Set<AbortController>} */
const open = new Set();

/** @type {(path: string, more: RequestInit) => Promise<Response>} */
async function request(path, more) {
  let response;
  try {
    response = await fetch(`api/${path}`, {
      credentials: "same-origin",
      redirect: "manual",
      ...more,
    });
  } catch {
    throw new Fault(AWAY, silence());
  }
  const kind = response.headers.get("content-type") || "";
  const isOurs = kind.startsWith("application/json") || kind.startsWith("application/x-ndjson");
  // a proxy that sends one to its login, or shows it, is none of the office
  if (response.type === "opaqueredirect") throw new Fault(LOGGED_OUT, LOGIN);
  if (!isOurs && response.status < 500) throw new Fault(LOGGED_OUT, LOGIN);
  if (!isOurs) throw new Fault(AWAY, silence());
  if (!response.ok) {
    const told = await response.json().catch(() => ({}));
    throw new Fault(response.status, told.fault || `The office answers with ${response.status}.`);
  }
  return response;
}

/** @type {(verb: string, told?: object, more?: object) => Promise<any>} */
export async function ask(verb, told = {}, more = {}) {
  const one = new AbortController();
  const late = setTimeout(() => one.abort(), LIMIT);
  open.add(one);
  try {
    const response = await request(verb, {
      method: "POST",
      headers: { ...fields(), ...more, "Content-Type": "application/json" },
      body: JSON.stringify(told),
      signal: one.signal,
    });
    const found = await response.json().catch(() => {
      throw new Fault(AWAY, silence());
    });
    if (found.again === false) strangers += 1;
    return found;
  } finally {
    clearTimeout(late);
    open.delete(one);
  }
}

// whether the office knows this window, how often it has begun there, how often at an office that
// did not know it, whether it does so no more
let isKnown = false;
let times = 0;
let strangers = 0;
let isEnded = false;
// the number of the last act
let acts = 0;
// who waits for the next beginning, what makes it begin at once, what ends the news that are read
/** @type {{ good: () => void, bad: (fault: Fault) => void }[]} */
const waiting = [];
/** @type {(value?: any) => void} */
let hurry = () => {};
let away = new AbortController();
const UNKNOWN = 410;
const NO_KEY = 401;
// so long the end of the news is waited for by which the office lets a window go, and until the
// next beginning, at first; one that takes longer than this is told
const ENDS = 1000;
const SOON = 250;
const LATE = 1000;

/** @type {() => Promise<void>} */
function beginning() {
  hurry();
  return new Promise((good, bad) => waiting.push({ good, bad }));
}

// those who wait for a beginning have it, or hear why there is none
/** @param {Fault} [fault] */
function settle(fault) {
  // an office that is away comes back
  if (fault?.status === AWAY && !isEnded) return;
  for (const { good, bad } of waiting.splice(0)) fault ? bad(fault) : good();
}

// ends what is under way with an office of which nothing is heard
function hangUp() {
  away.abort();
  for (const one of open) one.abort();
}

// What a planner does is asked of an office that knows this window. So it waits for a beginning,
// and is asked again after one if no answer has come. By its number it is done once all the same;
// an office that has begun anew meanwhile does not know whether it was.
/** @type {(verb: string, told?: object) => Promise<any>} */
export async function act(verb, told = {}) {
  acts += 1;
  const number = String(acts);
  if (!isKnown && !isEnded) await beginning();
  for (;;) {
    const [asked, known] = [times, strangers];
    try {
      const found = await ask(verb, told, { "X-Act": number });
      if (asked === times) return found;
      // what is drawn and asked by now is that of another beginning
      return { ...found, picture: undefined, question: undefined };
    } catch (fault) {
      const isLost = fault.status === AWAY;
      if ((fault.status !== UNKNOWN && !isLost) || isEnded) throw fault;
      const old = away;
      if (asked === times) setTimeout(() => old.abort(), isLost ? 0 : ENDS);
      if (asked === times) await beginning();
      if (isLost && known !== strangers) throw new Fault(AWAY, PERHAPS);
    }
  }
}

// Lines of JSON by fetch, which can send the key in a header.
/** @type {(hear: (event: any) => void) => Promise<null>} */
async function readNews(hear) {
  away = new AbortController();
  const response = await request("news", { headers: fields(), signal: away.signal });
  hasHeard();
  const reader = response.body.pipeThrough(new TextDecoderStream()).getReader();
  let text = "";
  for (;;) {
    const { value, done } = await reader.read();
    if (done) return null;
    hasHeard();
    const lines = (text + value).split("\n");
    text = lines.pop();
    for (const line of lines.filter(Boolean)) hear(JSON.parse(line));
  }
}

// A page that is left may be kept by the browser, to be gone back to. It must not listen meanwhile,
// as a window that nobody sees, and begins anew when it is seen again.
addEventListener("pagehide", () => {
  isKnown = false;
  away.abort();
});
addEventListener("pageshow", () => hurry());

// some time, or until it is hurried; none if somebody waits
/** @type {(time: number) => Promise<void>} */
function pause(time) {
  return new Promise((go) => {
    hurry = go;
    setTimeout(go, waiting.length ? 0 : time);
  });
}

/** @type {(thrown: any) => Fault} */
function faultOf(thrown) {
  if (thrown instanceof Fault) return thrown;
  if (thrown instanceof TypeError || thrown.name === "AbortError") {
    return new Fault(AWAY, silence());
  }
  throw thrown;
}

// Begins, listens, and begins again when the office was away; ends when `isOver` says so.
/**
 * @param {{
 *   begin: () => Promise<void>,
 *   hear: (event: any) => void,
 *   lost: (fault: Fault) => void,
 *   silent: (text: string) => void,
 *   isOver: () => boolean,
 * }} page
 */
export async function keepListening({ begin, hear, lost, silent, isOver }) {
  watch({ isListening: () => isKnown, silent, hangUp });
  let [wait, late] = [SOON, 0];
  for (;;) {
    let fault = await begin().then(() => null, faultOf);
    clearTimeout(late);
    if (fault) {
      lost(fault);
      settle(fault);
    } else {
      [isKnown, times, wait] = [true, times + 1, SOON];
      settle();
      fault = await readNews(hear).catch(faultOf);
      isKnown = false;
      // an office that was away for a moment is not worth a word
      if (fault?.status) lost(fault);
      else late = setTimeout(() => isOver() || lost(new Fault(AWAY, silence())), LATE);
    }
    if (isOver() || fault?.status === NO_KEY) break;
    await pause(wait);
    wait = Math.min(wait * 2, 8000);
  }
  isEnded = true;
  settle(new Fault(AWAY, silence()));
}
