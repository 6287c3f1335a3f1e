// @ts-check
// What is said above the week: that the office is away or silent, closes, or is out of order.
import { banner, button } from "./dom.js";

export const LEFT = "You have left the seat.";

/** @type {(app: Known) => number} */
const toClose = (app) => app.closes - (Date.now() / 1000 - app.ahead);

// whether the office has closed at the time that it had told
/** @type {(app: Known) => boolean} */
export const hasClosed = (app) => app.closes !== null && toClose(app) < 0;

/** @type {(app: Known) => string} */
function closing(app) {
  if (app.isOver) return app.day.farewell;
  if (!app.closes) return "";
  const seconds = Math.max(0, Math.round(toClose(app)));
  return `The office closes in ${seconds} s: commit now, or your edits are offered again.`;
}

// a desk that has died is told before the farewell; one that ends in its time has closed
/** @type {(app: Known) => () => void} */
export const makeBanner = (app) => () => {
  const why = (hasClosed(app) ? "" : app.fault) || (app.isOver ? "" : app.lost || app.old);
  const text = why || app.waits || closing(app) || app.picture?.state.alarm || "";
  banner(text, text === LEFT ? sitAgain() : null);
};

const sitAgain = () => button("sit", "Sit down again", () => location.reload());
