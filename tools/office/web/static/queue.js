// @ts-check
// Acts one after another: what was pressed before has its effect first, and a key that was meant
// for the week does nothing after a box or a list that has come up meanwhile.
import { hasLater, typedAhead } from "./boxes.js";
import { menuInFront } from "./menu.js";
import { toast } from "./toasts.js";

/** @type {(fault: any) => void} */
function failed(fault) {
  console.error(fault);
  toast("bad", "Something went wrong with your last action. Reload the page if it happens again.");
}

/** @type {(app: Known) => Queue} */
export function makeQueue(app) {
  /** @type {Promise<any>} */
  let last = Promise.resolve();
  let count = 0;
  // so many are not done yet
  /** @type {(more: number) => void} */
  const tell = (more) => {
    count += more;
    document.body.dataset.acts = String(count);
  };
  tell(0);
  return (act) => {
    // as they are seen
    const [question, menu] = [hasLater() ? null : app.question, menuInFront()];
    const isFree = () => app.question === question && (!menuInFront() || menuInFront() === menu);
    tell(1);
    const done = last.then(() => {
      if (isFree()) return act();
      typedAhead();
      return null;
    });
    // those after one that fails have their turn all the same
    last = done.catch(failed).then(() => tell(-1));
    return done;
  };
}
