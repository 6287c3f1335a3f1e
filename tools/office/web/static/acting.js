// @ts-check
// What the page can do, one thing after another.
import { Acts } from "./acts.js";
import { verbMenu } from "./bar.js";

// the acts, each after those that were asked for before it
/** @type {(parts: Parts) => Acting} */
export function makeActs({ closed, seen, ...parts }) {
  const raw = new Acts({ closed, seen, ...parts });
  const { queue, look } = raw;
  /** @type {(slot: SlotData) => Promise<void>} */
  const drop = (slot) => queue(() => raw.drop(slot));
  return {
    isHolding: () => raw.isHolding(),
    told: (slot) => raw.told(slot),
    act: raw.queued,
    toWeek: raw.toWeek,
    hover: (slot) => look.hover(slot),
    go: (days, periods) => queue(() => look.go(days, periods)),
    closeQuestion: (question, told) => {
      closed();
      return queue(() => raw.turn("close", { question, ...told }));
    },
    menu: (slot) => {
      look.goTo(slot);
      verbMenu(raw.week, slot, raw.queued, raw.toWeek);
    },
    part: (part) => queue(() => raw.turn("part", { part })),
    draft: (number) => queue(() => raw.turn("draft", { number })),
    takeBack: (place, edit) => queue(() => raw.turn("take_back", { place, edit })),
    makeOne: (edit) => queue(() => raw.turn("make_one", { edit })),
    more: (slot) => {
      const lecture = raw.week.seen(slot);
      return queue(() => raw.rooms(slot, lecture));
    },
    tap: (slot) => {
      seen();
      if (raw.isHolding()) drop(slot);
      else look.goTo(slot);
    },
    show: (view) => queue(() => raw.show(view)),
    pickUp: (slot) => queue(() => raw.pickUp(slot)),
    place: (course) => queue(() => raw.place(course)),
    drop,
    layDown: () => queue(() => raw.layDown()),
    answer: (question, answer, more) => queue(() => raw.answer(question, answer, more)),
  };
}
