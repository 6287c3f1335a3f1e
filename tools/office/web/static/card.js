// @ts-check
// A lecture as a card, and the signs for what costs points.
import { el, name } from "./dom.js";
import { counted } from "./numbers.js";

/** @type {(lecture: LectureData, kind: string) => HTMLElement[]} */
export function signs(lecture, kind) {
  const found = [];
  if (lecture.short) {
    const title = `${counted(lecture.short, "student")} without a seat`;
    found.push(el("span", { cls: "sign short", title }, `● ${lecture.short}`));
  }
  if (lecture.alone) {
    const where = kind === "curriculum" ? "alone on its day" : "alone on its day in its curricula";
    const title = `${where}: ${counted(lecture.alone, "point")}`;
    found.push(el("span", { cls: "sign alone", title }, `○ ${lecture.alone}`));
  }
  return found;
}

/** @type {(cls: string, ...parts: any[]) => HTMLElement} */
const line = (cls, ...parts) => el("div", { cls: `line ${cls}` }, ...parts);

const pencil = () => el("span", { cls: "pencil", "aria-hidden": "true" }, "✎");

// what the week's title says already is left out
/**
 * @param {LectureData} lecture
 * @param {PairData} view
 * @param {boolean} canMove
 * @param {boolean} isMine
 */
export function card(lecture, [kind], canMove, isMine) {
  const grip = el("span", { cls: "grip", "aria-hidden": "true", title: "drag" }, "⠿");
  const people = `${lecture.students}/${lecture.seats}`;
  return el(
    "div",
    { cls: "card", css: { "--hue": lecture.hue }, title: lecture.told },
    line("", name(lecture.said, "course"), isMine ? pencil() : null, canMove ? grip : null),
    kind === "room" ? null : line("place", name(lecture.room_said, "room")),
    line(
      "foot",
      lecture.seats ? el("span", { cls: "seats", title: "students / seats" }, people) : null,
      ...signs(lecture, kind),
      kind === "teacher" ? null : name(lecture.teacher_said, "teacher")
    )
  );
}

/** @type {(lecture: LectureData) => string} */
export function cardSaid(lecture) {
  const found = [lecture.told];
  if (lecture.seats) found.push(`${lecture.students} students, ${lecture.seats} seats`);
  if (lecture.short) found.push(`${counted(lecture.short, "student")} without a seat`);
  if (lecture.alone) found.push(`alone on its day, ${counted(lecture.alone, "point")}`);
  return found.join(", ");
}
