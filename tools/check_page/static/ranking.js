// @ts-check
// The comparison: a row for each solution, and a table of these that sorts.
import { made } from "./dom.js";
import { filesIn } from "./files.js";
import { decoded, faultOf } from "./texts.js";

/** @typedef {{ file: string, facts?: Record<string, number | boolean | string>,
 *   fault?: string }} Row */

export const COLUMNS = [
  "file", "lectures", "conflicts", "availability", "occupancy", "barred", "blocked",
  "capacity", "days", "compactness", "stability", "total", "lawful", "complete",
];

/** The row of a solution.
 * @param {import("./border.js").Question} question
 * @param {import("./checking.js").Told} told
 * @returns {Row} */
export function rowOf(question, told) {
  const text = decoded(told.text);
  const file = question.solution.name;
  if (told.status === 0) {
    return { file, facts: JSON.parse(text) };
  }
  const why = faultOf(text, filesIn(question).map((one) => one.name));
  return { file, fault: why.sentence ? `${why.file}:${why.at}: ${why.sentence}` : why.line };
}

/** 0 for a solution that is lawful and complete, 1 if it is lawful, 2 if it is neither, and 3 for
 * a file that is refused.
 * @param {Row} row */
function rank(row) {
  if (!row.facts) {
    return 3;
  }
  return row.facts.complete ? 0 : row.facts.lawful ? 1 : 2;
}

/** What a row has in a column. What is not counted of an instance is left out of its facts.
 * @param {Row} row
 * @param {string} column */
export function cell(row, column) {
  if (column === "file") {
    return row.file;
  }
  const found = row.facts && row.facts[column];
  return typeof found === "boolean" ? (found ? "yes" : "no") : found;
}

/** Rows, the best first: lawful and complete ones before others, and then by cost and name.
 * @param {Row[]} rows
 * @returns {Row[]} */
export function ranked(rows) {
  const key = (/** @type {Row} */ row) => Number((row.facts && row.facts.total) || 0);
  return [...rows].sort((a, b) =>
    rank(a) - rank(b) || key(a) - key(b) || (a.file < b.file ? -1 : 1));
}

/** Rows by a column, those without a number there last.
 * @param {Row[]} rows
 * @param {string} column
 * @param {boolean} isDown */
export function sorted(rows, column, isDown) {
  const sign = isDown ? -1 : 1;
  const has = (/** @type {Row} */ row) => cell(row, column) !== undefined;
  return ranked(rows).sort((a, b) => {
    if (!has(a) || !has(b)) {
      return Number(has(b)) - Number(has(a));
    }
    const [one, two] = [cell(a, column), cell(b, column)];
    return one === two ? 0 : sign * (/** @type {any} */ (one) < /** @type {any} */ (two) ? -1 : 1);
  });
}

/** The columns that some row has.
 * @param {Row[]} rows */
export function columnsOf(rows) {
  return COLUMNS.filter((column) => rows.some((row) => cell(row, column) !== undefined));
}

/** The rows as CSV, with what is said of the files that are refused.
 * @param {Row[]} rows */
export function csvOf(rows) {
  const columns = columnsOf(rows);
  const field = (/** @type {unknown} */ value) => {
    const text = value === undefined ? "" : String(value);
    return /[",\n]/.test(text) ? `"${text.replaceAll('"', '""')}"` : text;
  };
  const lines = rows.map((row) => [...columns.map((column) => cell(row, column)), row.fault]);
  return [[...columns, "fault"], ...lines].map((line) => `${line.map(field).join(",")}\n`).join("");
}

/** The table, whose heads are buttons that sort, and whose rows are buttons that choose.
 * @param {Row[]} rows
 * @param {{ by: string, isDown: boolean }} order
 * @param {(order: { by: string, isDown: boolean }) => void} sort
 * @param {(file: string) => void} choose
 * @returns {Node[]} */
export function tableParts(rows, order, sort, choose) {
  const columns = columnsOf(rows);
  const heads = columns.map((column) => {
    const isBy = column === order.by;
    const onclick = () => sort({ by: column, isDown: isBy && !order.isDown });
    const sign = isBy ? (order.isDown ? " ▾" : " ▴") : "";
    const head = made("th", { scope: "col" }, made("button", { type: "button", onclick },
      column, sign));
    head.setAttribute("aria-sort", isBy ? (order.isDown ? "descending" : "ascending") : "none");
    return head;
  });
  const shown = order.by ? sorted(rows, order.by, order.isDown) : ranked(rows);
  const lines = shown.map((row) => {
    const onclick = () => choose(row.file);
    const button = made("button", { type: "button", onclick }, row.file);
    const name = made("th", { scope: "row" }, button);
    const cells = row.facts
      ? columns.slice(1).map((column) => made("td", {}, String(cell(row, column) ?? "")))
      : [made("td", { colSpan: columns.length - 1, className: "fault" }, row.fault || "")];
    return made("tr", { className: rank(row) === 0 ? "good" : "bad" }, name, ...cells);
  });
  return [made("thead", {}, made("tr", {}, ...heads)), made("tbody", {}, ...lines)];
}
