// @ts-check
// What the page shows of one solution: the verdict, its findings, or where a file is refused.
import { byId, made } from "./dom.js";
import { excerptOf, grouped } from "./texts.js";

// so many findings or lines are shown at once
const MOST = 2000;

/** @param {string} kind `good`, `bad` or nothing
 * @param {string} text */
export function say(kind, text) {
  byId("verdict").className = kind;
  byId("verdict").textContent = text;
}

/** The verdict on a solution by the facts of its report.
 * @param {string} file
 * @param {Map<string, string>} facts
 * @param {number} took milliseconds */
export function sayFacts(file, facts, took) {
  const isGood = facts.get("lawful") === "yes" && facts.get("complete") === "yes";
  const rules = facts.get("lawful") === "yes" ? "breaks no rule" : "breaks rules";
  const all = facts.get("complete") === "yes" ? "is complete" : "is not complete";
  const cost = `It costs ${facts.get("total")} points.`;
  const checked = `Checked in ${took.toFixed(1)} ms.`;
  say(isGood ? "good" : "bad", `${file} ${rules} and ${all}. ${cost} ${checked}`);
}

/** @param {Map<string, string>} facts */
export function showFacts(facts) {
  byId("counts").replaceChildren(...[...facts].map(([name, value]) =>
    made("tr", {}, made("th", { scope: "row" }, name), made("td", {}, value))));
}

/** When a finding is, by the names of the days if there are some.
 * @param {import("./texts.js").Finding} finding
 * @param {string[]} days */
function time(finding, days) {
  const [day, period] = [finding.get("day"), finding.get("period")];
  if (!day) {
    return "";
  }
  return `${days[Number(day)] || `day ${Number(day) + 1}`}, period ${Number(period) + 1}`;
}

/** What else a finding says: of lectures, days and rooms how many.
 * @param {import("./texts.js").Finding} finding */
function amount(finding) {
  const of = (/** @type {string} */ name) => finding.get(name);
  if (of("stated")) {
    return `${of("placed")} of ${of("stated")} lectures`;
  }
  if (of("minimum")) {
    return `on ${of("days")} of ${of("minimum")} days`;
  }
  return of("rooms") ? `in ${of("rooms")} rooms` : "";
}

/** @param {import("./texts.js").Finding} finding
 * @param {string[]} days */
function findingRow(finding, days) {
  const of = (/** @type {string} */ name) => finding.get(name) || "";
  const courses = of("other") ? `${of("course")} and ${of("other")}` : of("course");
  const who = of("teacher") || of("curriculum");
  const cells = [of("kind"), courses, of("room"), time(finding, days), who, amount(finding)];
  return made("tr", {}, ...[...cells, of("points")].map((text) => made("td", {}, text)));
}

const HEADS = ["kind", "course", "room", "when", "for", "how many", "points"];

/** The findings under headings that open.
 * @param {import("./texts.js").Finding[]} findings
 * @param {Map<string, string> | undefined} teachers
 * @param {string[]} days
 * @returns {Node[]} */
export function groupsOf(findings, teachers, days) {
  if (!findings.length) {
    return [made("p", {}, "There is nothing to find fault with.")];
  }
  return grouped(findings, teachers).map(([name, those]) => {
    const heads = made("tr", {}, ...HEADS.map((head) => made("th", { scope: "col" }, head)));
    const one = made("details", {}, made("summary", {}, `${name}: ${those.length}`));
    one.addEventListener("toggle", () => {
      const rows = those.slice(0, MOST).map((finding) => findingRow(finding, days));
      one.replaceChildren(/** @type {Node} */ (one.firstChild),
        made("table", {}, made("thead", {}, heads), made("tbody", {}, ...rows)));
    }, { once: true });
    return one;
  });
}

/** Lines as items of a list, up to a number of them.
 * @param {string[]} lines */
export function itemsOf(lines) {
  const rest = lines.length - MOST;
  const told = `and ${rest} more, in the report that you can save`;
  const more = rest > 0 ? [made("li", {}, told)] : [];
  return [...lines.slice(0, MOST).map((line) => made("li", {}, line)), ...more];
}

/** Where and why a file is refused, with its lines about the place.
 * @param {import("./texts.js").Fault} fault
 * @param {Uint8Array} text of the file */
export function showFault(fault, text) {
  const place = `line ${fault.at}, column ${fault.column}`;
  say("bad", `${fault.file} is refused at ${place}: ${fault.sentence}`);
  const found = excerptOf(text, fault.at, fault.column);
  const word = made("mark", {}, found.word || " ");
  word.setAttribute("aria-label", `here: ${found.word || "the end"}`);
  const here = [found.before, word, found.behind];
  const lines = [...found.above, here, ...found.below].map((inside, number) => {
    const label = made("span", { className: "number" }, String(found.first + number));
    return made("div", {}, label, ...(Array.isArray(inside) ? inside : [inside]));
  });
  byId("excerpt").replaceChildren(...lines);
}
