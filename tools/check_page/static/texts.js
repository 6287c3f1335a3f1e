// @ts-check
// What stands in the texts that the module gives: facts, tables, and places of faults.

const decoder = new TextDecoder();

/** @param {Uint8Array} bytes */
export function decoded(bytes) {
  return decoder.decode(bytes);
}

/** The facts at the head of a report, a line each, by their names.
 * @param {string} report
 * @returns {Map<string, string>} */
export function factsOf(report) {
  const lines = report.split("\n");
  const end = lines.findIndex((line) => line.startsWith("complete ")) + 1;
  return new Map(lines.slice(0, end).map((line) => {
    const at = line.indexOf(" ");
    return [line.slice(0, at), line.slice(at + 1)];
  }));
}

/** The lines behind those of the facts.
 * @param {string} report */
export function linesBehind(report) {
  const lines = report.split("\n");
  return lines.slice(lines.findIndex((line) => line.startsWith("complete ")) + 1)
    .filter((line) => line !== "");
}

/** The fields of a line of CSV; a field with a comma, a quote or a line feed stands in quotes.
 * @param {string} text
 * @returns {string[][]} */
export function tableOf(text) {
  /** @type {string[][]} */
  const rows = [];
  /** @type {string[]} */
  let row = [];
  for (const [, quoted, plain, end] of text.matchAll(/(?:"((?:[^"]|"")*)"|([^",\n]*))(,|\n|$)/g)) {
    row.push(quoted === undefined ? plain : quoted.replaceAll('""', '"'));
    if (end !== ",") {
      rows.push(row);
      row = [];
    }
  }
  return rows.filter((one) => one.length > 1);
}

/** @typedef {Map<string, string>} Finding */

/** The findings of a table, each by the names of its columns.
 * @param {string} text
 * @returns {Finding[]} */
export function findingsOf(text) {
  const [head, ...rows] = tableOf(text);
  return rows.map((row) => new Map(row.map((field, number) => [head[number], field])));
}

/** The teacher of each course, of the text of an instance that is valid.
 * @param {string} text
 * @returns {Map<string, string>} */
export function teachersOf(text) {
  const words = text.split(/\s+/).filter((word) => word !== "");
  const count = Number(words[words.indexOf("Courses:") + 1]);
  const start = words.indexOf("COURSES:") + 1;
  return new Map(Array.from({ length: count }, (_, number) => {
    const at = start + 5 * number;
    return [words[at], words[at + 1]];
  }));
}

/** Those whom a finding is of, by its kind or by the teachers of its courses.
 * @param {Finding} finding
 * @param {Map<string, string>} teachers */
function teachersIn(finding, teachers) {
  const courses = [finding.get("course"), finding.get("other")];
  const found = courses.map((course) => course && teachers.get(course));
  return [...new Set(found.filter((one) => one))];
}

/** Findings by a heading each, the heading with most of them first.
 * @param {Finding[]} findings
 * @param {Map<string, string> | undefined} teachers by these, or by kind
 * @returns {[string, Finding[]][]} */
export function grouped(findings, teachers) {
  /** @type {Map<string, Finding[]>} */
  const found = new Map();
  for (const finding of findings) {
    const heads = teachers ? teachersIn(finding, teachers) : [finding.get("kind")];
    const other = finding.get("curriculum") || finding.get("room") || "nobody";
    for (const head of heads.length ? heads : [other]) {
      const name = /** @type {string} */ (head);
      found.set(name, [...(found.get(name) || []), finding]);
    }
  }
  return [...found].sort(([a, one], [b, two]) => two.length - one.length || (a < b ? -1 : 1));
}

/** @typedef {{ line: string, file: string, at: number, column: number, code: string,
 *   sentence: string }} Fault */

/** What is said of a fault: its line, and where it is in which of these files.
 * @param {string} said
 * @param {string[]} names of the files that were checked
 * @returns {Fault} */
export function faultOf(said, names) {
  const end = said.indexOf("\n");
  const line = said.slice(0, end).replace(/^timedesk: /, "");
  const point = said.slice(end + 1).trimEnd();
  for (const file of names) {
    const behind = point.startsWith(`${file}:`) ? point.slice(file.length + 1) : "";
    const found = /^(\d+):(\d+): (\w+): ([^]*)$/.exec(behind);
    if (found) {
      const [, at, column, code, sentence] = found;
      return { line, file, at: Number(at), column: Number(column), code, sentence };
    }
  }
  return { line, file: "", at: 0, column: 0, code: "", sentence: "" };
}

/** Some lines of a text about a place, and what of the line there stands before the word, in it
 * and behind it. Columns count characters.
 * @param {Uint8Array} bytes
 * @param {number} at the line, from 1
 * @param {number} column from 1 */
export function excerptOf(bytes, at, column) {
  const lines = decoded(bytes).split("\n");
  const number = Math.min(at, lines.length);
  const letters = [...(lines[number - 1] || "")];
  const behind = letters.slice(column - 1).join("");
  const word = /** @type {RegExpExecArray} */ (/^\S*/.exec(behind))[0];
  const first = Math.max(number - 3, 0);
  return {
    first: first + 1,
    above: lines.slice(first, number - 1),
    before: letters.slice(0, column - 1).join(""),
    word,
    behind: behind.slice(word.length),
    below: lines.slice(number, number + 2),
  };
}
