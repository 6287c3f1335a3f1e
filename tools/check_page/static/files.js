// @ts-check
// The files that were given, and which of them are checked with which.

/** @typedef {"instance" | "solution" | "barred" | "blocked"} Kind */
/** @typedef {{ name: string, text: Uint8Array, kind: Kind }} Given */

const ENDINGS = /** @type {Record<string, Kind>} */ ({
  ctt: "instance",
  sol: "solution",
  barred: "barred",
  blocked: "blocked",
});
const BEGINS = /** @type {[RegExp, Kind][]} */ ([
  [/^\s*Name:/, "instance"],
  [/^\s*Barred:/, "barred"],
  [/^\s*Blocked:/, "blocked"],
]);

/** What a file is: by the end of its name, or else by how its text begins.
 * @param {string} name
 * @param {Uint8Array} text
 * @returns {Kind} */
export function kindOf(name, text) {
  const ending = (/\.(\w+)$/.exec(name) || ["", ""])[1].toLowerCase();
  const begin = new TextDecoder().decode(text.subarray(0, 200));
  const found = BEGINS.find(([form]) => form.test(begin));
  return ENDINGS[ending] || (found ? found[1] : "solution");
}

/** A name without its ending.
 * @param {string} name */
function stem(name) {
  return name.replace(/\.\w+$/, "");
}

/** The newest file of a kind, or the one that is called as a solution is.
 * @param {Given[]} given
 * @param {Kind} kind
 * @param {string} solution */
function beside(given, kind, solution) {
  const those = given.filter((one) => one.kind === kind);
  return those.find((one) => stem(one.name) === stem(solution)) || those[those.length - 1];
}

/** What is asked of each solution that has an instance, in the order of their names.
 * @param {Map<string, Given>} files
 * @param {string} days
 * @returns {import("./border.js").Question[]} */
export function questionsOf(files, days) {
  const given = [...files.values()];
  const solutions = given.filter((one) => one.kind === "solution");
  solutions.sort((a, b) => (a.name < b.name ? -1 : 1));
  return solutions.flatMap((solution) => {
    const instance = beside(given, "instance", solution.name);
    if (!instance) {
      return [];
    }
    const barred = beside(given, "barred", solution.name);
    const blocked = beside(given, "blocked", solution.name);
    return [{ instance, solution, barred, blocked, days }];
  });
}

/** The files that are checked together.
 * @param {import("./border.js").Question} question */
export function filesIn({ instance, solution, barred, blocked }) {
  return [instance, solution, barred, blocked].flatMap((file) => (file ? [file] : []));
}

/** @typedef {{ isFile: boolean, isDirectory: boolean, fullPath: string, file: Function,
 *   createReader: Function }} Entry */

/** Whether a file of a folder is one of a timetable, by the end of its name.
 * @param {string} name */
export function isOurs(name) {
  return Object.keys(ENDINGS).some((ending) => name.toLowerCase().endsWith(`.${ending}`));
}

/** All files of an entry of a drop, with their paths; of a folder those of timetables.
 * @param {Entry} entry
 * @returns {Promise<[string, File][]>} */
async function below(entry) {
  if (entry.isFile) {
    const file = await new Promise((done, fail) => entry.file(done, fail));
    return [[entry.fullPath.replace(/^\//, ""), file]];
  }
  const reader = entry.createReader();
  /** @type {[string, File][]} */
  const found = [];
  for (;;) {
    /** @type {Entry[]} */
    const entries = await new Promise((done, fail) => reader.readEntries(done, fail));
    if (!entries.length) {
      return found;
    }
    for (const one of entries) {
      if (one.isDirectory || isOurs(one.fullPath)) {
        found.push(...await below(one));
      }
    }
  }
}

/** The files of a drop; those of folders, too.
 * @param {DataTransfer} drop
 * @returns {Promise<[string, File][]>} */
export async function dropped(drop) {
  const entries = [...drop.items].map((item) => item.webkitGetAsEntry && item.webkitGetAsEntry());
  if (entries.length && entries.every((entry) => entry)) {
    const found = await Promise.all(entries.map((entry) => below(/** @type {any} */ (entry))));
    return found.flat();
  }
  return [...drop.files].map((file) => [file.name, file]);
}

/** Reads files.
 * @param {[string, File][]} files
 * @returns {Promise<Given[]>} */
export async function readAll(files) {
  return Promise.all(files.map(async ([name, file]) => {
    const text = new Uint8Array(await file.arrayBuffer());
    return { name, text, kind: kindOf(name, text) };
  }));
}
