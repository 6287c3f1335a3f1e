// @ts-check
// The page: it takes files in, has each solution checked, and shows what is found.
import { Checker } from "./checking.js";
import { byId, keep, made } from "./dom.js";
import { filesIn, questionsOf } from "./files.js";
import { csvOf, ranked, rowOf, tableParts } from "./ranking.js";
import { groupsOf, itemsOf, say, sayFacts, showFacts, showFault } from "./shown.js";
import { decoded, factsOf, faultOf, findingsOf, linesBehind, teachersOf } from "./texts.js";

/** @typedef {import("./border.js").Question} Question */
/** @typedef {import("./files.js").Given} Given */

/** @type {Map<string, Given>} */
const files = new Map();
/** @type {Checker} */
let checker;
/** @type {Question[]} */
let questions = [];
/** @type {import("./ranking.js").Row[]} */
let rows = [];
/** @type {Question | undefined} */
let shown;
let order = { by: "", isDown: false };
// each change of the files begins a run, and ends the one before
let run = 0;
// what is waited for
const works = new Set();

const KINDS = { instance: "instance", solution: "solution", barred: "barred rooms",
  blocked: "closures" };

function showFiles() {
  byId("files").replaceChildren(...[...files.values()].map((file) => {
    const onclick = () => {
      files.delete(file.name);
      checkAll();
    };
    const text = `${file.name}: ${KINDS[file.kind]}, ${file.text.length} bytes`;
    const remove = made("button", { type: "button", onclick, title: `Remove ${file.name}` }, "×");
    remove.setAttribute("aria-label", `Remove ${file.name}`);
    return made("li", {}, text, " ", remove);
  }));
}

/** @param {string[]} names of what is to be seen */
function open(...names) {
  for (const name of ["found", "refused", "ranking"]) {
    byId(name).hidden = !names.includes(name);
  }
}

/** A text of a solution, or nothing where another run has begun.
 * @param {string} wanted
 * @param {Question} question */
async function textOf(wanted, question) {
  const mine = run;
  const told = await checker.ask(wanted, question);
  return mine === run ? told : undefined;
}

/** @param {Question} question
 * @param {string} said */
function refuse(question, said) {
  const those = filesIn(question);
  const fault = faultOf(said, those.map((file) => file.name));
  const file = those.find((one) => one.name === fault.file);
  open("refused", ...(questions.length > 1 ? ["ranking"] : []));
  byId("said").textContent = said;
  byId("excerpt").replaceChildren();
  if (file) {
    showFault(fault, file.text);
  } else {
    say("bad", `Nothing can be said: ${fault.line}`);
  }
}

/** Shows one solution: its report, and what of it is opened.
 * @param {Question} question */
async function show(question) {
  const report = await textOf("report", question);
  if (!report) {
    return;
  }
  shown = question;
  document.body.dataset.status = String(report.status);
  document.body.dataset.took = String(report.took);
  if (report.status !== 0) {
    refuse(question, decoded(report.text));
    return;
  }
  const text = decoded(report.text);
  open("found", ...(questions.length > 1 ? ["ranking"] : []));
  sayFacts(question.solution.name, factsOf(text), report.took);
  showFacts(factsOf(text));
  const lines = text.split("\n");
  byId("report").textContent = lines.length > 5000
    ? `${lines.slice(0, 5000).join("\n")}\n..` : text;
  byId("week").removeAttribute("srcdoc");
  await showChosen();
}

/** @param {Question} question
 * @param {string} wanted */
async function fill(question, wanted) {
  if (wanted === "sentences" || wanted === "page") {
    const told = await textOf(wanted, question);
    if (told && wanted === "page") {
      byId("week").srcdoc = decoded(told.text);
    } else if (told) {
      byId("sentences").replaceChildren(...itemsOf(linesBehind(decoded(told.text))));
    }
    return;
  }
  const told = await textOf("findings", question);
  if (told) {
    const isByTeacher = wanted === "teachers";
    const teachers = isByTeacher ? teachersOf(decoded(question.instance.text)) : undefined;
    const days = (question.days || "").split(",").filter((day) => day);
    const groups = groupsOf(findingsOf(decoded(told.text)), teachers, days);
    byId(isByTeacher ? "teachers" : "kind-list").replaceChildren(...groups);
  }
}

/** Fills and opens the part that is chosen. */
export async function showChosen() {
  const chosen = /** @type {any} */ (document.querySelector("input[name=part]:checked")).value;
  for (const part of /** @type {any} */ (document.querySelectorAll("[data-part]"))) {
    part.hidden = part.dataset.part !== chosen;
  }
  const isFull = chosen === "report" || (chosen === "page" && byId("week").srcdoc);
  if (shown && !isFull) {
    await fill(shown, chosen);
  }
}

function showRanking() {
  const sort = (/** @type {typeof order} */ wanted) => {
    order = wanted;
    showRanking();
  };
  const choose = (/** @type {string} */ file) => {
    const question = questions.find((one) => one.solution.name === file);
    return question && settle(show(question));
  };
  byId("table").replaceChildren(...tableParts(rows, order, sort, choose));
}

/** Asks for the row of each solution, one after another.
 * @param {number} mine */
async function rankAll(mine) {
  byId("progress").max = questions.length;
  for (const question of questions) {
    byId("progress").value = rows.length;
    byId("progress").hidden = false;
    say("", `Checking ${rows.length + 1} of ${questions.length}: ${question.solution.name}`);
    const told = await checker.ask("row", question);
    if (!told || mine !== run) {
      return;
    }
    rows.push(rowOf(question, told));
  }
  byId("progress").hidden = true;
  showRanking();
  open("ranking");
}

/** What is waited for, and what is said where it fails.
 * @param {Promise<void>} work */
export async function settle(work) {
  works.add(work);
  document.body.dataset.busy = "yes";
  try {
    await work;
  } catch (fault) {
    open();
    say("bad", `The module stopped, and says nothing: ${/** @type {Error} */ (fault).message}`);
  }
  works.delete(work);
  document.body.dataset.busy = works.size ? "yes" : "";
}

async function checkRun() {
  const mine = run;
  if (!questions.length) {
    open();
    const wants = [...files.values()].some((file) => file.kind === "solution")
      ? "an instance" : "a solution";
    say("", files.size ? `Waiting for ${wants}.` : "Waiting for an instance and a solution.");
    return;
  }
  if (questions.length > 1) {
    await rankAll(mine);
  }
  if (mine === run) {
    const first = rows.length ? ranked(rows)[0].file : questions[0].solution.name;
    const question = questions.find((one) => one.solution.name === first);
    await show(/** @type {Question} */ (question));
  }
}

export function checkAll() {
  run += 1;
  checker.stop();
  rows = [];
  shown = undefined;
  questions = questionsOf(files, byId("days").value.trim());
  byId("progress").hidden = true;
  showFiles();
  return settle(checkRun());
}

/** @param {Promise<Given[]>} reading */
export async function add(reading) {
  for (const file of await reading) {
    files.set(file.name, file);
  }
  await checkAll();
}

/** A text of the solution that is shown, as a file that the browser keeps.
 * @param {string} wanted
 * @param {string} ending
 * @param {string} type */
export async function save(wanted, ending, type) {
  const told = shown && await textOf(wanted, shown);
  if (shown && told) {
    const name = shown.solution.name.replace(/^.*[/\\]/, "").replace(/\.\w+$/, "");
    keep(`${name}${ending}`, told.text, type);
  }
}

export function saveRanking() {
  keep("comparison.csv", csvOf(ranked(rows)), "text/csv");
}

/** Begins with the module, and the files that stand in the page.
 * @param {WebAssembly.Module} module
 * @param {string} script of the worker
 * @param {Given[]} given
 * @param {string} days */
export async function begin(module, script, given, days) {
  checker = new Checker(module, script);
  byId("days").value = days;
  await add(Promise.resolve(given));
  document.body.dataset.ready = "yes";
}
