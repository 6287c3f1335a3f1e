// @ts-check
// How the page begins: with the module that stands in it, and what keys and drops do.
import { byId, made } from "./dom.js";
import { dropped, isOurs, kindOf, readAll } from "./files.js";
import { add, begin, checkAll, save, saveRanking, settle, showChosen } from "./page.js";
import { say } from "./shown.js";

/** @param {string} text
 * @returns {Uint8Array} */
function bytesOf(text) {
  return Uint8Array.from(atob(text), (letter) => letter.charCodeAt(0));
}

/** What stands packed in the page.
 * @param {string} name
 * @returns {Promise<ArrayBuffer>} */
function unpacked(name) {
  const packed = new Blob([bytesOf(byId(name).textContent.trim())]).stream();
  return new Response(packed.pipeThrough(new DecompressionStream("gzip"))).arrayBuffer();
}

/** A module of nothing but a memory with addresses of 64 bits. */
const HAS_WIDE = Uint8Array.from([0, 97, 115, 109, 1, 0, 0, 0, 5, 3, 1, 4, 0]);

/** @param {ArrayBuffer} bytes */
async function sumOf(bytes) {
  // a page that is not from a disk or by https has no such sums
  if (!globalThis.crypto || !crypto.subtle) {
    return "not told by this browser here";
  }
  const sum = new Uint8Array(await crypto.subtle.digest("SHA-256", bytes));
  return [...sum].map((byte) => byte.toString(16).padStart(2, "0")).join("");
}

/** The module that this browser runs, whose sum is shown. */
async function loaded() {
  const name = WebAssembly.validate(HAS_WIDE) ? "wide" : "narrow";
  const bytes = await unpacked(name);
  byId("sum").textContent = await sumOf(bytes);
  byId("which").textContent = name === "wide" ? "" : " (for browsers without 64-bit memories)";
  document.body.dataset.module = name;
  return WebAssembly.compile(bytes);
}

/** @typedef {{ name: string, kind: import("./files.js").Kind, text: string }} Packed */

/** The files that were put into the page, and what is said of them. */
function given() {
  const found = JSON.parse(byId("given").textContent);
  byId("told").replaceChildren(...found.told.map((/** @type {string} */ line) =>
    made("p", {}, line)));
  const files = found.files.map((/** @type {Packed} */ { name, kind, text }) =>
    ({ name, kind, text: bytesOf(text) }));
  return { files, days: found.days };
}

function pasteText() {
  const text = new TextEncoder().encode(byId("text").value);
  const kind = byId("kind").value || kindOf("", text);
  const name = { instance: "pasted.ctt", solution: "pasted.sol", barred: "pasted.barred",
    blocked: "pasted.blocked" }[/** @type {import("./files.js").Kind} */ (kind)];
  byId("text").value = "";
  byId("paste").open = false;
  return add(Promise.resolve([{ name, kind, text }]));
}

/** @param {DragEvent} event */
async function takeDrop(event) {
  if (event.dataTransfer) {
    await add(dropped(event.dataTransfer).then(readAll));
  }
}

function listen() {
  for (const [name, isOver] of [["dragover", true], ["dragleave", false], ["drop", false]]) {
    addEventListener(/** @type {string} */ (name), (event) => {
      event.preventDefault();
      byId("drop").classList.toggle("over", isOver);
    });
  }
  addEventListener("drop", (event) => settle(takeDrop(event)));
  for (const name of ["choose", "folder"]) {
    byId(name).addEventListener("change", () => {
      const chosen = [...byId(name).files];
      const files = name === "folder" ? chosen.filter((file) => isOurs(file.name)) : chosen;
      settle(add(readAll(files.map((file) => [file.webkitRelativePath || file.name, file]))));
      byId(name).value = "";
    });
  }
  byId("take").addEventListener("click", () => settle(pasteText()));
  byId("days").addEventListener("change", checkAll);
  byId("parts").addEventListener("change", () => settle(showChosen()));
  byId("save-report").addEventListener("click", () => settle(save("report", ".txt", "text/plain")));
  byId("save-findings").addEventListener("click", () =>
    settle(save("findings", ".csv", "text/csv")));
  byId("save-page").addEventListener("click", () => settle(save("page", ".html", "text/html")));
  byId("save-ranking").addEventListener("click", saveRanking);
}

async function start() {
  const module = await loaded();
  const { files, days } = given();
  listen();
  await begin(module, byId("worker").textContent, files, days);
}

start().catch((fault) => say("bad", `This browser cannot run the module: ${fault}`));
