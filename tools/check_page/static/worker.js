// @ts-check
// What runs beside the page: it has the module, and answers one question after another.
import { ask } from "./border.js";

/** @type {WebAssembly.Module | undefined} */
let module;

/** @param {{ number: number, wanted: string, question: import("./border.js").Question }} call */
function answered(call) {
  if (!module) {
    throw new Error("no module has come");
  }
  const begun = performance.now();
  const { status, text } = ask(module, call.wanted, call.question);
  return { number: call.number, status, text, took: performance.now() - begun };
}

self.addEventListener("message", (event) => {
  if (event.data instanceof WebAssembly.Module) {
    module = event.data;
    return;
  }
  try {
    const answer = answered(event.data);
    self.postMessage(answer, { transfer: [answer.text.buffer] });
  } catch (fault) {
    self.postMessage({ number: event.data.number, fault: String(fault) });
  }
});
