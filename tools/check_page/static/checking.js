// @ts-check
// Asks the worker, one question after another, and lets it go where other files have come.

/** @typedef {{ status: number, text: Uint8Array, took: number }} Told */
/** @typedef {(told: Told | undefined) => void} Taker */

export class Checker {
  /** @param {WebAssembly.Module} module
   * @param {string} script what the worker runs */
  constructor(module, script) {
    this.module = module;
    this.address = URL.createObjectURL(new Blob([script], { type: "text/javascript" }));
    this.number = 0;
    /** @type {Map<number, [Taker, (fault: Error) => void]>} */
    this.waiting = new Map();
    this.worker = this.begun();
  }

  begun() {
    const worker = new Worker(this.address);
    worker.addEventListener("message", (event) => this.take(event.data));
    worker.addEventListener("error", (event) => this.lose(event.message || "no worker begins"));
    worker.postMessage(this.module);
    return worker;
  }

  /** @param {{ number: number, fault?: string } & Told} told */
  take(told) {
    const waits = this.waiting.get(told.number);
    this.waiting.delete(told.number);
    if (waits && told.fault !== undefined) {
      waits[1](new Error(told.fault));
    } else if (waits) {
      waits[0](told);
    }
  }

  /** @param {string} why */
  lose(why) {
    const waiting = [...this.waiting.values()];
    this.waiting.clear();
    waiting.forEach(([, fail]) => fail(new Error(why)));
  }

  /** What is wanted of some files, or nothing if that was broken off.
   * @param {string} wanted
   * @param {import("./border.js").Question} question
   * @returns {Promise<Told | undefined>} */
  ask(wanted, question) {
    this.number += 1;
    const { number } = this;
    return new Promise((done, fail) => {
      this.waiting.set(number, [done, fail]);
      this.worker.postMessage({ number, wanted, question });
    });
  }

  /** Breaks off what is asked. */
  stop() {
    const waiting = [...this.waiting.values()];
    this.waiting.clear();
    if (waiting.length) {
      this.worker.terminate();
      this.worker = this.begun();
    }
    waiting.forEach(([take]) => take(undefined));
  }
}
