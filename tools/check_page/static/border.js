// @ts-check
// Calls of the module: texts go in as bytes in its memory, and one text comes back.

/** @typedef {{ name: string, text: Uint8Array }} NamedText */
/** @typedef {{ instance: NamedText, solution: NamedText, barred?: NamedText, blocked?: NamedText,
 *   days?: string }} Question */
/** @typedef {{ status: number, text: Uint8Array }} Answer */

// what stands in memory before the texts: how the call came out, and where each text is
const REPLY = 16;
const ASKED = 152;
// the first room for an answer, beside as much as the texts have
const ROOM = 1 << 20;

/** The parts that the module knows, in its order: the name and the text of four files, and days.
 * @param {Question} question
 * @returns {Uint8Array[]} */
function parts(question) {
  const encoder = new TextEncoder();
  const none = { name: "", text: new Uint8Array() };
  const { instance, solution, barred = none, blocked = none } = question;
  return [
    ...[instance, solution, barred, blocked].flatMap((file) => [
      encoder.encode(file.name),
      file.text,
    ]),
    encoder.encode(question.days || ""),
  ];
}

/** Takes so many bytes of memory that nobody else has, and returns where they begin.
 * @param {any} exports
 * @param {number} size */
function take(exports, size) {
  const pages = Math.ceil(size / 65536);
  // the memory of the lowered module counts its pages as numbers
  try {
    return Number(exports.memory.grow(BigInt(pages))) * 65536;
  } catch (fault) {
    if (!(fault instanceof TypeError)) {
      throw fault;
    }
    return exports.memory.grow(pages) * 65536;
  }
}

/** Lays the texts into memory one behind another, and says behind them where each is.
 * @param {any} exports
 * @param {number} at
 * @param {number} start where the texts begin
 * @param {Uint8Array[]} texts
 * @param {Question} question */
function lay(exports, at, start, texts, question) {
  const memory = new Uint8Array(exports.memory.buffer);
  const view = new DataView(exports.memory.buffer, at, ASKED);
  let end = 0;
  texts.forEach((text, number) => {
    memory.set(text, start + end);
    view.setBigUint64(16 * number, BigInt(end), true);
    end += text.length;
    view.setBigUint64(16 * number + 8, BigInt(end), true);
  });
  view.setUint8(16 * texts.length, question.barred ? 1 : 0);
  view.setUint8(16 * texts.length + 1, question.blocked ? 1 : 0);
}

/** What the program prints of these files, or says of its fault. Each call has an instance of the
 * module of its own, so that nothing is left of earlier ones.
 * @param {WebAssembly.Module} module
 * @param {string} wanted `report`, `sentences`, `row`, `findings` or `page`
 * @param {Question} question
 * @param {number} [room] for the answer
 * @returns {Answer} */
export function ask(module, wanted, question, room) {
  const exports = /** @type {any} */ (new WebAssembly.Instance(module, {}).exports);
  const texts = parts(question);
  const size = texts.reduce((sum, text) => sum + text.length, 0);
  const place = room === undefined ? ROOM + 2 * size : room;
  const told = take(exports, REPLY + ASKED + size + place);
  const asked = told + REPLY;
  const start = asked + ASKED;
  lay(exports, asked, start, texts, question);
  const words = [start, size, asked, start + size, place, told].map(BigInt);
  exports[`timedesk_${wanted}`](...words);
  const view = new DataView(exports.memory.buffer, told, REPLY);
  const length = Number(view.getBigUint64(8, true));
  if (length > place) {
    return ask(module, wanted, question, length);
  }
  const text = new Uint8Array(exports.memory.buffer, start + size, length).slice();
  return { status: view.getUint32(0, true), text };
}
