// `node module.mjs BORDER MODULE CASES` prints for each line of CASES, which is JSON, the status and
// the sum of what the module answers. BORDER is the page's own module that calls it. Up to version 23
// of node a module with 64-bit memory needs the word --experimental-wasm-memory64 before.
import crypto from "node:crypto";
import fs from "node:fs";
import readline from "node:readline";

const [, , border, module, cases] = process.argv;
const { ask } = await import(`data:text/javascript,${encodeURIComponent(fs.readFileSync(border, "utf8"))}`);
const compiled = await WebAssembly.compile(fs.readFileSync(module));
const given = (one) => one && { name: one.name, text: Buffer.from(one.text, "base64") };
const out = [];
for await (const line of readline.createInterface({ input: fs.createReadStream(cases) })) {
  const { wanted, instance, solution, barred, blocked, days } = JSON.parse(line);
  const question = {
    instance: given(instance), solution: given(solution), barred: given(barred), blocked: given(blocked), days,
  };
  const { status, text } = ask(compiled, wanted, question);
  out.push(`${status} ${crypto.createHash("sha256").update(text).digest("hex")}\n`);
}
process.stdout.write(out.join(""));
