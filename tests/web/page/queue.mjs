// Acts have their turn one after another, and none behind a question that has come meanwhile.
import assert from "node:assert/strict";
import test from "node:test";
import { makeQueue } from "./queue.js";

// all of a page that a queue wants: where it says how many acts wait
const body = { dataset: {} };
globalThis.document = { body };

// acts that end when they are let
function held() {
  let letGo;
  const until = new Promise((go) => {
    letGo = go;
  });
  return [until, letGo];
}

test("one after another", async () => {
  const queue = makeQueue({ question: null });
  const [until, letGo] = held();
  const done = [];
  const first = queue(async () => {
    await until;
    done.push("first");
  });
  const second = queue(() => done.push("second"));
  assert.equal(body.dataset.acts, "2");
  assert.deepEqual(done, []);
  letGo();
  await Promise.all([first, second]);
  assert.deepEqual(done, ["first", "second"]);
  await new Promise((go) => {
    setTimeout(go);
  });
  assert.equal(body.dataset.acts, "0");
});

test("what was asked before a question came is not done behind it", async () => {
  const app = { question: null };
  const queue = makeQueue(app);
  const done = [];
  const first = queue(() => {
    app.question = { number: 1 };
  });
  const second = queue(() => done.push("second"));
  await first;
  assert.equal(await second, null);
  // one that was asked in sight of the question is
  await queue(() => done.push("third"));
  assert.deepEqual(done, ["third"]);
});
