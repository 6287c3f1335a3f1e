// Numbers, prices and slots as they are read.
import assert from "node:assert/strict";
import test from "node:test";
import { counted, keyOf, kindOf, number, priceSaid, same, signed, slotOf, sum } from "./numbers.js";

test("numbers and prices", () => {
  assert.equal(number(12345), "12,345");
  assert.deepEqual([1200, 0, -22].map(signed), ["+1,200", "±0", "−22"]);
  assert.deepEqual([5, 0, -1].map(kindOf), ["dear", "same", "good"]);
  const said = ["costs 5 more", "costs the same", "saves 1,000"];
  assert.deepEqual([5, 0, -1000].map(priceSaid), said);
  assert.deepEqual([0, 1, 2].map((n) => counted(n, "edit")), ["0 edits", "1 edit", "2 edits"]);
  assert.equal(sum([]), 0);
  assert.equal(sum([1, -2, 4]), 3);
});

test("slots", () => {
  assert.equal(keyOf([4, 11]), "4,11");
  assert.deepEqual(slotOf(keyOf([4, 11])), [4, 11]);
  assert.equal(same([1, 2], [1, 2]), true);
  assert.equal(same([1, 2], [2, 1]), false);
  assert.equal(same(null, null), false);
  assert.equal(same([1, 2], null), false);
});
