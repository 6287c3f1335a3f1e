// What a slot offers for what is held, in words, and which offer of it is meant.
import assert from "node:assert/strict";
import test from "node:test";
import { cardSaid } from "./card.js";
import { chosen, heldSaid, heldShort } from "./held.js";

const held = { kind: "move", said: "Optics", at: [0, 1], room: "r1", best: [2, 0], place: 0 };
const swap = { ...held, kind: "swap" };
const hall = [-22, "r4", "Hall"];
const lab = [5, "r9", "Lab"];
const there = { at: [2, 0], offers: [hall, lab] };
const home = { at: [0, 1], offers: [lab] };
const full = { at: [3, 3], offers: [], shortly: "no room", why: "no room is free then" };

test("the cheapest offer is meant, or the one that was chosen; where it stands it stays", () => {
  assert.equal(chosen(held, there, null), hall);
  assert.equal(chosen(held, there, 1), lab);
  assert.equal(chosen(held, home, null), null);
  assert.equal(chosen(held, home, 0), lab);
  assert.equal(chosen(held, full, null), undefined);
});

test("an offer in a sentence", () => {
  assert.equal(heldSaid(held, there), "saves 22, in Hall");
  assert.equal(heldSaid(held, there, 1), "costs 5 more, in Lab");
  assert.equal(heldSaid(swap, there), "saves 22, with Hall");
  assert.equal(heldSaid(held, home), "Optics stays here");
  assert.equal(heldSaid(held, home, 0), "costs 5 more, in Lab");
  assert.equal(heldSaid(held, full), "not possible: no room is free then");
});

test("an offer in a few letters", () => {
  assert.deepEqual(heldShort(held, there), ["good", "−22 Hall"]);
  assert.deepEqual(heldShort(held, home), ["same", "stays"]);
  assert.deepEqual(heldShort(held, full), ["no", "no room"]);
  assert.deepEqual(heldShort(null, there), ["", "…"]);
  assert.deepEqual(heldShort(held, undefined), ["", "…"]);
});

test("a lecture in a sentence: who reads is told of no seats", () => {
  const start = "Optics, Great Hall, Ada Byron";
  const lecture = { said: "Opt", room_said: "Hall", teacher_said: "Ada", told: start, students: 90 };
  const told = { ...lecture, seats: 69, short: 21, alone: 2 };
  assert.equal(cardSaid({ ...lecture, seats: null, short: 0, alone: 0 }), start);
  const seats = "90 students, 69 seats, 21 students without a seat";
  assert.equal(cardSaid(told), `${start}, ${seats}, alone on its day, 2 points`);
});
