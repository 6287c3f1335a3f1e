// What the page reads out of the texts of the module, and how it sorts.
import assert from "node:assert/strict";
import test from "node:test";
import { isOurs, kindOf, questionsOf } from "./files.js";
import { csvOf, ranked, sorted } from "./ranking.js";
import { excerptOf, factsOf, faultOf, findingsOf, grouped, linesBehind, tableOf, teachersOf } from "./texts.js";

const bytes = (text) => new TextEncoder().encode(text);
const file = (name, kind) => [name, { name, kind, text: bytes("") }];

test("the facts of a report, and the lines behind them", () => {
  const report = "instance Small\ntotal 20\nlawful yes\ncomplete yes\ncapacity a b 0 1 5\n";
  assert.equal(factsOf(report).get("total"), "20");
  assert.deepEqual(linesBehind(report), ["capacity a b 0 1 5"]);
});

test("fields in quotes have commas, quotes and line feeds", () => {
  assert.deepEqual(tableOf('a,b\n"x,""y""\nz",\n'), [["a", "b"], ['x,"y"\nz', ""]]);
});

test("findings by kind and by the teachers of their courses", () => {
  const findings = findingsOf("kind,curriculum,teacher,course,other,room\n"
    + "conflict,,t1,a,b,\ncapacity,,,a,,r\n");
  assert.deepEqual(grouped(findings, undefined).map(([name]) => name), ["capacity", "conflict"]);
  const text = "Name: x Courses: 2 Rooms: 0\nCOURSES:\na t1 1 1 1\nb t2 1 1 1\n";
  const teachers = teachersOf(text);
  assert.deepEqual(grouped(findings, teachers).map(([name, of]) => [name, of.length]), [["t1", 2], ["t2", 1]]);
});

test("the place of a fault, also in a file whose name looks like one", () => {
  const said = "timedesk: solution S4 2\na:1:2: S3: b.sol:3:7: S4: no room r99\n";
  const fault = faultOf(said, ["a", "a:1:2: S3: b.sol"]);
  assert.equal(fault.line, "solution S4 2");
  const other = faultOf(said, ["x.ctt", "a:1:2: S3: b.sol"]);
  assert.deepEqual([other.file, other.at, other.column, other.code, other.sentence],
    ["a:1:2: S3: b.sol", 3, 7, "S4", "no room r99"]);
});

test("the word at a place, with the lines about it", () => {
  const found = excerptOf(bytes("one\ntwo\n数学 r99 0\nfour\nfive\nsix"), 3, 4);
  assert.deepEqual([found.first, found.above, found.before, found.word, found.behind, found.below],
    [1, ["one", "two"], "数学 ", "r99", " 0", ["four", "five"]]);
  assert.equal(excerptOf(bytes("a"), 1, 2).word, "");
});

test("what a file is", () => {
  assert.equal(kindOf("x.CTT", bytes("")), "instance");
  assert.equal(kindOf("pasted", bytes("  Blocked: 0")), "blocked");
  assert.equal(kindOf("pasted", bytes("c r 0 0")), "solution");
  assert.equal(isOurs("a/README.md"), false);
});

test("a solution is checked with the instance of its name, or else with the newest", () => {
  const files = new Map([file("a.ctt", "instance"), file("b.ctt", "instance"), file("a.sol", "solution"),
    file("c.sol", "solution"), file("c.barred", "barred")]);
  const found = questionsOf(files, "");
  assert.deepEqual(found.map((one) => one.instance.name), ["a.ctt", "b.ctt"]);
  assert.deepEqual(questionsOf(new Map([file("a.sol", "solution")]), ""), []);
});

test("rows, the best first; by a column; and as CSV", () => {
  const of = (name, total, lawful, complete) => ({ file: name, facts: { total, lawful, complete } });
  const rows = [{ file: "z", fault: "S3 1" }, of("a", 5, false, false), of("b", 9, true, true), of("c", 7, true, false)];
  assert.deepEqual(ranked(rows).map((row) => row.file), ["b", "c", "a", "z"]);
  assert.deepEqual(sorted(rows, "total", false).map((row) => row.file), ["a", "c", "b", "z"]);
  assert.deepEqual(sorted(rows, "total", true).map((row) => row.file), ["b", "c", "a", "z"]);
  assert.equal(csvOf([rows[2], rows[0]]), "file,total,lawful,complete,fault\nb,9,yes,yes,\nz,,,,S3 1\n");
});
