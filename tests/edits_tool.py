#!/usr/bin/env python3
"""Tries the edits' tool on a small crate (edits_small.py): edits that are refused, one that passes,
one that is refused only for what it calls, two of one function, one that does not compile, one
that cannot be applied, and one outside of bodies. Reads what checks print, too.

The last line is 'N passed, M failed'.
"""
from __future__ import annotations

import os
import pathlib
import subprocess
import sys
import tempfile
import unittest
from typing import Dict, List, Tuple

HERE = os.path.dirname(os.path.dirname(os.path.abspath(__file__)))
sys.dont_write_bytecode = True
sys.path[:0] = [os.path.join(HERE, "tools"), os.path.join(HERE, "tests")]

from edits import edit, goals, page, records, said, sources, standing  # noqa: E402
from edits_small import write_small  # noqa: E402
from part import run_part  # noqa: E402

REFUSED = {
    "first_for_the_larger": [("larger", "second")],
    "smaller_for_the_larger": [("larger", "first"), ("larger", "second")],
    "third_left_out": [("largest", "third")],
    "one_more_fits": [("within", "returns-else-a-lt-MOST")],
}
FAILED = {
    "three_in_another_order": "PASSED",
    "a_name_of_nothing": "BAD EDIT: it does not compile",
    "not_there": "BAD EDIT: an 'old:' text is in src/lib.rt 0 times, and not once",
}
LIB = """//! A module.

pub use self::row::{Row, first as head};

/// A row.
impl<'a, T: Fn(u8) -> u8> Row<'a, T> {
    /// Its length.
    pub fn len(&self) -> usize
        ensures exact { result ≡ 1 }
        ensures { result ≡ 1 }
    {
        1 // one
    }

    fn sum(&self) -> usize { 2 }
}

impl Drop for Row {
    fn drop(&mut self) {
        let x = 3;
    }
}

trait Named {
    fn name(&self) -> u8;
}
"""
PRINTED = """fn small::row::Row::len: no proof: expected answers in ./proofs/A.antt; \
`search` did not prove `returns-clause-exact`, `overflow`; \
it calls `small::other`, which is not proved
fn small::row::sum: not proved
fn small::row::max: not proved; it calls `sum`, which is not proved
fn small::row::min: proved
note: src/row.rt:9:1: it is not proved that what it ensures holds when it returns (`returns`)
./proofs/row/sum/Answers.antt:4:3: error: the goal is not met
./proofs/row/max/Answers.antt:2:3: error: `x` is not in scope
logic=not-proved
"""


class Reading(unittest.TestCase):
    """What is read of files and of what a check prints."""

    def test_an_edit(self) -> None:
        text = "file: src/a.rt\nold: one\nnew: two\nold: two\nnew:\n"
        made = edit.parse("small", "it", text)
        self.assertEqual(edit.apply(made, {"src/a.rt": "= one\n"}), {"src/a.rt": "= \n"})
        with self.assertRaises(edit.BadEdit):
            edit.apply(made, {"src/a.rt": "one one"})
        for bad in ["file: ../a.rt\nold: a\nnew: b", "old: a\nnew: b", "file: src/a.rt\n"]:
            with self.assertRaises(edit.BadEdit):
                edit.parse("small", "it", bad)

    def test_the_functions_of_a_file(self) -> None:
        found = sources.functions_in("src/row/mod.rt", LIB)
        self.assertEqual([it.path for it in found], ["row::Row::len", "row::Row::sum", "row::drop"])
        self.assertEqual(found[0].clauses, ("exact", ""))
        lines = LIB.split("\n")
        at = {text.strip(): number for number, text in enumerate(lines, 1)}
        for line, name in [("1 // one", "len"), ("let x = 3;", "drop")]:
            inside = sources.function_at(found, at[line])
            self.assertEqual(inside and inside.name, name)
        self.assertIsNone(sources.function_at(found, at["pub fn len(&self) -> usize"]))
        outside = sources.outside_of_bodies("src/row/mod.rt", LIB)
        self.assertNotIn("1 // one", outside)
        self.assertNotIn("/// Its length", outside)
        self.assertIn("ensures exact", outside)

    def test_what_a_check_prints(self) -> None:
        told = said.read(1, PRINTED)
        texts = {"proofs/row/sum/Answers.antt": "use A\n\npub total : goal.total\ntotal c = ?\n"}
        found = {
            name: [it.goal for it in goals.refusals_of(name, "small", told, texts.get)]
            for name in told.functions
        }
        self.assertEqual(found["small::row::Row::len"], ["returns-clause-exact", "overflow"])
        self.assertEqual(found["small::row::sum"], ["total"])
        self.assertEqual(found["small::row::max"], [])
        self.assertEqual(found["small::row::min"], [])
        function = sources.functions_in("src/row.rt", LIB)[0]
        names = goals.names_of(function, "small", told)
        placed = goals.refusals_by_place(function, names, "small", told, "src/row.rt")
        self.assertEqual([it.goal for it in placed], ["returns"])
        self.assertTrue(told.faults[1].is_of_a_name)

    def test_records_and_the_page(self) -> None:
        refusals = (goals.Refusal("row::f", "returns-clause-exact"), goals.Refusal("g", "loop"))
        record = records.Record("it", "0123abcd", refusals)
        with tempfile.TemporaryDirectory() as folder:
            self.assertEqual(records.read(folder), {})
            records.write(folder, {"it": record})
            self.assertEqual(records.read(folder), {"it": record})
        self.assertEqual(record.clauses, [("g", "loop"), ("row::f", "exact")])
        self.assertEqual(page.exported(LIB), ({"Row", "first"}, set()))

    def test_a_sum_holds_where_a_body_alone_changed(self) -> None:
        texts = {"src/lib.rt": LIB, "proofs/row/f/Answers.antt": "a", "specs/A.antt": "b"}
        first = standing.told(texts)
        self.assertEqual(first, standing.told({**texts, "src/lib.rt": LIB.replace("= 3", "= 4")}))
        self.assertEqual(first, standing.told({**texts, "proofs/row/f/Answers.antt": "c"}))
        self.assertNotEqual(first, standing.told({**texts, "specs/A.antt": "c"}))
        turned = LIB.replace("exact { result ≡ 1 }", "exact { result ≡ 2 }")
        self.assertNotEqual(first, standing.told({**texts, "src/lib.rt": turned}))


class Trying(unittest.TestCase):
    """The tool on the small crate."""

    def run_tool(self, tree: str, *words: str) -> Tuple[int, List[str]]:
        """The status of the tool, and its lines."""
        environment = {**os.environ, "PYTHONPATH": os.path.join(HERE, "tools")}
        command = [sys.executable, "-m", "edits", "--tree", tree, *words, "small"]
        done = subprocess.run(command, env=environment, stdin=subprocess.DEVNULL,
                              stdout=subprocess.PIPE, stderr=subprocess.STDOUT, text=True)
        return done.returncode, done.stdout.splitlines()

    def verdicts(self, lines: List[str]) -> Dict[str, str]:
        """What is said of each edit that has a line."""
        parts = [line.split(": ", 1) for line in lines if line.startswith("small/")]
        return {name[len("small/") :]: rest for name, rest in parts}

    def test_the_small_crate(self) -> None:
        with tempfile.TemporaryDirectory() as room:
            tree = os.path.join(room, "tree")
            folder = str(write_small(pathlib.Path(tree)))
            status, lines = self.run_tool(tree, "--write")
            self.assertEqual((status, lines[-1]), (1, "4 passed, 3 failed"), lines)
            told = self.verdicts(lines)
            self.assertEqual(sorted(told), sorted(FAILED))
            for name, start in FAILED.items():
                self.assertTrue(told[name].startswith(start), told[name])
            kept = records.read(folder)
            self.assertEqual({name: it.clauses for name, it in kept.items()}, REFUSED)
            for name in FAILED:
                os.remove(os.path.join(folder, f"{name}.edit"))
            self.check_records(tree, folder, kept)

    def check_records(self, tree: str, folder: str, kept: Dict[str, records.Record]) -> None:
        """Records that hold are taken; one that names another clause fails, and can be written."""
        status, lines = self.run_tool(tree)
        self.assertEqual((status, lines[-2:]), (0, ["4 edits taken from records, 0 tried",
                                                    "4 passed, 0 failed"]))
        other = goals.Refusal("largest", "returns-clause-x")
        wrong = records.Record("third_left_out", "0", (other,))
        records.write(folder, {**kept, wrong.edit: wrong})
        status, lines = self.run_tool(tree)
        self.assertEqual((status, lines[-2:]), (1, ["3 edits taken from records, 1 tried",
                                                    "3 passed, 1 failed"]))
        self.assertIn("and its record says", self.verdicts(lines)[wrong.edit])
        self.assertEqual(self.run_tool(tree, "--write")[0], 0)
        self.assertEqual(records.read(folder), kept)


if __name__ == "__main__":
    run_part("edits_tool.py")
