"""A small crate with edits, for the test of the edits' tool. It is written where it is tried: `rt`
takes no second crates.txt in a repository."""
from __future__ import annotations

import pathlib

SOURCE = """//! Small functions, for the test of the edits' tool.
#![tactic(auto)]

ghost use Rattle.std.specs.Prelude.{◌≡◌, ◌≤◌};

/// What a row can hold.
const MOST: u32 = 10;

/// The larger of two numbers.
pub fn larger(a: u32, b: u32) -> u32
    ensures first { a ≤ result }
    ensures second { b ≤ result }
{
    if a < b { b } else { a }
}

/// A number at least as large as each of three.
pub fn largest(a: u32, b: u32, c: u32) -> u32
    ensures first { a ≤ result }
    ensures third { c ≤ result }
{
    larger(larger(a, b), c)
}

/// A number, or the most that a row can hold.
pub fn within(a: u32) -> u32
    ensures bound { result ≤ 10 }
{
    if a < MOST { a } else { MOST }
}

/// The same number.
pub fn same(a: u32) -> u32
    ensures same { result ≡ a }
{
    a
}
"""
# the edits by their names: a text, and what stands in its place
EDITS = {
    "a_name_of_nothing": ("    a", "    nothing"),
    "first_for_the_larger": ("if a < b { b } else { a }", "a"),
    "not_there": ("a text that is not there", "1"),
    "one_more_fits": ("const MOST: u32 = 10;", "const MOST: u32 = 11;"),
    "smaller_for_the_larger": ("if a < b { b } else { a }", "if b < a { b } else { a }"),
    "third_left_out": ("larger(larger(a, b), c)", "larger(a, larger(b, b))"),
    "three_in_another_order": ("larger(larger(a, b), c)", "larger(a, larger(b, c))"),
}


def write_small(top: pathlib.Path) -> pathlib.Path:
    """Writes the crate as a repository of its own, and gives the folder of its edits."""
    crate = top / "crates" / "small"
    folder = crate / "must-fail"
    for made in (crate / "src", folder):
        made.mkdir(parents=True)
    (top / "HANDLES").write_text("Handles allowed: none.\n")
    (top / "crates.txt").write_text("small:\n")
    (crate / "src" / "lib.rt").write_text(SOURCE, encoding="utf-8")
    for name, (old, new) in EDITS.items():
        text = f"file: src/lib.rt\nold: {old}\nnew: {new}\n"
        (folder / f"{name}.edit").write_text(text)
    return folder
