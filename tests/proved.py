#!/usr/bin/env python3
"""Compares docs/PROVED.md with the tree: what a row names is in the crates of its heading, and each
public function with a contract stands in a row.

The last line is 'N passed, M failed'.
"""
from __future__ import annotations

import pathlib
import re
import sys
from dataclasses import dataclass
from typing import FrozenSet, List, Set, Tuple

sys.dont_write_bytecode = True
from contracts import CRATES, Contracts, Function, read_contracts  # noqa: E402

HERE = pathlib.Path(__file__).resolve().parent.parent
WIDTH = 100
# what stands in brackets, or a name with its star, if it is private
PART = re.compile(r"\(([^)]*)\)|`((?:\w+::)?\w+)`(\*?)")
NAME = re.compile(r"`(\w+)`")
# what is a name wherever it stands: that of a module's or a type's, of a type, of several words
ANYWHERE = re.compile(r"`((?:\w+::)?(?:[A-Z]\w*[a-z]\w*|\w+_\w+)|\w+::\w+)`")
FILE = re.compile(r"`((?:tests|docs|crates)/[\w./]+)`")
# what the kit and the crates that it has ported call so
OF_THE_KIT = frozenset({"BrokenPipe", "Ok", "Vec", "Wait", "serde_json", "left_right",
                        "crossbeam_utils", "atomic_table", "unicode_width"})


@dataclass(frozen=True)
class Ref:
    """A call, a law or a type that a row names: what it is of, if that is said, and its name."""

    owner: str
    name: str
    has_star: bool

    def __str__(self) -> str:
        return f"{self.owner}::{self.name}" if self.owner else self.name


@dataclass(frozen=True)
class Group:
    """Calls of a row, and the clauses that stand in brackets behind them."""

    refs: Tuple[Ref, ...]
    clauses: Tuple[str, ...]


@dataclass(frozen=True)
class Section:
    """A heading, the crates that it names, and the text below it."""

    title: str
    crates: Tuple[str, ...]
    text: str


class Count:
    """How many comparisons have passed, and how many have failed."""

    def __init__(self) -> None:
        self.passed = self.failed = 0

    def check(self, what: str, is_so: bool) -> None:
        """Counts a comparison."""
        self.passed += is_so
        self.failed += not is_so
        if not is_so:
            print(f"FAILED: {what}")


def read_page(name: str) -> str:
    """The text of a page."""
    return (HERE / name).read_text(encoding="utf-8")


def read_sections(page: str) -> List[Section]:
    """The sections of a page."""
    parts = [part.partition("\n") for part in re.split(r"(?m)^## ", page)[1:]]
    return [Section(title, tuple(re.findall(r"`(ctt_[a-z_]+)`", title)), text)
            for title, _, text in parts]


def read_items(text: str) -> List[str]:
    """The items of a section's lists, each in one line, without the items below them."""
    items: List[str] = []
    is_item = False
    for line in text.splitlines():
        if line.startswith("- "):
            items.append(line[2:])
            is_item = True
        elif is_item and line.startswith("  ") and not line.startswith("  - "):
            items[-1] += " " + line.strip()
        else:
            is_item = False
    return items


def title_of(item: str) -> str:
    """What stands before the first colon of an item that is in no name and in no brackets."""
    depth = 0
    for at, letter in enumerate(item):
        depth += (letter == "(") - (letter == ")")
        if letter == ":" and not depth and item[at + 1:at + 2] in (" ", ""):
            return item[:at]
    return item


def read_groups(title: str) -> List[Group]:
    """The calls of a row's title, each with the clauses that stand next behind it."""
    groups: List[Group] = []
    refs: List[Ref] = []
    for inside, name, star in PART.findall(title):
        if name:
            owner, _, last = name.rpartition("::")
            refs.append(Ref(owner, last, bool(star)))
        else:
            groups.append(Group(tuple(refs), tuple(NAME.findall(inside))))
            refs = []
    return groups + [Group(tuple(refs), ())] * bool(refs)


def find(contracts: Contracts, ref: Ref, near: FrozenSet[str]) -> List[Function]:
    """The functions that a name stands for: of a type or a module of laws those that it has, of a
    call without what it is of that of what is named before it in its row, or else each so named.
    """
    inside = [one for one in contracts.functions if ref.name in one.owners]
    if ref.owner:
        near = frozenset({ref.owner})
    elif inside or ref.name in contracts.types:
        return inside
    named = [one for one in contracts.functions if one.name == ref.name]
    nearer = [one for one in named if near & one.owners]
    return nearer if nearer or ref.owner else named


def compare_row(count: Count, where: str, contracts: Contracts, title: str) -> Set[Function]:
    """A row; answers the functions that it names."""
    found: Set[Function] = set()
    near: FrozenSet[str] = frozenset()
    count.check(f"{where}: names no call: {title}", any(one.refs for one in read_groups(title)))
    for group in read_groups(title):
        of_group: Set[Function] = set()
        for ref in group.refs:
            functions = find(contracts, ref, near)
            is_type = ref.name in contracts.types
            count.check(f"{where}: there is no {ref}", bool(functions) or is_type)
            is_private = not any(one.is_public for one in functions)
            count.check(f"{where}: {ref} is {'private' if is_private else 'public'}, and has "
                        f"{'a' if ref.has_star else 'no'} star", ref.has_star == is_private)
            near |= {ref.owner} if ref.owner else {ref.name} if is_type else frozenset()
            of_group |= set(functions)
        clauses = {name for one in of_group for name in one.clauses}
        for name in group.clauses:
            is_clause = name in (contracts.words if name[0].isupper() else clauses)
            count.check(f"{where}: {title}: no clause or definition {name}", is_clause)
        found |= of_group
    return found


def compare_rows(count: Count, sections: List[Section]) -> None:
    """The rows of all crates, and that each public function with a contract stands in one."""
    named: Set[Function] = set()
    for section in sections:
        contracts = read_contracts(section.crates)
        for item in read_items(section.text):
            named |= compare_row(count, section.title, contracts, title_of(item))
    for crate in sorted({crate for section in sections for crate in section.crates}):
        for one in read_contracts([crate]).functions:
            if one.is_public and one.has_contract:
                count.check(f"{crate}: {one} stands in no row", one in named)


def compare_guarantees(count: Count, text: str, contracts: Contracts) -> None:
    """The list of the README's guarantees: the calls and clauses that carry each."""
    readme = read_page("README.md").split("## What is guaranteed", 1)[1].split("\n## ", 1)[0]
    wanted = re.findall(r"(?m)^(\d+)\. ", readme)
    found = [item.split(":", 1) for item in read_items(text)]
    numbers = [number for number, _ in found]
    count.check(f"the README has the guarantees {wanted}, the page {numbers}", numbers == wanted)
    for number, calls in found:
        compare_row(count, f"guarantee {number}", contracts, title_of(calls.strip()))


def compare_names(count: Count, page: str, contracts: Contracts) -> None:
    """The names of functions, types, definitions and files, wherever they stand on the page."""
    modules = {path.stem for path in CRATES.glob("*/src/**/*.rt")}
    crates = {path.name for path in CRATES.iterdir()}
    known = contracts.types | contracts.words | modules | crates | OF_THE_KIT
    known |= {one.name for one in contracts.functions}
    known |= {name for one in contracts.functions for name in one.clauses}
    for name in sorted(set(ANYWHERE.findall(page))):
        owner, _, last = name.rpartition("::")
        is_known = bool(find(contracts, Ref(owner, last, False), frozenset()))
        count.check(f"there is no {name}", is_known if owner else last in known)
    for name in sorted(set(FILE.findall(page))):
        count.check(f"there is no file {name}", (HERE / name).exists())


def main() -> int:
    """Compares the page."""
    count = Count()
    page = read_page("docs/PROVED.md")
    sections = read_sections(page)
    of_crates = [section for section in sections if section.crates]
    everything = read_contracts(sorted(path.name for path in CRATES.iterdir()))
    titles = [one.title for one in read_sections(read_page("docs/DEFINITIONS.md")) if one.crates]
    count.check("the headings are not those of DEFINITIONS.md",
                titles == [section.title for section in of_crates])
    count.check("a crate with a contract has no heading", {
        one.crate for one in everything.functions if one.is_public and one.has_contract
    } <= {crate for section in of_crates for crate in section.crates})
    compare_rows(count, of_crates)
    guarantees = [one.text for one in sections if one.title.startswith("The guarantees")]
    compare_guarantees(count, "".join(guarantees), everything)
    compare_names(count, page, everything)
    for number, line in enumerate(page.splitlines(), 1):
        count.check(f"line {number} is longer than {WIDTH} columns", len(line) <= WIDTH)
    edits = [path.stem for path in CRATES.glob("*/must-fail/*.edit")]
    count.check("two edits have one name", len(edits) == len(set(edits)))
    print(f"{count.passed} passed, {count.failed} failed")
    return int(count.failed != 0)


if __name__ == "__main__":
    sys.exit(main())
