#!/usr/bin/env python3
"""Compares each page with the tree: each definition, theorem and call that it names is there, and
in the file that it says.

The last line is 'N passed, M failed'.
"""
from __future__ import annotations

import pathlib
import re
import subprocess
import sys
from typing import Dict, FrozenSet, Iterable, List, Set, Tuple

sys.dont_write_bytecode = True
from proved import Count, read_page, read_sections  # noqa: E402

HERE = pathlib.Path(__file__).resolve().parent.parent
# pages for those who read proofs: each name there is one of the tree, if it is no word of the kit
OF_PROOFS = ("docs/ARCHITECTURE.md", "docs/DECISIONS.md", "docs/DEFINITIONS.md", "docs/HEADLINE.md",
             "docs/PROOF_NOTES.md", "docs/PROVED.md", "docs/SEARCH.md")
# what is made by a program, of edits that name functions as the prover does
MADE = frozenset({"docs/EDITS.md"})
FENCED = re.compile(r"(?ms)^ *```.*?^ *```")
NAME = re.compile(r"`([\w:']+)`")
# what is a name on any page: of several words, or with a capital inside
OF_CODE = re.compile(r"`((?:\w+::)?(?:[A-Z]\w*[a-z]\w*[A-Z]\w*|[a-z]\w*_\w+)|\w+::\w+)`")
# definitions and their file: `name`, `other` (`File.antt`), or (`name`, `other`, `File.antt`)
PLACED = re.compile(r"((?:`\w+`(?:,\s|\sand\s)?)+)(?:\s\()?`(\w+\.antt)`"
                    r"(?: of `(\w+)`)?")
# how a name is made in each language
MAKES: Dict[str, Tuple[str, ...]] = {
    ".antt": (r"(?m)^\s*((?:[^\s:|(){}]+ )*?[^\s:|(){}]+)\s*(?:[:|({]|$)", r"\bpub ([\w' ]+)",
              r"(?m)^[^\n]*\bwhere\b[^\n]*$"),
    ".rt": (r"\b(?:fn|struct|enum|trait|type|const|mod|ensures|requires|ghost|let|use)\s+(\w+)",
            r"(?m)^\s*(\w+)(?:[,({]| \{)", r"\b(\w+):", r"\buse [\w:]+::\{([^}]*)\}"),
    ".py": (r"\b(?:def|class|import|as)\s+(\w+)", r"\b(\w+)\s*[:=]", r"\.(\w+)", r"\"(\w+)\""),
    ".js": (r"\b(?:function|const|let|class)\s+(\w+)", r"\b(\w+)\s*[:=(]"),
    ".sh": (r"\b(\w+)=", r"\b(\w+)\(\)"),
}
# words of Rust, of the kit, its logic and its ported crates, and of the system
OF_OTHERS = frozenset(
    "BrokenPipe Brand Copy Display Drop EventSource Global Lts Model Net Ok OnOk Processes Send "
    "Sync Threads Tie Trail TheSendSync Wait XLemmas XSteps atomic_table clang crossbeam_utils g "
    "grind impl left_right malloc mypy nice proc push_str sched_autogroup scope spawn_with ssh st "
    "sched_autogroup_enabled succeeds tsc unfoldable unfolding vec_capacity vec_len κs".split())
CALLS_OF_OTHERS = frozenset({"Scope::spawn_with", "thread::scope"})
# a source by the name of its file
Sources = Tuple[Tuple[str, str], ...]


def files_of_tree() -> List[pathlib.Path]:
    """The files of the tree that are no pages."""
    told = subprocess.run(["git", "ls-files", "-co", "--exclude-standard"], cwd=HERE, check=True,
                          stdout=subprocess.PIPE, encoding="utf-8").stdout
    paths = [HERE / line for line in told.splitlines()]
    return [path for path in paths if path.is_file() and path.suffix not in (".md", ".png")]


def names_made(suffix: str, text: str) -> Set[str]:
    """The names that a text in a language makes."""
    names: Set[str] = set()
    for pattern in MAKES.get(suffix, ()):
        for found in re.findall(pattern, text):
            names |= set(re.findall(r"[\w']+", found))
    return names


def names_of_tree(paths: Iterable[pathlib.Path]) -> FrozenSet[str]:
    """All names: what is made, and files, folders and crates."""
    names: Set[str] = set(OF_OTHERS)
    for path in paths:
        names |= {path.stem, *path.relative_to(HERE).parts}
        if path.suffix in MAKES:
            names |= names_made(path.suffix, path.read_text(encoding="utf-8"))
    return frozenset(names)


def is_made_by(owner: str, name: str, sources: Sources) -> bool:
    """Whether a source makes what is named as that of a module, a type or a trait."""
    near = (text for stem, text in sources if stem == owner or owner in text)
    return any(name in names_made(".rt", text) for text in near)


def compare_page(count: Count, name: str, known: FrozenSet[str], sources: Sources) -> None:
    """The names of a page."""
    pattern = NAME if name in OF_PROOFS else OF_CODE
    for found in sorted(set(pattern.findall(FENCED.sub("", read_page(name))))):
        words = re.findall(r"[\w']+", found)
        is_there = all(word in known for word in words)
        if "::" in found and found not in CALLS_OF_OTHERS:
            is_there = is_made_by(words[-2], words[-1], sources)
        count.check(f"{name}: there is no {found}", is_there)


def made_in(crates: Iterable[str], file: str) -> Set[str]:
    """The names that the files of this name in crates make."""
    names: Set[str] = set()
    for crate in crates:
        path = HERE / "crates" / crate / "specs" / file
        if path.exists():
            names |= names_made(".antt", path.read_text(encoding="utf-8"))
    return names


def compare_places(count: Count, name: str) -> None:
    """The definitions that a page places in a file, below the heading of its crate."""
    for section in read_sections(read_page(name)):
        for names, file, other in PLACED.findall(section.text) if section.crates else ():
            made = made_in((*section.crates, other), file)
            for found in re.findall(r"\w+", names):
                count.check(f"{name}: {section.title}: {file} has no {found}", found in made)


def main() -> int:
    """Compares all pages."""
    count = Count()
    paths = files_of_tree()
    known = names_of_tree(paths)
    sources = tuple((path.stem, path.read_text(encoding="utf-8"))
                    for path in paths if path.suffix == ".rt")
    pages = sorted(f"docs/{path.name}" for path in (HERE / "docs").glob("*.md"))
    for page in [*pages, "README.md", "CONTRIBUTING.md"]:
        if page not in MADE:
            compare_page(count, page, known, sources)
    compare_places(count, "docs/DEFINITIONS.md")
    print(f"{count.passed} passed, {count.failed} failed")
    return int(count.failed != 0)


if __name__ == "__main__":
    sys.exit(main())
