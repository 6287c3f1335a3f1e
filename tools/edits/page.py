"""The page that shows which edits turn each clause of each public call, and which are bare."""
from __future__ import annotations

import re
from typing import Dict, List, Mapping, Set, Tuple

from .goals import Refusal
from .kit import Crate
from .records import Record
from .sources import Function, functions_in

_HEAD = """# Which edit turns which clause

`python3 -m edits --write` makes this page of the crates' records (`crates/*/must-fail/refused.md`),
and `./test` compares it with them. Of each crate it lists the clauses of the public calls, each
with the edits that its goal refuses; a clause without a name is `-`. What no edit turns is bare.
Then come the edits that private functions, or lemmas, refuse: a public call stands on these.
"""
_USE = re.compile(r"^pub use ([\w:]+)(?:::\{([^}]*)\})?;", re.MULTILINE | re.DOTALL)
_MODULE = re.compile(r"^pub mod (\w+);", re.MULTILINE)
WIDTH = 100


def exported(lib: str) -> Tuple[Set[str], Set[str]]:
    """The names and the modules that the root file of a crate gives to others."""
    names: Set[str] = set()
    for path, several in _USE.findall(lib):
        listed = several.split(",") if several else [path.rsplit("::", 1)[-1]]
        names |= {it.split(" as ")[0].strip().rsplit("::", 1)[-1] for it in listed}
    return names - {""}, set(_MODULE.findall(lib))


def public_calls(crate: Crate) -> List[Function]:
    """The public functions that another crate can call, in the order of files and lines."""
    root = "src/lib.rt" if "src/lib.rt" in crate.texts else "src/main.rt"
    names, modules = exported(crate.texts[root])
    found: List[Function] = []
    for path, text in crate.texts.items():
        if path.startswith("src/"):
            found += [
                it for it in functions_in(path, text)
                if it.is_public
                and ((it.owner or it.name) in names or it.module.split("::")[0] in modules)
            ]
    return found


def _by_function(records: Mapping[str, Record]) -> Dict[str, List[Tuple[str, Refusal]]]:
    found: Dict[str, List[Tuple[str, Refusal]]] = {}
    for record in records.values():
        for refusal in record.refusals:
            found.setdefault(refusal.function, []).append((record.edit, refusal))
    return found


def _turning(clause: str, refusals: List[Tuple[str, Refusal]]) -> List[str]:
    """The edits that goals of a clause refuse."""
    return sorted({
        edit for edit, it in refusals
        if it.is_of_a_clause and (it.clause == clause if clause else not it.clause)
    })


def wrapped(start: str, words: List[str]) -> List[str]:
    """A line of words behind a start, broken before the page's width."""
    lines = [start]
    for number, word in enumerate(words):
        part = word + ("," if number + 1 < len(words) else "")
        if len(lines[-1]) + 1 + len(part) > WIDTH:
            lines.append("    " + part)
        else:
            lines[-1] += " " + part
    return lines


def _lines_of(crate: Crate, records: Mapping[str, Record]) -> Tuple[List[str], int, int]:
    """The lines of a crate, how many clauses its public calls have, and how many are bare."""
    by_function = _by_function(records)
    lines: List[str] = []
    count = bare = 0
    shown: Set[str] = set()
    for call in public_calls(crate):
        if not call.clauses:
            continue
        lines.append(f"- `{call.path}`")
        names = [it for it in by_function if call.is_called(it)]
        shown |= set(names)
        refusals = [it for name in names for it in by_function[name]]
        # one clause alone has the goal `returns`, whatever its name
        is_single = len(call.clauses) == 1
        for clause in call.clauses:
            edits = _turning(clause, refusals)
            if is_single and not edits:
                edits = _turning("", refusals)
            count, bare = count + 1, bare + (not edits)
            start = f"  - `{clause}`:" if clause else "  - -:"
            lines += wrapped(start, [f"`{it}`" for it in edits] or ["bare"])
        others = sorted({edit for edit, it in refusals if not it.is_of_a_clause})
        if others:
            lines += wrapped("  - by other goals:", [f"`{it}`" for it in others])
    private = sorted(set(by_function) - shown)
    if private:
        lines += ["", "Private:", ""]
        for name in private:
            edits = sorted({edit for edit, _ in by_function[name]})
            lines += wrapped(f"- `{name}`:", [f"`{it}`" for it in edits])
    return lines, count, bare


def page_of(
    crates: Mapping[str, Crate], records: Mapping[str, Mapping[str, Record]], edits: int
) -> str:
    """The whole page, of so many edits in all."""
    body: List[str] = []
    count = bare = 0
    for name, crate in crates.items():
        lines, clauses, without = _lines_of(crate, records.get(name, {}))
        count, bare = count + clauses, bare + without
        if lines:
            said = f"{clauses} clauses of public calls, {without} bare." if clauses else ""
            body += ["", f"## `{name}`", "", *([said, ""] if said else []), *lines]
    kept = sum(len(it) for it in records.values())
    total = f"\nPublic calls have {count} clauses in all, {bare} of which are bare."
    if kept < edits:
        total += (
            f" Of {edits} edits {kept} have a\nrecord; what the others turn is not shown, and each"
            " test run tries them."
        )
    return _HEAD + total + "\n" + "\n".join(body) + "\n"
