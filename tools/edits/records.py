"""The records of a crate: which goals refused each edit, and the sum of what this stands on."""
from __future__ import annotations

import os
import re
from dataclasses import dataclass, replace
from typing import Dict, Iterable, List, Mapping, Tuple

from .goals import Refusal

FILE = "refused.md"
_HEAD = """# What refused each edit

`python3 -m edits --write` makes this page, and nothing else does. Below each edit, with the sum of
what its refusal stands on, is a goal of each clause that refused it, behind its function.
"""
_EDIT = re.compile(r"^- `([^`]+)` ([0-9a-f]+)$")
_GOAL = re.compile(r"^  - `([^`]+)` `([^`]+)`$")


@dataclass(frozen=True)
class Record:
    """What refused one edit."""

    edit: str
    sum: str
    refusals: Tuple[Refusal, ...]

    @property
    def clauses(self) -> List[Tuple[str, str]]:
        """The functions and clauses that refused it."""
        return sorted({(it.function, it.clause or it.goal) for it in self.refusals})


def path_of(folder: str) -> str:
    """Where the records of a crate stand, by the folder of its edits."""
    return os.path.join(folder, FILE)


def read(folder: str) -> Dict[str, Record]:
    """The records of a crate by the names of the edits."""
    try:
        with open(path_of(folder), encoding="utf-8") as it:
            lines = it.read().split("\n")
    except FileNotFoundError:
        return {}
    found: Dict[str, Record] = {}
    for line in lines:
        edit, goal = _EDIT.match(line), _GOAL.match(line)
        if edit:
            last = Record(edit[1], edit[2], ())
            found[last.edit] = last
        elif goal and found:
            last = replace(last, refusals=(*last.refusals, Refusal(goal[1], goal[2])))
            found[last.edit] = last
    return found


def text_of(records: Iterable[Record]) -> str:
    """The page of records, in the order of the edits' names."""
    lines = [_HEAD]
    for record in sorted(records, key=lambda it: it.edit):
        lines.append(f"- `{record.edit}` {record.sum}")
        lines += [f"  - `{it.function}` `{it.goal}`" for it in record.refusals]
    return "\n".join(lines) + "\n"


def write(folder: str, records: Mapping[str, Record]) -> None:
    """Writes the records of a crate."""
    with open(path_of(folder), "w", encoding="utf-8") as it:
        it.write(text_of(records.values()))
