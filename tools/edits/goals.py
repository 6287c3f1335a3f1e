"""Which goals of a function refused an edit."""
from __future__ import annotations

import re
from dataclasses import dataclass
from typing import Callable, Dict, List, Optional, Tuple

from .said import Fault, Said, goals_named
from .sources import Function

_CLAUSE = re.compile(r"(?:^|-)clause-(.+)$")

# the text of a file of the crate as it was checked, or None
Texts = Callable[[str], Optional[str]]


@dataclass(frozen=True, order=True)
class Refusal:
    """What refused an edit: a goal of a function, or a lemma of a file."""

    function: str
    goal: str

    @property
    def clause(self) -> str:
        """The clause of the function that the goal is of; '' where it has no name."""
        found = _CLAUSE.search(self.goal)
        return found[1] if found else ""

    @property
    def is_of_a_clause(self) -> bool:
        """Whether the goal is of what the function ensures."""
        return self.goal.startswith("returns") or "-clause-" in self.goal


def declaration_at(text: str, line: int) -> str:
    """The name of the declaration of a file of proofs that a line belongs to."""
    lines = text.split("\n")
    for at in range(min(line, len(lines)) - 1, -1, -1):
        said = lines[at]
        if said[:1].isspace() or not said or said.startswith(("--", "use ", "mod ", "pub mod ")):
            continue
        found = re.match(r"(?:pub )?(?:lemma |def )?([^\s:=(){}]+)", said)
        if found:
            return found[1]
    return ""


def names_of(function: Function, crate: str, said: Said) -> List[str]:
    """The names under which a check speaks of a function and of the closures in it."""
    below = {it: it[len(crate) + 2 :] for it in said.functions if it.startswith(f"{crate}::")}
    found = [it for it, name in below.items() if function.is_called(name)]
    return [it for it in below if any(it == one or it.startswith(one + "::") for one in found)]


def folder_of(name: str, crate: str) -> str:
    """The folder of a function's own proofs."""
    return "proofs/" + name[len(crate) + 2 :].replace("::", "/") + "/"


def own_faults(name: str, crate: str, said: Said) -> List[Fault]:
    """The errors in a function's own proofs."""
    folder = folder_of(name, crate)
    return [it for it in said.faults if it.path.startswith(folder)]


def refusals_of(name: str, crate: str, said: Said, texts: Texts) -> List[Refusal]:
    """The goals by which a function is refused for itself, as its line and its proofs say."""
    words = said.functions[name]
    if words.startswith(("proved", "assumed")):
        return []
    below = name[len(crate) + 2 :]
    goals = goals_named(words)
    for fault in own_faults(name, crate, said):
        text = texts(fault.path)
        if text is not None and not fault.is_of_a_name:
            goals.append(declaration_at(text, fault.line) or "?")
    return [Refusal(below, goal) for goal in dict.fromkeys(goals)]


def refusals_by_place(function: Function, names: List[str], crate: str, said: Said, path: str
                      ) -> List[Refusal]:
    """The goals that the notes tell of a function's lines, where the function is not proved."""
    failed = [it for it in names if not said.functions[it].startswith(("proved", "assumed"))]
    if not failed:
        return []
    below = min(failed, key=len)[len(crate) + 2 :]
    here = [it.goal for it in said.unproved if it.path == path and function.has(it.line)]
    return [Refusal(below, goal) for goal in dict.fromkeys(here)]


def one_of_each_clause(found: List[Refusal]) -> Tuple[Refusal, ...]:
    """Of each function and clause one goal, the first by name; of other goals all."""
    kept: Dict[Tuple[str, str], Refusal] = {}
    for it in sorted(set(found)):
        key = (it.function, it.clause) if it.is_of_a_clause else (it.function, it.goal)
        kept.setdefault(key, it)
    return tuple(sorted(kept.values()))
