"""What a check prints, as values."""
from __future__ import annotations

import re
from dataclasses import dataclass
from typing import Dict, List, Tuple

_FUNCTION = re.compile(r"^fn (\S+): (.*)$")
_ERROR = re.compile(r"^(?:\./)?(\S+?):(\d+):\d+: error(?:\[[\w-]+\])?:? ?(.*)$")
_NOTE = re.compile(r"^note: (?:\./)?(\S+?):(\d+):\d+: it is not proved that .*\(`([^`]+)`\)")
_GOALS = re.compile(r"did not prove (.*)$")
_LIMIT = re.compile(
    r"antt ran out of (stack|the (steps|memory) that the check of one declaration may (take|use))"
    r"|(outgrew the memory limit|stopped at the step limit) \("
)
# a proof names what an edit took away: no contract refused it
_GONE = re.compile(r"has no field|is not in scope|has no `|was not admitted")


@dataclass(frozen=True)
class Fault:
    """An error of a line of a file."""

    path: str
    line: int
    text: str

    @property
    def is_of_a_name(self) -> bool:
        """Whether it says only that a name is gone."""
        return _GONE.search(self.text) is not None


@dataclass(frozen=True)
class Unproved:
    """A goal that the search left, and the line of the source that it is owed to."""

    path: str
    line: int
    goal: str


@dataclass(frozen=True)
class Said:
    """What a check said: of each function a few words, faults, and goals that are left."""

    status: int
    functions: Dict[str, str]
    faults: Tuple[Fault, ...]
    unproved: Tuple[Unproved, ...]
    limit: str
    lines: Tuple[str, ...]

    @property
    def reached_the_prover(self) -> bool:
        """Whether the crate compiled, so that its functions were tried."""
        ends = ("logic=", "only=", "rattle: no verdict")
        return bool(self.functions) or self.last.startswith(ends)

    @property
    def last(self) -> str:
        """The last line."""
        return self.lines[-1] if self.lines else ""


def goals_named(words: str) -> List[str]:
    """The goals that a function's line says the search did not prove."""
    found = _GOALS.search(words.split("it calls")[0])
    return re.findall(r"`([^`]+)`", found[1]) if found else []


def read(status: int, output: str) -> Said:
    """Reads the output of a check that ended with a status."""
    lines = output.rstrip("\n").split("\n")
    functions: Dict[str, str] = {}
    faults: List[Fault] = []
    unproved: List[Unproved] = []
    for line in lines:
        if function := _FUNCTION.match(line):
            functions[function[1]] = function[2]
        elif fault := _ERROR.match(line):
            faults.append(Fault(fault[1], int(fault[2]), fault[3]))
        elif note := _NOTE.match(line):
            unproved.append(Unproved(note[1], int(note[2]), note[3]))
    limit = next((it for it in lines if _LIMIT.search(it)), "")
    return Said(status, functions, tuple(faults), tuple(unproved), limit, tuple(lines))
