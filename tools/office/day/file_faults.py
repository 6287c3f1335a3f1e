"""What the program says of a file that it refuses, as a person reads it: where, and what is wrong
there."""
from __future__ import annotations

import re
from typing import Mapping, Match, Optional

# the option by which the program says the place of a fault after the line with its code
POINT = "--point"
CODED = re.compile(r"timedesk: [a-z]+ ([A-Z][0-9]) [0-9]+\Z")
PLACED = re.compile(r":[0-9]+:[0-9]+: ([A-Z][0-9]): ")
NO_NAMES: dict[str, str] = {}


def is_code_of(coded: Optional[Match[str]], line: str) -> bool:
    """Whether a line says the place of a fault with this code."""
    placed = PLACED.search(line)
    return coded is not None and placed is not None and coded[1] == placed[1]


def named(line: str, names: Mapping[str, str]) -> str:
    """A line about a copy, with the name of what it is a copy of."""
    for copy, name in names.items():
        if line.startswith(f"{copy}:"):
            return name + line[len(copy) :]
        if line in (f"timedesk: cannot read {copy}", f"timedesk: too long {copy}"):
            return line[: -len(copy)] + name
    return line


def explained(said: str, names: Mapping[str, str] = NO_NAMES) -> str:
    """What the program has said, without the code of a fault where its place is said in the next
    line."""
    lines = said.split("\n")
    after = [*lines[1:], ""]
    kept = [line for line, below in zip(lines, after) if not is_code_of(CODED.match(line), below)]
    return "\n".join(named(line, names) for line in kept)
