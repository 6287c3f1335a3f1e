"""What a source file of a crate says: its functions, where each body is, and what is outside."""
from __future__ import annotations

import re
from dataclasses import dataclass
from typing import List, Optional, Set, Tuple

_WORDS = r"(?:pub(?:\([^)]*\))?\s+)?(?:const\s+)?(?:unsafe\s+)?(?:extern\s+\"C\"\s+)?"
_FUNCTION = re.compile(rf"^(\s*)({_WORDS})fn\s+(\w+)")
_BLOCK = re.compile(r"^(\s*)(?:pub(?:\([^)]*\))?\s+)?(?:unsafe\s+)?(impl|trait|mod)\b(.*)$")
_CLAUSE = re.compile(r"^\s*(ensures|requires)\b\s*\*?\s*(\w*)\s*\{")
_COMMENT = re.compile(r"^\s*//")


@dataclass(frozen=True)
class Function:
    """A function of a file: lines from 1; `body` is the line that its body begins in."""

    module: str
    owner: str
    name: str
    is_public: bool
    is_named: bool
    first: int
    body: int
    last: int
    clauses: Tuple[str, ...]

    @property
    def path(self) -> str:
        """Its path below the crate, by the module that its code is in."""
        return "::".join(it for it in (self.module, self.owner, self.name) if it)

    @property
    def asked(self) -> str:
        """What a check is asked for: a method by its type, whose module may be another; that of a
        trait by the module alone.
        """
        if not self.is_named:
            return self.module
        return f"{self.owner}::{self.name}" if self.owner else self.path

    def is_called(self, name: str) -> bool:
        """Whether a check can mean it by a name below the crate."""
        if not self.is_named:
            return name.startswith(self.module) and name.endswith(f"::{self.name}")
        return name == self.path or f"::{name}".endswith(f"::{self.owner}::{self.name}")

    def has(self, line: int) -> bool:
        """Whether the line is one of its."""
        return self.first <= line <= self.last


def module_of(path: str) -> str:
    """The module that a file below src/ holds, by its path in the crate."""
    parts = path[len("src/") : -len(".rt")].split("/")
    if parts[-1] in ("lib", "main", "mod"):
        parts.pop()
    return "::".join(parts)


def _indent(line: str) -> int:
    return len(line) - len(line.lstrip(" "))


def _opens(line: str, indent: int) -> bool:
    """Whether the body of an item at an indent begins in a line."""
    return _indent(line) == indent and line.rstrip().endswith("{")


def _owner(header: str) -> Tuple[str, bool]:
    """The type of an `impl`, and whether it is one of a trait."""
    rest = header.strip()
    if rest.startswith("<"):
        depth = 0
        for at, sign in enumerate(rest):
            depth += {"<": 1, ">": -1}.get(sign, 0) if rest[at - 1 : at + 1] != "->" else 0
            if depth == 0:
                rest = rest[at + 1 :].strip()
                break
    of_trait = re.search(r"\bfor\s", rest) is not None
    found = re.match(r"[&\s]*(?:\w+::)*(\w+)", rest)
    return (found[1] if found else ""), of_trait


def _end(lines: List[str], start: int, indent: int) -> Tuple[Optional[int], int]:
    """The indices of the lines in which the body of a function begins and ends."""
    if re.search(r"[;}]\s*$", lines[start]):
        return (None if lines[start].rstrip().endswith(";") else start), start
    body = None
    for at in range(start, len(lines)):
        line = lines[at]
        if body is None and at > start and _indent(line) == indent and line.rstrip().endswith(";"):
            return None, at
        if body is None and _opens(line, indent):
            body = at
        elif line == " " * indent + "}" and body is not None:
            return body, at
    return body, len(lines) - 1


def _clauses(lines: List[str]) -> Tuple[str, ...]:
    """The names of what a function ensures; '' is that of a clause without one."""
    found = [_CLAUSE.match(line) for line in lines]
    return tuple(it[2] for it in found if it and it[1] == "ensures")


def functions_in(path: str, text: str) -> List[Function]:
    """The functions of a source file that have a body, in their order."""
    lines = text.split("\n")
    module = module_of(path)
    blocks: List[Tuple[int, str, bool]] = []
    found: List[Function] = []
    for at, line in enumerate(lines):
        while blocks and line == " " * blocks[-1][0] + "}":
            blocks.pop()
        block = _BLOCK.match(line)
        if block and not line.rstrip().endswith((";", "}")):
            kind, (owner, of_trait) = block[2], _owner(block[3])
            blocks.append((len(block[1]), owner, of_trait or kind != "impl"))
        item = _FUNCTION.match(line)
        if not item:
            continue
        body, last = _end(lines, at, len(item[1]))
        if body is None:
            continue
        inner = [it for it in blocks if it[0] < len(item[1])]
        owner, unnamed = (inner[-1][1], inner[-1][2]) if inner else ("", False)
        signature = lines[at : max(body, at + 1)]
        found.append(
            Function(
                module, "" if unnamed else owner, item[3], item[2].startswith("pub "),
                not unnamed, at + 1, body + 1, last + 1, _clauses(signature),
            )
        )
    return found


def function_at(functions: List[Function], line: int) -> Optional[Function]:
    """The innermost function whose body has a line; that of its signature is outside."""
    within = [it for it in functions if it.body < line <= it.last or it.first == it.last == line]
    return max(within, key=lambda it: it.first) if within else None


def outside_of_bodies(path: str, text: str) -> str:
    """What of a file a proof elsewhere can rest on: all but bodies and comments."""
    inside: Set[int] = set()
    for it in functions_in(path, text):
        inside.update(range(it.body + 1, it.last + 1))
    lines = text.split("\n")
    kept = [it for at, it in enumerate(lines, 1) if at not in inside and not _COMMENT.match(it)]
    return "\n".join(it for it in kept if it.strip())
