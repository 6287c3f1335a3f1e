#!/usr/bin/env python3
"""Takes the checks out of the module of a program that `rt try` has made, as LLVM prints it.

    tools/strip_checks.py CRATES < CHECKED > STRIPPED

`rt try` checks each access, fills each new local, and leaves out the hints on inlining, which
the sources in the folder CRATES have. Where a line has a form that is not known here, nothing is
certain of the rest: it is named, and the status is 1.
"""
from __future__ import annotations

import enum
import io
import pathlib
import re
import sys
from typing import Dict, Iterable, Iterator, Mapping, NamedTuple, Optional

sys.dont_write_bytecode = True


class Hint(enum.Enum):
    """What a function's attribute asks of the compiler, in the words of LLVM."""

    ALWAYS = "alwaysinline"
    NEVER = "noinline"
    COLD = "cold"


class Function(NamedTuple):
    """A function by its crate and its own name: its module is not told apart."""

    crate: str
    name: str


Hints = Mapping[Function, Hint]


class NotUnderstood(Exception):
    """The module has another form than the one that is known here."""


WRITTEN = {"inline(always)": Hint.ALWAYS, "inline(never)": Hint.NEVER, "cold": Hint.COLD}
HINTED = re.compile(
    r"#\[(inline\(always\)|inline\(never\)|cold)\]\s*(?:#\[[^\n]*\]\s*)*"
    r"(?:pub(?:\([a-z]*\))? )?(?:unsafe )?fn (\w+)"
)
# what `rt try` adds: its own functions, which may be defined, and called for nothing that is used
ADDED = re.compile(r'@"rattle-(?:llvm-checks|try)::')
CALL = re.compile(r'  call void @"rattle-(?:llvm-checks::\w+|try::site-\d+)"\([^()]*\)$')
LOCAL = re.compile(r"  (%\w+) = alloca ")
FILL = re.compile(r"  call void @llvm\.memset\.p0\.i64\(ptr (%\w+), i8 -86, i64 \d+, i1 false\)$")
NAME = re.compile(r'define [^@]*@"([^"]*)"')
HEAD = re.compile(r"\) (#\d+ \{)$")
MAIN = re.compile(r'define [^@]*@"?main"?\(')


def hints_of(crate: str, source: str) -> Dict[Function, Hint]:
    """The hints in a source of a crate."""
    return {Function(crate, name): WRITTEN[hint] for hint, name in HINTED.findall(source)}


def function_of(definition: str) -> Optional[Function]:
    """The function that a line begins to define, if its name is one of the language's."""
    found = NAME.match(definition)
    if found is None:
        return None
    path = found.group(1).split("::<")[0].split("::")
    return Function(path[0], path[-1])


def with_hint(definition: str, hint: Hint) -> str:
    """A line that begins to define a function, with a hint."""
    hinted, count = HEAD.subn(rf") {hint.value} \1", definition)
    if count == 0:
        raise NotUnderstood(f"a function begins otherwise: {definition}")
    return hinted


def without_sanitizer(attributes: str) -> str:
    """A line of attributes of functions without the one that has each access checked."""
    kept = attributes.replace(" sanitize_address", "")
    if " sanitize_" in kept:
        raise NotUnderstood(f"another check of each access: {attributes}")
    return kept


class Seen:
    """What of the known form was seen so far, and the line before."""

    def __init__(self, hints: Hints) -> None:
        self.hints, self.before = hints, ""
        self.main = self.checks = self.hinted = False

    def define(self, line: str) -> str:
        """A line that begins to define a function, as it stays."""
        self.main = self.main or MAIN.match(line) is not None
        function = function_of(line)
        hint = None if function is None else self.hints.get(function)
        if hint is None:
            return line
        self.hinted = True
        return with_hint(line, hint)

    def is_check(self, line: str) -> bool:
        """Whether a line is there for a check alone."""
        if ADDED.search(line):
            if not CALL.match(line):
                raise NotUnderstood(f"a check that is no call alone: {line}")
            self.checks = True
            return True
        filled, local = FILL.match(line), LOCAL.match(self.before)
        return bool(filled and local and filled.group(1) == local.group(1))

    def end(self) -> None:
        """Refuses a module that lacks what each has."""
        if not self.main:
            raise NotUnderstood("it has no main")
        if not self.checks:
            raise NotUnderstood("no check was found in it")
        if self.hints and not self.hinted:
            raise NotUnderstood("no function was found in it that has a hint")


def stripped(lines: Iterable[str], hints: Hints) -> Iterator[str]:
    """The lines of a module without its checks, and with the hints. The lines have no ends. A
    reader must go to the end, since only there it is known whether all was understood."""
    seen = Seen(hints)
    for line in lines:
        if line.startswith("define "):
            yield seen.define(line)
        elif line.startswith("attributes "):
            yield without_sanitizer(line)
        elif not line.startswith("  ") or not seen.is_check(line):
            yield line
        seen.before = line
    seen.end()


def read_hints(crates: pathlib.Path) -> Dict[Function, Hint]:
    """The hints in the sources of all crates in a folder."""
    hints: Dict[Function, Hint] = {}
    for path in sorted(crates.glob("*/src/**/*.rt")):
        hints.update(hints_of(path.relative_to(crates).parts[0], path.read_text("utf-8")))
    return hints


def main() -> int:
    if len(sys.argv) != 2:
        print(__doc__, file=sys.stderr)
        return 2
    hints = read_hints(pathlib.Path(sys.argv[1]))
    # a text in the module may be of any bytes
    source = io.TextIOWrapper(sys.stdin.buffer, "latin-1", newline="\n")
    target = io.TextIOWrapper(sys.stdout.buffer, "latin-1", newline="\n")
    try:
        for line in stripped((line.rstrip("\n") for line in source), hints):
            target.write(line + "\n")
        target.flush()
    except NotUnderstood as fault:
        print(fault, file=sys.stderr)
        return 1
    return 0


if __name__ == "__main__":
    sys.exit(main())
