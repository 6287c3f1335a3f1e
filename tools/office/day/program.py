"""The program `timedesk`, as an office runs it: for what a file has, and for what a day leaves."""
from __future__ import annotations

import contextlib
import os
import shutil
import subprocess
import sys
import tempfile
from typing import Any, Mapping, Optional, Sequence

from office.day import processes
from office.day.desk_words import decoded
from office.day.file_faults import NO_NAMES, POINT, explained
from office.day.parts import Part
from office.day.processes import Signals
from office.day.safe_files import write_whole
from office.refused import MACHINE, Refused, Silent
from office.words.text import shown_lines

# the folder that has `timedesk` and `office`
HERE = os.path.abspath(os.path.join(os.path.dirname(__file__), "../../.."))

# what a program is called, and how long what it says of its version is at most
OWN, VERSION = "timedesk", 200


def program_words(unproved: bool) -> list[str]:
    """The words that run the program: TIMEDESK names another one."""
    named = os.environ.get("TIMEDESK")
    if unproved:
        return [os.path.join(HERE, OWN), "--unproved"]
    if not named:
        return [os.path.join(HERE, OWN)]
    found = shutil.which(named)
    if found is None:
        raise Refused(f"TIMEDESK: {named} is no program")
    return [os.path.abspath(found)]


def named_words(program: Sequence[str]) -> list[str]:
    """The words by which a day remembers a program: that of this folder by its name, since the
    folder may be another one tomorrow; one that somebody has named by its path."""
    is_ours = program[0] == os.path.join(HERE, OWN)
    return [OWN, *program[1:]] if is_ours else list(program)


def is_of_an_office(path: str) -> bool:
    """Whether a path is that of the program of some office, as days used to remember it."""
    is_named = os.path.basename(path) == OWN
    return is_named and os.path.exists(os.path.join(os.path.dirname(path), "office"))


def day_program(facts: Mapping[str, Any]) -> list[str]:
    """The words that run the program of a day: that of this office, with or without proof as the
    day has it, or the one that was named for the day, if it is still there; TIMEDESK names another
    one."""
    first, *rest = map(str, facts["program"])
    if os.environ.get("TIMEDESK"):
        return program_words(False)
    if first != OWN and os.access(first, os.X_OK) and not is_of_an_office(first):
        return [first, *rest]
    # what is installed has one program, proved or not
    is_installed = os.path.exists(os.path.join(HERE, "about"))
    return [os.path.join(HERE, OWN), *([] if is_installed else rest)]


def version_of(program: Sequence[str]) -> str:
    """What a program says of its version, in one line; empty if it says nothing."""
    try:
        done = subprocess.run([*program, "--version"], capture_output=True, timeout=60, check=False)
    except (OSError, subprocess.TimeoutExpired):
        return ""
    lines = decoded(done.stdout).splitlines() if done.returncode == 0 else []
    return "; ".join(line for line in lines[:2] if line)[:VERSION]


def build_words(program: list[str]) -> list[str]:
    """The words that build a program if need be, and run nothing; another one is asked for help."""
    is_ours = program[0] == os.path.join(HERE, OWN)
    return [*program, "--build" if is_ours else "--help"]


def build(program: list[str]) -> None:
    """Builds the program if need be; another one is there as it is. What that says of its time goes
    where the office's goes."""
    words = build_words(program)
    if "--build" not in words:
        return
    try:
        done = subprocess.run(words, stdout=subprocess.DEVNULL, check=False)
    except OSError as fault:
        raise Refused(f"cannot run {words[0]}: {fault.strerror}") from None
    if done.returncode != 0:
        raise Refused("there is no program to read the plan with")


def tell(said: bytes, names: Mapping[str, str] = NO_NAMES) -> None:
    """Says what the program has said: why a file is refused, by its place in it."""
    with contextlib.suppress(OSError):
        sys.stderr.write(shown_lines(explained(decoded(said), names)))
        sys.stderr.flush()


def output(words: list[str], quiet: bool = False, text: bytes = b"") -> tuple[int, bytes]:
    """The status of a command of the program that reads files and this text, and what it prints.
    What it says goes where the office's goes, or nowhere."""
    try:
        done = subprocess.run(
            [*words, POINT],
            input=text,
            stdout=subprocess.PIPE,
            stderr=subprocess.DEVNULL if quiet else subprocess.PIPE,
            check=False,
        )
    except OSError as fault:
        raise Refused(f"cannot run {words[0]}: {fault.strerror}") from None
    tell(done.stderr or b"")
    return done.returncode, done.stdout


def run_on_files(
    signals: Signals,
    words: Sequence[str],
    names: Mapping[str, str] = NO_NAMES,
    stdout: Any = subprocess.DEVNULL,
) -> int:
    """The status of a command of the program that reads files. `names` has the names by which a
    person knows those that are copies."""
    with tempfile.TemporaryFile() as said:
        try:
            status = processes.run(signals, [*words, POINT], stdout, stderr=said)
        except OSError as fault:
            raise Refused(f"cannot run {words[0]}: {fault.strerror}") from None
        said.seek(0)
        tell(said.read(), names)
    return status


class Left:
    """What the minutes of a part of a day leave: its journal, and the timetable after it."""

    def __init__(self, part: Part, quiet: bool = False) -> None:
        self.part, self.instance = part, part.day.instance
        self.program = day_program(part.day.facts())
        self.quiet = quiet

    def run(self, *words: str, text: bytes = b"") -> tuple[int, bytes]:
        return output([*self.program, *words], self.quiet, text)

    def write_journal(self, path: str) -> None:
        minutes, sides = self.part.minutes, self.part.side_words()
        status, text = self.run("journal", self.instance, minutes, *sides)
        if status != 0:
            raise Silent(status)
        write_whole(path, text)

    def audit(self, journal: str) -> tuple[int, str]:
        """The status of the audit of a journal, and its line."""
        status, text = self.run("audit", self.instance, journal, *self.part.start_words())
        return status, text.decode().strip()

    def list(self, journal: str) -> bytes:
        """The timetable after a journal."""
        status, text = self.run("list", self.instance, journal, *self.part.start_words())
        if status != 0:
            raise Silent(status)
        return text

    def mended(self, solution: bytes) -> bytes:
        """What of a solution can stand under the rules of the part."""
        status, text = self.run("mend", self.instance, "-", *self.part.side_words(), text=solution)
        if status != 0:
            raise Silent(status)
        return text

    def report(self, solution: Optional[str]) -> dict[str, str]:
        """The report on a solution by the words in front of its lines; of an empty one if there is
        none."""
        words = ["check", self.instance, solution or os.devnull, *self.part.side_words()]
        status, text = self.run(*words)
        if status != 0:
            raise Silent(status or MACHINE)
        lines = (line.split(" ", 1) for line in text.decode().split("\n") if " " in line)
        return {kind: value for kind, value in lines}
