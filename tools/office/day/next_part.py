"""The next part of a day, step by step. All that a step does is on the disk before the next one
begins, and the folder of the part gets its name last: it is there whole or not at all."""
from __future__ import annotations

import json
import os
import shutil
import stat
from typing import Optional, Sequence

from office.day import mending, processes
from office.day.closures_file import blocked_text, closures_end, standing_of
from office.day.instance import Instance
from office.day.parts import Part
from office.day.processes import Signals
from office.day.program import day_program, run_on_files
from office.day.safe_files import make_anew, open_or_make, sync, write_whole
from office.refused import Refused, Silent


def rules_after(part: Part, instance: Instance) -> Optional[int]:
    """The byte of the day's closures up to which the rules are others than those of the part; None
    if they are the same."""
    end = closures_end(part.day)
    new = blocked_text(standing_of(part.day, instance, end))
    return end if new != blocked_text(part.closures(instance)) else None


class NewPart:
    """The part that follows one of which the desk has ended."""

    def __init__(self, signals: Signals, before: Part) -> None:
        self.signals, self.before, self.day = signals, before, before.day
        self.program = day_program(self.day.facts())
        self.target = before.next()
        self.instance = before.instance()
        # as long as it is made it stands beside its place
        self.made = Part(self.day, self.target.number, self.target.folder + ".new")

    def begin(self, taken: int) -> None:
        """Writes its rules, by what the closures of the day say up to a byte, and has the program
        read them. The desk of the part before goes on meanwhile."""
        self.make_folder()
        facts = {"begun": processes.now(), "closures": taken}
        write_whole(self.made.facts_file, (json.dumps(facts) + "\n").encode())
        self.instance = self.made.instance()
        write_whole(self.made.blocked, blocked_text(self.instance.closures))
        self.check()

    def make(self) -> Part:
        """Makes it of what the part before has left; the desk of that one has ended."""
        self.end_before()
        mending.mend(self.signals, self.program, self.made, self.instance, self.made.before)
        self.check()
        os.close(open_or_make(self.made.minutes, os.O_WRONLY, 0o640))
        sync(self.made.folder)
        os.rename(self.made.folder, self.target.folder)
        sync(self.day.path)
        return self.target

    def make_folder(self) -> None:
        """Makes its folder, for those for whom that of the day is."""
        shutil.rmtree(self.made.folder, ignore_errors=True)
        try:
            os.mkdir(self.made.folder, 0o700)
            os.chmod(self.made.folder, stat.S_IMODE(os.stat(self.day.path).st_mode))
        except OSError as fault:
            raise Refused(f"cannot make {self.made.folder}: {fault.strerror}") from None

    def end_before(self) -> None:
        """Writes the journal of the part that has ended, and its last timetable."""
        before, instance = self.before, self.day.instance
        start, sides = before.start_words(), before.side_words()
        new = before.journal + ".new"
        self.print_into(new, "journal", instance, before.minutes, *sides)
        self.must(["audit", instance, new, *start])
        os.replace(new, before.journal)
        self.print_into(self.made.before, "list", instance, before.journal, *start)

    def check(self) -> None:
        """Has the program read what the part begins with."""
        self.must(["run", self.day.instance, os.devnull, *self.made.start_words()])

    def must(self, words: Sequence[str]) -> None:
        status = run_on_files(self.signals, [*self.program, *words])
        if status != 0:
            raise Silent(status)

    def print_into(self, path: str, *words: str) -> None:
        """Has the program print into a file, which is on the disk then."""
        with open(make_anew(path, 0o640), "wb") as file:
            status = run_on_files(self.signals, [*self.program, *words], stdout=file)
            os.fsync(file.fileno())
        if status != 0:
            raise Silent(status)
