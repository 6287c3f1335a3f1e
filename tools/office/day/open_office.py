"""An office that is open: the desk of the last part of its day, until the office is closed. When
the rules change, the desk ends, and another one opens with the next part."""
from __future__ import annotations

import contextlib
import os
import subprocess
import time
from typing import Optional

from office.day import processes
from office.day.closures_file import closures_end, closures_size
from office.day.file_faults import POINT
from office.day.folder import CHANGING, CLOSED, OPEN, REOPENING, STARTING, Day
from office.day.minute_sums import MinuteSums
from office.day.next_part import NewPart, rules_after
from office.day.open_drafts import end_work
from office.day.parts import Part
from office.day.pipes import HeldSeats
from office.day.processes import Signals, Stopped
from office.day.safe_files import has_loose_names, write_whole
from office.day.web_beside import WebBeside
from office.refused import MACHINE, Refused, Silent, reason_of
from office.words.announce import announce

# how many seconds those who sit have when the office is closed by a signal, and for the way to the
# next part of the day
GRACE, STEP = 10.0, 5.0
# how many seconds pass between two looks for what is blocked, and until rules that could not be
# written are tried again
PACE, LATER, NEVER = 0.25, 10.0, float("inf")


class Running:
    """An office, and the desk that it keeps."""

    def __init__(self, part: Part, planners: int, lock: int, signals: Signals) -> None:
        self.part, self.day = part, part.day
        self.planners, self.lock, self.signals = planners, lock, signals
        self.program: list[str] = []
        self.seats = HeldSeats()
        self.web = WebBeside([])
        self.desk: Optional[subprocess.Popen[bytes]] = None
        # how long the closures were when it was looked whether they change the rules, and when it
        # is looked again although they are as long as then
        self.looked, self.again = -1, NEVER

    def note(self, stage: str) -> None:
        """Notes in the lock's file how far the office is."""
        self._note(os.getpid(), str(self.desk.pid) if self.desk is not None else "-", stage)

    def _note(self, office: int, desk: str, stage: str) -> None:
        text = f"{office} {desk} {stage}\n".encode()
        os.pwrite(self.lock, text, 0)
        os.ftruncate(self.lock, len(text))

    # a desk

    def start(self, stage: str = STARTING) -> None:
        """Starts the desk of the part, and waits until each seat answers."""
        part, paths = self.part, [self.day.seat(planner) for planner in range(self.planners)]
        self.seats.make(paths)
        words = [*self.program, "desk", self.day.instance, *paths, *part.start_words()]
        office = os.getpid()

        def begin() -> None:
            # should the office be killed now, it is known who has its lock
            self._note(office, str(os.getpid()), stage)

        # the desk has the lock too: as long as it goes on, no other office opens here
        words += ["--minutes", part.minutes, POINT]
        self.desk = desk = processes.start(words, None, keep=[self.lock], preexec_fn=begin)
        self.wait_for_seats(desk)
        self.sums = MinuteSums(part)
        self.note(OPEN)

    def wait_for_seats(self, desk: subprocess.Popen[bytes]) -> None:
        """Waits until each seat has answered what the timetable costs."""
        self.seats.ask(b"show cost")
        answers = self.seats.read_answers(self.signals, lambda: desk.poll() is None)
        self.signals.check()
        if desk.poll() is not None:
            raise Silent(desk.returncode if desk.returncode > 0 else 3)
        if not all(answer.startswith(b"costs ") for answer in answers):
            raise Refused(
                f"the desk does not answer as it should: {answers[0].decode(errors='replace')}"
            )

    def end_desk(self) -> None:
        """Ends the desk, however far it is, and removes the pipes."""
        if self.desk is not None:
            processes.end(self.desk)
        self.seats.remove()

    def keep(self) -> int:
        """Keeps the office until the desk has ended, and answers with its status."""
        assert self.desk is not None
        while self.desk.poll() is None and not self.signals.count:
            self.signals.wait(PACE)
            self.web.look()
            self.keep_sums()
            if closures_size(self.day) != self.looked or time.monotonic() > self.again:
                self.look()
        if self.desk.poll() is None:
            self.close(self.desk)
            processes.end(self.desk)
        return self.desk.returncode

    def keep_sums(self) -> None:
        """Adds checksums of what is new in the minutes; on a disk that fails, later."""
        with contextlib.suppress(OSError):
            self.sums.read_on()

    def close(self, desk: subprocess.Popen[bytes]) -> None:
        """Lets the desk end, and those who sit for some time; then, or when a second signal comes,
        the desk is ended."""
        until = self.day.closes_at()
        if until is None:
            until = time.time() + GRACE
            with contextlib.suppress(Refused):
                write_whole(self.day.closing, f"{until}\n".encode())
        self.let_end(desk, until - time.time() + 1)

    def let_end(self, desk: subprocess.Popen[bytes], seconds: float) -> None:
        """Lets the desk end for so many seconds, or until another signal comes."""
        until, seen = time.monotonic() + seconds, self.signals.count
        self.seats.let_go()
        while desk.poll() is None and time.monotonic() < until and self.signals.count == seen:
            self.signals.wait(0.2)

    def forget(self) -> None:
        """Ends the desk, and lets the lock go."""
        self.end_desk()
        self.keep_sums()
        with contextlib.suppress(FileNotFoundError):
            os.remove(self.day.closing)
        self.desk = None
        self.note(CLOSED)
        os.close(self.lock)

    # the rules change

    def look(self) -> None:
        """Changes the rules, if something is blocked or lifted since they were made."""
        self.looked, self.again = closures_size(self.day), NEVER
        try:
            taken = rules_after(self.part, self.part.instance())
        except (Refused, OSError) as fault:
            self.rules_stay(reason_of(fault))
            return
        if taken is not None:
            self.change(taken)

    def rules_stay(self, why: str) -> None:
        """Says why the rules cannot be changed just now. It is tried again."""
        announce(f"the rules stay as they are, for now: {why}")
        self.again = time.monotonic() + LATER

    def change(self, taken: int) -> None:
        """The desk ends, and another one begins with what it has left, less what cannot stand any
        more."""
        assert self.desk is not None
        new = NewPart(self.signals, self.part)
        try:
            new.begin(taken)
        except (Refused, OSError) as fault:
            self.rules_stay(reason_of(fault) or "the program does not read the new ones")
            return
        announce("the rules change: the desk ends, and another one opens")
        self.note(CHANGING)
        self.let_end(self.desk, STEP)
        self.signals.check()
        self.end_desk()
        self.keep_sums()
        self.desk = None
        try:
            self.part = new.make()
            self.begin_part()
        except (Refused, OSError):
            path = self.day.path
            goes_on, ends = f"office open {path} goes on with it", f"office close {path} ends it"
            announce(f"the day stops: {goes_on}, {ends}")
            raise
        announce(f"open again, with part {self.part.number} of the day")

    def begin_part(self) -> None:
        """Opens the desk of a part that was made just now."""
        for planner in range(self.planners):
            # who was at work says so again
            end_work(self.day, planner)
        with contextlib.suppress(FileNotFoundError):
            os.remove(self.day.failing)
        self.seats = HeldSeats()
        self.start(REOPENING)


def keep(running: Running, web_words: list[str]) -> int:
    """Keeps an office that is open until its desk has ended, and answers with its status."""
    day, signals = running.day, running.signals
    announce(
        f"open, seats 0 to {running.planners - 1}: office sit {day.path} PLANNER; "
        f"Ctrl-C, or office close {day.path}, closes it"
    )
    if has_loose_names(day.path):
        announce(f"others can put files of theirs in the place of the day's: chmod +t {day.path}")
    running.web = WebBeside(web_words)
    running.web.start()
    status = 0
    try:
        with contextlib.suppress(Stopped):
            status = running.keep()
    finally:
        running.forget()
        running.web.end()
    if status < 0 and not signals.count:
        announce(
            f"the desk has ended {processes.how_ended(status)}; "
            f"what was committed is in {running.part.minutes}"
        )
    announce(
        f"closed; office close {day.path} writes the journal of the day "
        "and the timetable that it leaves"
    )
    if status < 0 and not signals.count:
        # who has killed it wants to know it, as a supervisor does
        return MACHINE
    return max(0, status)
