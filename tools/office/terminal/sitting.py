"""`office sit`: the screen, or lines, which are sent as they are typed and answered as they
come."""
from __future__ import annotations

import contextlib
import os
import select
import shutil
import signal
import sys
import time
from typing import Optional

from office.day.desk_words import decoded, encoded
from office.day.folder import Day
from office.day.processes import Alarm
from office.day.program import HERE
from office.past.earlier_days import unfinished_before
from office.refused import MACHINE
from office.seat.seat import DEAD, DeskEnded, Gone, NoAnswer, Seat
from office.terminal.plain_stepping import make_again, step_over
from office.words.announce import announce

# set where the lines come from rlwrap already
WRAPPED = "OFFICE_WRAPPED"
# how many seconds the last answers are waited for when no line is typed any more
LAST = 10.0


def sit_down(day: Day, planner: int, name: Optional[str], plain: bool) -> int:
    """Sits down at a seat, at the screen or by lines."""
    try:
        if plain or not is_screen():
            wrap(day, planner, name)
            return sit_plain(day, planner, name)
        from office.terminal.screen import sit_at_screen

        return sit_at_screen(day, planner, name)
    except Gone:
        # just when the planner went away by himself
        return 0


def is_screen() -> bool:
    """Whether the terminal can show the screen."""
    if not (sys.stdin.isatty() and sys.stdout.isatty()):
        return False
    try:
        import curses

        curses.setupterm()
        return bool(curses.tigetstr("cup"))
    except Exception:
        # no such terminal is known, or this Python has no curses
        return False


def wrap(day: Day, planner: int, name: Optional[str]) -> None:
    """Goes on under rlwrap, if it is there and lines are typed at a terminal."""
    if not sys.stdin.isatty() or os.environ.get(WRAPPED) or shutil.which("rlwrap") is None:
        return
    words = ["rlwrap", "-C", "office", "-b", " "]
    if os.path.exists(day.names):
        words += ["-f", day.names]
    words += [os.path.join(HERE, "office"), "sit", day.path, str(planner), "--plain"]
    os.execvpe("rlwrap", words + (["--name", name] if name else []), {**os.environ, WRAPPED: "1"})


class PlainSitting:
    """Lines from standard input, answers to standard output."""

    def __init__(self, seat: Seat) -> None:
        self.seat = seat
        # what was typed and is no whole line yet
        self.typed = b""
        self.is_typing = True
        self.has_closing_told = False
        self.has_fault_told = False

    def show(self, answer: str) -> None:
        os.write(sys.stdout.fileno(), encoded(answer) + b"\n")

    def begin(self) -> None:
        for answer in self.seat.catch_up():
            self.show(answer)
        make_again(self.seat, announce)
        if sys.stdin.isatty():
            self.tell_owner()
            self.tell_earlier()
            announce(
                f"seat {self.seat.planner} of {self.seat.day.path}; "
                "Ctrl-D goes away for a while, `leave` ends the seat"
            )

    def tell_owner(self) -> None:
        """Tells whose draft is here, if somebody else has left it."""
        if self.seat.owner:
            text = "has left a draft here; a commit is logged for who makes it"
            announce(f"{self.seat.owner} {text}")

    def tell_earlier(self) -> None:
        """Tells which edits of an earlier day were neither accepted nor given up."""
        name, edits = unfinished_before(self.seat.day, self.seat.planner)
        if edits and not self.seat.offer:
            text = "that were not accepted, to be typed or at the screen made again:"
            announce(f"edits of {name} {text}")
            for edit in edits:
                announce(f"    {edit}")

    def go_on(self) -> int:
        """Sends lines and shows answers until the planner goes, or the seat ends."""
        until = float("inf")
        while self.is_typing or (self.seat.waiting and time.monotonic() < until):
            ends = [self.seat.answers] + ([sys.stdin.fileno()] if self.is_typing else [])
            ready = select.select(ends, [], [], 0.5)[0]
            if self.seat.answers in ready:
                self.show_answers()
            if sys.stdin.fileno() in ready:
                self.read_typed()
                if not self.is_typing:
                    until = time.monotonic() + LAST
            self.watch_log()
            self.watch_closing()
            self.watch_rules()
        return 0

    def watch_rules(self) -> None:
        """Goes on in the next part of the day when the rules change, and makes the draft again that
        was open."""
        if self.seat.is_over() and self.seat.day.closes_at() is None:
            step_over(self.seat, self.show, announce)

    def show_answers(self) -> None:
        """Shows all answers that are there."""
        answer = self.seat.read(0)
        while answer is not None:
            self.seat.take(answer)
            self.show(answer)
            answer = self.seat.read(0)

    def read_typed(self) -> None:
        """Sends the lines that were typed; a last one without an end, too."""
        more = os.read(sys.stdin.fileno(), 65536)
        self.is_typing = bool(more)
        *lines, self.typed = (self.typed + more).split(b"\n")
        if not more and self.typed:
            lines, self.typed = [self.typed], b""
        for line in lines:
            self.seat.send(decoded(line))
            # answers are read in between, or desk and planner would wait for each other
            self.show_answers()

    def watch_log(self) -> None:
        """Tells once that the log cannot be written."""
        fault = self.seat.log.fault
        if fault and not self.has_fault_told:
            self.has_fault_told = True
            announce(f"the log cannot be written ({fault}): edits are lost if the desk dies")

    def watch_closing(self) -> None:
        """Tells once that the office closes, and goes when it is closed."""
        at = self.seat.day.closes_at()
        if at is None:
            return
        if not self.has_closing_told:
            self.has_closing_told = True
            announce(
                f"the office closes in {max(0, round(at - time.time()))} seconds: "
                "commit, or your edits are offered again"
            )
        if time.time() > at:
            raise Gone


def go_on(sitting: PlainSitting) -> int:
    """Goes on until the planner goes, and over to each next part of the day."""
    sitting.begin()
    while True:
        try:
            return sitting.go_on()
        except DeskEnded:
            if sitting.seat.state.has_left or not sitting.seat.is_over():
                raise
            sitting.watch_rules()


def sit_plain(day: Day, planner: int, name: Optional[str]) -> int:
    """Sits down by lines, and answers the status."""

    seat = Seat(day, planner, name)
    alarm = Alarm(Gone, signal.SIGINT, signal.SIGTERM, signal.SIGHUP)
    sitting = PlainSitting(seat)
    try:
        return go_on(sitting)
    except (Gone, BrokenPipeError):
        return 0
    except DeskEnded:
        with contextlib.suppress(DeskEnded):
            sitting.show_answers()
        if seat.state.has_left:
            return 0
        announce(DEAD)
    except NoAnswer:
        announce("the desk does not answer")
    finally:
        alarm.stop()
        seat.go()
    return MACHINE
