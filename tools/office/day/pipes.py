"""The named pipes of the seats: the office holds the ends that a planner has too, so that he may go
away and come back."""
from __future__ import annotations

import contextlib
import os
from typing import Callable, Optional

from office.day.processes import Signals
from office.day.safe_files import open_pipe, share


def remove_pipes(seat: str) -> None:
    for ending in (".in", ".out"):
        with contextlib.suppress(FileNotFoundError):
            os.remove(seat + ending)


class HeldSeat:
    """The pipes of a seat with a planner's ends of them."""

    def __init__(self, seat: str) -> None:
        self.seat = seat
        for ending in (".in", ".out"):
            with contextlib.suppress(FileNotFoundError):
                os.remove(seat + ending)
            os.mkfifo(seat + ending, 0o600)
        # a pipe that is opened at both ends waits for nobody, and takes a line before the desk has
        # opened it
        self.both: Optional[int] = open_pipe(seat + ".in", os.O_RDWR)
        self.lines = open_pipe(seat + ".in", os.O_WRONLY)
        self.answers = open_pipe(seat + ".out", os.O_RDONLY)
        for end in (self.lines, self.answers):
            share(end)

    def leave_to_desk(self) -> None:
        """Closes the end that is the desk's, so that one can see whether the desk has it."""
        if self.both is not None:
            os.close(self.both)
            self.both = None

    def let_go(self) -> None:
        """Closes the ends: a seat at which nobody sits ends."""
        self.leave_to_desk()
        os.close(self.lines)
        os.close(self.answers)


class HeldSeats:
    """The pipes of all seats, until they are removed."""

    def __init__(self) -> None:
        self.seats: list[HeldSeat] = []
        self.held: list[HeldSeat] = []

    def make(self, paths: list[str]) -> None:
        for path in paths:
            seat = HeldSeat(path)
            self.seats.append(seat)
            self.held.append(seat)

    def let_go(self) -> None:
        while self.held:
            self.held.pop().let_go()

    def remove(self) -> None:
        self.let_go()
        for seat in self.seats:
            remove_pipes(seat.seat)

    def ask(self, line: bytes) -> None:
        """Types a line at each seat."""
        for seat in self.held:
            os.write(seat.lines, line + b"\n")

    def read_answers(self, signals: Signals, goes_on: Callable[[], bool]) -> list[bytes]:
        """The first line that each seat answers. It is waited for as long as the desk goes on and
        no signal comes; until then an answer is empty."""
        found = {seat.answers: b"" for seat in self.held}
        waiting = set(found)
        while waiting and goes_on() and not signals.count:
            for end in signals.wait(0.2, *waiting):
                with contextlib.suppress(BlockingIOError):
                    found[end] += os.read(end, 4096)
                if found[end].endswith(b"\n"):
                    waiting.discard(end)
        for seat in self.held:
            seat.leave_to_desk()
        return [found[seat.answers].rstrip(b"\n") for seat in self.held]
