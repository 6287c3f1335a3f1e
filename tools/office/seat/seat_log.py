"""The log of a seat: a line for each line that was sent or received, with the time.

    2026-11-28T08:05:11.482+0100 > place geo A 0 1
    2026-11-28T08:05:11.483+0100 < done
    2026-11-28T08:05:02.117+0100 = sits anna

Nothing that a planner did is lost by it when his screen, the desk or the machine dies.
"""
from __future__ import annotations

import contextlib
import json
import os
import re
from dataclasses import dataclass, field
from typing import Optional

from office.day.desk_words import encoded, has_words
from office.day.edits import Edit, edits_in
from office.day.minutes import Entry
from office.day.processes import now
from office.day.safe_files import open_or_make, read_text
from office.refused import Refused
from office.seat.answers import (
    Answer,
    Committed,
    LecturesAre,
    MissingAre,
    PricesAre,
    Redone,
    Said,
    SlotsAre,
    Stale,
    Undone,
    read_answer,
)
from office.seat.calls import Look, Turn, read_call
from office.seat.state import SeatState

SENT, RECEIVED, NOTED = ">", "<", "="
# the end of a line of which the rest is lost
CUT = "\x18"
# no file
CLOSED = -1
# answers to looks can be long, and are not what a draft is made of: so much of them is in the log
LONGEST_LOOK = 200
LONG = (LecturesAre, PricesAre, MissingAre, SlotsAre)
COMMITTED = re.compile(r"committed [0-9]{1,9}\Z")
# answers after which a planner has lost something if they are not on the disk
KEPT = (Undone, Committed, Redone, Stale)


class SeatLog:
    """The log of a seat, to be written on."""

    def __init__(self, path: str) -> None:
        try:
            self.end = open_or_make(path, os.O_RDWR | os.O_APPEND, 0o600)
        except PermissionError:
            raise Refused(f"the log {path} is another planner's: this seat is his") from None
        except OSError as fault:
            raise Refused(f"cannot write {path}: {fault.strerror}") from None
        if os.fstat(self.end).st_uid != os.geteuid():
            os.close(self.end)
            raise Refused(f"the log {path} is another planner's: this seat is his")
        size = os.fstat(self.end).st_size
        # what is to be written; a line that was cut, as by a full disk, is marked first
        is_cut = size and os.pread(self.end, 1, size - 1) != b"\n"
        self._unwritten = encoded(CUT) + b"\n" if is_cut else b""
        # why not all could be written
        self.fault = ""

    def _write(self, sign: str, *texts: str) -> None:
        """Writes lines. If they cannot be written, `fault` says why, the planner goes on, and they
        are written with the next one."""
        head = f"{now()} {sign} ".encode()
        self._unwritten += b"".join(head + encoded(text) + b"\n" for text in texts)
        self.fault = ""
        try:
            while self._unwritten:
                self._unwritten = self._unwritten[os.write(self.end, self._unwritten) :]
        except OSError as fault:
            self.fault = fault.strerror or "the disk fails"

    def sent(self, *lines: str) -> None:
        """Notes lines before they are sent."""
        self._write(SENT, *lines)

    def received(self, answer: Answer) -> None:
        """Notes an answer before it is shown."""
        text = str(answer)
        self._write(RECEIVED, text[:LONGEST_LOOK] if isinstance(answer, LONG) else text)
        is_kept = isinstance(answer, KEPT) or answer in (Said.DONE, Said.LEFT)
        if is_kept and not self.fault:
            self._sync()

    def noted(self, text: str, is_kept: bool = False) -> None:
        """Notes something; what is to be kept is on the disk when this returns."""
        self._write(NOTED, text)
        if is_kept and not self.fault:
            self._sync()

    def _sync(self) -> None:
        try:
            os.fdatasync(self.end)
        except OSError as fault:
            self.fault = fault.strerror or "the disk fails"

    def close(self) -> None:
        """Nothing is written from now on."""
        os.close(self.end)
        self.end = CLOSED


@dataclass
class SeatPast:
    """What the log of a seat says."""

    state: SeatState = field(default_factory=SeatState)
    # the lines that were sent and, as far as the log knows, not answered
    waiting: list[str] = field(default_factory=list)
    # the time, the sign and the text of the last line, and of each `committed` the time and who sat
    last: tuple[str, str] = ("", "")
    name: str = ""
    commits: dict[int, tuple[str, str]] = field(default_factory=dict)
    # the answer that was given when the unfinished edits of an earlier day were offered
    offer: str = ""
    # what the timetable cost at the base of the open draft
    base: Optional[int] = None
    # who has worked on the last draft: who opened it, and who has taken it over
    drafters: list[str] = field(default_factory=list)
    # the drafts that were put aside, by their names, and whether any ever was
    variants: dict[str, list[Edit]] = field(default_factory=dict)
    has_variants: bool = False
    thrown: dict[str, list[Edit]] = field(default_factory=dict)
    # the reason that was given for the commit that is under way, and those of accepted drafts
    why: str = ""
    whys: dict[int, str] = field(default_factory=dict)
    # the part of the day at which this seat was used last
    part: int = 1

    def take(self, line: str) -> None:
        """Takes up a line of the log."""
        parts = line.split(" ", 2)
        if len(parts) != 3 or is_cut(parts[1], parts[2]):
            return
        # what somebody has written by hand has no sense
        with contextlib.suppress(ValueError, IndexError):
            self._take(*parts)

    def _take(self, time: str, sign: str, text: str) -> None:
        self.last = (time, text)
        if sign == SENT:
            if has_words(encoded(text)):
                self.waiting.append(text)
        elif sign == RECEIVED and self.waiting:
            self._take_answer(time, self.waiting.pop(0), text)
        elif sign == NOTED:
            self._take_note(time, text)

    def _take_answer(self, time: str, asked: str, text: str) -> None:
        state, call = self.state, read_call(asked)
        if isinstance(call, Look):
            # no draft is made of it
            return
        was_open, answer = state.is_open, read_answer(text)
        state.apply(call, answer)
        if state.is_open and not was_open:
            self.drafters = [self.name]
        if call is Turn.COMMIT and isinstance(answer, Committed):
            self._note_commit(time, state.offset + answer.number)
        if call is Turn.COMMIT:
            self.why = ""

    def _note_commit(self, time: str, number: int) -> None:
        self.commits[number] = (time, self.name)
        self.whys[number] = self.why

    def _take_note(self, time: str, text: str) -> None:
        word, _, rest = text.partition(" ")
        if word == "part":
            number, offset = map(int, rest.split(" "))
            self.begin_part(number, offset)
        elif word == "accepted":
            self._note_commit(time, int(rest))
            accept(self.state, self.waiting, int(rest))
        elif word == "again":
            self.state.again = []
        elif word == "sits":
            self.name = rest
        elif word == "takes":
            self.drafters.append(self.name)
        elif word == "why":
            self.why = rest
        elif word in ("aside", "unaside"):
            self._take_variant(word, rest)
        elif word == "offer":
            self.offer = rest
        elif word == "base":
            self.base = int(rest)
        elif word == "forgets":
            self.state.forget()
        elif word == "unsent" and self.waiting:
            # the last lines were never sent: their client died before
            del self.waiting[-int(rest) :]

    def _take_variant(self, word: str, rest: str) -> None:
        self.has_variants = True
        with contextlib.suppress(ValueError, TypeError):
            found = json.loads(rest)
            if word == "aside":
                self.variants[found[0]] = edits_in(found[1])
                self.thrown.pop(found[0], None)
            elif found in self.variants:
                self.thrown[found] = self.variants.pop(found)

    def begin_part(self, number: int, offset: int) -> None:
        """Another part of the day has begun, after so many accepted drafts of the day: the desk of
        the one before answers no more."""
        self.part = number
        self.state.begin_part(offset, self.waiting)
        self.waiting.clear()

    def settle(self, entries: list[Entry], planner: int) -> list[int]:
        """A commit that was sent, and of which the answer was not received when the desk died, was
        accepted if the minutes have it."""
        return settle(self.state, self.waiting, entries, planner)

    def owner(self) -> str:
        """Whose draft it is that is open, or that has ended and was neither accepted nor given
        up."""
        return self.drafters[-1] if self.drafters and self.state.unfinished() else ""

    def unfinished(self) -> list[Edit]:
        """The edits of this seat that were neither accepted nor given up. An edit that was sent and
        not answered is among them."""
        return self.state.unfinished() + edits_in(self.waiting)


def is_cut(sign: str, text: str) -> bool:
    """Whether the rest of a line is lost: the next one may tell what it was."""
    is_short = sign == RECEIVED and text.startswith("committed") and not COMMITTED.match(text)
    return is_short or text.endswith(CUT)


def accept(state: SeatState, waiting: list[str], number: int) -> bool:
    """Takes up that the commit was accepted that waits for its answer, with the edits that were
    sent before it; answers whether one waits."""
    calls = list(map(read_call, waiting))
    if Turn.COMMIT not in calls:
        return False
    state.accept(number)
    del waiting[: calls.index(Turn.COMMIT) + 1]
    return True


def settle(state: SeatState, waiting: list[str], entries: list[Entry], planner: int) -> list[int]:
    """Takes up a commit that waits for its answer, if the minutes have the draft; answers the
    numbers of those that were accepted so."""
    numbers = [entry.number for entry in entries if entry.planner == planner]
    fresh = [number for number in numbers if number not in state.accepted]
    return [number for number in fresh if accept(state, waiting, number)]


def read_past(path: str) -> SeatPast:
    """What the log of a seat says; nothing, if there is none."""
    past = SeatPast()
    # a last line without an end is written just now, or was cut
    for line in read_text(path).split("\n")[:-1]:
        past.take(line)
    return past
