"""A planner's end of a seat: lines go to the desk, answers come back, and both are in the seat's
log before they are shown."""
from __future__ import annotations

import contextlib
import errno
import getpass
import os
import select
import time
from typing import Callable, Optional, Union

from office.day.desk_words import decoded, encoded, has_words
from office.day.edits import Edit
from office.day.folder import Day
from office.day.open_drafts import end_work
from office.day.parts import last_part, read_parts
from office.day.processes import now
from office.day.safe_files import is_locked, lock, open_pipe, read_text
from office.refused import Refused
from office.seat.answers import Answer, read_answer
from office.seat.calls import Turn, read_call
from office.seat.seat_log import SeatLog, read_past, settle
from office.seat.waits import LAST, PATIENCE, SAID_AFTER, is_ready, wait_for_desk
from office.words.text import shown


class DeskEnded(Exception):
    """The desk has ended, or the seat."""


class Gone(Exception):
    """The planner goes away, or the terminal is gone."""


class NoAnswer(Exception):
    """The desk has not answered in time."""


DEAD_DESK = "the desk has ended; committed drafts are on the disk"
DEAD = f"{DEAD_DESK}, and open edits are offered again after the next opening"
# no pipe
CLOSED = -1


def read_sitter(day: Day, planner: int) -> tuple[str, str]:
    """Who sits at a seat, or sat there last, and since when."""
    try:
        lines = read_text(day.sitter(planner)).split("\n")
    except OSError:
        return "", ""
    return (lines[0], lines[1]) if len(lines) > 1 else ("", "")


def is_taken(day: Day, planner: int) -> bool:
    """Whether somebody sits at a seat; not if that cannot be seen."""
    with contextlib.suppress(OSError):
        return is_locked(day.sitter(planner))
    return False


def user_name() -> str:
    try:
        return getpass.getuser()
    except (KeyError, OSError):
        return "somebody"


class Seat:
    """A seat at which somebody sits."""

    def __init__(self, day: Day, planner: int, name: Optional[str]) -> None:
        self.day, self.planner = day, planner
        self.name = " ".join((name or user_name()).split())
        self.facts = day.facts()
        if not 0 <= planner < self.facts["planners"]:
            raise Refused(f"no seat {planner} in {day.path}")
        # is told how many seconds an answer has been waited for, and may raise `Gone`
        self.waits: Callable[[float], None] = lambda seconds: None
        wait_for_desk(day, self.waits)
        if not day.is_ready():
            why = "the office is not open yet in" if day.is_open() else "no office is open in"
            raise Refused(f"{why} {day.path}")
        self._lines = self.answers = self._lock = CLOSED
        # what is closed when the planner goes away, or cannot sit down
        self._left = contextlib.ExitStack()
        self._left.callback(self._close_ends)
        self._received = bytearray()
        # whether the last answer was as it had to be, by what was known
        self.fits = True
        # the drafts that were accepted, and the lines that were sent, of which no answer came
        # before the last part ended
        self.settled: list[int] = []
        self.unanswered: list[str] = []
        try:
            self._sit_down()
        except BaseException:
            self._left.close()
            raise

    def _sit_down(self) -> None:
        """Takes the seat, opens its pipes, and reads its log."""
        self._take_lock()
        # the part of the day of which the desk answers here
        self.part = last_part(self.day)
        self._lines, self.answers = self._open_pipes()
        log = self.day.log(self.planner)
        self.log = SeatLog(log)
        self._left.callback(self.log.close)
        # what the log said when this client had received what was under way
        self.past = past = read_past(log)
        self.state, self.waiting, self.offer = past.state, past.waiting, past.offer
        # whose draft is here, if it is somebody else's
        self.owner = past.owner() if past.owner() != self.name else ""
        if past.part != self.part.number:
            self._begin_part()
        self.log.noted(f"sits {self.name}")

    def _take_lock(self) -> None:
        path = self.day.sitter(self.planner)
        try:
            found = lock(path)
        except OSError as fault:
            raise Refused(f"cannot sit in {self.day.path}: {fault.strerror}") from None
        if found is None:
            name, since = read_sitter(self.day, self.planner)
            who = shown(name) or "somebody"
            raise Refused(f"{who} sits at seat {self.planner}, since {shown(since[11:16])}")
        self._lock = found
        # on a disk that is full one sits without a name
        with contextlib.suppress(OSError):
            os.fchmod(found, 0o660)
        with contextlib.suppress(OSError):
            os.ftruncate(found, 0)
            os.pwrite(found, encoded(f"{self.name}\n{now()}\n{os.getpid()}\n"), 0)

    def _open_pipes(self) -> tuple[int, int]:
        seat = self.day.seat(self.planner)
        try:
            lines = open_pipe(seat + ".in", os.O_WRONLY)
        except OSError as fault:
            raise self._silent(fault) from None
        try:
            return lines, open_pipe(seat + ".out", os.O_RDONLY)
        except OSError as fault:
            os.close(lines)
            raise self._silent(fault) from None

    def _silent(self, fault: OSError) -> Refused:
        """Why nobody can sit at the seat whose pipes cannot be opened."""
        if fault.errno in (errno.ENXIO, errno.ENOENT):
            return Refused(f"nobody answers at seat {self.planner}: it has ended")
        return Refused(f"cannot sit at seat {self.planner}: {fault.strerror}")

    def _close_ends(self) -> None:
        """Closes what is open, the lock last."""
        ends = self._lines, self.answers, self._lock
        self._lines = self.answers = self._lock = CLOSED
        for end in ends:
            if end != CLOSED:
                os.close(end)

    def go(self) -> None:
        """Goes away: the desk goes on, and an open draft stays as it is."""
        with contextlib.suppress(OSError):
            self.log.noted("went away")
        if not self.state.is_open:
            end_work(self.day, self.planner)
        self._left.close()

    # from one part of the day to the next

    def is_over(self) -> bool:
        """Whether the part of the day has ended, or is ending, whose desk answers here."""
        return self.day.is_changing() or not self.part.is_last()

    def leave_desk(self) -> list[str]:
        """Leaves a desk that ends with its part of the day. What it has answered is taken up, and
        answered here."""
        found: list[str] = []
        if self._lines != CLOSED:
            os.close(self._lines)
            self._lines = CLOSED
        with contextlib.suppress(DeskEnded):
            while self.answers != CLOSED:
                answer = self.read(LAST)
                if answer is None:
                    break
                found.append(answer)
                self.take(answer)
        if self.answers != CLOSED:
            os.close(self.answers)
            self.answers = CLOSED
        return found

    def enter(self) -> None:
        """Sits down at the desk of the next part, when it is there. What was open at the last one
        is kept."""
        while True:
            wait_for_desk(self.day, self.waits)
            if not self.day.is_ready():
                raise DeskEnded
            self.part, self._received = last_part(self.day), bytearray()
            try:
                self._lines, self.answers = self._open_pipes()
                break
            except Refused:
                if not self.day.is_changing():
                    raise DeskEnded from None
        self._begin_part()

    def _begin_part(self) -> None:
        """Notes that another part of the day has begun. A commit of which the answer did not
        come was accepted if the minutes have it."""
        number, parts = self.part.number, read_parts(self.day)
        before = [entry for part, entries in parts if part.number < number for entry in entries]
        self.settled = settle(self.state, self.waiting, before, self.planner)
        for accepted in self.settled:
            self.log.noted(f"accepted {accepted}")
        self.log.noted(f"part {number} {len(before)}", is_kept=True)
        self.state.begin_part(len(before), self.waiting)
        self.unanswered = list(self.waiting)
        self.waiting.clear()
        self.past = read_past(self.day.log(self.planner))

    def made_again(self) -> None:
        """Notes that all edits that the last part has left were made again or refused."""
        self.log.noted("again", is_kept=True)
        self.state.again = []

    def take_over(self) -> None:
        """Notes that who sits here now goes on with somebody else's draft."""
        self.log.noted(f"takes over from {self.owner}")
        self.owner = ""

    def forget_ended(self) -> None:
        """Notes that the edits of the last draft are given up."""
        self.log.noted("forgets")
        self.state.forget()

    def send(self, line: str) -> None:
        """Sends a line, which is in the log before."""
        self.log.sent(line)
        if has_words(encoded(line)):
            self.waiting.append(line)
        self._write(encoded(line) + b"\n")

    def _write(self, rest: bytes) -> None:
        """Sends bytes. A desk whose answers nobody has read takes no line: they are taken in."""
        ends = (self._lines, select.POLLOUT), (self.answers, select.POLLIN)
        try:
            while rest:
                if not self._wait(PATIENCE, *ends):
                    raise NoAnswer
                if is_ready(0, ends[0]):
                    with contextlib.suppress(BlockingIOError):
                        rest = rest[os.write(self._lines, rest) :]
                else:
                    self._take_in()
        except BrokenPipeError:
            raise DeskEnded from None

    def _wait(self, seconds: float, *ends: tuple[int, int]) -> bool:
        """Waits for one of some pipes, and tells `waits` how long it has been."""
        begun = time.monotonic()
        while True:
            waited = time.monotonic() - begun
            if is_ready(min(SAID_AFTER / 4, seconds - waited), *ends):
                return True
            waited = time.monotonic() - begun
            if waited >= seconds:
                return False
            if waited >= SAID_AFTER:
                self.waits(waited)

    def has_more(self) -> bool:
        """Whether the desk has said something that was not read; its end counts, too."""
        return is_ready(0, (self.answers, select.POLLIN))

    def _take_in(self) -> None:
        """Takes in what the desk has said by now."""
        with contextlib.suppress(BlockingIOError):
            more = os.read(self.answers, 65536)
            if not more:
                raise DeskEnded
            self._received += more

    def read(self, seconds: float) -> Optional[str]:
        """The next line of the desk, as it came; None if none has come in so many seconds."""
        until = time.monotonic() + seconds
        while b"\n" not in self._received:
            if not self._wait(until - time.monotonic(), (self.answers, select.POLLIN)):
                return None
            self._take_in()
        at = self._received.index(b"\n")
        line = bytes(self._received[:at])
        del self._received[: at + 1]
        return decoded(line)

    def take(self, text: str) -> Answer:
        """Takes up an answer to the first line that waits for one."""
        answer = read_answer(text)
        self.log.received(answer)
        asked = self.waiting.pop(0) if self.waiting else ""
        self.fits = self.state.apply(read_call(asked), answer)
        return answer

    def ask(self, call: Union[Edit, Turn, str]) -> Answer:
        """Says something to the desk, and waits for its answer."""
        self.send(str(call))
        return self._answer()

    def _answer(self) -> Answer:
        """The next answer, which is waited for."""
        text = self.read(PATIENCE)
        if text is None:
            raise NoAnswer
        return self.take(text)

    def ask_all(self, lines: list[str]) -> list[Answer]:
        """Says lines at once that change nothing, and waits for all their answers."""
        self.log.sent(*lines)
        self.waiting += lines
        self._write(b"".join(encoded(line) + b"\n" for line in lines))
        return [self._answer() for _ in lines]

    def catch_up(self) -> list[str]:
        """Takes up the answers that were under way when somebody sat here last: a word that nothing
        begins with is sent after them, and its answer is waited for. Lines that were never sent
        are known by it, too."""
        probe = f"office-{os.getpid()}-{time.monotonic_ns()}"
        # a line that was cut ends here; the desk skips one without words
        self._write(b"\n" + probe.encode() + b"\n")
        found: list[str] = []
        answer = self.read(PATIENCE)
        while answer is not None and not answer.endswith(probe):
            found.append(answer)
            answer = self.read(PATIENCE)
        if answer is None:
            raise NoAnswer
        for line in found:
            self.take(line)
        if found:
            self.past = read_past(self.day.log(self.planner))
        if self.waiting:
            self.log.noted(f"unsent {len(self.waiting)}")
            self.waiting.clear()
        return found
