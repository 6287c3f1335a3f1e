"""What planners know of each other beside the desk: on what they work, and what they have pinned.
These are courtesies: the desk knows neither, and refuses nothing for them."""
from __future__ import annotations

from typing import Iterable, NamedTuple, Optional

from office.day.folder import Day
from office.day.lecture import Lecture
from office.day.open_drafts import (
    AllAtWork,
    AtWork,
    OthersAtWork,
    end_work,
    keep_work,
    read_work,
)
from office.day.pins import Pin, Pinned, pin, pins_path, read_pins, unpin
from office.day.processes import now
from office.day.safe_files import file_size
from office.day.shifts import Shift
from office.seat.seat import Seat, is_taken, read_sitter


class SeatStatus(NamedTuple):
    """A seat: who sits there, or sat there last, since when, and on what he works."""

    planner: int
    name: str
    since: str
    is_there: bool
    work: Optional[AtWork]


def who_sits(day: Day, planners: int) -> list[SeatStatus]:
    """All seats of a day."""
    return [
        SeatStatus(
            planner,
            *read_sitter(day, planner),
            is_taken(day, planner),
            read_work(day, planner),
        )
        for planner in range(planners)
    ]


class Courtesies:
    """What a planner's client tells the others, and what it is told."""

    def __init__(self, seat: Seat, everybody: Optional[AllAtWork] = None) -> None:
        self.seat = seat
        planners = seat.facts["planners"]
        self.others = OthersAtWork(seat.day, planners, seat.planner, everybody)
        self.pins: dict[Pinned, Pin] = {}
        # how long the file of pins was when it was read
        self._size = 0
        self._own: Optional[AtWork] = None

    def begin(self) -> None:
        """Takes up what was left: a draft that is open still has the time at which it was
        opened."""
        self._own = read_work(self.seat.day, self.seat.planner)
        self.read_on()

    def read_on(self) -> bool:
        """Looks for news, and answers whether there are any."""
        is_new = self.others.read_on()
        size = file_size(pins_path(self.seat.day))
        if size != self._size:
            self._size, self.pins = size, read_pins(self.seat.day)
            is_new = True
        return is_new

    def keep_own(self, is_open: bool, shifts: Iterable[Iterable[Shift]]) -> None:
        """Tells the others on what this planner works, if it is something else than before."""
        edits = [list(each) for each in shifts]
        both = [one for each in edits for shift in each for one in shift if one is not None]
        if not is_open or not edits:
            if self._own is not None:
                end_work(self.seat.day, self.seat.planner)
            self._own = None
            return
        since = self._own.since if self._own else now()
        own = AtWork(
            self.seat.planner, self.seat.name, since, len(edits), tuple(dict.fromkeys(both))
        )
        if own != self._own:
            self._own = own
            keep_work(self.seat.day, own)

    def works(self) -> list[AtWork]:
        """The open drafts of the others."""
        return self.others.works()

    def pin_of(self, lecture: Lecture) -> Optional[Pin]:
        return self.pins.get((lecture.course, lecture.slot))

    def pin(self, lecture: Lecture, why: str) -> str:
        """Pins a lecture; answers why that could not be written, or nothing."""
        fault = pin(self.seat.day, lecture.course, lecture.slot, self.seat.name, why)
        self.read_on()
        return fault

    def unpin(self, lecture: Lecture) -> str:
        """Takes a pin off; answers why that could not be written, or nothing."""
        fault = unpin(self.seat.day, lecture.course, lecture.slot, self.seat.name)
        self.read_on()
        return fault
