"""Edits of an earlier day that were neither accepted nor given up, to be offered again."""
from __future__ import annotations

from typing import Iterator, Optional

from office.day.edits import Edit
from office.day.folder import Day
from office.day.parts import read_entries
from office.refused import Refused
from office.seat.seat_log import read_past
from office.words.notice import Notice
from office.work.planning import Planning


def days_before(day: Day) -> Iterator[Day]:
    """The days before a day, the last one first."""
    seen = {day.path}
    while True:
        try:
            before: Optional[str] = day.facts().get("after")
        except Refused:
            return
        if before is None or before in seen:
            return
        seen.add(before)
        day = Day(before)
        yield day


def unfinished_before(day: Day, planner: int) -> tuple[str, list[Edit]]:
    """The name of the last day before this one at which the seat was used, and what it left
    unfinished."""
    for before in days_before(day):
        try:
            past = read_past(before.log(planner))
        except OSError:
            break
        past.settle(read_entries(before), planner)
        if past.unfinished():
            return before.name, past.unfinished()
        if past.offer or past.state.accepted:
            break
    return "", []


class Earlier:
    """What an earlier day has left to a planner."""

    def __init__(self, planning: Planning) -> None:
        self.planning = planning
        seat = planning.seat
        self.name = ""
        self.edits: list[Edit] = []
        if not seat.offer:
            self.name, self.edits = unfinished_before(seat.day, seat.planner)

    def decline(self) -> None:
        self.planning.seat.log.noted("offer declined")

    def take_up(self) -> list[Notice]:
        """Makes them again in a draft, and answers those that were refused, with the reason."""
        refused = self.planning.make_again(self.edits)
        self.planning.seat.log.noted("offer taken")
        return refused
