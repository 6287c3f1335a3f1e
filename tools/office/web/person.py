"""Who sits at a seat, here or at a terminal."""
from __future__ import annotations

from typing import Optional

from office.day.folder import Day
from office.seat.seat import is_taken, read_sitter
from office.web.frame import Frame
from office.web.message_types import PersonData
from office.work.planning import Planning


class Person:
    """Who sits at a seat, for those at the others."""

    def __init__(self, day: Day, planner: int, frame: Frame) -> None:
        self.day, self.planner, self.frame = day, planner, frame
        # who was found, and at which work here
        self._found: Optional[tuple[Planning, PersonData]] = None

    def data(self, planning: Optional[Planning]) -> Optional[PersonData]:
        """Who sits there now. Who sits here goes on sitting: that is not read again."""
        if planning is not None and self._found is not None and self._found[0] is planning:
            return self._found[1]
        name, since = read_sitter(self.day, self.planner)
        if planning is None and not is_taken(self.day, self.planner):
            return None
        who = self.frame.wording.safe(name) or f"planner {self.planner}"
        found: PersonData = {
            "seat": self.planner,
            "who": who,
            "title": f"seat {self.planner}: {who}, since {since[11:16]}",
        }
        self._found = (planning, found) if planning is not None else None
        return found
