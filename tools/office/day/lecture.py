"""A lecture that stands somewhere: its course, its room and its slot."""
from __future__ import annotations

from typing import NamedTuple

# a day and a period, from 0
Slot = tuple[int, int]
# a course with a slot
Place = tuple[str, Slot]


class Lecture(NamedTuple):
    course: str
    room: str
    day: int
    period: int

    @property
    def slot(self) -> Slot:
        return self.day, self.period

    def words(self) -> str:
        return f"{self.course} {self.room} {self.day} {self.period}"
