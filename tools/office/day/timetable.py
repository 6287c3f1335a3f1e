"""A timetable as a planner's client knows it: what stands where.

What may stand where, and why an edit is refused, the desk says.
"""
from __future__ import annotations

from typing import Iterable, Optional, Sequence

from office.day.edits import Edit, Kind
from office.day.instance import Instance
from office.day.lecture import Lecture, Place, Slot


class Timetable:
    """Lectures by courses and by slots. A row is never changed, but replaced: copies share those
    that are alike."""

    def __init__(
        self, instance: Instance, lectures: Iterable[tuple[str, str, int, int]] = ()
    ) -> None:
        self.instance = instance
        self.by_course: dict[str, dict[Slot, str]] = {name: {} for name in instance.courses}
        self.by_slot: dict[Slot, dict[str, str]] = {slot: {} for slot in instance.slots()}
        for course, room, day, period in lectures:
            # nobody else has these rows yet
            self.by_course[course][day, period] = room
            self.by_slot[day, period][course] = room

    def copy(self) -> Timetable:
        found = Timetable.__new__(Timetable)
        found.instance = self.instance
        found.by_course, found.by_slot = self.by_course.copy(), self.by_slot.copy()
        return found

    def lectures(self) -> list[Lecture]:
        """All lectures in the order of courses and slots."""
        return [lecture for course in self.by_course for lecture in self.of_course(course)]

    def of_course(self, course: str) -> list[Lecture]:
        row = self.by_course[course]
        return [Lecture(course, row[slot], *slot) for slot in sorted(row)]

    def of_slot(self, slot: Slot) -> list[Lecture]:
        row = self.by_slot[slot]
        return [
            Lecture(course, row[course], *slot)
            for course in sorted(row, key=self.instance.numbers.__getitem__)
        ]

    def of_courses(self, courses: Iterable[str]) -> list[Lecture]:
        """The lectures of several courses, in the order of courses and slots."""
        ordered = sorted(courses, key=self.instance.numbers.__getitem__)
        return [lecture for course in ordered for lecture in self.of_course(course)]

    def of_room(self, room: str) -> list[Lecture]:
        return [
            Lecture(course, room, *slot)
            for slot, row in self.by_slot.items()
            for course, place in row.items()
            if place == room
        ]

    def room_at(self, course: str, slot: Slot) -> Optional[str]:
        return self.by_course[course].get(slot)

    def missing(self, course: str) -> int:
        """How many lectures of a course are not placed."""
        return self.instance.courses[course].lectures - len(self.by_course[course])

    def put(self, course: str, slot: Slot, room: str) -> None:
        self.by_course[course] = {**self.by_course[course], slot: room}
        self.by_slot[slot] = {**self.by_slot[slot], course: room}

    def take(self, course: str, slot: Slot) -> str:
        row, at = self.by_course[course].copy(), self.by_slot[slot].copy()
        room = row.pop(slot)
        at.pop(course)
        self.by_course[course], self.by_slot[slot] = row, at
        return room

    def same_as(self, other: Timetable) -> bool:
        return self.by_course == other.by_course

    def fits(self, edit: Edit) -> bool:
        """Whether the lectures that an edit takes up stand there, and none where one comes to."""
        was, now = edit.before(), edit.after()

        def stands(place: Place) -> bool:
            return self.room_at(*place) is not None

        is_there = all(map(stands, was)) and len({*was}) == len(was)
        return is_there and not any(map(stands, {*now} - {*was}))

    def make(self, edit: Edit) -> Optional[Edit]:
        """Makes an edit that the desk has made, and answers the edit that takes it back. One that
        does not fit is not made: None."""
        if not self.fits(edit):
            return None
        rooms = [self.take(*place) for place in edit.before()]
        # of a swap each one has the room of the other
        new = rooms[::-1] if edit.kind is Kind.SWAP else [edit.room]
        for place, room in zip(edit.after(), new):
            self.put(*place, room)
        return edit.inverse(rooms[0] if rooms else "")

    def look(self, words: Sequence[str]) -> Optional[list[Lecture]]:
        """The lectures that a look shows; None if it is a look of another kind."""
        kind, *rest = words
        if kind == "course":
            return self.of_course(rest[0])
        if kind == "slot":
            return self.of_slot((int(rest[0]), int(rest[1])))
        if kind == "teacher":
            return self.of_courses(self.instance.teachers[rest[0]])
        if kind == "curriculum":
            return self.of_courses(self.instance.curricula[rest[0]])
        return None
