"""What an edit does to each lecture: where it was, and where it is then."""
from __future__ import annotations

from itertools import zip_longest
from typing import NamedTuple, Optional, Sequence

from office.day.edits import Edit, Kind
from office.day.lecture import Lecture, Place, Slot
from office.day.timetable import Timetable


class Shift(NamedTuple):
    """A lecture before and after an edit; None where it is not placed. A room that is not known is
    empty."""

    was: Optional[Lecture]
    now: Optional[Lecture]

    @property
    def course(self) -> str:
        one = self.was or self.now
        assert one is not None
        return one.course

    def slots(self) -> list[Slot]:
        """The slots at which something is another than before."""
        return list(dict.fromkeys(one.slot for one in (self.was, self.now) if one is not None))


def shifts_of(edit: Edit, timetable: Optional[Timetable] = None) -> list[Shift]:
    """The shifts of an edit on a timetable. Without one, rooms that the edit does not name are not
    known."""

    def room_at(place: Place) -> str:
        return (timetable.room_at(*place) if timetable is not None else "") or ""

    was = [Lecture(place[0], room_at(place), *place[1]) for place in edit.before()]
    rooms = [one.room for one in was[::-1]] if edit.kind is Kind.SWAP else [edit.room]
    now = [Lecture(course, room, *slot) for (course, slot), room in zip(edit.after(), rooms)]
    return [Shift(*pair) for pair in zip_longest(was, now)]


def all_shifts(edits: Sequence[Edit], timetable: Timetable) -> list[list[Shift]]:
    """The shifts of edits one after another, each on what those before it leave. The timetable is
    left as it is."""
    found: list[list[Shift]] = []
    if not edits:
        return found
    now = timetable.copy()
    for edit in edits:
        found.append(shifts_of(edit, now))
        now.make(edit)
    return found


def undo_shifts(timetable: Timetable, shifts: list[Shift]) -> None:
    """Takes an edit back by what it did."""
    for shift in shifts:
        if shift.now is not None and timetable.room_at(shift.course, shift.now.slot) is not None:
            timetable.take(shift.course, shift.now.slot)
    for shift in shifts:
        if shift.was is not None:
            timetable.put(shift.course, shift.was.slot, shift.was.room)
