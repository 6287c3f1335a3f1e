"""The rules that the client computes, since no look of the desk says them lecture by lecture.
`tests/client/test_rules.py` compares each with the program; docs/DECISIONS.md says why each is
here."""
from __future__ import annotations

from typing import Iterable

from office.day.instance import Instance
from office.day.lecture import Lecture, Slot
from office.day.timetable import Timetable


def students_without_seat(instance: Instance, lecture: Lecture) -> int:
    """How many students of a lecture have no seat in its room: a point each."""
    seats = instance.rooms[lecture.room]
    return max(0, instance.courses[lecture.course].students - seats)


def alone_points(timetable: Timetable, curricula: Iterable[str], slot: Slot) -> int:
    """Two points for each of these curricula of which nothing stands beside a slot on its day."""
    instance, (day, period) = timetable.instance, slot
    beside = [(day, period - 1), (day, period + 1)]
    count = 0
    for curriculum in curricula:
        rows = [timetable.by_course[member] for member in instance.curricula[curriculum]]
        count += not any(near in row for row in rows for near in beside)
    return 2 * count
