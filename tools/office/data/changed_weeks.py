"""What differs between two timetables of a plan, and whose weeks are touched by it."""
from __future__ import annotations

from typing import Iterable

from office.day.instance import Instance
from office.day.lecture import Lecture
from office.day.shifts import Shift
from office.past.drafts import CourseRow, row_shifts
from office.work.week import View, weeks_of


def by_course(lectures: Iterable[Lecture]) -> dict[str, CourseRow]:
    found: dict[str, CourseRow] = {}
    for lecture in lectures:
        found.setdefault(lecture.course, {})[lecture.slot] = lecture.room
    return found


def changes_between(before: Iterable[Lecture], after: Iterable[Lecture]) -> list[Shift]:
    """What has become of the lectures that stand elsewhere, course by course."""
    old, new = by_course(before), by_course(after)
    return [
        shift
        for course in dict.fromkeys([*old, *new])
        for shift in row_shifts(course, old.get(course, {}), new.get(course, {}))
    ]


def views_of(instance: Instance, shift: Shift) -> list[View]:
    """The weeks that a change touches, as far as there are such in the instance."""
    lectures = [
        one
        for one in (shift.was, shift.now)
        if one is not None and one.course in instance.courses and one.room in instance.rooms
    ]
    return list(dict.fromkeys(view for one in lectures for view in weeks_of(instance, one)))


def by_view(instance: Instance, shifts: Iterable[Shift]) -> dict[View, list[Shift]]:
    """The changes in each week."""
    found: dict[View, list[Shift]] = {}
    for shift in shifts:
        for view in views_of(instance, shift):
            found.setdefault(view, []).append(shift)
    return found
