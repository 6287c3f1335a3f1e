"""Whose week is seen, and what stands in it."""
from __future__ import annotations

from dataclasses import dataclass, field
from typing import Iterable, NamedTuple

from office.day.closure import Closure
from office.day.instance import Instance
from office.day.lecture import Lecture, Slot
from office.day.open_drafts import AtWork
from office.day.pins import Pin
from office.day.rules import alone_points, students_without_seat
from office.day.timetable import Timetable
from office.work.planning import Planning

VIEW_KINDS = ("curriculum", "teacher", "room", "course")


class View(NamedTuple):
    """Whose week is shown."""

    kind: str
    name: str

    def words(self) -> str:
        """The look of the desk at it; there is none at a room."""
        return f"{self.kind} {self.name}"


class Signs(NamedTuple):
    """What a lecture costs where it stands: so many students without a seat, and points for
    standing alone on its day."""

    short: int
    alone: int


@dataclass
class Cell:
    """What stands in a slot of a week, each lecture with its signs."""

    lectures: list[Lecture] = field(default_factory=list)
    signs: list[Signs] = field(default_factory=list)
    # changed by the draft, and by others
    is_mine: bool = False
    is_others: bool = False
    is_closed: bool = False
    # who has a draft open that changes something here, and what is pinned
    at_work: list[AtWork] = field(default_factory=list)
    pins: list[Pin] = field(default_factory=list)
    # what blocks whose week it is
    blocked: list[Closure] = field(default_factory=list)


def all_views(instance: Instance) -> list[View]:
    named: dict[str, Iterable[str]] = {
        "curriculum": instance.curricula,
        "teacher": instance.teachers,
        "room": instance.rooms,
        "course": instance.courses,
    }
    return [View(kind, name) for kind in VIEW_KINDS for name in named[kind]]


def courses_of_view(instance: Instance, view: View) -> list[str]:
    """The courses whose week it is; none of a room."""
    if view.kind == "course":
        return [view.name]
    if view.kind == "curriculum":
        return instance.curricula.get(view.name, [])
    return instance.teachers.get(view.name, []) if view.kind == "teacher" else []


def weeks_of(instance: Instance, lecture: Lecture) -> list[View]:
    """The weeks in which a lecture stands."""
    teacher = instance.courses[lecture.course].teacher
    return [
        View("course", lecture.course),
        View("teacher", teacher),
        View("room", lecture.room),
        *(View("curriculum", name) for name in instance.curricula_of[lecture.course]),
    ]


def those_of(instance: Instance, view: View, lectures: Iterable[Lecture]) -> list[Lecture]:
    """Those of several lectures that stand in a week."""
    if view.kind == "room":
        return [one for one in lectures if one.room == view.name]
    courses = frozenset(courses_of_view(instance, view))
    return [one for one in lectures if one.course in courses]


def is_touched(planning: Planning, view: View, changed: Iterable[Lecture]) -> bool:
    """Whether changed lectures may be seen in a week: they stand in it, or one of its lectures
    stands alone, or no more, by them."""
    instance, changed = planning.instance, list(changed)
    if those_of(instance, view, changed):
        return True
    shown = courses_of_view(instance, view)
    if view.kind == "room":
        shown = [one.course for one in planning.known.present().of_room(view.name)]
    mates = {mate for course in shown for mate in instance.mates[course]}
    return any(one.course in mates for one in changed)


def of_view(timetable: Timetable, view: View) -> list[Lecture]:
    """The lectures of a view in a timetable that is known."""
    if view.kind == "room":
        return timetable.of_room(view.name)
    return timetable.look(view) or []


def lectures_of_view(planning: Planning, view: View) -> list[Lecture]:
    """The lectures of a view as the desk tells them; the desk has no look at a room."""
    if view.kind == "room":
        return planning.known.present().of_room(view.name)
    return planning.lectures(view.words())


def by_slot(lectures: list[Lecture]) -> dict[Slot, list[Lecture]]:
    found: dict[Slot, list[Lecture]] = {}
    for lecture in lectures:
        found.setdefault(lecture.slot, []).append(lecture)
    return found


def signs_of(planning: Planning, view: View, lecture: Lecture) -> Signs:
    instance = planning.instance
    curricula = [view.name] if view.kind == "curriculum" else instance.curricula_of[lecture.course]
    alone = alone_points(planning.known.present(), curricula, lecture.slot)
    return Signs(students_without_seat(instance, lecture), alone)


def blocked_at(instance: Instance, view: View, slot: Slot) -> list[Closure]:
    """What blocks in a slot whose week it is: a room, a teacher, or a course with its teacher."""
    found = instance.closures_at(view.kind, view.name, slot)
    if view.kind == "course":
        found = found + instance.closures_at("teacher", instance.courses[view.name].teacher, slot)
    return found


def cells_of(planning: Planning, view: View) -> dict[Slot, Cell]:
    """The cells of a week, with what the draft and others have changed in them."""
    known, instance = planning.known, planning.instance
    present = by_slot(lectures_of_view(planning, view))
    closed = instance.closed[view.name] if view.kind == "course" else set()
    cells = {
        slot: Cell(
            present.get(slot, []),
            is_closed=slot in closed,
            blocked=blocked_at(instance, view, slot),
        )
        for slot in instance.slots()
    }
    if known.base is not None:
        base = by_slot(of_view(known.base, view))
        for slot, cell in cells.items():
            cell.is_mine = base.get(slot) != present.get(slot)
    before, newest = by_slot(of_view(known.seen(), view)), by_slot(of_view(known.newest, view))
    for slot, cell in cells.items():
        cell.is_others = before.get(slot) != newest.get(slot)
        cell.signs = [signs_of(planning, view, one) for one in cell.lectures]
        pins = [planning.courtesies.pin_of(one) for one in cell.lectures]
        cell.pins = [pin for pin in pins if pin is not None]
    for work in planning.courtesies.works():
        for slot in {one.slot for one in those_of(instance, view, work.lectures)}:
            if slot in cells:
                cells[slot].at_work.append(work)
    return cells
