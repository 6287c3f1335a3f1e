"""What is said alike at each seat: the words, the colours of courses, and what has a name."""
from __future__ import annotations

from typing import Any, Iterable, Optional, Sequence, cast

from office.day.instance import Instance
from office.day.lecture import Lecture
from office.day.shifts import Shift
from office.past.authors import CommitFacts
from office.web.message_types import CourseData, LectureData, NamesData, NewsData
from office.words.text import counted, shown
from office.words.wording import Wording
from office.work.news import Accepted
from office.work.week import Signs, View, courses_of_view

# what is said with a sign: a price, and those of the parts
PRICES = ("price", "parts")
# hues that are told apart, in an order in which the first few lie far from each other
HUES = (215, 30, 150, 275, 345, 95, 185, 55, 310, 245, 125, 0)


def isolated(name: str) -> str:
    """A name that does not turn round the words beside it, whichever way it is written."""
    name = shown(name)
    return name if name.isascii() else f"\N{FIRST STRONG ISOLATE}{name}\N{POP DIRECTIONAL ISOLATE}"


class PageWording(Wording):
    """Words with arrows at which no line is broken, and prices with the sign that the page has."""

    def value(self, name: str, value: Any) -> Any:
        found = super().value(name, value)
        return found.replace("-", "\N{MINUS SIGN}") if name in PRICES else found

    def shifts(self, shifts: Sequence[Shift]) -> str:
        return super().shifts(shifts).replace(" -> ", " → ").replace(" <-> ", " ⇄ ")


def hues_of(instance: Instance) -> dict[str, int]:
    """A hue for each course, one that as few as can be of its teacher's and curricula's others
    have, so that the cards of a week differ."""
    hues: dict[str, int] = {}
    used = [0] * len(HUES)
    for name in instance.courses:
        near = [hues[mate] for mate in instance.mates[name] if mate in hues]
        best = min(range(len(HUES)), key=lambda place: (near.count(HUES[place]), used[place]))
        hues[name] = HUES[best]
        used[best] += 1
    return hues


class Frame:
    """What is said alike at each seat: the instance, its colours, and the words."""

    def __init__(self, instance: Instance, wording: Wording) -> None:
        self.instance, self.wording = instance, wording
        self.hues = hues_of(instance)
        # the last accepted drafts in words, with what is known of them
        self.news: dict[int, tuple[Accepted, CommitFacts, NewsData]] = {}

    def data(self) -> NamesData:
        """Days, periods, slots and names, with which a window begins."""
        instance, wording = self.instance, self.wording
        days, periods = range(instance.days), range(instance.periods)
        named: dict[str, Iterable[str]] = {
            "curriculum": instance.curricula,
            "teacher": instance.teachers,
            "room": instance.rooms,
            "course": instance.courses,
        }
        return {
            "days": [wording.day(day) for day in days],
            "periods": [wording.period(period) for period in periods],
            "slots": [[wording.slot((day, period)) for period in periods] for day in days],
            "named": {
                kind: [(code, wording.name(kind, code)) for code in codes]
                for kind, codes in named.items()
            },
        }

    def course(self, code: str) -> CourseData:
        course = self.instance.courses[code]
        return {
            "course": code,
            "said": self.wording.short("course", code),
            "hue": self.hues[code],
            "teacher_said": self.wording.short("teacher", course.teacher),
            "told": self.told(("course", code), ("teacher", course.teacher)),
            "students": course.students,
        }

    def lecture(self, lecture: Lecture, seats: Optional[int], signs: Signs) -> LectureData:
        teacher = self.instance.courses[lecture.course].teacher
        named = ("course", lecture.course), ("room", lecture.room), ("teacher", teacher)
        found: dict[str, object] = {
            **self.course(lecture.course),
            "told": self.told(*named),
            "room": lecture.room,
            "room_said": self.wording.short("room", lecture.room),
            "seats": seats,
            "short": signs.short,
            "alone": signs.alone,
        }
        return cast(LectureData, found)

    def told(self, *named: tuple[str, str]) -> str:
        """What has short names in a cell, by its names."""
        return ", ".join(self.wording.name(*one) for one in named)

    def brief(self, lecture: Lecture) -> str:
        """A lecture in two words."""
        course, room = lecture.course, lecture.room
        return f"{self.wording.short('course', course)} {self.wording.short('room', room)}"

    def about(self, view: View) -> str:
        """Whose week it is, in a few words."""
        instance, wording = self.instance, self.wording
        if view.kind == "room":
            return counted(instance.rooms[view.name], "seat")
        if view.kind == "course":
            course = instance.courses[view.name]
            teacher = wording.name("teacher", course.teacher)
            return f"{counted(course.students, 'student')}, teacher {teacher}"
        return counted(len(courses_of_view(instance, view)), "course")
