"""Words for what a person reads, in either face: slots, names, edits, reasons, notices. It is the
one place that decides how they are said, and from which number on is counted."""
from __future__ import annotations

from typing import Any, Callable, Mapping, Optional, Sequence

from office.data.labels import Labels
from office.day.closure import Scope
from office.day.edits import Edit
from office.day.instance import Course
from office.day.lecture import Lecture, Slot
from office.day.shifts import Shift, shifts_of
from office.day.timetable import Timetable
from office.seat.answers import Row
from office.words.notice import Notice
from office.words.sentences import SENTENCES
from office.words.text import counted, shown, signed

# what names of data are names of
NAMES = {
    "course": "course",
    "other": "course",
    "room": "room",
    "teacher": "teacher",
    "curriculum": "curriculum",
}


class Count(int):
    """A number that is written with its noun: `{count:edit}` is `1 edit`, `2 edits`."""

    def __format__(self, noun: str) -> str:
        return counted(self, noun) if noun else str(int(self))


def parts_text(changes: Mapping[str, int]) -> str:
    """What each part of the cost changes by, those that do not change left out."""
    found = ", ".join(f"{kind} {signed(change)}" for kind, change in changes.items() if change)
    return found or "nothing changes"


class Wording:
    """Words for one face. `actions` are its names for what a person can do, as keys or buttons;
    `safe` makes of a name what the face can show."""

    def __init__(
        self,
        actions: Mapping[str, str],
        labels: Optional[Labels] = None,
        safe: Callable[[str], str] = shown,
    ) -> None:
        self.actions, self.safe = actions, safe
        self.labels = labels or Labels()
        # how data are said, by what they are
        self._by_name: dict[str, Callable[[Any], Any]] = {
            "slot": self.slot,
            "day": lambda day: self.day(day) if isinstance(day, int) else self.safe(day),
            "row": self.row,
            "place": self.place,
            "scope": lambda scope: self.name(scope.kind, scope.name),
            "when": self.when,
            "shifts": self.shifts,
            "price": signed,
            "count": Count,
            "made": Count,
            "students": Count,
            "time": lambda time: time[11:16] or "time not known",
            "courses": self.courses,
            "parts": parts_text,
            "reasons": lambda reasons: "; ".join(self.lines(reasons)),
        }

    # names and slots

    def name(self, kind: str, code: str) -> str:
        return self.safe(self.labels.said(kind, code))

    def short(self, kind: str, code: str) -> str:
        """A name where there is room for a few letters."""
        return self.safe(self.labels.short(kind, code))

    def course(self, code: str) -> str:
        return self.name("course", code)

    def room(self, code: str) -> str:
        return self.name("room", code)

    def view(self, kind: str, code: str) -> str:
        """Whose week it is."""
        return f"{kind} {self.name(kind, code)}"

    def slot(self, slot: Slot) -> str:
        return self.labels.slot(slot)

    def day(self, day: int) -> str:
        return self.labels.day(day)

    def period(self, period: int) -> str:
        return self.labels.period(period)

    def when(self, scope: Scope) -> str:
        """When something is blocked."""
        if scope.day is not None and scope.period is not None:
            return f"on {self.slot((scope.day, scope.period))}"
        if scope.day is not None:
            return f"on {self.day(scope.day)}"
        if scope.period is None:
            return "on all days"
        label = self.period(scope.period)
        return f"each day at {label}" if ":" in label else f"each day in period {label}"

    def row(self, row: Row) -> str:
        """A row on which a draft depends, and which has changed."""
        if row.slot is not None:
            return self.slot(row.slot)
        return f"{row.kind} {self.name(row.kind, row.name)}"

    def place(self, lecture: Lecture) -> str:
        """Where a lecture stands; its room is left out where it is not known."""
        where = self.slot(lecture.slot)
        return f"{where}, {self.room(lecture.room)}" if lecture.room else where

    # edits

    def edit(self, edit: Edit, timetable: Optional[Timetable] = None) -> str:
        """An edit on a timetable; without one the old rooms are not said."""
        return self.shifts(shifts_of(edit, timetable))

    def shifts(self, shifts: Sequence[Shift]) -> str:
        """What an edit does, in one line."""
        if len(shifts) == 2:
            one, other = shifts[0].was, shifts[1].was
            assert one is not None and other is not None
            return (
                f"{self.course(one.course)} ({self.place(one)}) <-> "
                f"{self.course(other.course)} ({self.place(other)})"
            )
        was, now = shifts[0].was, shifts[0].now
        course = self.course(shifts[0].course)
        if was is None:
            assert now is not None
            return f"{course}: placed on {self.place(now)}"
        if now is None:
            return f"{course}: taken out of {self.place(was)}"
        if was.slot == now.slot:
            old = f"{self.room(was.room)} -> " if was.room else "to "
            return f"{course}: {self.slot(was.slot)}, {old}{self.room(now.room)}"
        return f"{course}: {self.place(was)} -> {self.place(now)}"

    def missing(self, course: Course, count: int, stood: Sequence[Lecture] = ()) -> str:
        """A course of which lectures are missing, in a list of those, and where some of them
        stood."""
        stood_on = "; ".join(f"stood on {self.place(lecture)}" for lecture in stood)
        return (
            f"{self.course(course.name)}: {count} of {course.lectures} missing, "
            f"{counted(course.students, 'student')}, {self.name('teacher', course.teacher)}"
            f"{'; ' if stood_on else ''}{stood_on}"
        )

    def courses(self, counts: Mapping[str, int]) -> str:
        """Courses, each with a number if it is more than one."""
        return ", ".join(
            self.course(name) + (f" ({count})" if count > 1 else "")
            for name, count in counts.items()
        )

    # what is said

    def notice(self, notice: Notice) -> str:
        if not notice:
            return ""
        words = {name: self.value(name, value) for name, value in notice.data.items()}
        return SENTENCES[notice.code].format(key=self.actions, **words)

    def lines(self, notices: Sequence[Notice]) -> list[str]:
        return [self.notice(one) for one in notices]

    def value(self, name: str, value: Any) -> Any:
        """A piece of data in words, by what it is."""
        if isinstance(value, Notice):
            return self.notice(value)
        if name in NAMES:
            return self.name(NAMES[name], value)
        if name in self._by_name:
            return self._by_name[name](value)
        return self.safe(value) if isinstance(value, str) else value
