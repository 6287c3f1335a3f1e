"""What people call slots, courses, rooms, teachers and curricula. Here alone it is decided how each
is said: days and periods count from 1 for people, and from 0 in the desk's own lines."""
from __future__ import annotations

import datetime
from collections import Counter
from copy import copy
from dataclasses import dataclass
from typing import NamedTuple, Optional

from office.data.page_words import WEEKDAYS_OF, Language, counted_in, said
from office.day.lecture import Slot
from office.refused import CONTENT, Refused

KINDS = ("course", "room", "teacher", "curriculum")
# the kind of the one label that says what the whole timetable is called
PLAN = "instance"
# of a code that is made of a name
LONGEST = 24
WEEKDAYS = "Monday Tuesday Wednesday Thursday Friday Saturday Sunday".split()


class Name(NamedTuple):
    """What something with a code is called."""

    name: str
    short: str


class Time(NamedTuple):
    """When a slot is: from one minute of its day to another."""

    begins: int
    ends: int

    def span(self) -> str:
        return f"{clock(self.begins)}\N{EN DASH}{clock(self.ends)}"


class Term(NamedTuple):
    """When there is teaching."""

    first: datetime.date
    last: datetime.date
    days_off: list[tuple[datetime.date, datetime.date]]
    name: str

    def is_off(self, day: datetime.date) -> bool:
        return any(first <= day <= last for first, last in self.days_off)


@dataclass(frozen=True)
class SingleDate:
    """A lecture on a date: off, or with another date, time or room. The course and the room are as
    they were typed, since a table of exceptions may be of several plans."""

    row: int
    course: str
    date: datetime.date
    begins: Optional[int]
    is_off: bool
    new_date: Optional[datetime.date]
    new_begins: Optional[int]
    new_ends: Optional[int]
    new_room: str
    why: str


def word_of(name: str, otherwise: str) -> str:
    """A word without blanks that a name becomes."""
    letters = "".join(letter if letter.isalnum() else " " for letter in name)
    return "-".join(letters.split())[:LONGEST].rstrip("-") or otherwise


def clock(minute: int) -> str:
    return f"{minute // 60}:{minute % 60:02}"


class Labels:
    """The labels of a day. Without any, everything is said by codes, and by numbers from 1. What
    has a name is said by that."""

    def __init__(self) -> None:
        self.names: dict[tuple[str, str], Name] = {}
        self.weekdays: dict[int, int] = {}
        self.times: dict[Slot, Time] = {}
        self.term: Optional[Term] = None
        self.zone: Optional[str] = None
        # of term.csv
        self.zone_row = 0
        # in the order of their rows
        self.single_dates: list[SingleDate] = []
        # what the whole timetable is called
        self.title = ""
        # how many have each name, and of how many names that was counted
        self._shared: Counter[tuple[str, str]] = Counter()
        self._counted = 0
        # that of published pages
        self.language = Language.ENGLISH

    def published(self, language: Language) -> Labels:
        """The labels as pages have them."""
        found = copy(self)
        found.language = language
        return found

    def word(self, text: str) -> str:
        """A word of a page."""
        return said(self.language, text)

    def counted(self, count: int, noun: str) -> str:
        return counted_in(self.language, count, noun)

    # slots

    def day(self, day: int) -> str:
        """`Fri`, or `day 5`."""
        if day in self.weekdays:
            return self.weekday(self.weekdays[day])
        return f"{self.word('day')} {day + 1}"

    def weekday(self, weekday: int) -> str:
        if self.language in WEEKDAYS_OF:
            return WEEKDAYS_OF[self.language][weekday]
        return WEEKDAYS[weekday][:3]

    def slot(self, slot: Slot) -> str:
        """`Fri 10:15`, or `day 5, period 2`."""
        if slot in self.times and slot[0] in self.weekdays:
            return f"{self.day(slot[0])} {clock(self.times[slot].begins)}"
        return f"{self.day(slot[0])}, {self.word('period')} {slot[1] + 1}"

    def period(self, period: int) -> str:
        """What stands before a row of a week: `10:15` if it begins then each day, or `2`."""
        begins = {time.begins for slot, time in self.times.items() if slot[1] == period}
        return clock(begins.pop()) if len(begins) == 1 else f"{period + 1}"

    def span(self, slot: Slot) -> str:
        """From when to when a slot is: `10:15–11:45`; empty if that is not known."""
        return self.times[slot].span() if slot in self.times else ""

    # what has a code

    def name(self, kind: str, code: str) -> str:
        """The name alone; the code, if there is none."""
        found = self.names.get((kind, code))
        return found.name or code if found else code

    def short(self, kind: str, code: str) -> str:
        """What there is room for in a narrow cell: the short name, or what it is called."""
        found = self.names.get((kind, code))
        return found.short or self.said(kind, code) if found else code

    def said(self, kind: str, code: str) -> str:
        """`Linear Algebra`, or `c0109`; `Linear Algebra (c0109)`, if another one has this name."""
        name = self.name(kind, code)
        return f"{name} ({code})" if name != code and self._is_shared(kind, name) else name

    def _is_shared(self, kind: str, name: str) -> bool:
        """Whether several of a kind are called alike, or another one has this code."""
        if self._counted != len(self.names):
            self._counted = len(self.names)
            self._shared = Counter((key[0], one.name) for key, one in self.names.items())
        return self._shared[kind, name] > 1 or (kind, name) in self.names

    def course(self, code: str) -> str:
        return self.said("course", code)

    def room(self, code: str) -> str:
        return self.said("room", code)

    def teacher(self, code: str) -> str:
        return self.said("teacher", code)

    def curriculum(self, code: str) -> str:
        return self.said("curriculum", code)

    def called(self, kind: str, typed: str, codes: list[str]) -> list[str]:
        """The codes that a person may mean by a code or by a name."""
        if typed in codes:
            return [typed]
        return [code for code in codes if typed in (self.name(kind, code), self.short(kind, code))]

    def find(self, kind: str, typed: str, codes: list[str]) -> str:
        """The code that a person means by a code or by a name."""
        called = self.called(kind, typed, codes)
        if len(called) > 1:
            raise Refused(f"several are called {typed}: {', '.join(called)}", CONTENT)
        if not called:
            raise Refused(f"there is no {kind} {typed}", CONTENT)
        return called[0]
