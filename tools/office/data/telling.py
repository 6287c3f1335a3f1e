"""What the calendars of a timetable tell: an event for each lecture in each week of the term. What
has begun before a change is published stays as it was held."""
from __future__ import annotations

import datetime
from dataclasses import replace
from typing import Iterable, Iterator, NamedTuple, Optional
from urllib.parse import quote

from office.data.exceptions import FILE, words_of
from office.data.identities import known_again, new_name, renamed_courses, renamed_views
from office.data.labels import KINDS, Labels, SingleDate, Term
from office.data.plan_book import Book, Event, Known, What
from office.data.time_zones import zone_of
from office.day.lecture import Lecture
from office.past.timetable_at import At
from office.work.week import weeks_of

# how long before the first day of a term its calendars go back
HALF_A_YEAR = datetime.timedelta(183)


class Dated(NamedTuple):
    """A lecture on a date, as the week has it."""

    known: Known
    date: datetime.date
    begins: int
    ends: int


def dates_of(term: Term, weekday: int) -> Iterator[datetime.date]:
    """The days of a weekday on which there is teaching."""
    day = term.first + datetime.timedelta((weekday - term.first.weekday()) % 7)
    while day <= term.last:
        if not term.is_off(day):
            yield day
        day += datetime.timedelta(7)


def dated(known: Iterable[Known], labels: Labels) -> list[Dated]:
    """All lectures that have times, on all their dates."""
    term = labels.term
    return [
        Dated(one, date, *labels.times[one.lecture.slot])
        for one in known
        if one.is_placed and one.lecture.slot in labels.times and term is not None
        if one.lecture.day in labels.weekdays
        for date in dates_of(term, labels.weekdays[one.lecture.day])
    ]


class From(NamedTuple):
    """From when on a change holds: from now on, from a date on, or for the whole term."""

    date: Optional[datetime.date] = None
    is_whole_term: bool = False

    def text(self, now: datetime.datetime, zone: Optional[str]) -> str:
        """The same by the clocks of a plan."""
        if self.is_whole_term:
            return ""
        if self.date is not None:
            return f"{self.date}T00:00"
        return f"{now.astimezone(zone_of(zone) if zone else None):%Y-%m-%dT%H:%M}"


class Told:
    """A timetable as calendars tell it after what they have told before. A change holds from a time
    on: `2026-12-01T14:05` by the clocks of the plan; from the empty text on for the whole term."""

    def __init__(self, book: Book, at: At, labels: Labels, since: str, now: str) -> None:
        self.old, self.at, self.labels = book, at, labels
        self.since = since if book.events else ""
        self.now = now
        # what is to be said to who publishes
        self.notes: list[str] = []
        self.whats: dict[Lecture, What] = {}
        called = {code: labels.name("course", code) for code in at.instance.courses}
        self.renamed = {"course": renamed_courses(book, at.lectures, called)}
        self.known = known_again(book.lectures, at.lectures, self.renamed["course"])
        self.views = self.all_views()
        for kind in KINDS[1:]:
            self.renamed[kind] = renamed_views(book.views.get(kind, {}), self.views[kind])
        events = self.revised(self.planned())
        renamed = self.all_renamed()
        new = replace(book, lectures=self.known, events=events, views=self.views, renamed=renamed)
        self.book = book if new == book else replace(new, revision=book.revision + 1)

    def all_views(self) -> dict[str, dict[str, tuple[str, frozenset[str]]]]:
        """Whose weeks there are, with the lectures in them."""
        instance = self.at.instance
        found: dict[str, dict[str, set[str]]] = {
            "course": {code: set() for code in instance.courses},
            "room": {code: set() for code in instance.rooms},
            "teacher": {code: set() for code in instance.teachers},
            "curriculum": {code: set() for code in instance.curricula},
        }
        for one in self.known:
            for view in weeks_of(instance, one.lecture) if one.is_placed else []:
                found[view.kind][view.name].add(one.name)
        return {
            kind: {c: (self.labels.name(kind, c), frozenset(names)) for c, names in weeks.items()}
            for kind, weeks in found.items()
        }

    def all_renamed(self) -> dict[str, str]:
        """What has another code than at its first publishing, for the links that people have."""
        now = {
            f"{kind}/{old}": f"{kind}/{new}"
            for kind, codes in self.renamed.items()
            for old, new in codes.items()
        }
        found = {old: now.get(new, new) for old, new in self.old.renamed.items()}
        there = {f"{kind}/{code}" for kind, codes in self.views.items() for code in codes}
        return {old: new for old, new in {**found, **now}.items() if old not in there}

    # events

    def what(self, lecture: Lecture) -> What:
        """What an event of a lecture is of."""
        if lecture not in self.whats:
            instance, labels, name = self.at.instance, self.labels, lecture.course
            teacher = instance.courses[name].teacher
            self.whats[lecture] = What(
                name,
                lecture.room,
                teacher,
                tuple(instance.curricula_of[name]),
                labels.name("course", name),
                labels.name("room", lecture.room),
                f"{labels.teacher(teacher)}; {labels.course(name)}",
            )
        return self.whats[lecture]

    def planned(self) -> dict[str, Event]:
        """The events that begin when the change holds already, each with its identity."""
        meetings = dated(self.known, self.labels)
        exceptions = self.exceptions_of(meetings)
        events = self.old.events
        found: dict[str, Event] = {}
        held = {name for name, one in events.items() if one.is_shown and one.begins < self.since}
        for one in meetings:
            event = self.event(one, exceptions.get((one.known.name, one.date)))
            if event.begins >= self.since:
                year, week, _ = one.date.isocalendar()
                name, number = f"{one.known.name}.{year}W{week:02}", 1
                while name in held:
                    # it was held in this week already, before it was moved
                    number += 1
                    name = f"{one.known.name}.{year}W{week:02}.{number}"
                found[name] = event
        return found

    def event(self, meeting: Dated, exception: Optional[SingleDate]) -> Event:
        """A lecture on a date, with what is another on this date alone."""
        date, begins, ends, lecture = *meeting[1:], meeting.known.lecture
        if exception is None or exception.is_off:
            span = times_of(date, begins, ends)
            why = exception.why if exception else ""
            return Event(*span, self.what(lecture), exception is not None, False, why)
        length = ends - begins
        begins = begins if exception.new_begins is None else exception.new_begins
        ends = begins + length if exception.new_ends is None else exception.new_ends
        what = self.what(lecture)
        if exception.new_room:
            found = self.labels.called("room", exception.new_room, list(self.at.instance.rooms))
            room = found[0] if len(found) == 1 else ""
            said = self.labels.name("room", room) if room else exception.new_room
            what = what._replace(room=room, location=said)
        span = times_of(exception.new_date or date, begins, ends)
        return Event(*span, what, False, True, exception.why)

    def exceptions_of(self, meetings: list[Dated]) -> dict[tuple[str, datetime.date], SingleDate]:
        """The exceptions by lectures and dates; what fits none is noted."""
        by_date: dict[tuple[str, datetime.date], list[Dated]] = {}
        for one in meetings:
            by_date.setdefault((one.known.lecture.course, one.date), []).append(one)
        found: dict[tuple[str, datetime.date], SingleDate] = {}
        for exception in self.labels.single_dates:
            courses = self.labels.called("course", exception.course, list(self.at.instance.courses))
            there = by_date.get((courses[0], exception.date), []) if len(courses) == 1 else []
            meant = [one for one in there if exception.begins in (None, one.begins)]
            if len(meant) == 1:
                found[meant[0].known.name, exception.date] = exception
            elif f"{exception.date}" >= self.since[:10]:
                why = "it has several lectures then" if meant else "it has no lecture then"
                said = words_of(exception)
                self.notes.append(f"{FILE} row {exception.row}: {why}: {said}")
        return found

    def revised(self, planned: dict[str, Event]) -> dict[str, Event]:
        """The events that were told and those that are planned, with the revisions of each."""
        found: dict[str, Event] = {}
        first = self.labels.term.first - HALF_A_YEAR if self.labels.term else datetime.date.min
        for name, was in self.old.events.items():
            if was.begins < f"{first}":
                continue
            if name in planned:
                found[name] = self.revision(was, planned[name])
            elif was.begins < self.since or not was.is_shown:
                found[name] = was
            else:
                found[name] = self.revision(was, was._replace(is_shown=False))
        for name, event in planned.items():
            found.setdefault(name, event._replace(changed=self.now))
        return found

    def revision(self, was: Event, now: Event) -> Event:
        """An event after a publishing: a revision is counted if a person has to be elsewhere, or at
        another time, or not to come."""
        same = now._replace(sequence=was.sequence, changed=was.changed)
        if same == was:
            return was
        before, after = (
            (one.begins, one.ends, one.what.location, one.is_off, one.is_shown)
            for one in (was, now)
        )
        return same._replace(sequence=was.sequence + (before != after), changed=self.now)


def times_of(date: datetime.date, begins: int, ends: int) -> tuple[str, str]:
    """From when to when an event is, as texts that are in order as the times are."""
    midnight = datetime.datetime(date.year, date.month, date.day)
    times = (midnight + datetime.timedelta(minutes=minute) for minute in (begins, ends))
    first, last = (f"{time:%Y-%m-%dT%H:%M}" for time in times)
    return first, last


def first_book(plan: str, lectures: Iterable[Lecture]) -> Book:
    """The book of a plan whose calendars had none: lectures were numbered course by course in the
    order of their slots."""
    taken: set[str] = set()
    known: list[Known] = []
    for lecture in sorted(lectures, key=lambda one: (one.course, one.slot)):
        known.append(Known(new_name(lecture.course, taken), lecture, True))
        taken.add(known[-1].name)
    return Book(quote(plan, safe=""), 0, tuple(known))
