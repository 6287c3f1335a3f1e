"""Readers of instances, solutions and barred rooms, in files that the program has taken."""
from __future__ import annotations

import contextlib
from dataclasses import dataclass, field
from typing import Iterable, Iterator, Optional

from office.day.closure import Closure, closed_by
from office.day.desk_words import decoded
from office.day.safe_files import read_whole
from office.refused import Refused

# no number of a file is greater than this, and an instance has no more slots
MOST, SLOTS = 999_999_999, 2000


@dataclass(frozen=True)
class Course:
    name: str
    teacher: str
    lectures: int
    minimum_days: int
    students: int


@dataclass
class Instance:
    """An instance. What is kept by name stands in the order of the file."""

    name: str
    days: int
    periods: int
    courses: dict[str, Course]
    rooms: dict[str, int]
    curricula: dict[str, list[str]]
    # as the file lists them
    unavailable: dict[str, set[tuple[int, int]]]
    barred: set[tuple[str, str]] = field(default_factory=set)

    def __post_init__(self) -> None:
        # in which slots a course cannot be, by the file or by a closure, and in which a room cannot
        # be used by a closure
        self.closed: dict[str, set[tuple[int, int]]] = self.unavailable
        self.blocked: dict[str, set[tuple[int, int]]] = {}
        self.closures: list[Closure] = []
        self.teachers: dict[str, list[str]] = {}
        for course in self.courses.values():
            self.teachers.setdefault(course.teacher, []).append(course.name)
        self.curricula_of: dict[str, list[str]] = {name: [] for name in self.courses}
        for curriculum, members in self.curricula.items():
            for member in members:
                self.curricula_of[member].append(curriculum)
        self.numbers = {name: number for number, name in enumerate(self.courses)}
        self.mates: dict[str, set[str]] = {name: self._mates_of(name) for name in self.courses}

    def block(self, closures: Iterable[Closure]) -> None:
        """Takes up closures in place of those before."""
        found = list(closures)
        closed, blocked = closed_by(self, [closure.scope for closure in found])
        self.closures, self.closed, self.blocked = found, closed, blocked

    def closures_at(self, kind: str, name: str, slot: tuple[int, int]) -> list[Closure]:
        """What blocks a room, a teacher or a course in a slot."""
        return [
            closure
            for closure in self.closures
            if closure.scope[:2] == (kind, name) and closure.scope.has_slot(slot)
        ]

    def names(self) -> set[str]:
        """The names of courses, rooms, teachers and curricula."""
        return {*self.courses, *self.rooms, *self.teachers, *self.curricula}

    def _mates_of(self, name: str) -> set[str]:
        """The courses that share a teacher or a curriculum with a course."""
        mates = set(self.teachers[self.courses[name].teacher])
        for curriculum in self.curricula_of[name]:
            mates.update(self.curricula[curriculum])
        mates.discard(name)
        return mates

    def slots(self) -> list[tuple[int, int]]:
        return [(day, period) for day in range(self.days) for period in range(self.periods)]

    def cause(self, one: str, other: str) -> tuple[str, str]:
        """Why two courses cannot have one slot: a teacher, or a curriculum."""
        if self.courses[one].teacher == self.courses[other].teacher:
            return "teacher", self.courses[one].teacher
        shared = [name for name in self.curricula_of[one] if other in self.curricula[name]]
        return "curriculum", shared[0] if shared else ""


@contextlib.contextmanager
def readable(path: str) -> Iterator[None]:
    """What is damaged in a file is refused with its name."""
    try:
        yield
    except (ValueError, KeyError) as fault:
        told = f"no {fault}" if isinstance(fault, KeyError) else str(fault)
        raise Refused(f"cannot read {path}: {told}") from None


class Reader:
    """The words of a file, one after another."""

    def __init__(self, path: str) -> None:
        self.words: Iterator[str] = map(decoded, read_whole(path).split())

    def word(self) -> str:
        found = next(self.words, None)
        if found is None:
            raise ValueError("it ends too early")
        return found

    def number(self) -> int:
        found = int(self.word())
        if not 0 <= found <= MOST:
            raise ValueError(f"the number {found} is too great")
        return found

    def headed(self) -> str:
        """The word after a fixed one."""
        self.word()
        return self.word()

    def count(self) -> int:
        """The number behind a fixed word."""
        self.word()
        return self.number()


def read_instance(path: str, barred: Optional[str] = None) -> Instance:
    """The instance of a file, and the rooms that are barred by another one."""
    pairs = read_barred(barred) if barred else set()
    with readable(path):
        return instance_from(Reader(path), pairs)


def instance_from(reader: Reader, pairs: set[tuple[str, str]]) -> Instance:
    """The instance that words say."""
    name = reader.headed()
    courses, rooms, days, periods, curricula, constraints = (reader.count() for _ in range(6))
    if days * periods > SLOTS:
        raise ValueError(f"{days} days of {periods} periods are too many")
    reader.word()
    listed = [
        Course(reader.word(), reader.word(), reader.number(), reader.number(), reader.number())
        for _ in range(courses)
    ]
    reader.word()
    seats = {reader.word(): reader.number() for _ in range(rooms)}
    reader.word()
    members: dict[str, list[str]] = {}
    for _ in range(curricula):
        curriculum = reader.word()
        members[curriculum] = list(dict.fromkeys(reader.word() for _ in range(reader.number())))
    reader.word()
    away: dict[str, set[tuple[int, int]]] = {course.name: set() for course in listed}
    for _ in range(constraints):
        away[reader.word()].add((reader.number(), reader.number()))
    return Instance(name, days, periods, {c.name: c for c in listed}, seats, members, away, pairs)


def read_barred(path: str) -> set[tuple[str, str]]:
    """The pairs of a course and a room that must not meet."""
    with readable(path):
        reader = Reader(path)
        return {(reader.word(), reader.word()) for _ in range(reader.count())}


def read_solution(path: str) -> list[tuple[str, str, int, int]]:
    """The lectures of a solution: course, room, day and period."""
    with readable(path):
        words = list(Reader(path).words)
        entries = zip(words[0::4], words[1::4], words[2::4], words[3::4])
        return [(course, room, int(day), int(period)) for course, room, day, period in entries]


# the words that a line at a seat may begin with
COMMANDS = (
    "open commit refresh abandon redo undo status help leave show peek place move swap reroom drop "
    "course slot teacher curriculum coursecost cost price cheapest slots missing"
).split()


def completion_words(instance: Instance) -> list[str]:
    """All words by which a line at a seat can be completed, each once."""
    named = [*COMMANDS, *instance.courses, *instance.rooms, *instance.teachers, *instance.curricula]
    return list(dict.fromkeys(named))
