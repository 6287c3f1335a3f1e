"""What a closure blocks: a room, a teacher or a course, in some slots."""
from __future__ import annotations

from typing import Container, Iterable, NamedTuple, Optional, TYPE_CHECKING

if TYPE_CHECKING:
    from office.day.instance import Instance

BLOCKABLE = ("room", "teacher", "course")
# what stands in a side file for all days or all periods
ALL = "*"
Slot = tuple[int, int]
Slots = dict[str, set[Slot]]


def starred(number: Optional[int]) -> str:
    return ALL if number is None else str(number)


def unstarred(text: str) -> Optional[int]:
    return None if text == ALL else int(text)


class Scope(NamedTuple):
    """A room, a teacher or a course, on a day and in a period; None stands for all of them."""

    kind: str
    name: str
    day: Optional[int] = None
    period: Optional[int] = None

    def has_slot(self, slot: Slot) -> bool:
        return self.day in (None, slot[0]) and self.period in (None, slot[1])

    def covers(self, other: Scope) -> bool:
        """Whether the other one is a part of it, or the same."""
        return (
            self[:2] == other[:2]
            and self.day in (None, other.day)
            and self.period in (None, other.period)
        )

    def is_about(self, instance: Instance, course: str, room: str) -> bool:
        """Whether it is about a lecture of a course in a room."""
        if self.kind == "room":
            return room == self.name
        found = instance.courses[course]
        return self.name == (found.teacher if self.kind == "teacher" else found.name)

    def is_of(self, instance: Instance) -> bool:
        """Whether an instance has it."""
        is_day = self.day is None or 0 <= self.day < instance.days
        is_period = self.period is None or 0 <= self.period < instance.periods
        return is_day and is_period and self.name in blockable_names(instance, self.kind)

    def words(self) -> str:
        """As the side file of the program has it."""
        return f"{self.kind} {self.name} {starred(self.day)} {starred(self.period)}"


class Closure(NamedTuple):
    """What is blocked, or is lifted, with who has said so, at which seat (None: by a command), when
    and why."""

    scope: Scope
    who: str
    seat: Optional[int]
    time: str
    why: str
    is_lifted: bool = False


def blockable_names(instance: Instance, kind: str) -> Container[str]:
    """What can be blocked, of a kind."""
    named: dict[str, Container[str]] = {
        "room": instance.rooms,
        "teacher": instance.teachers,
        "course": instance.courses,
    }
    return named.get(kind, ())


def closed_by(instance: Instance, scopes: Iterable[Scope]) -> tuple[Slots, Slots]:
    """In which slots each course cannot be, as the instance lists it and by scopes, and in which
    each room cannot be used."""
    closed = {name: set(slots) for name, slots in instance.unavailable.items()}
    blocked: Slots = {}
    for scope in scopes:
        slots = [slot for slot in instance.slots() if scope.has_slot(slot)]
        if scope.kind == "room":
            blocked.setdefault(scope.name, set()).update(slots)
        else:
            for course in courses_of(instance, scope):
                closed[course].update(slots)
    return closed, blocked


def courses_of(instance: Instance, scope: Scope) -> list[str]:
    """The courses of a course or of a teacher that is blocked."""
    return [scope.name] if scope.kind == "course" else instance.teachers[scope.name]
