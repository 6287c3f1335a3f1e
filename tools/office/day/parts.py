"""A day is a list of parts. The rules change from one to the next: each has its start, its rules,
its minutes and its journal. The first part is in the folder of the day, each further one in a
folder of its own, which is there whole or not at all."""
from __future__ import annotations

import json
import os
import re
from typing import Any, Callable, NamedTuple, Optional

from office.day.closure import Closure
from office.day.closures_file import read_closures, standing_of
from office.day.desk_words import words_of
from office.day.folder import Day, is_count
from office.day.instance import Instance, read_instance, read_solution
from office.day.lecture import Lecture
from office.day.minutes import Entry, Minutes
from office.day.safe_files import read_text
from office.day.shared_lines import is_number
from office.refused import Refused

FOLDER = re.compile(r"part([1-9][0-9]*)\Z")
FIRST = 1


def is_part(found: Any) -> bool:
    """Whether a file has said when a part began, and how much it has taken up."""
    if not isinstance(found, dict) or not isinstance(found.get("begun"), str):
        return False
    return is_count(found.get("closures", 0))


class Part:
    """A part of a day, by its number from 1."""

    def __init__(self, day: Day, number: int, folder: str = "") -> None:
        self.day, self.number = day, number
        self.folder = folder or (day.path if number == FIRST else day.file(f"part{number}"))
        self.facts_file = day.facts_file if number == FIRST else self.file("part.json")
        # what the part before has left, and what of it cannot stand any more
        self.before = self.file("before.sol")
        self.aside = self.file("aside")
        self.start = self.file("start.sol")
        self.blocked = self.file("blocked")
        self.minutes = self.file("minutes")
        self.journal = self.file("journal")

    def file(self, name: str) -> str:
        return os.path.join(self.folder, name)

    def is_there(self) -> bool:
        return os.path.exists(self.facts_file)

    def is_last(self) -> bool:
        """Whether no other part follows it by now."""
        return not self.next().is_there()

    def next(self) -> Part:
        return Part(self.day, self.number + 1)

    def facts(self) -> dict[str, Any]:
        """When it began, and how much of the closures it has taken up."""
        if self.number == FIRST:
            return self.day.facts()
        try:
            found = json.loads(read_text(self.facts_file))
        except (OSError, ValueError) as fault:
            raise Refused(f"cannot read {self.facts_file}: {fault}") from None
        if not is_part(found):
            raise Refused(f"cannot read {self.facts_file}: it has no facts of a part")
        return dict(found)

    def taken(self) -> int:
        """How many bytes of the day's closures it has taken up."""
        return int(self.facts().get("closures", 0))

    def side_words(self) -> list[str]:
        """The options for the files of its rules."""
        has_blocked = os.path.exists(self.blocked)
        return self.day.barred_words() + (["--blocked", self.blocked] if has_blocked else [])

    def has_start(self) -> bool:
        return os.path.exists(self.start)

    def start_words(self) -> list[str]:
        """The options for its start and for the files of its rules."""
        return (["--start", self.start] if self.has_start() else []) + self.side_words()

    def lectures(self) -> list[Lecture]:
        """The timetable with which it begins."""
        return [Lecture(*row) for row in read_solution(self.start)] if self.has_start() else []

    def closures(self, instance: Instance) -> list[Closure]:
        """What is blocked in it."""
        return standing_of(self.day, instance, self.taken())

    def instance(self) -> Instance:
        """The instance of the day, with the rules of this part."""
        barred = self.day.barred if self.day.barred_words() else None
        found = read_instance(self.day.instance, barred)
        found.block(self.closures(found))
        return found


def parts_of(day: Day) -> list[Part]:
    """The parts that are there, in their order."""
    found = [Part(day, FIRST)]
    while not found[-1].is_last():
        found.append(found[-1].next())
    return found


def last_part(day: Day) -> Part:
    return parts_of(day)[-1]


def instance_of(day: Day) -> Instance:
    """The instance of a day, with the rules that it has now."""
    return last_part(day).instance()


def half_made(day: Day) -> list[str]:
    """The folders of parts that were begun to be made, and were not finished."""
    try:
        names = os.listdir(day.path)
    except OSError:
        return []
    return [day.file(name) for name in names if FOLDER.match(name[:-4]) and name.endswith(".new")]


class Aside(NamedTuple):
    """A lecture that was set aside, and why."""

    lecture: Lecture
    fault: str


    @staticmethod
    def parse(line: str) -> Optional[Aside]:
        """What a line says that was set aside; None if it is another line."""
        _, is_aside, rest = line.partition(": set aside ")
        words = words_of(rest)
        course, room, day, period, *why = [*words, "", "", "", ""]
        period = period.rstrip(":")
        if not is_aside or len(words) <= 4 or not (is_number(day) and is_number(period)):
            return None
        lecture = Lecture(course, room, int(day), int(period))
        return Aside(lecture, " ".join(filter(None, why)))


def read_aside(path: str) -> list[Aside]:
    """What was set aside, as the program lists it."""
    found = map(Aside.parse, read_text(path).split("\n"))
    return [aside for aside in found if aside is not None]


class RuleChange(NamedTuple):
    """How a part of a day has come about: when, by what was blocked or lifted, and what was set
    aside by it."""

    number: int
    time: str
    closures: list[Closure]
    asides: list[Aside]


def change_of(part: Part, taken_before: int) -> RuleChange:
    """How a part has come about that is not the first one."""
    closures = read_closures(part.day, taken_before, part.taken())
    return RuleChange(part.number, str(part.facts()["begun"]), closures, read_aside(part.aside))


def changes_of(day: Day) -> list[RuleChange]:
    """How each part of a day but the first one has come about."""
    parts = parts_of(day)
    return [change_of(part, before.taken()) for before, part in zip(parts, parts[1:])]


class DayMinutes:
    """The minutes of a day, part by part, as they grow; its drafts are counted through."""

    def __init__(self, day: Day, make: Callable[[str, int], Minutes] = Minutes) -> None:
        self.day, self._make = day, make
        self.entries: list[Entry] = []
        self._begin(Part(day, FIRST))

    def _begin(self, part: Part) -> None:
        self.part = part
        # how many drafts were accepted before this part
        self.offset = len(self.entries)
        self._minutes = self._make(part.minutes, self.offset)

    def of_part(self) -> list[Entry]:
        """The drafts of the part that is read."""
        return self._minutes.entries

    def size(self) -> int:
        return self._minutes.size()

    def is_readable(self) -> bool:
        return self._minutes.is_readable()

    def has_grown(self) -> bool:
        """Whether there is more to be read in this part."""
        return self._minutes.has_grown()

    def read_on(self) -> list[Entry]:
        """The entries of this part that are there since the last time."""
        new = self._minutes.read_on()
        self.entries += new
        return new

    def has_more(self) -> bool:
        """Whether there is more to be read of the day: a draft, or another part."""
        return self.has_grown() or not self.part.is_last()

    def read_to_end(self) -> None:
        """Reads all that is there by now, part by part."""
        is_last = self.part.is_last()
        self.read_on()
        while not is_last:
            self.step()
            is_last = self.part.is_last()
            self.read_on()

    def step(self) -> None:
        """Goes on to the next part, which is there. The minutes of this one grow no more, and were
        read to their end since then."""
        self._begin(self.part.next())


def read_all_minutes(day: Day) -> list[tuple[Part, Minutes]]:
    """The parts of a day, each with its minutes, which are read to their end."""
    found = [(part, Minutes(part.minutes)) for part in parts_of(day)]
    for _, minutes in found:
        minutes.read_on()
    return found


def read_parts(day: Day) -> list[tuple[Part, list[Entry]]]:
    """The parts of a day, each with its accepted drafts, which are counted through."""
    minutes, found = DayMinutes(day), []
    while True:
        # what the part has is whole once the next one is there
        is_last = minutes.part.is_last()
        minutes.read_on()
        found.append((minutes.part, minutes.of_part()))
        if is_last:
            return found
        minutes.step()


def read_entries(day: Day) -> list[Entry]:
    """The accepted drafts of a day."""
    return [entry for _, entries in read_parts(day) for entry in entries]
