"""What a timetable breaks and what costs points, as the program finds it; and, without points, gaps
in the days of curricula and those that are worst off."""
from __future__ import annotations

import json
from functools import partial
from typing import Any, Callable, NamedTuple, Optional

from office.day.costs import MEANINGS
from office.day.desk_words import encoded
from office.day.edits import Edit
from office.day.lecture import Slot
from office.day.program import Left
from office.day.rules import alone_points
from office.day.timetable import Timetable
from office.refused import Refused
from office.words.notice import Notice, Question, say
from office.work.planning import Planning
from office.work.week import View

# the groups of the page, in its order
GROUPS = (
    "lectures",
    "conflict",
    "availability",
    "occupancy",
    "barred",
    "blocked",
    "capacity",
    "days",
    "compactness",
    "stability",
)
Choice = tuple[Notice, Callable[[], Optional[Question]]]


class Place(NamedTuple):
    """Where a finding is seen."""

    view: View
    slot: Optional[Slot]


class Gaps(NamedTuple):
    """A day of a curriculum with periods without a lecture between two with one."""

    curriculum: str
    day: int
    slot: Slot
    free: int


def solution_of(timetable: Timetable) -> bytes:
    return encoded("".join(f"{lecture.words()}\n" for lecture in timetable.lectures()))


def place_of(finding: dict[str, Any], timetable: Timetable) -> Place:
    """Where one looks at a finding: the week of a room, a curriculum or a course."""
    slot = (finding["day"], finding["period"]) if "period" in finding else None
    if finding["kind"] in ("occupancy", "blocked"):
        return Place(View("room", finding["room"]), slot)
    if finding["kind"] == "compactness":
        return Place(View("curriculum", finding["curriculum"]), slot)
    course = finding["course"]
    if slot is None:
        slot = next(iter(sorted(timetable.by_course[course])), None)
    return Place(View("course", course), slot)


def finding_notice(finding: dict[str, Any]) -> Notice:
    """A finding in its group."""
    data = {name: value for name, value in finding.items() if name not in ("kind", "day", "period")}
    if "period" in finding:
        data["slot"] = finding["day"], finding["period"]
    return say(f"found {finding['kind']}", **data)


def gaps_of(timetable: Timetable) -> list[Gaps]:
    """The gaps of all curricula, day by day."""
    instance, found = timetable.instance, []
    for curriculum, members in instance.curricula.items():
        periods: dict[int, list[int]] = {}
        for course in members:
            for day, period in timetable.by_course[course]:
                periods.setdefault(day, []).append(period)
        for day, held in sorted(periods.items()):
            count = max(held) - min(held) + 1 - len(set(held))
            if count > 0:
                found.append(Gaps(curriculum, day, (day, min(held)), count))
    return found


def worst_off(timetable: Timetable, gaps: list[Gaps]) -> list[tuple[str, int, int]]:
    """The curricula with lectures that stand alone on their day or with gaps, the worst first: the
    number of both."""
    found = []
    for curriculum, members in timetable.instance.curricula.items():
        slots = [slot for course in members for slot in timetable.by_course[course]]
        alone = sum(alone_points(timetable, [curriculum], slot) // 2 for slot in slots)
        count = sum(gap.free for gap in gaps if gap.curriculum == curriculum)
        if alone or count:
            found.append((curriculum, alone, count))
    return sorted(found, key=lambda one: -(one[1] + one[2]))


class Findings:
    """The findings of what a planner works on: of his draft, else of the newest timetable. `go`
    shows where one is."""

    def __init__(self, planning: Planning, go: Callable[[View, Optional[Slot]], None]) -> None:
        self.planning, self.go = planning, go
        # what was found last, and of what
        self._of: Optional[tuple[int, int, list[Edit]]] = None
        self._found: list[dict[str, Any]] = []

    def read(self) -> list[dict[str, Any]]:
        """All findings, by the program. They are asked anew when the timetable is another one."""
        minutes = self.planning.minutes
        of = minutes.part.number, len(minutes.entries), self.planning.edits()
        if of != self._of:
            self._found = self._read()
            self._of = of
        return self._found

    def _read(self) -> list[dict[str, Any]]:
        left = Left(self.planning.minutes.part, quiet=True)
        sides = left.part.side_words()
        words = ["check", left.instance, "-", "--explain", "--json", *sides]
        text = solution_of(self.planning.known.present())
        try:
            status, printed = left.run(*words, text=text)
            if status == 0:
                return list(json.loads(printed.decode("utf-8", "surrogateescape"))["findings"])
        except (OSError, ValueError, KeyError):
            pass
        raise Refused("the program does not tell what it finds")

    def sorted(self) -> Optional[list[dict[str, Any]]]:
        """The findings by groups, the worst first; says so if they are not known."""
        try:
            found = self.read()
        except Refused as fault:
            self.planning.notice = say("no findings", fault=fault.reason)
            return None
        return sorted(found, key=lambda one: (GROUPS.index(one["kind"]), -one.get("points", 0)))

    def _choices(self, found: list[dict[str, Any]]) -> list[Choice]:
        timetable = self.planning.known.present()
        return [(finding_notice(one), partial(self._see, one, timetable)) for one in found]

    def question(self) -> Optional[Question]:
        """All findings, to be chosen from."""
        found = self.sorted()
        if found is None:
            return None
        choices = [*self._choices(found), (say("see gaps"), self.gaps)]
        points = sum(one.get("points", 0) for one in found)
        return Question(say("findings", count=len(found), points=points), choices=choices)

    def of_part(self, part: str) -> Optional[Question]:
        """What costs points of one part, with what that part counts."""
        found = self.sorted()
        if found is None:
            return None
        found = [one for one in found if one["kind"] == part]
        points = sum(one["points"] for one in found)
        data = {"part": part, "count": len(found), "points": points, "meaning": MEANINGS[part]}
        if not found:
            self.planning.notice = say("no findings of", **data)
            return None
        return Question(say("findings of", **data), choices=self._choices(found))

    def _see(self, finding: dict[str, Any], timetable: Timetable) -> None:
        self.go(*place_of(finding, timetable))

    def _choice(self, notice: Notice, place: Place) -> Choice:
        def act() -> None:
            self.go(*place)

        return notice, act

    def gaps(self) -> Question:
        """Gaps in the days of curricula, and those that are worst off; they cost no points."""
        timetable = self.planning.known.present()
        gaps = gaps_of(timetable)
        choices = [
            self._choice(
                say("worst off", curriculum=name, alone=alone, gaps=count),
                Place(View("curriculum", name), None),
            )
            for name, alone, count in worst_off(timetable, gaps)
        ]
        choices += [
            self._choice(
                say("gaps", curriculum=gap.curriculum, day=gap.day, gaps=gap.free),
                Place(View("curriculum", gap.curriculum), gap.slot),
            )
            for gap in sorted(gaps, key=lambda gap: -gap.free)
        ]
        return Question(say("gaps title", count=len(gaps)), choices=choices)
