"""Drafts that are put aside under a name. They live in the log of the seat, survive the client and
the day, and hold nobody up: what each would bring now is asked of the program."""
from __future__ import annotations

import json
from typing import NamedTuple, Optional

from office.day.edits import Edit
from office.day.processes import now
from office.day.timetable import Timetable
from office.past.drafts import exchanged, row_shifts
from office.past.earlier_days import days_before
from office.past.replay import answers, draft_lines
from office.refused import Refused
from office.seat.answers import Said, costs_in, missing_in
from office.seat.seat_log import read_past
from office.words.notice import Notice, Question, say
from office.work.planning import Planning


class Brings(NamedTuple):
    """What a variant would bring now, as the program answers: those of its edits that are made, the
    timetable after them, what they save, and how many lectures are missing then."""

    made: list[Edit]
    after: Timetable
    saves: int
    missing: int


class Variant(NamedTuple):
    """A draft that was put aside, and what it would bring; None if the program does not say so."""

    name: str
    edits: list[Edit]
    brings: Optional[Brings]
    # it was thrown away, and is still there
    is_thrown: bool = False

    def notice(self) -> Notice:
        if self.is_thrown:
            return say("variant thrown", name=self.name, count=len(self.edits))
        if self.brings is None:
            return say("variant", name=self.name, count=len(self.edits))
        return say(
            "variant now",
            name=self.name,
            count=len(self.edits),
            made=len(self.brings.made),
            price=-self.brings.saves,
            missing=self.brings.missing,
        )


class Variants:
    """The variants of a seat."""

    def __init__(self, planning: Planning) -> None:
        self.planning = planning
        self.kept: dict[str, list[Edit]] = {}
        # what was thrown away: nothing is lost by a key
        self.thrown: dict[str, list[Edit]] = {}

    def begin(self) -> None:
        """Reads what was put aside at this seat, today or on the last day that has any."""
        seat = self.planning.seat
        past = seat.past
        self.kept, self.thrown = past.variants, past.thrown
        if past.has_variants:
            return
        for day in days_before(seat.day):
            try:
                before = read_past(day.log(seat.planner))
            except PermissionError:
                return
            if before.has_variants:
                for name, edits in before.variants.items():
                    self._keep(name, edits)
                return

    def _keep(self, name: str, edits: list[Edit]) -> None:
        self.kept[name] = edits
        text = json.dumps([name, list(map(str, edits))])
        self.planning.seat.log.noted(f"aside {text}", is_kept=True)

    def keep(self, name: str, edits: list[Edit]) -> str:
        """Keeps edits under a name that no other variant has, and answers it."""
        name = self.free_name(name)
        self._keep(name, edits)
        return name

    def give_up(self) -> None:
        """Gives the draft up, or a stale one. Its edits are put aside, or those that were taken
        back if it has no others."""
        planning = self.planning
        edits = planning.edits() or planning.ended() or planning.state.taken_back[::-1]
        if not edits:
            planning.abandon()
            return
        name = self.keep(f"given up {now()[11:16]}", edits)
        planning.abandon()
        code = planning.notice.code
        planning.notice = say(code, count=len(edits), aside=say("given up as", name=name))

    def put_aside(self, name: str) -> None:
        """Puts the edits of the draft, or of a stale one, aside under a name, and begins anew."""
        planning = self.planning
        edits, name = planning.edits() or planning.ended(), " ".join(name.split())
        if not edits:
            planning.notice = say("nothing to put aside")
            return
        name = self.free_name(name or "variant")
        self._keep(name, edits)
        fault = planning.seat.log.fault
        if fault:
            # it would be on no disk
            del self.kept[name]
            planning.notice = say("log fault", fault=fault)
            return
        planning.abandon()
        planning.notice = say("put aside", name=name, count=len(edits))

    def free_name(self, name: str) -> str:
        """A name that no other variant has."""
        found, number = name, 2
        while found in self.kept or found in self.thrown:
            found, number = f"{name} {number}", number + 1
        return found

    def throw_away(self, name: str) -> None:
        if name in self.thrown:
            self.planning.notice = say("thrown away", name=name)
            return
        self.thrown[name] = self.kept.pop(name)
        self.planning.seat.log.noted(f"unaside {json.dumps(name)}", is_kept=True)
        self.planning.notice = say("thrown away", name=name)

    def take_up(self, name: str) -> Optional[Question]:
        """Makes a variant the draft; it stays among the variants."""
        planning = self.planning
        if planning.edits() or planning.ended():
            planning.notice = say(
                "put aside first", count=len(planning.edits() or planning.ended())
            )
            return None
        if name in self.thrown:
            self._keep(name, self.thrown.pop(name))
        refused = planning.make_again(self.kept[name])
        return Question(planning.notice, [say("these refused"), *refused]) if refused else None

    def listed(self) -> list[Variant]:
        """All variants, with what each would bring now, by the program, and what was thrown
        away."""
        thrown = [Variant(name, edits, None, True) for name, edits in self.thrown.items()]
        return [*self._listed(), *thrown]

    def _listed(self) -> list[Variant]:
        planning = self.planning
        minutes, newest = planning.minutes, planning.known.newest
        lines = [line for entry in minutes.of_part() for line in draft_lines(entry.edits)]
        begun = len(lines)
        lines.append("show cost")
        for edits in self.kept.values():
            tried = [f"0 {edit}" for edit in edits]
            lines += ["0 open", *tried, "0 peek cost", "0 peek missing", "0 abandon"]
        try:
            now, *rest = answers(minutes.part, lines)[begun:]
        except (Refused, OSError):
            return [Variant(name, edits, None) for name, edits in self.kept.items()]
        found = []
        for name, edits in self.kept.items():
            answered, rest = rest[1 : len(edits) + 3], rest[len(edits) + 4 :]
            made = [edit for edit, answer in zip(edits, answered) if answer is Said.DONE]
            saves = sum(costs_in(now).values()) - sum(costs_in(answered[-2]).values())
            missing = sum(missing_in(answered[-1]).values())
            after = made_on(newest, made)
            found.append(Variant(name, edits, Brings(made, after, saves, missing)))
        return found

    def compare(self, one: Variant, other: Variant) -> Question:
        """In what two variants differ: lectures, and what they would save."""
        title = say("compared", name=one.name, second=other.name)
        lines = [one.notice(), other.notice(), say("blank")]
        if one.brings is None or other.brings is None:
            return Question(title, [*lines, say("not compared")])
        first, second = one.brings.after.by_course, other.brings.after.by_course
        shifts = [
            shift for course in first for shift in row_shifts(course, first[course], second[course])
        ]
        if not shifts:
            lines.append(say("same variants"))
        lines += [say("edit line", shifts=group) for group in exchanged(shifts)]
        return Question(title, lines)


def made_on(timetable: Timetable, edits: list[Edit]) -> Timetable:
    """A timetable after edits; itself it is left as it is."""
    found = timetable.copy()
    for edit in edits:
        found.make(edit)
    return found
