"""The accepted drafts of a part of a day, played again on a desk of the program: what each of them
cost, and the timetable after any of them, as the program answers."""
from __future__ import annotations

from typing import Iterable, NamedTuple, Sequence

from office.day.costs import Costs
from office.day.desk_words import decoded, encoded
from office.day.edits import Edit
from office.day.instance import Instance
from office.day.lecture import Lecture
from office.day.parts import Part
from office.day.program import Left
from office.refused import CONTENT, Refused
from office.seat.answers import Answer, Committed, costs_in, lectures_in, missing_in, read_answer


# the edits of a draft
Edits = Sequence[Edit]


class Played(NamedTuple):
    """What the desk shows at the end."""

    lectures: list[Lecture]
    costs: Costs
    missing: dict[str, int]


def draft_lines(edits: Edits) -> list[str]:
    """The lines of a script that make an accepted draft again, by its edits alone."""
    return ["0 open", *(f"0 {edit}" for edit in edits), "0 commit"]


def answers(part: Part, lines: list[str]) -> list[Answer]:
    """What a desk that begins as the part did answers to the lines of a script."""
    text, left = encoded("".join(f"{line}\n" for line in lines)), Left(part, quiet=True)
    status, printed = left.run("run", left.instance, "-", *part.start_words(), text=text)
    found = list(map(read_answer, decoded(printed).split("\n")[:-1]))
    if status != 0 or len(found) != len(lines):
        start = f" from {part.start}" if part.has_start() else ""
        raise Refused(f"the program does not play the drafts of {part.minutes}{start}", CONTENT)
    for line, answer in zip(lines, found):
        if line == "0 commit" and not isinstance(answer, Committed):
            reason = f"the minutes of {part.day.path} do not fit its start: {answer}"
            raise Refused(reason, CONTENT)
    return found


def play_costs(part: Part, drafts: Sequence[Edits], first: int = 0) -> list[Costs]:
    """What the timetable cost after so many of the first drafts of a part, 0 for the start, and
    after each of those that follow."""
    lines = [line for edits in drafts[:first] for line in draft_lines(edits)] + ["show cost"]
    for edits in drafts[first:]:
        lines += [*draft_lines(edits), "show cost"]
    found = answers(part, lines)
    return [costs_in(answer) for line, answer in zip(lines, found) if line == "show cost"]


def play_all(part: Part, instance: Instance, drafts: Iterable[Edits]) -> Played:
    """The timetable after the first drafts of a part."""
    made = [line for edits in drafts for line in draft_lines(edits)]
    shows = [f"show course {course}" for course in instance.courses]
    *_, costs, missing = found = answers(part, [*made, *shows, "show cost", "show missing"])
    shown = found[len(made) : len(made) + len(shows)]
    lectures = [lecture for answer in shown for lecture in lectures_in(answer)]
    return Played(lectures, costs_in(costs), missing_in(missing))
