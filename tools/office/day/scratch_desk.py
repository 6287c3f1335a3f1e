"""A desk of the program beside that of the day, where edits are tried: nothing is kept of it."""
from __future__ import annotations

from typing import Iterable, Sequence

from office.day.desk_words import decoded, encoded
from office.day.edits import Edit
from office.day.lecture import Lecture
from office.day.parts import Part
from office.day.program import day_program, output
from office.refused import CONTENT, Refused, Silent
from office.seat.answers import Answer, read_answer


class Scratch:
    """A desk by the words that run a script of the program, with the lectures that stand on it."""

    def __init__(
        self, words: Sequence[str], lectures: Iterable[Lecture] = (), quiet: bool = True
    ) -> None:
        self.words = list(words)
        self.begun = ["0 open", *(f"0 place {lecture.words()}" for lecture in lectures)]
        # whether what the program says goes nowhere
        self.quiet = quiet

    def answers(self, edits: Sequence[Edit]) -> list[Answer]:
        """What the desk answers edits, one after another; it begins anew each time."""
        lines = [*self.begun, *(f"0 {edit}" for edit in edits)]
        text = encoded("".join(f"{line}\n" for line in lines))
        status, printed = output(self.words, self.quiet, text)
        found = decoded(printed).split("\n")[:-1]
        if status != 0 and not self.quiet:
            raise Silent(status)
        first, wanted = found[: len(self.begun)], ["opened"] + ["done"] * (len(self.begun) - 1)
        if status != 0 or len(found) != len(lines) or first != wanted:
            raise Refused("the program does not try edits", CONTENT)
        return list(map(read_answer, found[len(self.begun) :]))


def scratch_of(part: Part, lectures: Iterable[Lecture]) -> Scratch:
    """A desk with lectures, by the rules of a part of a day."""
    program, instance = day_program(part.day.facts()), part.day.instance
    return Scratch([*program, "run", instance, "-", *part.side_words()], lectures)
