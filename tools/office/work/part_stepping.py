"""A planner goes from one part of the day to the next: the screen goes on by itself, says what has
happened, and makes the draft again that was open."""
from __future__ import annotations

from typing import NamedTuple, Optional

from office.day.closure import Closure
from office.day.parts import Aside, RuleChange
from office.seat.seat import Seat
from office.words.closure_notices import aside_lines, rule_change_notice
from office.words.notice import Notice, Question, say
from office.work.part_reading import enter
from office.work.planning import Planning


class Remade(NamedTuple):
    """A draft that was made again: how many edits it had, how many it has, and those that were
    refused, each with the reason."""

    of: int = 0
    made: int = 0
    refused: list[Notice] = []

    def notices(self) -> list[Notice]:
        """What is said of it, if there was one."""
        if not self.of:
            return []
        return [say("draft made again", made=self.made, count=self.of)]


class Stepped(NamedTuple):
    """How a planner has come to the part of the day in which he is: by what changes, and what has
    become of his draft."""

    changes: list[RuleChange]
    remade: Remade


def step_over(planning: Planning) -> Stepped:
    """Goes on in the next part of the day, as soon as its desk is there: what was open is made
    again. Raises `DeskEnded` if the office has ended instead."""
    enter(planning)
    remade = make_again(planning)
    # a change during which the desk has ended once more is told with the next one
    stepped = Stepped(planning.changes[planning.shown_changes :], remade)
    planning.shown_changes = len(planning.changes)
    planning.notice = stepped_notice(stepped)
    return stepped


def make_again(planning: Planning) -> Remade:
    """Makes the draft again that was open when the part before has ended, if there was one. Nothing
    is committed by it. A draft of somebody else waits for who sits here to take it over."""
    seat, kept = planning.seat, planning.seat.state.again
    if not kept or seat.owner:
        return Remade()
    # who was broken off while he did it has some of them already
    made = planning.edits()
    refused = planning.make_again([edit for edit in kept if edit not in made])
    if planning.is_open:
        seat.made_again()
    return Remade(len(kept), len(kept) - len(refused), refused)


def whole_change(changes: list[RuleChange]) -> Optional[RuleChange]:
    """Several changes as one; none of none."""
    if not changes:
        return None
    closures: list[Closure] = [one for change in changes for one in change.closures]
    asides: list[Aside] = [one for change in changes for one in change.asides]
    return changes[-1]._replace(closures=closures, asides=asides)


def stepped_notice(stepped: Stepped) -> Notice:
    """What has happened, in one line."""
    change = whole_change(stepped.changes)
    first = say("new desk") if change is None else rule_change_notice(change)
    return say("rules now", reasons=[first, *stepped.remade.notices()])


def question_of(stepped: Stepped) -> Optional[Question]:
    """The lectures that were set aside, and the edits that were refused, to be read; None if there
    is nothing to be read."""
    change, remade = whole_change(stepped.changes), stepped.remade
    lines: list[Notice] = []
    if change is not None and change.asides:
        lines += [say("set aside now"), *aside_lines(change)]
    if remade.refused:
        lines += [say("blank")] if lines else []
        lines.append(say("made again", made=remade.made, count=remade.of))
        lines += [say("these refused"), *remade.refused]
    if not lines:
        return None
    title = rule_change_notice(change) if change is not None else say("new desk")
    return Question(title, lines, {"seen": lambda: None})


def waiting_notice(seat: Seat, seconds: float) -> Notice:
    """What is said to who waits for the desk."""
    if seat.is_over():
        return say("rules change", seconds=round(seconds))
    return say("no answer yet", seconds=round(seconds))
