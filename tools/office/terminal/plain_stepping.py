"""Who types lines goes from one part of the day to the next: what has happened is said beside the
answers, and the draft that was open is made again."""
from __future__ import annotations

from typing import Callable

from office.data.label_files import read_labels
from office.day.edits import Edit
from office.day.parts import changes_of
from office.seat.answers import Said
from office.seat.calls import Turn
from office.seat.seat import Seat
from office.words.actions import KeyNames
from office.words.closure_notices import aside_lines, rule_change_notice
from office.words.wording import Wording

Say = Callable[[str], None]


def step_over(seat: Seat, show: Say, say: Say) -> None:
    """Goes on in the next part of the day, as soon as its desk is there."""
    seen = seat.part.number
    say("the rules change: going on in a moment")
    for answer in seat.leave_desk():
        show(answer)
    seat.enter()
    wording = Wording(KeyNames(), read_labels(seat.day.path))
    for change in changes_of(seat.day):
        if change.number > seen:
            for line in wording.lines([rule_change_notice(change), *aside_lines(change)]):
                say(line)
    for number in seat.settled:
        say(f"your draft was accepted before: it is draft {number} of the day")
    for line in seat.unanswered:
        if Edit.parse(line) is None:
            say(f"not answered: {line}")
    make_again(seat, say)


def make_again(seat: Seat, say: Say) -> None:
    """Makes the edits again of a draft that was open when a part ended, and says which of them were
    refused. Nothing is committed by it."""
    kept = list(seat.state.again)
    if not kept or seat.owner:
        return
    refused: list[str] = []
    if not seat.state.is_open and seat.ask(Turn.OPEN) is not Said.OPENED:
        return
    for edit in kept:
        if edit not in seat.state.edits:
            answer = seat.ask(edit)
            if answer is not Said.DONE:
                refused.append(f"not made again: {edit}: {answer}")
    seat.made_again()
    say(f"your draft is made again: {len(kept) - len(refused)} of {len(kept)} edits")
    for line in refused:
        say(line)
