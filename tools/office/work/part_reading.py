"""How a planner's client goes from one part of a day to the next."""
from __future__ import annotations

from typing import TYPE_CHECKING

from office.day.parts import change_of

if TYPE_CHECKING:
    from office.work.seat_view import Reading


def take_rules(reading: Reading) -> None:
    """Takes up the rules of the part that is read."""
    reading.instance.block(reading.minutes.part.closures(reading.instance))


def read_parts(reading: Reading) -> None:
    """Takes up what was accepted, up to the part of the day that the seat is in. Edits of each part
    are judged by its rules."""
    minutes = reading.minutes
    take_rules(reading)
    reading.read_minutes()
    while minutes.part.number < reading.seat.part.number:
        taken = minutes.part.taken()
        minutes.step()
        reading.changes.append(change_of(minutes.part, taken))
        reading.known.begin_part(minutes.part.lectures())
        take_rules(reading)
        reading.read_minutes()


def enter(reading: Reading) -> None:
    """Goes on in the next part of the day as soon as its desk is there. The story of the seat has
    what the draft was."""
    reading.seat.leave_desk()
    reading.seat.enter()
    reading.begin_part()
    read_parts(reading)
    reading.read_newest()
    reading.courtesies.keep_own(False, [])
