"""Lectures that planners have pinned, each with a reason: a text file of the day, a line for each
pin, and one for each that is taken off.

    2026-11-29T10:15:00.123+0100<TAB>pin<TAB>c0109<TAB>4<TAB>1<TAB>ben<TAB>The hall is booked.

A pin is a courtesy: the desk does not know it, and refuses nothing for it.
"""
from __future__ import annotations

from typing import NamedTuple

from office.day.folder import Day
from office.day.lecture import Slot
from office.day.processes import now
from office.day.shared_lines import add_line, is_number, read_lines

PIN, UNPIN = "pin", "unpin"
Pinned = tuple[str, Slot]


class Pin(NamedTuple):
    """Who pinned a lecture of a course in a slot, when and why."""

    course: str
    slot: Slot
    name: str
    time: str
    why: str


def pins_path(day: Day) -> str:
    return day.file("pins")


def read_pins(day: Day) -> dict[Pinned, Pin]:
    """The pins of a day by course and slot."""
    found: dict[Pinned, Pin] = {}
    for time, act, course, at_day, period, name, why in read_lines(pins_path(day), 7):
        if not (is_number(at_day) and is_number(period)):
            continue
        slot = int(at_day), int(period)
        found.pop((course, slot), None)
        if act == PIN:
            found[course, slot] = Pin(course, slot, name, time, why)
    return found


def _add(day: Day, act: str, course: str, slot: Slot, name: str, why: str) -> str:
    fields = (now(), act, course, str(slot[0]), str(slot[1]), name, why)
    return add_line(pins_path(day), fields)


def pin(day: Day, course: str, slot: Slot, name: str, why: str) -> str:
    """Pins a lecture; answers why that could not be written, or nothing."""
    return _add(day, PIN, course, slot, name, why)


def unpin(day: Day, course: str, slot: Slot, name: str) -> str:
    """Takes a pin off; answers why that could not be written, or nothing."""
    return _add(day, UNPIN, course, slot, name, "")
