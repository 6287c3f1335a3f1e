"""`office revert`: takes back what a draft did, by edits of a draft at a seat; nothing is committed
by it."""
from __future__ import annotations

import os
from typing import Optional

from office.data.label_files import read_labels
from office.day.folder import Day
from office.day.safe_files import is_locked
from office.past.authors import read_pasts
from office.past.drafts import Draft, read_drafts
from office.past.log import head_words
from office.past.taking_back import TakenBack, take_back
from office.past.timetable_at import parse_at
from office.refused import CONTENT, WORDS, Refused
from office.seat.seat import Seat
from office.words.actions import KeyNames
from office.words.text import counted
from office.words.wording import Wording
from office.work.planning import Planning


def free_seat(day: Day) -> int:
    """The first seat at which nobody sits and nothing is left to be decided."""
    for planner, past in enumerate(read_pasts(day)):
        if past is None or past.state.has_left or past.unfinished() or past.state.is_open:
            continue
        if not is_locked(day.sitter(planner)):
            return planner
    raise Refused(f"no seat of {day.path} is free: --seat names one, whose draft gets the edits")


def find_draft(day: Day, number: int) -> Draft:
    drafts = read_drafts(day)
    if not 1 <= number <= len(drafts):
        has = counted(len(drafts), "accepted draft") if drafts else "no accepted draft"
        raise Refused(f"{day.name} has {has}, and no draft {number}", CONTENT)
    return drafts[number - 1]


def later_drafts(day: Day, of: Day, number: int) -> list[Draft]:
    """The drafts of a day that were accepted after another one of it, or of an earlier day."""
    is_same = os.path.realpath(day.path) == os.path.realpath(of.path)
    return [draft for draft in read_drafts(day) if not is_same or draft.number > number]


def parse_draft(day: Day, words: str) -> tuple[Day, int]:
    """Which draft is meant: a number of this day, or as in `monday:9` one of another day."""
    if words.isascii() and words.isdigit():
        return day, int(words)
    of, number = parse_at(words)
    if number is None:
        raise Refused(f"no draft: {words}; it is a number, or as in monday:9", WORDS)
    return of, number


def sit_at(day: Day, planner: Optional[int], name: Optional[str]) -> Planning:
    """A planner at a seat, by default at one that is free."""
    seat = Seat(day, free_seat(day) if planner is None else planner, name)
    planning = Planning(seat)
    planning.begin()
    why = ""
    if planning.ended() and not planning.is_open:
        why = "a draft that is stale"
    elif seat.owner and planning.edits():
        why = f"a draft of {seat.owner}"
    if why:
        seat.go()
        raise Refused(f"seat {seat.planner} has {why}: first say there what becomes of it")
    return planning


def wording_of(planning: Planning) -> Wording:
    return Wording(KeyNames(), read_labels(planning.seat.day.path))


def report(planning: Planning, draft: Draft, of: Day, taken: TakenBack) -> list[str]:
    """What was made, and what not."""
    seat, wording = planning.seat, wording_of(planning)
    lines = [f"{of.name}, {head_words(draft)}"]
    if taken.made:
        lines.append(f"made in the draft of seat {seat.planner}, and not committed:")
        lines += [f"    {wording.shifts(shifts)}" for shifts in taken.made]
    if taken.kept:
        lines.append("left as it is:")
        lines += [f"    {line}" for line in wording.lines(taken.kept_lines())]
    if taken.made:
        lines.append(f"office sit {seat.day.path} {seat.planner} shows it; c commits it there")
    elif not taken.kept:
        lines.append("it has changed nothing")
    return lines


def print_revert(day: Day, words: str, planner: Optional[int], name: Optional[str]) -> int:
    """Makes the inverse of a draft at a seat, and prints what could be made."""
    of, number = parse_draft(day, words)
    draft = find_draft(of, number)
    planning = sit_at(day, planner, name)
    try:
        taken = take_back(planning, draft, later_drafts(day, of, number))
        if taken is None:
            raise Refused(wording_of(planning).notice(planning.notice))
        print("\n".join(report(planning, draft, of, taken)))
    finally:
        planning.seat.go()
    return 0 if taken.made or not taken.kept else CONTENT
