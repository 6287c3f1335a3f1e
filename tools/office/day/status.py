"""`office status`: who sits, how far the drafts are, and what the timetable costs, by what the
folder has; the desk is not asked."""
from __future__ import annotations

import os
from typing import Optional

from office.data.label_files import read_labels
from office.day.closures_file import standing_of
from office.day.costs import costs_in_words
from office.day.folder import Day
from office.day.minute_sums import check_minutes
from office.day.parts import (
    FIRST,
    Part,
    instance_of,
    last_part,
    parts_of,
    read_all_minutes,
    read_entries,
)
from office.day.pins import read_pins
from office.past.authors import read_pasts
from office.past.replay import play_costs
from office.past.timetable_at import read_at
from office.refused import Refused, reason_of
from office.seat.seat import is_taken, read_sitter
from office.seat.seat_log import SeatPast
from office.words.closure_notices import closure_notice
from office.words.text import counted, shown
from office.words.wording import Wording


def state_of(day: Day) -> str:
    if day.is_ready():
        return "closes" if day.closes_at() is not None else "open"
    if day.is_changing():
        return "the rules change just now"
    if day.is_open():
        return "not open yet"
    if os.path.exists(day.end):
        return "closed"
    return (
        f"no desk: it has ended, or was killed; office close {day.path} "
        f"writes what the day has left, office open {day.path} goes on with it"
    )


def draft_of(past: SeatPast, is_open: bool) -> str:
    """The draft of a seat in words, at a desk that is open or has ended."""
    if past.state.is_open and is_open:
        return counted(len(past.state.edits), "edit") + of_whom(past)
    if past.unfinished():
        return counted(len(past.unfinished()), "edit") + ", not accepted"
    return "none"


def of_whom(past: SeatPast) -> str:
    """Whose draft it is, if it is not that of who sat there last alone."""
    drafters = list(dict.fromkeys(past.drafters))
    return "" if drafters in ([], [past.name]) else f" of {' and '.join(map(shown, drafters))}"


def seat_line(day: Day, planner: int, past: Optional[SeatPast], accepted: int) -> list[str]:
    """What is known of a seat, column by column."""
    name, since = read_sitter(day, planner)
    sits = is_taken(day, planner)
    who, when = (shown(name) or "somebody", shown(since[11:16])) if sits else ("nobody", "")
    if past is not None and past.state.has_left:
        who = "left for the day"
    if past is None:
        return [str(planner), who, when, "its log is closed to you", "", str(accepted)]
    last = shown(past.last[0][11:19])
    return [str(planner), who, when, draft_of(past, day.is_open()), last, str(accepted)]


def print_table(lines: list[list[str]]) -> None:
    widths = [max(len(line[column]) for line in lines) for column in range(len(lines[0]))]
    for line in lines:
        print("  ".join(text.ljust(width) for text, width in zip(line, widths)).rstrip())


def cost_lines(day: Day) -> list[str]:
    """What the timetable cost at the start and costs now, by the program."""
    try:
        (before,), now = play_costs(Part(day, FIRST), []), read_at(day)
    except Refused:
        return ["cost not known: the program does not read the minutes"]
    return [
        f"cost at the start {costs_in_words(before)}",
        f"cost now          {costs_in_words(now.costs)}",
        f"missing lectures {sum(now.missing.values())}",
    ]


def minutes_line(day: Day, pasts: list[Optional[SeatPast]]) -> str:
    """Whether minutes can be written, by what seats were told and by the room on the disk."""
    is_full = any(past is not None and past.state.is_full for past in pasts)
    if is_full or os.path.exists(day.failing):
        return "minutes cannot be written: close the office, make room, and open a day after it"
    damaged = [part.minutes for part, minutes in read_all_minutes(day) if minutes.is_damaged]
    if damaged:
        return f"{damaged[0]} is damaged: what stands behind these drafts is not read"
    try:
        for part in parts_of(day):
            check_minutes(part)
    except (Refused, OSError) as fault:
        return reason_of(fault)
    room = os.statvfs(day.path)
    if room.f_bavail == 0:
        return "minutes: the disk is full"
    return "minutes are written"


def pin_lines(day: Day) -> list[str]:
    """The lectures that are pinned, each with who pinned it, when and why."""
    wording, lines = Wording({}, read_labels(day.path)), []
    for pin in read_pins(day).values():
        lecture = f"{wording.course(pin.course)} on {wording.slot(pin.slot)}"
        why = f": {shown(pin.why)}" if pin.why else ""
        when = pin.time[:16].replace("T", " ")
        lines.append(f"pinned: {lecture}, by {shown(pin.name)}, {when}{why}")
    return lines


def blocked_lines(day: Day) -> list[str]:
    """What is blocked, each with who has said so, when and why."""
    wording, found = Wording({}, read_labels(day.path)), standing_of(day, instance_of(day))
    return [f"blocked: {wording.notice(closure_notice(closure))}" for closure in found]


def parts_line(day: Day) -> str:
    """In which part the day is, if it has several."""
    number = last_part(day).number
    return f"; part {number} of the day, since the rules were changed" if number > FIRST else ""


def print_status(day: Day) -> int:
    """Prints the status of a day."""
    facts = day.facts()
    pasts = read_pasts(day)
    entries = read_entries(day)
    counts = [
        sum(entry.planner == planner for entry in entries) for planner in range(facts["planners"])
    ]
    print(f"{day.name}: {state_of(day)}; opened {facts['opened'][:16].replace('T', ' ')}")
    print(f"{counted(len(entries), 'draft')} accepted{parts_line(day)}; {minutes_line(day, pasts)}")
    if not day.is_open():
        for planner, past in enumerate(pasts):
            if past is not None:
                past.settle(entries, planner)
    for line in cost_lines(day):
        print(line)
    heads = ["seat", "who", "since", "draft", "last said", "accepted"]
    print_table(
        [heads] + [seat_line(day, p, pasts[p], counts[p]) for p in range(facts["planners"])]
    )
    for line in [*pin_lines(day), *blocked_lines(day)]:
        print(line)
    return 0
