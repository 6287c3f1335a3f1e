"""The accepted drafts of a day as values: by whom and when each was committed and why, and what it
did to each lecture."""
from __future__ import annotations

from dataclasses import dataclass
from typing import Iterable

from office.day.edits import Edit
from office.day.folder import Day
from office.day.lecture import Lecture, Slot
from office.day.minutes import Entry
from office.day.parts import Part, read_parts
from office.day.shifts import Shift, shifts_of
from office.day.timetable import Timetable
from office.past.authors import NO_FACTS, CommitFacts, read_commit_facts
from office.refused import CONTENT, Refused
from office.seat.seat import read_sitter

CourseRow = dict[Slot, str]


@dataclass(frozen=True)
class Draft:
    """An accepted draft. A name or a time that is not known is empty; so is a reason that was not
    given."""

    number: int
    planner: int
    name: str
    time: str
    why: str
    edits: list[Edit]
    # what stands elsewhere after it than before; what its edits have taken back is left out
    shifts: list[Shift]


def row_shifts(course: str, was: CourseRow, now: CourseRow) -> list[Shift]:
    """What has become of the lectures of a course, which are all alike: those that keep their slot
    have another room, the others are paired in the order of their slots."""
    rooms = [slot for slot in sorted(was) if slot in now and was[slot] != now[slot]]
    gone = [slot for slot in sorted(was) if slot not in now]
    new = [slot for slot in sorted(now) if slot not in was]
    old = [Lecture(course, was[slot], *slot) for slot in [*rooms, *gone]]
    made = [Lecture(course, now[slot], *slot) for slot in [*rooms, *new]]
    both = [Shift(one, other) for one, other in zip(old, made)]
    dropped = [Shift(one, None) for one in old[len(both) :]]
    return [*both, *dropped, *(Shift(None, one) for one in made[len(both) :])]


def net(shifts: Iterable[Shift]) -> list[Shift]:
    """What shifts, one after another, have done in the end."""
    was: dict[str, CourseRow] = {}
    now: dict[str, CourseRow] = {}
    for shift in shifts:
        old, new = was.setdefault(shift.course, {}), now.setdefault(shift.course, {})
        if shift.was is not None and new.pop(shift.was.slot, None) is None:
            old[shift.was.slot] = shift.was.room
        if shift.now is not None:
            new[shift.now.slot] = shift.now.room
    return [one for course in was for one in row_shifts(course, was[course], now[course])]


def exchanged(shifts: Iterable[Shift]) -> list[list[Shift]]:
    """Shifts, each alone, but two lectures that have changed places as one."""
    found: list[list[Shift]] = []
    for shift in shifts:
        for group in found:
            if len(group) == 1 and are_exchanged(group[0], shift):
                group.append(shift)
                break
        else:
            found.append([shift])
    return found


def are_exchanged(one: Shift, other: Shift) -> bool:
    """Whether two lectures have changed slots and rooms."""
    if one.was is None or one.now is None or other.was is None or other.now is None:
        return False
    is_crossed = one.was[1:] == other.now[1:] and one.now[1:] == other.was[1:]
    return is_crossed and one.course != other.course


def make_draft(timetable: Timetable, edits: Iterable[Edit]) -> list[Shift]:
    """Makes the edits of an accepted draft, and answers what has become of the lectures."""
    found: list[Shift] = []
    for edit in edits:
        found += shifts_of(edit, timetable)
        timetable.make(edit)
    return net(found)


def drafts_of(part: Part, entries: Iterable[Entry], facts: dict[int, CommitFacts]) -> list[Draft]:
    """The accepted drafts of a part in their order. Of a seat of which no log can be read the name
    of who sits there is known."""
    timetable, found = Timetable(part.instance(), part.lectures()), []
    for entry in entries:
        name, time, why = facts.get(entry.number, NO_FACTS)
        name = name or read_sitter(part.day, entry.planner)[0]
        try:
            shifts = make_draft(timetable, entry.edits)
        except (ValueError, KeyError, IndexError):
            fault = f"cannot read {part.minutes}: draft {entry.number} has edits of no such day"
            raise Refused(fault, CONTENT) from None
        found.append(Draft(entry.number, entry.planner, name, time, why, entry.edits, shifts))
    return found


def read_part_drafts(day: Day) -> list[tuple[Part, list[Draft]]]:
    """The accepted drafts of a day, part by part."""
    day.facts()
    facts = read_commit_facts(day)
    return [(part, drafts_of(part, entries, facts)) for part, entries in read_parts(day)]


def read_drafts(day: Day) -> list[Draft]:
    """The accepted drafts of a day in their order."""
    return [draft for _, drafts in read_part_drafts(day) for draft in drafts]
