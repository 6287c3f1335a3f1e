"""A draft is taken back: its inverse is made in the draft of a planner."""
from __future__ import annotations

from typing import Iterable, NamedTuple, Optional

from office.day.lecture import Lecture
from office.day.scratch_desk import scratch_of
from office.day.shifts import Shift, all_shifts
from office.past.drafts import Draft
from office.past.inverse import Kept, invert
from office.refused import Refused
from office.words.notice import Notice, say
from office.work.planning import Planning


class TakenBack(NamedTuple):
    """What each edit did that was made, and what stays as it is."""

    made: list[list[Shift]]
    kept: list[Kept]

    def kept_lines(self) -> list[Notice]:
        return [say("kept line", shifts=[one.shift], reason=one.why) for one in self.kept]


def take_back(planning: Planning, draft: Draft, later: Iterable[Draft]) -> Optional[TakenBack]:
    """Makes the inverse of a draft, as edits of the planner's own; nothing is committed by it.
    Later drafts say who has changed what cannot go back. If no draft can be opened, or the program
    does not tell the inverse, nothing is done, and the planner is told why."""
    planning.read_minutes()
    now = planning.known.present()
    try:
        scratch = scratch_of(planning.minutes.part, now.lectures())
        inverse = invert(now, draft.shifts, scratch.answers)
    except Refused as fault:
        planning.notice = say("not taken back", number=draft.number, fault=fault.reason)
        return None
    if inverse.edits and not planning.open():
        return None
    made: list[list[Shift]] = []
    kept = by_whom(inverse.kept, later)
    for edit, shifts in zip(inverse.edits, all_shifts(inverse.edits, now)):
        if planning.edit(edit):
            made.append(shifts)
        else:
            kept += [Kept(shift, planning.refused) for shift in shifts]
    return TakenBack(made, kept)


def by_whom(kept: list[Kept], later: Iterable[Draft]) -> list[Kept]:
    """What stays, where others have changed it with the draft that did, if that is known."""
    moved = [one.shift.was for one in kept if one.why.code == "changed since"]
    found: dict[Optional[Lecture], Draft] = {}
    for draft in later if moved else ():
        for shift in draft.shifts:
            if shift.was in moved:
                found.setdefault(shift.was, draft)
    return [
        Kept(one.shift, changed_by(found[one.shift.was])) if one.shift.was in found else one
        for one in kept
    ]


def changed_by(draft: Draft) -> Notice:
    return say("changed by", number=draft.number, who=draft.name or f"seat {draft.planner}")
