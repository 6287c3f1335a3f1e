"""The inverse of what a draft did, as edits on a timetable that others may have changed since.

Each lecture goes back to where it stood before the draft, if it stands where the draft left it.
Two that have changed places are swapped. Where several stand in each other's way, one is taken out
first and placed last. What can be made, and why something cannot, is asked of a desk.
"""
from __future__ import annotations

from typing import Callable, Iterable, NamedTuple, Optional, Sequence

from office.day.edits import Edit
from office.day.instance import Instance
from office.day.lecture import Lecture
from office.day.shifts import Shift
from office.day.timetable import Timetable
from office.past.drafts import exchanged
from office.seat.answers import Answer, Fault, Said, fault_in
from office.words.notice import Notice, say
from office.words.reasons import reason

Group = list[Shift]
# what a desk with the timetable answers edits, one after another; it begins anew each time
Answers = Callable[[Sequence[Edit]], list[Answer]]


class Kept(NamedTuple):
    """A lecture that does not go back, and why."""

    shift: Shift
    why: Notice


class Inverse(NamedTuple):
    """The edits that can be made, in this order, and what stays as it is."""

    edits: list[Edit]
    kept: list[Kept]


def edit_of(shift: Shift) -> Edit:
    """The edit that does this to a lecture."""
    was, now = shift
    if was is None:
        assert now is not None
        return Edit.place(now.course, now.room, now.slot)
    if now is None:
        return Edit.drop(was.course, was.slot)
    if was.slot == now.slot:
        return Edit.reroom(now.course, now.room, now.slot)
    return Edit.move(was.course, was.slot, now.room, now.slot)


def edit_of_group(group: Group) -> Edit:
    if len(group) == 1:
        return edit_of(group[0])
    one, other = group[0].was, group[1].was
    assert one is not None and other is not None
    return Edit.swap(one.course, one.slot, other.course, other.slot)


def stands(timetable: Timetable, lecture: Lecture) -> bool:
    return timetable.room_at(lecture.course, lecture.slot) == lecture.room


def unknown_part(instance: Instance, shift: Shift) -> Optional[Notice]:
    """Why an instance has no place for a lecture by its names and its slot alone."""
    if shift.course not in instance.courses:
        return say("no such course", course=shift.course)
    now = shift.now
    if now is not None and now.room not in instance.rooms:
        return say("no such room", room=now.room)
    if now is not None and now.slot not in instance.slots():
        return say("no such slot", slot=now.slot)
    return None


def changed_since(timetable: Timetable, shift: Shift) -> Optional[Notice]:
    """Why a lecture does not stand where it would have to go back from; None if it does."""
    was, now = shift
    if now is not None and stands(timetable, now):
        return say("back already")
    if was is None or stands(timetable, was):
        return None
    return say("changed since")


class Way:
    """Edits by which lectures go back, as far as a desk makes them."""

    def __init__(self, answers: Answers, shifts: Iterable[Shift]) -> None:
        self.answers = answers
        self.edits: list[Edit] = []
        self.groups = exchanged(shifts)
        # why the edits of the groups that are left were refused
        self.faults: list[Fault] = []
        while self.groups and (self.make_some() or self.part_some() or self.lift_one()):
            pass

    def make_some(self) -> bool:
        """Tries what is left on what is made by now, and answers whether something was made."""
        tried = [edit_of_group(group) for group in self.groups]
        answers = self.answers([*self.edits, *tried])[len(self.edits) :]
        self.edits += [edit for edit, answer in zip(tried, answers) if answer is Said.DONE]
        left = [pair for pair in zip(self.groups, answers) if pair[1] is not Said.DONE]
        is_made = len(left) < len(self.groups)
        self.groups = [group for group, _ in left]
        self.faults = [fault_in(answer) for _, answer in left]
        return is_made

    def part_some(self) -> bool:
        """Lets lectures that cannot be swapped go back one by one."""
        parted = [[shift] for group in self.groups for shift in group]
        is_parted = len(parted) > len(self.groups)
        self.groups = parted
        return is_parted

    def lift_one(self) -> bool:
        """Takes a lecture out that stands in the way, to be placed later."""
        for place, (shift,) in enumerate(self.groups):
            if shift.was is not None:
                self.edits.append(edit_of(Shift(shift.was, None)))
                self.groups[place] = [Shift(None, shift.now)]
                return True
        return False

    def failed(self, instance: Instance) -> list[Kept]:
        """The lectures that cannot go where they are to go, and why."""
        return [
            Kept(shift, reason(instance, edit_of(shift), fault))
            for (shift,), fault in zip(self.groups, self.faults)
        ]


def invert(timetable: Timetable, shifts: Iterable[Shift], answers: Answers) -> Inverse:
    """The inverse of what a draft did to lectures, on a timetable, by a desk that has it."""
    back, kept = [], []
    for shift in (Shift(one.now, one.was) for one in shifts):
        why = unknown_part(timetable.instance, shift) or changed_since(timetable, shift)
        if why is None:
            back.append(shift)
        else:
            kept.append(Kept(shift, why))
    while True:
        way = Way(answers, back)
        if not way.groups:
            return Inverse(way.edits, kept)
        # what stays may be in the way of others: they are tried anew without it
        for failed in way.failed(timetable.instance):
            shift = next(one for one in back if one.now == failed.shift.now)
            back.remove(shift)
            kept.append(Kept(shift, failed.why))
