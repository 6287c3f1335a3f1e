"""Why an edit is refused, as notices."""
from __future__ import annotations

from typing import Optional

from office.day.edits import Edit, Kind
from office.day.instance import Instance
from office.day.lecture import Slot
from office.seat.answers import Fault
from office.words.closure_notices import by_notice
from office.words.notice import NOTHING, Notice, say

# the faults of an edit that say nothing but what they are
ALONE: dict[str, str] = {
    "already": "already",
    "full": "full",
    "notplaced": "not placed",
    "sameslot": "same slot",
    "samecourse": "same course",
}
# those of a swap that may be of either lecture: the desk does not say of which
OF_ONE: dict[str, str] = {
    "already": "one already",
    "notplaced": "one not placed",
    "barred": "one barred",
}
# those that are about a room
ROOM_FAULTS = ("roomtaken", "barred", "blocked")
# the faults of a slot, where there is room for two words
SHORT: dict[str, str] = {
    "unavailable": "cell closed",
    "already": "cell has one",
    "full": "cell full",
    "notplaced": "cell gone",
}


def reason(instance: Instance, edit: Edit, fault: Fault) -> Notice:
    """A fault of an edit."""
    (kind, other), course, room = fault, edit.course, edit.room
    if edit.kind is Kind.SWAP:
        return swap_reason(instance, edit, fault)
    if kind == "clash":
        return clash_reason(instance, course, other)
    if kind == "roomtaken":
        return say("room taken", other=other, room=room)
    if kind == "barred":
        return say("barred", room=room, course=course)
    if edit.now is not None and kind == "blocked":
        return room_reason(instance, room, edit.now)
    if edit.now is not None and kind == "unavailable":
        return away_reason(instance, course, edit.now)
    return alone_reason(course, fault)


def swap_reason(instance: Instance, edit: Edit, fault: Fault) -> Notice:
    """A fault of a swap."""
    kind, other = fault
    is_first = is_of_first(instance, edit, fault)
    course, slot = (edit.course, edit.now) if is_first else (edit.other, edit.was)
    if kind == "clash":
        return clash_reason(instance, course, other)
    if kind == "unavailable" and slot is not None:
        return away_reason(instance, course, slot)
    if kind == "roomtaken":
        return say("its room taken", other=other)
    return say(OF_ONE[kind]) if kind in OF_ONE else alone_reason(edit.course, fault)


def is_of_first(instance: Instance, edit: Edit, fault: Fault) -> bool:
    """Whether the instance says that a fault of a swap is one of its first lecture."""
    if fault.kind == "clash":
        return fault.other in instance.mates[edit.course]
    return fault.kind == "unavailable" and edit.now in instance.closed[edit.course]


def partner_reason(instance: Instance, edit: Edit, fault: Fault) -> Notice:
    """A fault of a swap with the name of the partner; without it, if the first lecture has it."""
    found = reason(instance, edit, fault)
    if is_of_first(instance, edit, fault):
        return found
    return say("partner", other=edit.other, reason=found)


def alone_reason(course: str, fault: Fault) -> Notice:
    """A fault that says nothing but what it is."""
    if fault.kind in ALONE:
        return say(ALONE[fault.kind], course=course)
    return say("fault", fault=str(fault))


def room_reason(instance: Instance, room: str, slot: Slot) -> Notice:
    """Why a room cannot be used in a slot, and who has said so."""
    for closure in instance.closures_at("room", room, slot):
        why = say("because of", why=closure.why) if closure.why else NOTHING
        return say("room blocked", room=room, because=why, by=by_notice(closure))
    return say("room blocked now", room=room)


def away_reason(instance: Instance, course: str, slot: Slot) -> Notice:
    """Why a course cannot be in a slot: by a closure of its own or of its teacher, or always."""
    teacher = instance.courses[course].teacher
    for kind, name in (("course", course), ("teacher", teacher)):
        for closure in instance.closures_at(kind, name, slot):
            why = say("because of", why=closure.why) if closure.why else NOTHING
            return say("away", scope=closure.scope, because=why, by=by_notice(closure))
    return say("unavailable", course=course)


def clash_reason(instance: Instance, course: str, other: str) -> Notice:
    kind, name = instance.cause(course, other)
    if kind == "teacher":
        return say("teacher busy", teacher=name, other=other)
    return say("curriculum busy", curriculum=name, other=other)


def slot_reason(instance: Instance, course: str, slot: Slot, fault: Optional[Fault]) -> Notice:
    """A fault of a slot, where no room serves for a course."""
    if fault is None:
        return say("not told")
    if fault.kind == "clash":
        return clash_reason(instance, course, fault.other)
    if fault.kind == "unavailable":
        return away_reason(instance, course, slot)
    if fault.kind in ROOM_FAULTS:
        return say("no room")
    return say("no rooms") if fault.kind == "none" else alone_reason(course, fault)


def short_reason(instance: Instance, course: str, slot: Slot, fault: Optional[Fault]) -> Notice:
    """The same in two words."""
    if fault is None:
        return say("cell not told")
    if fault.kind == "clash":
        return say("cell clash", other=fault.other)
    if fault.kind == "unavailable" and away_reason(instance, course, slot).code == "away":
        return say("cell blocked")
    return say(SHORT.get(fault.kind, "cell no room"))


def short_swap_reason(
    instance: Instance, course: str, slot: Slot, fault: Optional[Fault]
) -> Notice:
    """The same in two words, where a lecture can change places with none."""
    is_away = fault is not None and fault.kind == "unavailable" and slot in instance.closed[course]
    if fault is None or fault.kind == "clash" or is_away:
        return short_reason(instance, course, slot, fault)
    return say("cell no swap")
