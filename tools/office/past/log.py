"""`office log`: the accepted drafts of a day, or those that concern something, in words or as
JSON."""
from __future__ import annotations

import json
from typing import Any, Optional

from office.data.label_files import read_labels
from office.day.closure import Closure
from office.day.costs import COSTS, Costs
from office.day.folder import Day
from office.day.instance import Instance
from office.day.lecture import Lecture
from office.day.parts import FIRST, RuleChange, changes_of, instance_of
from office.day.shifts import Shift
from office.past.drafts import Draft, exchanged, read_part_drafts
from office.past.replay import play_costs
from office.past.subjects import Subject, find_subject
from office.words.closure_notices import rule_change_notice, shifts_of_change
from office.words.text import counted, shown, signed
from office.words.wording import Wording


def difference_words(before: Costs, after: Costs) -> str:
    """What two timetables cost, and by which parts it is more or less."""
    first, last = sum(before.values()), sum(after.values())
    parts = [
        f"{part} {signed(after[part] - before[part])}"
        for part in COSTS
        if after[part] != before[part]
    ]
    return f"cost {first} -> {last}" + (f": {', '.join(parts)}" if parts else "")


def head_words(draft: Draft) -> str:
    """Who committed a draft, when and why."""
    who = f"{shown(draft.name)} at seat {draft.planner}" if draft.name else f"seat {draft.planner}"
    when = draft.time[:19].replace("T", " ") or "time not known"
    why = f": {shown(draft.why)}" if draft.why else ""
    return f"draft {draft.number}, {who}, {when}{why}"


def draft_lines(
    draft: Draft, touched: list[Shift], costs: tuple[Costs, Costs], wording: Wording
) -> list[str]:
    """A draft with what it did that one asked about, and what the timetable cost before and
    after."""
    lines = [f"    {wording.shifts(group)}" for group in exchanged(touched)]
    others = len(draft.shifts) - len(touched)
    if others:
        lines.append(f"    and {counted(others, 'other lecture')}: draft {draft.number} has all")
    if not draft.shifts:
        lines.append("    no lecture stands elsewhere after it")
    return [head_words(draft), *lines, f"    {difference_words(*costs)}"]


def place_object(lecture: Optional[Lecture]) -> Optional[dict[str, Any]]:
    if lecture is None:
        return None
    return {"day": lecture.day, "period": lecture.period, "room": lecture.room}


def cost_object(costs: Costs) -> dict[str, int]:
    return {**costs, "total": sum(costs.values())}


def draft_object(
    draft: Draft, touched: list[Shift], costs: tuple[Costs, Costs]
) -> dict[str, Any]:
    """A draft for other programs. Days and periods count from 0, as in the files of the desk."""
    return {
        "draft": draft.number,
        "seat": draft.planner,
        "name": draft.name or None,
        "time": draft.time or None,
        "reason": draft.why or None,
        "lectures": [
            {
                "course": shift.course,
                "from": place_object(shift.was),
                "to": place_object(shift.now),
            }
            for shift in touched
        ],
        "edits": list(map(str, draft.edits)),
        "cost": {"before": cost_object(costs[0]), "after": cost_object(costs[1])},
    }


def change_lines(
    change: RuleChange, touched: list[Shift], costs: tuple[Costs, Costs], wording: Wording
) -> list[str]:
    """How the rules have changed, with what was set aside by it, and what it cost."""
    when = change.time[:19].replace("T", " ")
    lines = [f"    {wording.shifts([shift])}" for shift in touched]
    others = len(change.asides) - len(touched)
    if others:
        lines.append(f"    and {counted(others, 'other lecture')}")
    text = wording.notice(rule_change_notice(change))
    return [f"rules, {when}: {text}", *lines, f"    {difference_words(*costs)}"]


def closure_object(closure: Closure) -> dict[str, Any]:
    """A closure for other programs. A day or a period that is missing stands for all of them."""
    kind, name, day, period = closure.scope
    who = {"name": closure.who, "seat": closure.seat, "time": closure.time}
    where = {"kind": kind, "code": name, "day": day, "period": period}
    return {**where, "blocked": not closure.is_lifted, "reason": closure.why or None, **who}


def change_object(
    change: RuleChange, touched: list[Shift], costs: tuple[Costs, Costs]
) -> dict[str, Any]:
    """A change of the rules for other programs."""
    return {
        "part": change.number,
        "time": change.time,
        "rules": [closure_object(closure) for closure in change.closures],
        "lectures": [
            {"course": shift.course, "from": place_object(shift.was), "to": None}
            for shift in touched
        ],
        "cost": {"before": cost_object(costs[0]), "after": cost_object(costs[1])},
    }


def is_about(what: Subject, change: RuleChange, touched: list[Shift]) -> bool:
    """Whether a change of the rules concerns something."""
    about = [(closure.scope.kind, closure.scope.name) for closure in change.closures]
    who = [closure.who for closure in change.closures]
    return bool(touched) or tuple(what) in about or (what.kind == "planner" and what.name in who)


class Logged:
    """What is printed, draft by draft, of all or of what concerns something."""

    def __init__(self, instance: Instance, what: Optional[Subject], wording: Wording) -> None:
        self.instance, self.what, self.wording = instance, what, wording
        self.objects: list[dict[str, Any]] = []
        self.lines: list[str] = []

    def take_draft(self, draft: Draft, costs: tuple[Costs, Costs]) -> None:
        touched = self.what.touched(self.instance, draft) if self.what else draft.shifts
        if touched is not None:
            self.objects.append(draft_object(draft, touched, costs))
            self.lines += draft_lines(draft, touched, costs, self.wording)

    def take_change(self, change: RuleChange, costs: tuple[Costs, Costs]) -> None:
        what, touched = self.what, shifts_of_change(change)
        if what is not None:
            is_row = what.kind not in ("planner", "draft")
            touched = [one for one in touched if is_row and what.is_touched(self.instance, one)]
        if what is None or is_about(what, change, touched):
            self.objects.append(change_object(change, touched, costs))
            self.lines += change_lines(change, touched, costs, self.wording)


def print_log(day: Day, words: list[str], is_json: bool) -> int:
    """Prints the accepted drafts of a day with the changes of its rules, or those that concern
    something."""
    drafts = read_part_drafts(day)
    instance, labels = instance_of(day), read_labels(day.path)
    all_drafts = [draft for _, of_part in drafts for draft in of_part]
    what = find_subject(words, instance, all_drafts, labels) if words else None
    logged, changes, last = Logged(instance, what, Wording({}, labels)), changes_of(day), None
    for part, of_part in drafts:
        costs = play_costs(part, [draft.edits for draft in of_part])
        if last is not None:
            logged.take_change(changes[part.number - FIRST - 1], (last, costs[0]))
        for draft, both in zip(of_part, zip(costs, costs[1:])):
            logged.take_draft(draft, both)
        last = costs[-1]
    if is_json:
        print(json.dumps(logged.objects, indent=1))
    elif logged.lines:
        print("\n".join(logged.lines))
    return 0
