"""`office block`, `office unblock` and `office blocks`: when a room, a teacher or a course cannot
be used, said by whoever keeps the office. The office that is open changes its rules by it."""
from __future__ import annotations

import time
from typing import Iterable, Optional

from office.data.label_files import read_labels
from office.data.readings import read_minute, read_weekday
from office.data.labels import Labels
from office.day.closure import BLOCKABLE, Closure, Scope
from office.day.closures_file import (
    add_closure,
    blocked_now,
    closures_path,
    closures_size,
    lifted_now,
    standing_of,
)
from office.day.folder import Day
from office.day.instance import Instance
from office.day.parts import RuleChange, changes_of, instance_of, last_part
from office.refused import CONTENT, WORDS, Refused
from office.seat.seat import user_name
from office.words.closure_notices import aside_lines, closure_notice, rule_change_notice
from office.words.wording import Wording

# how many seconds the office is waited for, and how many pass between two looks
PATIENCE, PACE = 120.0, 0.1
EACH = ("*", "all")


def find_day(text: str, instance: Instance, labels: Labels) -> Optional[int]:
    """A day by its number from 1 or by its weekday; None for all. Where no weekdays are known, the
    first day is a Monday."""
    if text in EACH:
        return None
    if text.isascii() and text.isdigit():
        day: Optional[int] = int(text) - 1
    else:
        weekday = read_weekday(text)
        days = {found: day for day, found in labels.weekdays.items()}
        day = days.get(weekday, None) if weekday is not None and days else weekday
    if day is None or not 0 <= day < instance.days:
        known = ", ".join(labels.day(number) for number in range(instance.days))
        raise Refused(f"there is no day {text}: they are {known}, or numbers from 1", CONTENT)
    return day


def find_period(text: str, day: Optional[int], instance: Instance, labels: Labels) -> Optional[int]:
    """A period by its number from 1 or by the time at which it begins; None for all."""
    if text in EACH:
        return None
    if text.isascii() and text.isdigit():
        found = {int(text) - 1} & set(range(instance.periods))
    else:
        minute = read_minute(text)
        begun = {slot: times.begins for slot, times in labels.times.items()}
        found = {
            slot[1] for slot in begun if begun[slot] == minute and day in (None, slot[0])
        } & set(range(instance.periods))
    if len(found) != 1:
        reason = f"there is no period {text}: they are numbers from 1 to {instance.periods}"
        raise Refused(f"{reason}, or times at which one begins", CONTENT)
    return found.pop()


def find_scope(words: list[str], instance: Instance, labels: Labels) -> Scope:
    """What is meant by `room r04 wed 2`; without a period the whole day, without a day all days."""
    if not 2 <= len(words) <= 4 or words[0] not in BLOCKABLE:
        kinds = f"{', '.join(BLOCKABLE[:-1])} or {BLOCKABLE[-1]}"
        reason = f"{kinds}, a name, and perhaps a day and a period"
        raise Refused(f"{reason}: {' '.join(words)}", WORDS)
    kind, typed, *when = words
    codes: dict[str, Iterable[str]] = {
        "room": instance.rooms,
        "teacher": instance.teachers,
        "course": instance.courses,
    }
    name = labels.find(kind, typed, list(codes[kind]))
    day = find_day(when[0], instance, labels) if when else None
    period = find_period(when[1], day, instance, labels) if len(when) > 1 else None
    return Scope(kind, name, day, period)


def must_be_open(day: Day) -> None:
    day.facts()
    if not day.is_open():
        raise Refused(f"no office is open in {day.path}: the rules of an open day are changed")


def add(day: Day, closure: Closure) -> None:
    """Says it to the office."""
    fault = add_closure(day, closure)
    if fault:
        raise Refused(f"cannot write {closures_path(day)}: {fault}")


def wait_for_change(day: Day, closure: Closure) -> list[RuleChange]:
    """Waits until the office has changed the rules by a closure, and answers how they have changed
    since."""
    seen, end = last_part(day).number, closures_size(day)
    until = time.monotonic() + PATIENCE
    while last_part(day).taken() < end or not day.is_ready():
        if not day.is_open():
            reason = "the office has ended meanwhile; a day after it has the new rules"
            raise Refused(f"it is written, but {reason}: office close {day.path}")
        if time.monotonic() > until:
            raise Refused("it is written, but the office has not changed the rules by it")
        time.sleep(PACE)
    changes = changes_of(day)
    fresh = [change for change in changes if change.number > seen]
    return fresh or [change for change in changes if closure in change.closures]


def tell(day: Day, changes: list[RuleChange], wording: Wording) -> None:
    """Says how the rules have changed, and which lectures are missing now."""
    for change in changes:
        print(wording.notice(rule_change_notice(change)))
        for line in wording.lines(aside_lines(change)):
            print(f"  {line}")


def print_block(day: Day, words: list[str], why: str) -> int:
    """Blocks something, and says what it has changed."""
    must_be_open(day)
    labels, instance = read_labels(day.path), instance_of(day)
    wording, scope = Wording({}, labels), find_scope(words, instance, labels)
    for closure in standing_of(day, instance):
        if closure.scope.covers(scope):
            raise Refused(f"{wording.notice(closure_notice(closure))} already", CONTENT)
    closure = blocked_now(scope, user_name(), None, " ".join(why.split()))
    add(day, closure)
    tell(day, wait_for_change(day, closure), wording)
    return 0


def print_unblock(day: Day, words: list[str], why: str) -> int:
    """Lifts what is blocked, and says so."""
    must_be_open(day)
    labels, instance = read_labels(day.path), instance_of(day)
    wording, scope = Wording({}, labels), find_scope(words, instance, labels)
    found = standing_of(day, instance)
    if not any(scope.covers(one.scope) for one in found):
        reason = f"{wording.name(scope.kind, scope.name)} is not blocked {wording.when(scope)}"
        wider = [one for one in found if one.scope.covers(scope)]
        if wider:
            reason = f"{wording.notice(closure_notice(wider[0]))}: that is lifted as a whole"
        raise Refused(reason, CONTENT)
    closure = lifted_now(scope, user_name(), None, " ".join(why.split()))
    add(day, closure)
    tell(day, wait_for_change(day, closure), wording)
    return 0


def print_blocks(day: Day) -> int:
    """Prints what is blocked, with who has said so, when and why."""
    day.facts()
    wording, found = Wording({}, read_labels(day.path)), standing_of(day, instance_of(day))
    for closure in found:
        when = closure.time[:16].replace("T", " ")
        print(f"{wording.notice(closure_notice(closure))}, {when}")
    if not found:
        print("nothing is blocked")
    return 0
