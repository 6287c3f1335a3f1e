"""`office close`: tells those who sit, waits for the desk, and writes what the day leaves. After a
crash it writes the same of what the minutes hold."""
from __future__ import annotations

import contextlib
import os
import shutil
import signal
import time

from office.day import processes
from office.day.costs import costs_in_words
from office.day.folder import Day
from office.day.next_part import rules_after
from office.day.open_drafts import end_work
from office.day.minute_sums import check_minutes
from office.day.parts import Part, half_made, parts_of
from office.day.pipes import remove_pipes
from office.day.program import Left
from office.day.safe_files import read_whole, write_whole
from office.day.spare import free_room
from office.refused import CONTENT, Refused
from office.words.text import counted

# how many seconds the office has to end after those who sat; those who sit at a desk that a killed
# office has left go by themselves, and have so many
SLACK, GOING = 10.0, 3.0


def close_day(day: Day, seconds: float) -> int:
    """Closes a day, and writes its journal, its audit and its last timetable."""
    facts = day.facts()
    if day.is_open():
        end_office(day, seconds)
    for planner in range(facts["planners"]):
        remove_pipes(day.seat(planner))
        end_work(day, planner)
    with contextlib.suppress(FileNotFoundError):
        os.remove(day.closing)
    for folder in half_made(day):
        # a change of rules was broken off: those before hold to the end
        shutil.rmtree(folder, ignore_errors=True)
    free_room(day)
    return write_end(day)


def end_office(day: Day, seconds: float) -> None:
    """Lets the office end, or the desk that a killed office left, and waits for it."""
    until = time.time() + max(0.0, seconds)
    with contextlib.suppress(Refused):
        # on a disk that is full they go without a warning
        write_whole(day.closing, f"{until}\n".encode())
    numbers = day.numbers()
    for number in numbers[:1]:
        send(number, signal.SIGTERM)
    print(f"office: the office closes; who sits has {round(seconds)} seconds", flush=True)
    slack = SLACK if numbers and processes.is_alive(numbers[0]) else GOING
    while day.is_open() and time.time() < until + slack:
        time.sleep(0.05)
    if day.is_open():
        # the office is gone: the desk holds its lock
        for number in numbers[1:]:
            send(number, signal.SIGTERM)
        time.sleep(0.5)
    if day.is_open():
        raise Refused(
            f"the office in {day.path} does not end: its processes are "
            + " ".join(map(str, numbers))
        )


def send(number: int, sign: int) -> None:
    try:
        os.kill(number, sign)
    except ProcessLookupError:
        pass
    except PermissionError:
        raise Refused("only who opened the office can close it") from None


def write_journal(part: Part) -> str:
    """Writes the journal of a part, and answers what its audit under the rules of the part says."""
    check_minutes(part)
    left, new = Left(part), part.journal + ".new"
    left.write_journal(new)
    status, verdict = left.audit(new)
    os.replace(new, part.journal)
    if status != 0:
        raise Disagrees(part, f"the audit of {part.journal} does not agree: {verdict}", verdict)
    return verdict


class Disagrees(Refused):
    """A part of which the audit does not agree, or which does not begin where the one before has
    ended."""

    def __init__(self, part: Part, reason: str, verdict: str) -> None:
        super().__init__(reason, CONTENT)
        self.part, self.verdict = part, verdict


def check_start(part: Part, end: bytes) -> None:
    """Checks that a part begins with what the one before has left, as far as it can stand under the
    rules of the part."""
    if Left(part, quiet=True).mended(end) != read_whole(part.start):
        reason = f"part {part.number} does not begin where part {part.number - 1} ended"
        raise Disagrees(part, f"{part.day.path}: {reason}", reason)


def audit_parts(day: Day) -> bytes:
    """Audits each part of a day under its own rules, and that each begins where the one before it
    has ended; answers the timetable that is left."""
    parts, end = parts_of(day), b""
    for part in parts:
        if part.number > 1:
            check_start(part, end)
        write_journal(part)
        end = Left(part).list(part.journal)
    return end


def count_of(part: Part) -> int:
    """How many drafts the journal of a part has."""
    return int(read_whole(part.journal).split(None, 2)[1])


def write_audit(day: Day) -> bytes:
    """Writes the journals and the audit of a day, and answers the timetable that is left."""
    try:
        end = audit_parts(day)
    except Disagrees as fault:
        write_whole(day.audit, f"{fault.verdict}\n".encode())
        raise
    write_whole(day.audit, b"agrees\n")
    return end


def write_end(day: Day) -> int:
    """Writes journals, audit and last timetable of a day, and says what it costs."""
    write_whole(day.end, write_audit(day))
    parts = parts_of(day)
    first, last = parts[0], parts[-1]
    before = Left(first).report(first.start if first.has_start() else None)
    after = Left(last).report(day.end)
    count, journals = sum(map(count_of, parts)), ", ".join(part.journal for part in parts)
    under = f" in {counted(len(parts), 'part')}" if len(parts) > 1 else ""
    print(f"{day.name}: {counted(count, 'draft')} accepted{under}, the audit agrees")
    print(f"cost before {costs_in_words(before)}")
    print(f"cost after  {costs_in_words(after)}")
    print(f"missing lectures {after['lectures']}")
    if rules_after(last, last.instance()) is not None:
        print("what was blocked or lifted last is no rule of this day, and holds on a day after it")
    print(f"written: {journals}, {day.audit}, {day.end}")
    return 0
