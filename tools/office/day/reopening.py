"""`office open DAY` of a day whose desk has ended, or was killed: the day goes on with another
part. A change of rules that was broken off is made again."""
from __future__ import annotations

import contextlib
import os
import shutil
import signal
import time

from office.day import processes
from office.day.closing import send
from office.day.closures_file import closures_end
from office.day.folder import CHECKING, CLOSED, REOPENING, Day
from office.day.next_part import NewPart, rules_after
from office.day.open_drafts import end_work
from office.day.open_office import Running, keep
from office.day.opening import take_office
from office.day.minute_sums import check_minutes
from office.day.parts import Part, half_made, last_part
from office.day.pipes import remove_pipes
from office.day.processes import Signals, Stopped
from office.day.program import build_words, day_program, named_words, version_of
from office.refused import Refused
from office.words.announce import announce

# how many seconds a desk has to end that a killed office has left
ORPHAN = 10.0


def end_orphan(day: Day) -> None:
    """Ends the desk that a killed office has left."""
    numbers = day.numbers()
    if not day.is_open() or not numbers or processes.is_alive(numbers[0]):
        return
    for number in numbers[1:]:
        send(number, signal.SIGTERM)
    until = time.monotonic() + ORPHAN
    while day.is_open() and time.monotonic() < until:
        time.sleep(0.05)


def take_lock(day: Day) -> int:
    """Takes the lock of a day that can go on."""
    facts = day.facts()
    end_orphan(day)
    held = take_office(day)
    if os.path.exists(day.end):
        os.close(held)
        raise Refused(f"{day.path} is closed: office open NEXT --after {day.path}")
    for planner in range(facts["planners"]):
        remove_pipes(day.seat(planner))
        end_work(day, planner)
    for path in (day.closing, day.failing):
        with contextlib.suppress(FileNotFoundError):
            os.remove(path)
    for folder in half_made(day):
        shutil.rmtree(folder, ignore_errors=True)
    return held


def next_part(signals: Signals, part: Part) -> Part:
    """The part with which a day goes on: the last one, if nothing was accepted in it and its rules
    hold; else one that begins with what it has left."""
    taken = rules_after(part, part.instance())
    if taken is None and os.path.getsize(part.minutes) == 0:
        return part
    new = NewPart(signals, part)
    new.begin(closures_end(part.day) if taken is None else taken)
    return new.make()


def reopen_day(day: Day, web: list[str]) -> int:
    """Goes on with a day, keeps it, and answers the status with which the office ends."""
    signals, held = Signals(), take_lock(day)
    facts = day.facts()
    running = Running(last_part(day), facts["planners"], held, signals)
    running.program = day_program(facts)
    try:
        running.note(CHECKING)
        if named_words(running.program) != facts["program"]:
            named = {"program": named_words(running.program)}
            day.write_facts({**facts, **named, "version": version_of(running.program)})
        if processes.run(signals, build_words(running.program)) != 0:
            raise Refused("there is no program to run a desk with")
        check_minutes(running.part)
        running.part = next_part(signals, running.part)
        running.start(REOPENING)
    except BaseException as fault:
        running.end_desk()
        running.desk = None
        running.note(CLOSED)
        os.close(held)
        if isinstance(fault, Stopped):
            announce("ended before it was open")
            return 130
        raise
    return keep(running, web)
