"""`office open`: all is checked first, then the desk is started, and only when each seat answers is
the office said to be open."""
from __future__ import annotations

import contextlib
import os
from typing import Optional

from office.data import given_tables, plan_book
from office.data.label_files import FILES, check_zone, has_labels, read_labels
from office.day import mending, processes
from office.day.closure import Closure
from office.day.closures_file import (
    add_closure,
    blocked_now,
    blocked_text,
    closures_path,
    closures_size,
    read_blocked,
    read_closures,
    standing,
)
from office.day.desk_words import encoded
from office.day.folder import CHECKING, SEATS, Day
from office.day.instance import Instance, completion_words, read_instance
from office.day.open_office import Running, keep
from office.day.minute_sums import sums_path
from office.day.parts import FIRST, Part, last_part
from office.day.pins import pins_path
from office.day.processes import Signals, Stopped
from office.day.program import (
    build_words,
    day_program,
    named_words,
    program_words,
    run_on_files,
    version_of,
)
from office.day.safe_files import lock, must_be_own, open_or_make, sync, write_whole
from office.day.spare import keep_room, spare_path
from office.refused import Refused, Silent, sentence
from office.seat.seat import user_name
from office.words.announce import announce


class Plan:
    """What a day is opened with."""

    def __init__(
        self, day: Day, planners: int, instance: str, start: Optional[str], barred: Optional[str]
    ) -> None:
        self.day = day
        self.planners = planners
        self.instance = instance
        self.start = start
        self.barred = barred
        # a side file of what is blocked, or in its place what another day has left blocked
        self.blocked: Optional[str] = None
        self.closures: list[Closure] = []
        self.after: Optional[Day] = None
        # the folder of the labels that the day takes along
        self.labels: Optional[str] = None
        # the command that serves the seats to browsers, if they are to be
        self.web: list[str] = []
        # the start is the end of another day under another instance, or under other rules: what
        # cannot stand any more is set aside
        self.mends = False
        self.program = ["timedesk"]

    def take_closures(self, folder: Optional[str]) -> None:
        """Blocks beside what is blocked already what an import has, if there is one."""
        if folder is not None:
            self.closures = standing([*self.closures, *read_closures(Day(folder))])


def plan_after(
    day: Day, before: Day, planners: Optional[int], instance: Optional[str], barred: Optional[str]
) -> Plan:
    """The plan of a day that begins with what another one has left."""
    facts = before.facts()
    if before.is_open():
        raise Refused(f"{before.path} is still open: office close {before.path}")
    if not os.path.exists(before.end):
        raise Refused(f"{before.path} is not closed yet: office close {before.path}")
    kept = before.barred if os.path.exists(before.barred) else None
    plan = Plan(
        day, planners or facts["planners"], instance or before.instance, before.end, barred or kept
    )
    plan.after, plan.program = before, day_program(facts)
    plan.labels = before.path if has_labels(before.path) else None
    plan.closures = standing(read_closures(before))
    # what was blocked when the day ended may not have come to its rules any more
    is_behind = plan.closures != standing(read_closures(before, 0, last_part(before).taken()))
    plan.mends = instance is not None or barred is not None or is_behind
    return plan


def take_office(day: Day) -> int:
    """Takes the lock of a day's office."""
    try:
        held = lock(day.office)
        if held is not None:
            must_be_own(held, day.office)
    except OSError as fault:
        raise Refused(f"cannot write into {day.path}: {sentence(fault)}") from None
    if held is None:
        raise Refused(f"an office is open in {day.path}")
    return held


def claim(day: Day) -> tuple[int, bool]:
    """Makes the folder of a day, and takes its lock: the lock, and whether the folder was made."""
    made = False
    try:
        os.mkdir(day.path, 0o700)
        made = True
        sync(os.path.dirname(os.path.abspath(day.path)))
    except FileExistsError:
        pass
    except OSError as fault:
        raise Refused(f"cannot make {day.path}: {fault.strerror}") from None
    held = take_office(day)
    minutes = Part(day, FIRST).minutes
    if day.is_there() or (os.path.exists(minutes) and os.path.getsize(minutes)):
        os.close(held)
        raise Refused(f"{day.path} has a day already: give each day a folder of its own")
    return held, made


class Opening:
    """An office from its first check to its end."""

    def __init__(self, plan: Plan, signals: Signals) -> None:
        self.plan = plan
        self.day = plan.day
        self.signals = signals
        self.part = Part(plan.day, FIRST)
        self.lock, self.made = claim(self.day)
        self.running = Running(self.part, plan.planners, self.lock, signals)
        # the files that were copied, by their copies
        self.sources: dict[str, str] = {}

    def open(self) -> int:
        """Opens the office, and keeps it until it is closed. Until it is open, a refusal or a
        signal leaves nothing of it."""
        try:
            self.running.note(CHECKING)
            self.prepare()
            self.running.program = self.plan.program
            self.running.start()
        except BaseException:
            self.running.end_desk()
            self.forget()
            raise
        return keep(self.running, self.plan.web)

    def prepare(self) -> None:
        """Builds the program if need be, copies the files, and has them checked as they were
        copied."""
        plan, day = self.plan, self.day
        if self.build() != 0:
            raise Refused("there is no program to run a desk with")
        if plan.labels:
            self.copy_labels(plan.labels)
        self.copy_along([plan.after.path] if plan.after else [], plan.labels)
        if plan.after and os.path.exists(pins_path(plan.after)):
            self.copy(pins_path(plan.after), pins_path(day))
        self.copy(plan.instance, day.instance)
        if plan.mends:
            self.check()
        if plan.mends and plan.after and plan.barred == plan.after.barred:
            mending.keep_barred(day, plan.barred)
        elif plan.barred:
            self.copy(plan.barred, day.barred)
        self.block()
        if plan.start and plan.mends:
            instance = read_instance(day.instance)
            instance.block(standing(read_closures(day)))
            mending.mend(self.signals, plan.program, self.part, instance, plan.start)
        elif plan.start:
            self.copy(plan.start, self.part.start)
        self.check()
        names = "\n".join(completion_words(read_instance(day.instance)))
        write_whole(day.names, encoded(names + "\n"))
        os.close(open_or_make(self.part.minutes, os.O_WRONLY, 0o640))
        self.write_facts()
        keep_room(day)

    def write_facts(self) -> None:
        plan = self.plan
        self.day.write_facts(
            {
                "planners": plan.planners,
                "program": named_words(plan.program),
                "version": version_of(plan.program),
                "opened": processes.now(),
                "instance": os.path.abspath(plan.instance),
                "start": os.path.abspath(plan.start) if plan.start else None,
                "after": os.path.abspath(plan.after.path) if plan.after else None,
                "closures": closures_size(self.day),
            }
        )

    def block(self) -> None:
        """Takes up what is blocked: by a side file, which the program reads first, or since another
        day. Of that what the instance does not have any more is left out, and said."""
        plan, day = self.plan, self.day
        if plan.blocked:
            self.copy(plan.blocked, self.part.blocked)
            self.check()
            scopes = read_blocked(self.part.blocked)
            closures = [blocked_now(scope, user_name(), None, "") for scope in scopes]
        else:
            closures = self.fitting(plan.closures)
        for closure in closures:
            fault = add_closure(day, closure)
            if fault:
                raise Refused(f"cannot write {closures_path(day)}: {fault}")
        if closures:
            write_whole(self.part.blocked, blocked_text(closures))

    def fitting(self, closures: list[Closure]) -> list[Closure]:
        """Closures without those of which the instance has the name or the slot no more."""
        if not closures:
            return []
        instance: Instance = read_instance(self.day.instance)
        for closure in closures:
            if not closure.scope.is_of(instance):
                announce(f"not blocked any more: {closure.scope.words()}: there is no such thing")
        return [closure for closure in closures if closure.scope.is_of(instance)]

    def copy_labels(self, folder: str) -> None:
        if not has_labels(folder):
            raise Refused(f"{folder} has none of {', '.join(FILES)}")
        check_zone(read_labels(folder), folder)
        for file in FILES:
            if os.path.exists(os.path.join(folder, file)):
                self.copy(os.path.join(folder, file), self.day.file(file))

    def copy_along(self, before: list[str], labels: Optional[str]) -> None:
        """Goes on with the identities that calendars have, of the day before or of the plan; and
        with the tables as they were given, of a plan that was imported again or of the day."""
        plan = [labels] if labels else []
        for file, folders in (
            (plan_book.FILE, [*before, *plan]),
            (given_tables.FILE, [*plan, *before]),
        ):
            there = [one for one in folders if os.path.exists(os.path.join(one, file))]
            if there:
                self.copy(os.path.join(there[0], file), self.day.file(file))

    def check(self) -> None:
        """Has the program read what was copied so far."""
        words = ["run", self.day.instance, os.devnull, *self.part.start_words()]
        status = run_on_files(self.signals, [*self.plan.program, *words], self.sources)
        if status != 0:
            raise Silent(status)

    def build(self) -> int:
        words = build_words(self.plan.program)
        try:
            return processes.run(self.signals, words)
        except OSError as fault:
            raise Refused(f"cannot run {words[0]}: {fault.strerror}") from None

    def copy(self, source: str, target: str) -> None:
        try:
            with open(source, "rb") as file:
                text = file.read()
        except OSError as fault:
            raise Refused(f"cannot read {source}: {fault.strerror}") from None
        self.signals.check()
        self.sources[target] = source
        write_whole(target, text)

    def forget(self) -> None:
        """Removes what was made, before the office is open."""
        day, part = self.day, self.part
        made = [
            day.instance,
            day.barred,
            day.facts_file,
            day.names,
            part.start,
            part.blocked,
            part.minutes,
            sums_path(part),
            part.aside,
            part.file("known.sol"),
            closures_path(day),
            pins_path(day),
            spare_path(day),
            *map(day.file, (*FILES, plan_book.FILE, given_tables.FILE)),
        ]
        for path in [*made, day.office]:
            for ending in ("", ".new"):
                with contextlib.suppress(FileNotFoundError):
                    os.remove(path + ending)
        os.close(self.lock)
        if self.made:
            with contextlib.suppress(OSError):
                os.rmdir(day.path)


def open_day(plan: Plan, unproved: bool) -> int:
    """Opens a day, keeps it, and answers the status with which the office ends."""
    if not 1 <= plan.planners <= SEATS:
        raise Refused(f"planners are 1 to {SEATS}")
    signals = Signals()
    # a day that follows another one has its program, if no other is asked for
    if plan.after is None or unproved or os.environ.get("TIMEDESK"):
        plan.program = program_words(unproved)
    try:
        return Opening(plan, signals).open()
    except Stopped:
        announce("ended before it was open")
        return 130
