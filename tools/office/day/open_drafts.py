"""On what planners work: each client keeps a file of the day with the lectures that its own open
draft changes. It is a courtesy, promised by nobody: a client that is killed leaves its file as it
was, and who types lines at a seat keeps none.
"""
from __future__ import annotations

import contextlib
import json
import os
from typing import NamedTuple, Optional

from office.day.folder import Day
from office.day.lecture import Lecture
from office.day.safe_files import make_anew, read_whole, share


class AtWork(NamedTuple):
    """A planner with an open draft: since when he has it, and the lectures that it changes, where
    they stood and where they stand."""

    planner: int
    name: str
    since: str
    edits: int
    lectures: tuple[Lecture, ...]


def work_path(day: Day, planner: int) -> str:
    return day.file(f"{planner}.work")


def keep_work(day: Day, work: AtWork) -> None:
    """Writes on what a planner works. What cannot be written is not said: an old file goes."""
    path, text = work_path(day, work.planner), json.dumps(work._asdict())
    try:
        with open(make_anew(path + ".new", 0o660), "w", encoding="ascii") as file:
            share(file.fileno())
            file.write(text)
        os.replace(path + ".new", path)
    except OSError:
        end_work(day, work.planner)


def end_work(day: Day, planner: int) -> None:
    """A planner has no draft open."""
    for ending in ("", ".new"):
        with contextlib.suppress(OSError):
            os.remove(work_path(day, planner) + ending)


def read_work(day: Day, planner: int) -> Optional[AtWork]:
    """On what a planner works; None if no draft of his is known."""
    try:
        found = json.loads(read_whole(work_path(day, planner)))
        lectures = tuple(Lecture(*lecture) for lecture in found["lectures"])
        return AtWork(planner, found["name"], found["since"], int(found["edits"]), lectures)
    except (OSError, ValueError, KeyError, TypeError, RecursionError):
        return None


Works = dict[int, AtWork]


class AllAtWork:
    """On what the planners of a day work. Files are read again if they have changed."""

    def __init__(self, day: Day, planners: int) -> None:
        self.day, self.planners = day, planners
        # replaced by another one when something changes
        self.works: Works = {}
        self._stamps: dict[int, tuple[int, int]] = {}

    def read_on(self) -> None:
        """Looks for what has changed."""
        works = dict(self.works)
        for planner in range(self.planners):
            stamp = self._stamp(planner)
            if self._stamps.get(planner, (0, 0)) == stamp:
                continue
            self._stamps[planner] = stamp
            works.pop(planner, None)
            work = read_work(self.day, planner) if stamp[1] else None
            if work is not None:
                works[planner] = work
        if works != self.works:
            self.works = works

    def _stamp(self, planner: int) -> tuple[int, int]:
        """Another one when a file is another one; (0, 0) if there is none."""
        try:
            found = os.stat(work_path(self.day, planner))
        except OSError:
            return 0, 0
        return found.st_mtime_ns, found.st_ino


class OthersAtWork:
    """On what the others of a day work. Seats in one process are given the same works, which are
    then read by who has made them."""

    def __init__(
        self, day: Day, planners: int, planner: int, everybody: Optional[AllAtWork] = None
    ) -> None:
        self.planner = planner
        self._everybody, self._is_shared = everybody or AllAtWork(day, planners), bool(everybody)
        self._known: Works = {}
        # the lectures of works that have changed, until they are taken up
        self._touched: set[Lecture] = set()

    def read_on(self) -> bool:
        """Looks for what has changed, and answers whether something has."""
        if not self._is_shared:
            self._everybody.read_on()
        old, self._known = self._known, self._everybody.works
        changed = [
            one.get(other)
            for other in {*old, *self._known}
            if other != self.planner and old.get(other) != self._known.get(other)
            for one in (old, self._known)
        ]
        self._touched.update(lecture for work in changed if work for lecture in work.lectures)
        return bool(changed)

    def take_touched(self) -> set[Lecture]:
        """The lectures of drafts that were opened, changed or ended since the last time."""
        touched, self._touched = self._touched, set()
        return touched

    def works(self) -> list[AtWork]:
        """The open drafts of the others, by seats."""
        return [self._known[other] for other in sorted(self._known) if other != self.planner]
