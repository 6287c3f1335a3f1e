"""What several seats of a day in one process share: each file is read once for all of them."""
from __future__ import annotations

import threading

from office.day.folder import Day
from office.day.minutes import Entry, Minutes
from office.day.open_drafts import AllAtWork
from office.day.parts import DayMinutes
from office.work.news import Commits


class MinutesOfOne(Minutes):
    """The minutes of a part for one of several seats."""

    def __init__(self, first: Minutes, lock: threading.Lock) -> None:
        super().__init__(first.path, first.before)
        self._first, self._lock = first, lock

    def read_on(self) -> list[Entry]:
        with self._lock:
            if self._first.has_grown():
                self._first.read_on()
            new = self._first.entries[len(self.entries) :]
            self._at, self.is_damaged = self._first.read_to(), self._first.is_damaged
        self.entries += new
        return new


class SharedReading:
    """What the seats of a day share."""

    def __init__(self, day: Day, planners: int) -> None:
        self.day = day
        self.everybody = AllAtWork(day, planners)
        self.commits = Commits(day)
        self._minutes: dict[str, Minutes] = {}
        self._lock = threading.Lock()

    def day_minutes(self) -> DayMinutes:
        """The minutes of the day, for one seat."""
        return DayMinutes(self.day, self._of_one)

    def _of_one(self, path: str, before: int) -> Minutes:
        with self._lock:
            first = self._minutes.setdefault(path, Minutes(path, before))
        return MinutesOfOne(first, self._lock)
