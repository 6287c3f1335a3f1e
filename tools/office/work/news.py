"""What accepted drafts have done, by whom and when, as far as a client can know it."""
from __future__ import annotations

import threading
from collections import Counter
from dataclasses import dataclass
from typing import Iterable, Optional

from office.day.commit_notes import CommitNote, NoteReader, read_commit_notes
from office.day.folder import Day
from office.day.lecture import Lecture
from office.day.minutes import Entry
from office.day.shifts import Shift, undo_shifts
from office.day.timetable import Timetable
from office.past.authors import CommitFacts, commits_of, read_seat_past
from office.seat.answers import Row
from office.seat.seat import read_sitter
from office.words.notice import Notice, say


# what is known of so many drafts, the last ones, is at hand; of older ones it is read again
KEPT = 20_000


@dataclass(frozen=True)
class Accepted:
    """An accepted draft: what each edit of it did, and when the client learnt of it; that is empty
    if it was before the planner sat down."""

    entry: Entry
    shifts: list[list[Shift]]
    learnt: str

    def all(self) -> list[Shift]:
        return [shift for shifts in self.shifts for shift in shifts]

    def changes(self, row: Row) -> bool:
        """Whether a row is another one after the draft than before."""

        def is_in(lecture: Lecture) -> bool:
            return lecture.slot == row.slot if row.slot is not None else lecture.course == row.name

        was = Counter(one.was for one in self.all() if one.was and is_in(one.was))
        return was != Counter(one.now for one in self.all() if one.now and is_in(one.now))


class Commits:
    """By whom, when and why the drafts of a day were committed. Seats in one process share it, so
    that each note is read, and each draft kept, once for all of them."""

    def __init__(self, day: Day) -> None:
        self.day = day
        self._reader = NoteReader(day)
        self._facts: dict[int, CommitFacts] = {}
        self._accepted: dict[int, Accepted] = {}
        self._lock = threading.RLock()

    def same(self, accepted: Accepted) -> Accepted:
        """A draft as another seat has taken it up, if that is the same."""
        known = self._accepted.setdefault(accepted.entry.number, accepted)
        is_same = known.entry is accepted.entry and known.shifts == accepted.shifts
        return known if is_same else accepted

    def read_on(self) -> int:
        """Reads the notes that are new, and answers how long all are: by that one knows whether
        more may be known of a draft than was told."""
        with self._lock:
            self._keep(self._reader.read_on())
            return self._reader.size

    def facts(self, accepted: Accepted, all_known: Iterable[Accepted]) -> CommitFacts:
        """What is known of a draft: by the notes, else by the log of its seat, as far as that is
        open to this planner, else who sits there now, and when the client learnt of it."""
        number, planner = accepted.entry.number, accepted.entry.planner
        with self._lock:
            if number not in self._facts:
                self.read_on()
            if number not in self._facts:
                self._keep(read_commit_notes(self.day).values())
            if number not in self._facts:
                self._read_log(planner, [one for one in all_known if one.entry.planner == planner])
            found = self._facts[number]
            if len(self._facts) > 2 * KEPT:
                for old in sorted(self._facts)[:-KEPT]:
                    del self._facts[old]
            return found

    def _keep(self, notes: Iterable[CommitNote]) -> None:
        for note in notes:
            self._facts[note.number] = CommitFacts(note.name, note.time, note.why)

    def _read_log(self, planner: int, drafts: list[Accepted]) -> None:
        """What is known of the drafts of a seat of which there are no notes."""
        commits = commits_of([read_seat_past(self.day, planner)])
        for one in drafts:
            if one.entry.number not in self._facts:
                time, name = commits.get(one.entry.number, ("", ""))
                name = name or read_sitter(self.day, planner)[0]
                self._facts[one.entry.number] = CommitFacts(name, time or one.learnt, "")


class News:
    """The accepted drafts of a day in their order."""

    def __init__(self, day: Day, commits: Optional[Commits] = None) -> None:
        self.commits = commits or Commits(day)
        self.accepted: list[Accepted] = []

    def add(self, entry: Entry, shifts: list[list[Shift]], learnt: str) -> None:
        """Takes up an accepted draft."""
        self.accepted.append(self.commits.same(Accepted(entry, shifts, learnt)))

    def after(self, count: int, newest: Timetable) -> Timetable:
        """The timetable after so many accepted drafts: the newest one, without the later ones."""
        found = newest.copy()
        for accepted in reversed(self.accepted[count:]):
            for shifts in reversed(accepted.shifts):
                undo_shifts(found, shifts)
        return found

    def read_notes(self) -> int:
        """Reads the notes of commits that are new, and answers how long all are."""
        return self.commits.read_on()

    def facts(self, accepted: Accepted) -> CommitFacts:
        """By whom, when and why a draft was committed."""
        return self.commits.facts(accepted, self.accepted)

    def who(self, accepted: Accepted) -> Notice:
        """Who committed a draft: the name, or the seat of somebody without one."""
        name, planner = self.facts(accepted).name, accepted.entry.planner
        return say("named", name=name) if name else say("seat", planner=planner)
