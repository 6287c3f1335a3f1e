"""What a planner knows at a seat: by the desk's answers, by looks, and by the minutes."""
from __future__ import annotations

import contextlib
import copy
import os
import time
from typing import Optional, Union

from office.day.edits import Edit
from office.day.instance import Instance
from office.day.lecture import Lecture
from office.day.minutes import Entry
from office.day.parts import DayMinutes, RuleChange, instance_of
from office.day.processes import now
from office.day.safe_files import open_or_make
from office.day.shifts import Shift, all_shifts, shifts_of
from office.day.timetable import Timetable
from office.seat.answers import WANTING, Answer, Row, Status, costs_in, lectures_in, missing_in
from office.seat.calls import Look, Turn
from office.seat.courtesies import Courtesies
from office.seat.seat import Seat
from office.seat.timetables import Timetables
from office.words.notice import NOTHING, Notice, say
from office.work.looks_on_disk import look_on_disk
from office.work.news import Accepted, News
from office.work.part_reading import read_parts
from office.work.shared_reading import SharedReading

# how many seconds are waited before a draft is read, and read again if it is not as expected
WAITS = (0.0, 0.05, 0.2, 0.5)
# how many seconds an accepted draft may need to be in the minutes, and how many are on their way
LATE = 1.0
FEW = 8


class Reading:
    """What a planner knows. `notice` is what the last step has to say. Several seats in one process
    may share an instance, and what they read of the day."""

    def __init__(
        self,
        seat: Seat,
        instance: Optional[Instance] = None,
        shared: Optional[SharedReading] = None,
    ) -> None:
        self.seat = seat
        # with the rules of the part of the day that is read
        self.instance = copy.copy(instance or instance_of(seat.day))
        self.minutes = shared.day_minutes() if shared else DayMinutes(seat.day)
        self.known = Timetables(self.instance, self.minutes.part.lectures())
        self.state = seat.state
        self.state.timetables = self.known
        # how the parts of the day but the first one have come about, as far as they are read, and
        # of how many of these the planner was told
        self.changes: list[RuleChange] = []
        self.shown_changes = 0
        self.news = News(seat.day, shared.commits if shared else None)
        self.courtesies = Courtesies(seat, shared.everybody if shared else None)
        self.notice: Notice = NOTHING
        # said beside the notice, where the desk has answered otherwise than expected
        self.alarm: Notice = NOTHING
        # answers to looks, until something changes
        self._cache: dict[str, Answer] = {}
        # how many drafts were accepted before the draft was opened, and what the timetable cost
        # then
        self.opened_at = 0
        self.base_total: Optional[int] = None
        self.base_costs: dict[str, int] = {}
        # how many were accepted when the planner sat down, or when his last draft ended
        self.seen_at = 0
        self.has_begun = False
        # whether the minutes have led to the timetable that is known, and whether they can still be
        # written
        self.is_sound = True
        self.is_failing = False
        # the row for which a commit was or, by the last status, would be told that the draft is
        # stale
        self.stale_row: Optional[Row] = None
        self.stale_preview: Optional[Row] = None

    @property
    def is_open(self) -> bool:
        return self.state.is_open and self.known.draft is not None

    def edits(self) -> list[Edit]:
        """The edits of the draft, without those that were taken back."""
        return self.state.edits

    def shifts(self) -> list[list[Shift]]:
        """What each edit of the draft did."""
        return all_shifts(self.edits(), self.known.base) if self.known.base else []

    def ended(self) -> list[Edit]:
        """The edits of the last draft, if it ended without being accepted and was not given up."""
        return self.state.ended

    def accepted_count(self) -> int:
        """How many drafts were accepted since the draft was opened."""
        return len(self.minutes.entries) - self.opened_at

    def accepted_since(self) -> list[Accepted]:
        """What others have had accepted since the draft was opened; without a draft, since the
        planner sat down or his last draft ended."""
        since = self.opened_at if self.is_open else self.seen_at
        mine = self.seat.planner
        return [one for one in self.news.accepted[since:] if one.entry.planner != mine]

    def look(self, words: str) -> Answer:
        """What a look is told: of the draft if one is open, without becoming part of it; else of
        the newest timetable."""
        line = f"{'peek' if self.is_open else 'show'} {words}"
        if line not in self._cache:
            answer = None if self.is_failing and not self.is_open else self.ask(line)
            # the answer itself may reveal that the minutes have failed
            if answer is None or (self.is_failing and not self.is_open):
                look = Look(tuple(words.split(" ")))
                answer = look_on_disk(self.seat.day, self.known.newest, look)
            if answer in WANTING:
                # it may be answered when it is asked again
                return answer
            self._cache[line] = answer
        return self._cache[line]

    def lectures(self, words: str) -> list[Lecture]:
        """The lectures that a look is told."""
        return lectures_in(self.look(words))

    def costs(self) -> dict[str, int]:
        return costs_in(self.look("cost"))

    def missing(self) -> dict[str, int]:
        """The courses of which lectures are not placed, and how many."""
        return missing_in(self.look("missing"))

    def begin(self) -> None:
        """Hears what was under way, and takes up a draft that is open."""
        self.seat.catch_up()
        answer = self.ask_again(Turn.STATUS)
        self.is_failing = os.path.exists(self.seat.day.failing)
        read_parts(self)
        self.read_newest()
        self.has_begun = True
        self.shown_changes = len(self.changes)
        self._mark_seen()
        self.courtesies.begin()
        if isinstance(answer, Status):
            self._resume()
        self.courtesies.keep_own(self.is_open, self.shifts())

    def begin_part(self) -> None:
        """Hears the desk of another part, at which no draft is open."""
        self._cache.clear()
        self.is_sound, self.is_failing = True, os.path.exists(self.seat.day.failing)
        self.stale_row = self.stale_preview = None
        self.base_total, self.base_costs = None, {}
        self.seat.catch_up()

    def _mark_seen(self) -> None:
        """What others have done until now is not new any more."""
        self.known.mark_seen()
        self.seen_at = len(self.minutes.entries)

    def take_up_draft(self) -> None:
        """Takes up the open draft: its base is what the drafts before it have left, and on that
        stand the edits of the log."""
        made, known = self.state.made, self.known
        for wait in WAITS:
            time.sleep(wait)
            self.read_status()
            draft = self.read_all("peek")
            if made and self._find_base(draft):
                return
            if not made:
                self.state.stand_on(draft.copy())
                # if it is the newest timetable, the minutes may have that a moment later
                is_newest = draft.same_as(known.newest)
                if self.accepted_count() or is_newest or not self.minutes.is_readable():
                    return
        known.draft = draft
        self.alarm = say("differs") if made else self.alarm

    def _find_base(self, draft: Timetable) -> bool:
        """Finds the base on which the edits lead to the draft. Drafts that were accepted just now
        may not have been in the minutes when the desk counted them."""
        self.read_minutes()
        last = min(len(self.minutes.entries), self.opened_at + FEW)
        for count in range(max(self.minutes.offset, self.opened_at), last + 1):
            is_made = self.state.stand_on(self.news.after(count, self.known.newest))
            if is_made and self.known.draft is not None and self.known.draft.same_as(draft):
                self.opened_at = count
                return True
        return False

    def _resume(self) -> None:
        """Takes up a draft that was left open."""
        self.take_up_draft()
        self.base_total = self.seat.past.base
        self.notice = say("as you left it", count=len(self.edits()))

    def ask(self, call: Union[Edit, Turn, str]) -> Answer:
        """Says something to the desk, and takes up its answer. If it is not as expected, everything
        is read again."""
        answer, expected = self.seat.ask(call), self.seat.fits
        is_show = isinstance(call, str) and call.startswith("show ")
        until = time.monotonic() + LATE
        while is_show and not expected and self.wait_for_minutes(until):
            # in time, however many are accepted meanwhile
            is_show = time.monotonic() < until
            # somebody was accepted in between
            answer, expected = self.seat.ask(call), self.seat.fits
        if call in (Turn.REDO, Turn.REFRESH) and not expected and self.wait_for_minutes(until):
            self.take_up_draft()
            expected = True
        if not expected and not (is_show and self.is_failing):
            self.read_anew()
        return answer

    def wait_for_minutes(self, until: float) -> bool:
        """Waits until the minutes have grown: the desk shows an accepted draft a moment before it
        is in them. Answers whether they have, in time."""
        while not self.read_minutes():
            if time.monotonic() > until:
                return False
            time.sleep(0.01)
        return True

    def turn(self, call: Union[Edit, Turn, str]) -> Answer:
        """Says something that changes something: earlier answers do not hold any more."""
        was_open = self.is_open
        answer = self.ask(call)
        self._cache.clear()
        self.read_minutes()
        if was_open and not self.is_open:
            self._mark_seen()
        self.courtesies.keep_own(self.is_open, self.shifts())
        return answer

    def ask_again(self, call: Union[Turn, str]) -> Answer:
        """Says something that changes nothing, again if the desk has no memory for it now."""
        answer = self.seat.ask(call)
        for _ in range(3):
            if answer not in WANTING:
                break
            answer = self.seat.ask(call)
        return answer

    def read_all(self, look: str) -> Timetable:
        """Reads a whole timetable, slot by slot, by `peek` or by `show`."""
        found: list[Lecture] = []
        lines = [f"{look} slot {day} {period}" for day, period in self.instance.slots()]
        for line, answer in zip(lines, self.seat.ask_all(lines)):
            found += lectures_in(self.ask_again(line) if answer in WANTING else answer)
        return Timetable(self.instance, found)

    def read_newest(self) -> None:
        """Compares the newest timetable of the desk with that of the minutes, which are on the
        disk. They differ for a moment when somebody is accepted. If they go on to differ, the
        minutes fail, and what is on the disk is shown until they grow."""
        until = time.monotonic() + LATE
        while not self.is_failing:
            self.read_minutes()
            newest = self.read_all("show")
            if newest.same_as(self.known.newest):
                return
            if not self.is_sound or not self.minutes.is_readable():
                self.known.newest = newest
                return
            if time.monotonic() > until:
                self.is_failing = True
                self._cache.clear()
            time.sleep(0.02)

    def fail(self) -> None:
        """Notes that the minutes fail, as the desk has said: nothing that is committed from now on
        is on the disk. The other seats learn of it by a file of the day, if that can be made."""
        self.is_failing = True
        self._cache.clear()
        with contextlib.suppress(OSError):
            os.close(open_or_make(self.seat.day.failing, os.O_WRONLY, 0o660))

    def read_anew(self) -> None:
        """Reads everything anew, as the desk has it, and says so; if the minutes fail, that is said
        all the time."""
        self.read_again()
        if not self.is_failing:
            self.alarm = say("differs")

    def read_again(self) -> None:
        self._cache.clear()
        self.read_newest()
        if isinstance(self.ask_again(Turn.STATUS), Status):
            self.take_up_draft()
        else:
            self.known.end()
        self.courtesies.keep_own(self.is_open, self.shifts())

    def tick(self) -> bool:
        """Looks whether others were accepted, and what a commit would be told by now; answers
        whether there is news."""
        is_new = self.courtesies.read_on()
        if not self.is_failing and os.path.exists(self.seat.day.failing):
            self.is_failing = True
            self._cache.clear()
            return True
        if not self.minutes.has_grown() or not self.read_minutes():
            return is_new
        if self.is_open:
            self.read_status()
        return True

    def read_minutes(self) -> list[Entry]:
        """Takes up the drafts that were accepted since."""
        entries = self.minutes.read_on()
        if entries:
            # a draft that is open is what it was, whatever others commit
            drafts = self._cache.items() if self.is_open else ()
            self._cache = {line: answer for line, answer in drafts if line.startswith("peek")}
            self.is_failing = self.is_failing and os.path.exists(self.seat.day.failing)
        if not all([self._accept(entry) for entry in entries]):
            self.is_sound = False
            self.known.newest = self.read_all("show")
        return entries

    def has_entry(self, number: int) -> bool:
        """Whether the minutes have an accepted draft, as one of this planner."""
        entries = self.minutes.entries
        return number <= len(entries) and entries[number - 1].planner == self.seat.planner

    def read_status(self) -> None:
        """Reads how many drafts were accepted since the draft was opened."""
        self.read_minutes()
        answer = self.ask_again(Turn.STATUS)
        if isinstance(answer, Status):
            self.opened_at = len(self.minutes.entries) - answer.since
            self.stale_preview = answer.stale

    def _accept(self, entry: Entry) -> bool:
        """Takes up an accepted draft, and answers whether it fits what is known."""
        shifts: list[list[Shift]] = []
        fits = True
        for edit in entry.edits:
            shifts.append(shifts_of(edit, self.known.newest))
            fits = self.known.accept([edit]) and fits
        self.news.add(entry, shifts, now() if self.has_begun else "")
        return fits

    def changes_of(self, row: Row) -> list[Accepted]:
        """The accepted drafts that changed a row since the draft was opened."""
        return [one for one in self.news.accepted[self.opened_at :] if one.changes(row)]
