"""Those who read: the timetable as it stands, without seats, logs or reasons."""
from __future__ import annotations

import asyncio
import contextlib
import copy
from typing import Any, Optional

from office.day.edits import Edit
from office.day.folder import Day
from office.day.lecture import Lecture, Slot
from office.day.parts import DayMinutes
from office.day.shifts import shifts_of
from office.day.timetable import Timetable
from office.refused import Refused
from office.web.frame import Frame
from office.web.guard import Fault
from office.web.lines import Line
from office.web.message_types import CellData, ReaderPictureData, WeekData
from office.web.verbs import Request
from office.web.windows import Window, Windows
from office.work.week import Signs, View, all_views, blocked_at, by_slot, of_view, weeks_of

# so many may read at once; one more lets go the one that has been there longest
MOST = 1000
Data = dict[str, Any]


class Readers:
    """Those who have the reader's link."""

    called = "who reads"

    def __init__(self, day: Day, frame: Frame) -> None:
        self.frame = frame
        self.windows = Windows(MOST, makes_room=True)
        self.minutes = DayMinutes(day)
        # how often the timetable was another one, and what was drawn of it: each week once for all
        # who see it
        self.version = 0
        self._drawn: dict[View, ReaderPictureData] = {}
        self._begin()
        self._read_on()

    def _begin(self) -> None:
        """Takes up the start and the rules of a part of the day."""
        part = self.minutes.part
        self.instance = copy.copy(self.frame.instance)
        self.instance.block(part.closures(self.instance))
        self.timetable = Timetable(self.instance, part.lectures())

    def _read_on(self) -> set[View]:
        """Reads what is new, through all parts of the day that are there; answers the weeks that
        may be others by it."""
        found: set[View] = set()
        while True:
            # what a part has is whole once the next one is there
            is_last = self.minutes.part.is_last()
            for entry in self.minutes.read_on():
                for edit in entry.edits:
                    found.update(self._make(edit))
            if is_last:
                return found
            self.minutes.step()
            self._begin()
            found.update(all_views(self.instance))

    def _make(self, edit: Edit) -> set[View]:
        """Makes an edit of an accepted draft, and answers the weeks that it changes."""
        try:
            shifts = shifts_of(edit, self.timetable)
            self.timetable.make(edit)
        except (ValueError, KeyError, IndexError):
            path = self.minutes.part.minutes
            raise Refused(f"{path} is damaged: {edit} is no edit of this day") from None
        both = [one for shift in shifts for one in shift if one is not None]
        return {view for one in both for view in weeks_of(self.instance, one)}

    async def answer(self, window: Window, verb: str, data: Data) -> Data:
        request = Request(self.instance, data)
        if verb not in ("hello", "show"):
            raise Fault(403, "who reads changes nothing")
        if verb == "show":
            window.shown = request.view()
            return {"picture": self.picture(window)}
        # a page that comes back may be one of another day
        with contextlib.suppress(Fault):
            window.shown = request.view()
        return {**self.frame.data(), "picture": self.picture(window)}

    def picture(self, window: Window) -> ReaderPictureData:
        """The week that a window shows, as it stands now."""
        view: View = window.shown or all_views(self.instance)[0]
        window.shown = view
        if view not in self._drawn:
            self._drawn[view] = self._draw(view)
        return self._drawn[view]

    def _draw(self, view: View) -> ReaderPictureData:
        closed = self.instance.closed[view.name] if view.kind == "course" else set()
        lectures = by_slot(of_view(self.timetable, view))
        blocked = {one for one in self.instance.slots() if blocked_at(self.instance, view, one)}
        cells = [
            self.cell(slot, lectures.get(slot, []), slot in closed, slot in blocked)
            for slot in self.instance.slots()
            if slot in lectures or slot in closed or slot in blocked
        ]
        title = self.frame.wording.name(*view)
        week: WeekData = {
            "view": view,
            "title": title,
            "about": self.frame.about(view),
            "missing": "",
            "working": [],
            "cells": cells,
        }
        return {"number": self.version, "week": week}

    def cell(
        self, slot: Slot, lectures: list[Lecture], is_closed: bool, is_blocked: bool
    ) -> CellData:
        """A slot for who reads, who is told neither why it is blocked nor by whom."""
        return {
            "at": slot,
            "lectures": [self.frame.lecture(one, None, Signs(0, 0)) for one in lectures],
            "mine": False,
            "others": [],
            "changed": "",
            "now": None,
            "closed": is_closed,
            "gone": [],
            "working": [],
            "pinned": False,
            "blocked": [{"why": "", "text": "blocked"}] if is_blocked else [],
        }

    def _draw_anew(self) -> None:
        self.version += 1
        self._drawn.clear()

    async def look(self, stamp: Any) -> None:
        """Tells those whose week may be another one: each week is drawn, written and packed once,
        and between two of them others have their turn."""
        self.windows.drop_silent()
        views = self._read_on() if self.minutes.has_more() else set()
        if not views:
            return
        self._draw_anew()
        lines: dict[View, Line] = {}
        for window in self.windows.all():
            if not window.is_listening or window.shown not in views:
                continue
            if window.shown not in lines:
                await asyncio.sleep(0)
                lines[window.shown] = Line({"picture": self.picture(window)})
            window.tell(lines[window.shown])

    async def rename(self) -> None:
        """Tells who reads what things are called now."""
        self._draw_anew()
        for window in self.windows.all():
            if window.is_listening:
                window.tell({"names": self.frame.data(), "picture": self.picture(window)})

    def tell(self, event: Data) -> None:
        for window in self.windows.all():
            window.tell(event)

    def person(self) -> Optional[Data]:
        return None
