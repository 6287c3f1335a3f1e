"""Which accepted drafts the windows of a seat were sent, and which of their weeks those may have
changed."""
from __future__ import annotations

from typing import Any

from office.day.lecture import Lecture
from office.web.frame import Frame
from office.web.message_types import NewsData
from office.web.messages import news_data
from office.work.news import Accepted
from office.work.planning import Planning
from office.work.week import View, is_touched

# so many drafts are told when a window begins
DRAFTS = 40


def news_of(planning: Planning, frame: Frame, accepted: Accepted) -> NewsData:
    """An accepted draft, put into words once for all seats."""
    number, facts = accepted.entry.number, planning.news.facts(accepted)
    known = frame.news.get(number)
    if known is None or known[:2] != (accepted, facts):
        known = accepted, facts, news_data(planning, frame.wording, accepted)
        frame.news[number] = known
        frame.news.pop(number - 2 * DRAFTS, None)
    return known[2]


def last_news(planning: Planning, frame: Frame) -> list[NewsData]:
    """The last drafts that were accepted."""
    return [news_of(planning, frame, one) for one in planning.news.accepted[-DRAFTS:]]


class NewsSent:
    """How many drafts the windows of a planner were sent, and what of the last ones."""

    def __init__(self, planning: Planning, frame: Frame) -> None:
        self.planning, self.frame = planning, frame
        self.count = max(0, len(planning.news.accepted) - DRAFTS)
        # how long the notes of commits were then
        self.notes = 0
        self.sent: dict[int, NewsData] = {}
        self.read_on()

    def read_on(self) -> list[NewsData]:
        """Drafts that were accepted since, and those of which more is known by now: a reason is
        written after its commit."""
        news = self.planning.news
        notes, self.notes = self.notes, news.read_notes()
        first = self.count if notes == self.notes else max(0, self.count - DRAFTS)
        found = [news_of(self.planning, self.frame, one) for one in news.accepted[first:]]
        self.count = len(news.accepted)
        new = [one for one in found if self.sent.get(one["number"]) != one]
        # none before these is told again
        self.sent = {**self.sent, **{one["number"]: one for one in found}}
        for number in [*self.sent][:-DRAFTS]:
            del self.sent[number]
        return new


class Redrawn:
    """Which weeks others may have changed since they were drawn."""

    def __init__(self, planning: Planning) -> None:
        self.planning = planning
        self.count, self._whole = len(planning.news.accepted), self._rules()
        # whether all weeks may be others, and the lectures that were changed or are worked on
        self.are_all, self.lectures = False, set[Lecture]()

    def _rules(self) -> Any:
        """Is another one if all weeks may be others."""
        planning = self.planning
        return planning.minutes.part.number, planning.is_failing, planning.courtesies.pins

    def read_on(self) -> None:
        """Takes up what is new."""
        accepted, whole = self.planning.news.accepted, self._rules()
        self.are_all, self._whole = whole != self._whole, whole
        shifts = [shift for one in accepted[self.count :] for shift in one.all()]
        self.count = len(accepted)
        both = {one for shift in shifts for one in shift if one is not None}
        self.lectures = both | self.planning.courtesies.others.take_touched()

    def has(self, view: View) -> bool:
        """Whether a week is to be drawn anew."""
        return self.are_all or is_touched(self.planning, view, self.lectures)
