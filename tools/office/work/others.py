"""What a planner is told of the others at work, and of pins, and what he tells them."""
from __future__ import annotations

from typing import Callable, Optional

from office.day.lecture import Lecture
from office.day.open_drafts import AtWork
from office.day.pins import Pin
from office.seat.courtesies import SeatStatus, who_sits
from office.words.closure_notices import blocked_here_notice
from office.words.notice import NOTHING, Notice, Question, say
from office.work.planning import Planning
from office.work.week import Cell, View, those_of

Act = Callable[[], Optional[Question]]


def pin_notice(pin: Pin) -> Notice:
    """Who pinned a lecture, when and why."""
    why = say("because", why=pin.why) if pin.why else NOTHING
    return say("pinned", who=pin.name, time=pin.time, why=why)


def at_work_notice(work: AtWork) -> Notice:
    return say("at work", who=work.name, time=work.since)


class Knowing:
    """What is known of others, for one who looks at a week."""

    def __init__(self, planning: Planning) -> None:
        self.planning = planning
        self.courtesies = planning.courtesies

    # who is where

    def who_is_where(self) -> Question:
        """Who sits, on what he works, and since when."""
        seat = self.planning.seat
        lines = [self.seat_line(one) for one in who_sits(seat.day, seat.facts["planners"])]
        return Question(say("who is where"), lines)

    def seat_line(self, sitter: SeatStatus) -> Notice:
        """A seat in words."""
        who = say("nobody")
        if sitter.is_there:
            who = say("sits", who=sitter.name or "somebody", time=sitter.since)
        return say("at seat", planner=sitter.planner, sitter=who, work=self.draft_notice(sitter))

    def draft_notice(self, sitter: SeatStatus) -> Notice:
        """The draft of a seat, as far as its client tells of it."""
        work = sitter.work
        if work is None:
            return say("no draft known") if sitter.is_there else NOTHING
        courses = list(dict.fromkeys(lecture.course for lecture in work.lectures))
        return say(
            "draft since",
            count=work.edits,
            who=work.name,
            time=work.since,
            reasons=[say("one course", course=course) for course in courses],
        )

    def names_at_work(self, view: View) -> list[str]:
        """Who has a draft open that changes something of a week."""
        return [
            work.name
            for work in self.courtesies.works()
            if those_of(self.planning.instance, view, work.lectures)
        ]

    def notices_of(self, cell: Cell) -> list[Notice]:
        """What is to be known of a cell."""
        blocked = map(blocked_here_notice, cell.blocked)
        return [*blocked, *map(pin_notice, cell.pins), *map(at_work_notice, cell.at_work)]

    # pins

    def ask_pinned(self, lecture: Lecture, act: Act) -> Optional[Question]:
        """Does something with a lecture, and asks first if it is pinned."""
        pin = self.courtesies.pin_of(lecture)
        if pin is None:
            return act()
        title = say("pinned lecture", course=lecture.course, slot=lecture.slot)
        return Question(title, [pin_notice(pin)], {"go on": act})

    def can_pin(self, lecture: Optional[Lecture]) -> bool:
        """Whether a lecture can be pinned: it stands there in the newest timetable, too. Says so
        if it cannot."""
        planning = self.planning
        if lecture is None:
            planning.notice = say("lecture first")
        elif planning.known.newest.room_at(lecture.course, lecture.slot) is None:
            planning.notice = say("commit first", course=lecture.course)
        else:
            return True
        return False

    def ask_unpin(self, lecture: Lecture) -> Optional[Question]:
        """Asks whether a pin goes; None if there is none."""
        pin = self.courtesies.pin_of(lecture)
        if pin is None:
            return None
        title = say("take pin off", course=lecture.course, slot=lecture.slot)
        return Question(title, [pin_notice(pin)], {"unpin": lambda: self.unpin(lecture)})

    def pin(self, lecture: Lecture, why: str) -> None:
        self.tell_pin("pinned now", lecture, self.courtesies.pin(lecture, why))

    def unpin(self, lecture: Lecture) -> None:
        self.tell_pin("unpinned", lecture, self.courtesies.unpin(lecture))

    def tell_pin(self, code: str, lecture: Lecture, fault: str) -> None:
        """Says what has become of a pin."""
        if fault:
            self.planning.notice = say("no pin", fault=fault)
        else:
            self.planning.notice = say(code, course=lecture.course, slot=lecture.slot)
