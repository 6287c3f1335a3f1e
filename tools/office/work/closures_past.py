"""What was blocked and lifted on a day, as a part of its history, and how the lectures go back that
were taken out by it."""
from __future__ import annotations

from functools import partial
from typing import NamedTuple, Optional

from office.day.closure import Closure, Scope
from office.day.closures_file import read_closures
from office.day.edits import Edit
from office.day.lecture import Lecture
from office.day.shifts import Shift
from office.past.subjects import Subject
from office.words.closure_notices import closure_notice
from office.words.notice import NOTHING, Notice, Question, say
from office.work.closures_here import Blocking
from office.work.planning import Planning


class ClosureEvent(NamedTuple):
    """A closure, or a lifting, with the lectures that were taken out by it."""

    closure: Closure
    asides: list[Lecture]

    def line(self) -> Notice:
        """The event in a list."""
        count = len(self.asides)
        more = say("closure took", count=count) if count else NOTHING
        closure = closure_notice(self.closure)
        return say("closure choice", closure=closure, time=self.closure.time, more=more)


class ClosuresPast:
    """What was blocked and lifted today."""

    def __init__(self, planning: Planning) -> None:
        self.planning = planning

    def is_of(self, scope: Scope, lecture: Lecture) -> bool:
        """Whether a lecture stands where something is blocked."""
        instance = self.planning.instance
        return scope.has_slot(lecture.slot) and scope.is_about(
            instance, lecture.course, lecture.room
        )

    def events(self) -> list[ClosureEvent]:
        """All that was blocked and lifted, in its order."""
        closures = read_closures(self.planning.seat.day)
        return [ClosureEvent(closure, self.taken_out(closure)) for closure in closures]

    def taken_out(self, closure: Closure) -> list[Lecture]:
        """The lectures that were taken out by a closure."""
        changes = [one for one in self.planning.changes if closure in one.closures]
        lectures = [aside.lecture for change in changes for aside in change.asides]
        return [one for one in lectures if self.is_of(closure.scope, one)]

    def concerns(self, what: Subject, event: ClosureEvent) -> bool:
        """Whether it is about something, or has taken out a lecture of it."""
        instance = self.planning.instance
        if event.closure.scope[:2] == what:
            return True
        return any(what.is_touched(instance, Shift(one, None)) for one in event.asides)

    def of(self, what: Subject) -> list[ClosureEvent]:
        return [event for event in self.events() if self.concerns(what, event)]

    def shown(self, event: ClosureEvent) -> Question:
        """What was blocked or lifted, to be read: what is blocked still can be lifted, and what
        stood there can be put back."""
        closure = event.closure
        lines = [say("why", why=closure.why) if closure.why else say("no why")]
        if event.asides:
            lines.append(say("took out"))
            lines += [say("set aside line", course=one.course, place=one) for one in event.asides]
        elif not closure.is_lifted:
            lines.append(say("took nothing out"))
        title = say("closure title", closure=closure_notice(closure), time=closure.time)
        if closure in self.planning.instance.closures:
            lift = partial(Blocking(self.planning).ask_lift, closure)
            return Question(title, lines, {"lift": lift})
        if self.gone(closure.scope):
            return Question(title, lines, {"put back": partial(self.put_back, closure.scope)})
        return Question(title, lines)

    # what stood where something was blocked

    def gone(self, scope: Scope) -> list[Lecture]:
        """The lectures that were taken out where something was blocked, and are missing still: of
        each course as many as are missing at most, the last ones."""
        now, found = self.planning.known.present(), list[Lecture]()
        asides = [one.lecture for change in self.planning.changes for one in change.asides]
        for lecture in reversed(asides):
            count = sum(one.course == lecture.course for one in found)
            is_free = now.room_at(lecture.course, lecture.slot) is None and lecture not in found
            if is_free and self.is_of(scope, lecture) and count < now.missing(lecture.course):
                found.append(lecture)
        return found[::-1]

    def offer(self, closures: list[Closure]) -> Optional[Question]:
        """Offers who has lifted something to put back what stood there before."""
        seat = self.planning.seat
        own = [one for one in closures if one.is_lifted and one.seat == seat.planner]
        for closure in own:
            gone = self.gone(closure.scope)
            if gone:
                lines = [say("set aside line", course=one.course, place=one) for one in gone]
                title = closure_notice(closure)
                act = partial(self.put_back, closure.scope)
                return Question(title, [say("stood before"), *lines], {"put back": act})
        return None

    def put_back(self, scope: Scope) -> Optional[Question]:
        """Places what stood there again, as edits of the planner's own draft, as far as it fits;
        says what does not, and why."""
        planning, gone = self.planning, self.gone(scope)
        if not gone:
            planning.notice = say("nothing to put back")
            return None
        edits = [Edit.place(one.course, one.room, one.slot) for one in gone]
        if not planning.open():
            return None
        refused = planning.make_again(edits)
        made = len(edits) - len(refused)
        planning.notice = say("put back now", made=made, count=len(edits))
        if not refused:
            return None
        return Question(planning.notice, [say("these refused"), *refused])
