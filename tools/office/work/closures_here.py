"""A planner blocks a room, a teacher or a course from his seat, or lifts what is blocked. The
office changes the rules by it, and tells all who sit who has done so, and why."""
from __future__ import annotations

from typing import NamedTuple, Optional

from office.day.closure import Closure, Scope
from office.day.closures_file import add_closure, blocked_now, lifted_now, read_closures, standing
from office.day.lecture import Lecture, Slot
from office.words.closure_notices import closure_notice
from office.words.notice import Notice, Question, Reason, say
from office.work.planning import Planning
from office.work.week import View


class ClosureChoice(NamedTuple):
    """What can be blocked, or be lifted, from where the cursor is."""

    scope: Scope
    # what is lifted, if it is blocked
    lifts: Optional[Closure]
    notice: Notice


class Blocking:
    """What can be blocked at a seat."""

    def __init__(self, planning: Planning) -> None:
        self.planning = planning

    def targets(self, view: View, lecture: Optional[Lecture]) -> list[tuple[str, str]]:
        """What can be blocked: whose week is seen, and what a lecture needs."""
        courses = self.planning.instance.courses
        found: list[tuple[str, str]] = [] if view.kind == "curriculum" else [(view.kind, view.name)]
        if lecture is not None:
            found += [("room", lecture.room), ("teacher", courses[lecture.course].teacher)]
            found.append(("course", lecture.course))
        elif view.kind == "course":
            found.append(("teacher", courses[view.name].teacher))
        return list(dict.fromkeys(found))

    def choices(self, view: View, lecture: Optional[Lecture], slot: Slot) -> list[ClosureChoice]:
        """What is blocked here and can be lifted, and what can be blocked: in the slot, on its day,
        or on all days."""
        targets = self.targets(view, lecture)
        found = [
            ClosureChoice(closure.scope, closure, say("lift", closure=closure_notice(closure)))
            for closure in self.planning.instance.closures
            if closure.scope[:2] in targets and closure.scope.has_slot(slot)
        ]
        lifted = [choice.scope for choice in found]
        for kind, name in targets:
            scopes = Scope(kind, name, *slot), Scope(kind, name, slot[0]), Scope(kind, name)
            for scope in scopes:
                if not any(one.covers(scope) for one in lifted):
                    found.append(ClosureChoice(scope, None, self.notice_of(scope)))
        return found

    def notice_of(self, scope: Scope) -> Notice:
        """What is to be blocked, with how many lectures stand there."""
        instance, newest = self.planning.instance, self.planning.known.newest
        count = sum(
            scope.has_slot(one.slot) and scope.is_about(instance, one.course, one.room)
            for one in newest.lectures()
        )
        return say("to block", scope=scope, when=scope, count=count)

    def is_blocked(self, scope: Scope) -> bool:
        closures = standing(read_closures(self.planning.seat.day))
        return any(closure.scope.covers(scope) for closure in closures)

    def question(self, choice: ClosureChoice) -> Question:
        """Asks for the reason for which something is blocked, or is lifted."""
        return self.ask_lift(choice.lifts) if choice.lifts else self.ask_block(choice)

    def ask_block(self, choice: ClosureChoice) -> Question:
        def take(why: str) -> None:
            self.block(choice.scope, why)

        return Question(choice.notice, reason=Reason(say("why block"), "block", take))

    def ask_lift(self, closure: Closure) -> Question:
        def take(why: str) -> None:
            self.lift(closure.scope, why)

        title = say("lift", closure=closure_notice(closure))
        return Question(title, reason=Reason(say("why lift"), "lift", take))

    def block(self, scope: Scope, why: str) -> None:
        """Has the office block it."""
        seat = self.planning.seat
        if self.is_blocked(scope):
            self.planning.notice = say("blocked already", scope=scope, when=scope)
            return
        self._add(blocked_now(scope, seat.name, seat.planner, why))

    def lift(self, scope: Scope, why: str = "") -> None:
        """Has the office lift what is blocked, by whomever."""
        seat = self.planning.seat
        if not self.is_blocked(scope):
            self.planning.notice = say("not blocked now", scope=scope, when=scope)
            return
        self._add(lifted_now(scope, seat.name, seat.planner, why))

    def _add(self, closure: Closure) -> None:
        """Writes it; the rules change as soon as the office has seen it."""
        fault = add_closure(self.planning.seat.day, closure)
        if fault:
            self.planning.notice = say("not to be blocked", fault=fault)
        else:
            self.planning.notice = say("to the office", closure=closure_notice(closure))
