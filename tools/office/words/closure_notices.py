"""What is said of what is blocked, and of how the rules of a day have changed."""
from __future__ import annotations

from office.day.closure import Closure
from office.day.parts import RuleChange
from office.day.shifts import Shift
from office.words.notice import NOTHING, Notice, say


def by_notice(closure: Closure) -> Notice:
    """Who has said so."""
    who = closure.who or "somebody"
    if closure.seat is None:
        return say("named", name=who)
    return say("named at seat", name=who, planner=closure.seat)


def closure_notice(closure: Closure) -> Notice:
    """What is blocked, or open again, why and by whom."""
    code = "is open again" if closure.is_lifted else "is blocked"
    why = say("because of", why=closure.why) if closure.why else NOTHING
    return say(code, scope=closure.scope, when=closure.scope, because=why, by=by_notice(closure))


def blocked_here_notice(closure: Closure) -> Notice:
    """The same of a slot that is seen, with the time at which it was said."""
    why = say("because of", why=closure.why) if closure.why else NOTHING
    by, time = by_notice(closure), closure.time
    return say("blocked here", scope=closure.scope, because=why, by=by, time=time)


def rule_change_notice(change: RuleChange) -> Notice:
    """How the rules have changed, in one line."""
    notices = [closure_notice(closure) for closure in change.closures]
    count = len(change.asides)
    if count == 1:
        notices.append(say("one missing now"))
    elif count:
        notices.append(say("missing now", count=count))
    return say("rules changed", reasons=notices)


def shifts_of_change(change: RuleChange) -> list[Shift]:
    """What has become of the lectures that were set aside."""
    return [Shift(aside.lecture, None) for aside in change.asides]


def aside_lines(change: RuleChange) -> list[Notice]:
    """The lectures that were set aside, each with where it stood."""
    asides = [aside.lecture for aside in change.asides]
    return [say("set aside line", course=one.course, place=one) for one in asides]
