"""What a planner does at a seat, without keys, rows or sentences: both faces are thin over it.

What is acted on is what the planner has seen: a lecture with its slot and room, an offer with its
price, the edits of a draft. If it is another by then, this is said and nothing is done. An act
answers what is to be read or asked then, if anything is.
"""
from __future__ import annotations

import time
from functools import partial
from typing import Optional

from office.day.edits import Edit, Kind
from office.day.lecture import Lecture, Slot
from office.past.subjects import Subject
from office.past.variants import Variants
from office.seat.answers import Offer
from office.words.closure_notices import closure_notice
from office.words.notice import NOTHING, Notice, Question, say
from office.work.carry import MOVE, PLACE, SWAP, Carry
from office.work.closures_here import Blocking
from office.work.drafting import BLANK, Drafting, edit_notices
from office.work.drafts_here import History
from office.work.findings import Findings
from office.work.others import Knowing
from office.work.part_stepping import Stepped, make_again, question_of, step_over, stepped_notice
from office.work.planning import Planning
from office.work.week import Cell, View, all_views, cells_of, lectures_of_view, weeks_of


class Work:
    """A planner's work: whose week he looks at, what he has picked up, and his draft."""

    def __init__(self, planning: Planning, variants: Optional[Variants] = None) -> None:
        self.planning = planning
        self.views = all_views(planning.instance)
        self.view = self.views[0] if self.views else View("course", "")
        self.carry: Optional[Carry] = None
        # what was put aside is put aside at the seat
        self.variants = variants or Variants(planning)
        self.drafting = Drafting(planning, self.variants)
        self.history = History(planning)
        self.knowing = Knowing(planning)
        self.blocking = Blocking(planning)
        self.findings = Findings(planning, self.go_to)
        # where to look next, if something was chosen that stands at a slot
        self.goal: Optional[Slot] = None
        # the planner leaves
        self.is_done = False

    @property
    def notice(self) -> Notice:
        return self.planning.notice

    @notice.setter
    def notice(self, notice: Notice) -> None:
        self.planning.notice = notice

    def begin(self) -> Optional[Question]:
        """Hears what was under way. A draft that somebody else has left is asked about; edits of an
        earlier day are offered."""
        self.planning.begin()
        self.variants.begin()
        self.history.shifts()
        seat, planning = self.planning.seat, self.planning
        edits = planning.edits() or planning.ended()
        if not seat.owner or not edits:
            return self.resume()
        code = "draft of another" if planning.is_open else "stale of another"
        lines = [say("edit line", shifts=shifts) for shifts in planning.shifts()]
        return Question(
            say(code, owner=seat.owner, count=len(edits)),
            [*(lines or edit_notices(edits)), BLANK, say("take over why")],
            {"take over": self._take_over, "leave to them": self.leave},
            can_wait=False,
        )

    def _take_over(self) -> Optional[Question]:
        self.planning.seat.take_over()
        return self.resume()

    def resume(self) -> Optional[Question]:
        """Makes a draft again that was open when a part of the day ended; else offers what an
        earlier day has left."""
        planning = self.planning
        remade = make_again(planning)
        if not remade.of:
            return self.drafting.offer_earlier()
        stepped = Stepped(planning.changes[-1:], remade)
        planning.notice = stepped_notice(stepped)
        return question_of(stepped)

    def step_over(self) -> Optional[Question]:
        """Goes on in the next part of the day, and makes an open draft again. What was picked up is
        put back."""
        self.carry = None
        stepped = step_over(self.planning)
        question, closures = question_of(stepped), self.history.closures
        changed = [one for change in stepped.changes for one in change.closures]
        if question is None:
            return closures.offer(changed)
        # what was lifted is offered when the rest has been read
        return question._replace(answers={"seen": partial(closures.offer, changed)})

    def is_over(self) -> bool:
        """Whether the rules change: this part of the day is over."""
        return self.planning.seat.is_over()

    def ask_leave(self) -> Optional[Question]:
        """Leaves the seat, and asks before where a draft is open."""
        lines = self.drafting.edit_lines()
        if not lines:
            self.leave()
            return None
        lines += [BLANK, say("leave why")]
        return Question(say("leave"), lines, {"leave now": self.leave})

    def leave(self) -> None:
        self.is_done = True

    # what is seen

    def lectures(self) -> list[Lecture]:
        return lectures_of_view(self.planning, self.view)

    def lecture_at(self, slot: Slot) -> Optional[Lecture]:
        """The lecture of the week at a slot."""
        return next((one for one in self.lectures() if one.slot == slot), None)

    def cells(self) -> dict[Slot, Cell]:
        return cells_of(self.planning, self.view)

    def show(self, view: View) -> None:
        self.view = view

    def go_to(self, view: View, slot: Optional[Slot]) -> None:
        """Shows a week, and where to look in it."""
        self.view, self.goal = view, slot
        if slot is None:
            self.goal = min((one.slot for one in self.lectures()), default=None)

    def drafts_of(self, lecture: Optional[Lecture]) -> Optional[Question]:
        """The drafts that have changed the course of a lecture, or without one the week."""
        what = Subject("course", lecture.course) if lecture else Subject(*self.view)
        return self.history.of(what)

    def show_next_week(self, lecture: Optional[Lecture]) -> None:
        """The week of a lecture's course, of its teacher, its room, and its curricula, in turn."""
        if lecture is None:
            self.notice = say("no lecture here")
            return
        turns = weeks_of(self.planning.instance, lecture)
        at = turns.index(self.view) if self.view in turns else -1
        self.view = turns[(at + 1) % len(turns)]

    def changed_here(self, slot: Slot) -> Optional[Notice]:
        """Who else has last changed a slot of the week, and how: since the draft was opened, else
        since the planner sat down or his last draft ended."""
        for accepted in reversed(self.planning.accepted_since()):
            for shift in reversed(accepted.all()):
                if slot not in shift.slots() or not self._is_of_week(shift.was, shift.now, slot):
                    continue
                news = self.planning.news
                is_here = shift.now is not None and shift.now.slot == slot
                code = "moved here" if is_here else "moved away"
                if is_here and shift.was is not None and shift.was.slot == slot:
                    code = "new room here"
                facts = news.facts(accepted)
                because = say("because", why=facts.why) if facts.why else NOTHING
                return say(
                    code,
                    who=news.who(accepted),
                    course=shift.course,
                    time=facts.time,
                    because=because,
                )
        return self._set_aside_here(slot)

    def _set_aside_here(self, slot: Slot) -> Optional[Notice]:
        """What the last change of the rules has taken away from a slot of the week."""
        for change in self.planning.changes[-1:]:
            for one in change.asides:
                if one.lecture.slot == slot and self._is_of_week(one.lecture, None, slot):
                    reasons = [closure_notice(closure) for closure in change.closures]
                    course, time = one.lecture.course, change.time
                    return say("set aside here", course=course, time=time, reasons=reasons)
        return None

    def _is_of_week(self, was: Optional[Lecture], now: Optional[Lecture], slot: Slot) -> bool:
        """Whether a lecture that was or is at a slot belongs to the week that is seen."""
        there = [one for one in (was, now) if one is not None and one.slot == slot]
        instance, (kind, name) = self.planning.instance, self.view
        if kind == "room":
            return any(one.room == name for one in there)
        course = there[0].course if there else ""
        return bool(there) and View(kind, name) in weeks_of(instance, Lecture(course, "", *slot))

    def is_there(self, lecture: Lecture) -> bool:
        """Whether a lecture stands where it was seen, by all that is known now; says so if it does
        not."""
        self.planning.tick()
        if self.planning.known.present().room_at(lecture.course, lecture.slot) == lecture.room:
            return True
        self.notice = self.changed_here(lecture.slot) or say("not as seen", course=lecture.course)
        return False

    # a lecture that is picked up

    def pick_up(self, lecture: Optional[Lecture], kind: Kind = MOVE) -> Optional[Question]:
        """Picks up a lecture that was seen, to be moved or swapped."""
        if lecture is None:
            self.notice = say("no lecture")
        elif self.is_there(lecture):
            seen = lecture
            return self.knowing.ask_pinned(seen, lambda: self._carry(kind, seen.course, seen))
        return None

    def pick_up_missing(self, course: str) -> Optional[Question]:
        """Picks up a lecture of a course that is not placed."""
        self.view = View("course", course)
        self._carry(PLACE, course, None)
        return None

    def swap_instead(self) -> None:
        """What is picked up to be moved is to be swapped."""
        if self.carry and self.carry.lecture:
            self._carry(SWAP, self.carry.course, self.carry.lecture)

    def _carry(self, kind: Kind, course: str, lecture: Optional[Lecture]) -> None:
        if self.planning.is_failing and not self.planning.is_open:
            self.notice = say("minutes fail")
            return
        self.carry = Carry(self.planning, kind, course, lecture)
        if lecture is not None:
            self.carry.begin_at(lecture.slot)
        self.notice = self.carry.best_notice()

    def renew(self) -> bool:
        """Asks anew what is offered, if others have changed the timetable that is shown; answers
        whether what was picked up is there still."""
        carry, planning = self.carry, self.planning
        if carry is None or planning.is_open or carry.seen == len(planning.minutes.entries):
            return True
        lecture = carry.lecture
        is_gone = lecture and lecture.room != planning.known.present().room_at(
            carry.course, lecture.slot
        )
        if is_gone:
            self.carry = None
            self.notice = say("changed by others", course=carry.course)
            return False
        self.carry = Carry(planning, carry.kind, carry.course, lecture)
        self.carry.choice = carry.choice
        return True

    def put_down(
        self, slot: Slot, offer: Optional[Offer], is_asked: bool = False
    ) -> Optional[Question]:
        """Puts down what is picked up, by an offer that was seen at a slot. Whether a pinned
        lecture may change places with it is asked first."""
        self.planning.tick()
        if not self.renew() or self.carry is None:
            return None
        carry = self.carry
        if offer is None or offer not in carry.at(slot):
            fresh = carry.chosen(slot)
            if fresh is None:
                self.notice = say("cannot stand", reason=carry.reason(slot))
            else:
                self.notice = say("other price", now=carry.offer_notice(fresh))
            return None
        if carry.kind is SWAP and not is_asked:
            partner = Lecture(offer.about, "", *slot)
            return self.knowing.ask_pinned(partner, lambda: self.put_down(slot, offer, True))
        self.carry = None
        if carry.is_idle(slot, offer):
            self.notice = say("stays")
        else:
            self.planning.edit(offer.edit)
        return None

    def lay_down(self) -> None:
        if self.carry:
            self.carry = None
            self.notice = say("stays")

    def take_out(self, lecture: Optional[Lecture]) -> Optional[Question]:
        """Takes a lecture that was seen out of the week."""
        if self.carry or lecture is None:
            self.notice = say("lecture first")
        elif self.is_there(lecture):
            seen = lecture
            return self.knowing.ask_pinned(seen, lambda: self._drop(seen))
        return None

    def _drop(self, lecture: Lecture) -> None:
        self.planning.edit(Edit.drop(lecture.course, lecture.slot))

    def stood(self, course: str) -> list[Lecture]:
        """Where lectures of a course stood that were set aside and are missing still: at most as
        many as are missing, the last ones first."""
        planning = self.planning
        asides = [one.lecture for change in planning.changes for one in change.asides]
        count = planning.known.present().missing(course)
        return [one for one in reversed(asides) if one.course == course][: max(0, count)]

    def missing(self) -> dict[str, int]:
        """The courses of which lectures are missing, and how many; says so if none is."""
        found = self.planning.missing()
        if not found:
            self.notice = say("nothing missing")
        return found

    # news

    def urgent(self) -> list[Notice]:
        """What is to be known beside the last notice, the most urgent first."""
        planning, found = self.planning, []
        if planning.alarm:
            found.append(planning.alarm)
        if planning.is_failing:
            found.append(say("minutes fail"))
        if planning.seat.log.fault:
            found.append(say("log fault", fault=planning.seat.log.fault))
        at = planning.seat.day.closes_at()
        if at is not None:
            found.append(say("closing", seconds=max(0, round(at - time.time()))))
        return found

    def tick(self) -> bool:
        """Looks for news; answers whether there are any."""
        if not self.planning.tick():
            return self.planning.seat.day.closes_at() is not None
        self.renew()
        return True
