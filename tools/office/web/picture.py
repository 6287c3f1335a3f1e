"""What a browser draws: the draft and its cost, a week, and what is held, as plain data. Words are
of the wording alone."""
from __future__ import annotations

from typing import cast

from office.day.closure import Closure
from office.day.edits import Edit
from office.day.lecture import Lecture, Slot
from office.day.rules import students_without_seat
from office.day.shifts import Shift, shifts_of
from office.seat.answers import Offer, costs_in
from office.web.frame import Frame
from office.web.message_types import (
    AboutLectureData,
    BlockedData,
    CellData,
    DraftData,
    EditData,
    HeldData,
    HeldSlotData,
    MissingData,
    OfferData,
    PictureData,
    PrintData,
    StateData,
    WeekData,
)
from office.web.messages import notice_data
from office.words.closure_notices import blocked_here_notice, by_notice, closure_notice
from office.words.notice import NOTHING, Notice, say
from office.words.text import counted
from office.work.carry import SWAP, Carry
from office.work.planning import Planning
from office.work.week import Cell, View, by_slot, courses_of_view, of_view, weeks_of
from office.work.week_printing import page_of
from office.work.work import Work


class Picture:
    """What a window draws of a planner's work."""

    def __init__(self, frame: Frame, work: Work, prices: dict[Edit, int]) -> None:
        # what each edit has cost when it was made, as far as that is known
        self.frame, self.work, self.prices = frame, work, prices
        self.planning: Planning = work.planning
        self.wording = frame.wording

    def data(self, number: int) -> PictureData:
        carry = self.work.carry
        goal, self.work.goal = self.work.goal, None
        return {
            "number": number,
            # where to look, if something was chosen that stands there
            "goal": goal,
            "state": self.state(),
            "week": self.week(),
            "held": self.held(carry) if carry else None,
        }

    def page(self) -> PrintData:
        """The week that is seen as a page that needs nothing else."""
        page = page_of(self.planning, self.work.view)
        notice = notice_data(self.wording, say("page made", path=page.name))
        return {"page": {"name": page.name, "text": page.text}, "notice": notice}

    # the draft

    def state(self) -> StateData:
        planning = self.planning
        return {
            "costs": planning.costs(),
            "missing": self.missing(),
            "draft": self.draft() if planning.is_open else None,
            "blocked": self.wording.lines(
                [closure_notice(one) for one in self.planning.instance.closures]
            ),
            "ended": [self.wording.edit(edit) for edit in planning.ended()],
            "alarm": self.alarm(),
        }

    def alarm(self) -> str:
        """What is to be known whatever is done. How long the office is open a browser counts
        itself."""
        urgent = [one for one in self.work.urgent() if one.code != "closing"]
        return self.wording.notice(urgent[0]) if urgent else ""

    def draft(self) -> DraftData:
        planning, wording = self.planning, self.wording
        row = planning.stale_preview
        stale = say("box stale", row=row) if row is not None else NOTHING
        return {
            "edits": [
                self.edit(edit, shifts)
                for edit, shifts in zip(planning.edits(), planning.shifts())
            ],
            "taken_back": [
                self.edit(edit, shifts_of(edit)) for edit in reversed(planning.state.taken_back)
            ],
            "base": planning.base_costs or None,
            "base_total": planning.base_total,
            "since": planning.accepted_count(),
            "stale_preview": wording.notice(stale),
            "left_out": wording.lines(planning.left_out()),
        }

    def edit(self, edit: Edit, shifts: list[Shift]) -> EditData:
        """An edit in words and as a line of the desk."""
        text = self.wording.shifts(shifts)
        return {"text": text, "edit": str(edit), "price": self.prices.get(edit)}

    def missing(self) -> list[MissingData]:
        found = [
            {
                "count": count,
                "stood": [self.wording.place(one) for one in self.work.stood(name)],
                **self.frame.course(name),
            }
            for name, count in self.planning.missing().items()
        ]
        return cast(list[MissingData], found)

    # a week

    def week(self) -> WeekData:
        view, instance = self.work.view, self.planning.instance
        cells, gone = self.work.cells(), self.gone()
        newest = by_slot(of_view(self.planning.known.newest, view))
        drawn = [
            self.cell(slot, cell, gone.get(slot, []), newest.get(slot, []))
            for slot, cell in cells.items()
            if cell.lectures or cell.is_mine or cell.is_others or cell.is_closed or cell.blocked
        ]
        missing = self.planning.missing()
        count = sum(missing.get(course, 0) for course in courses_of_view(instance, view))
        return {
            "view": view,
            "title": self.wording.name(*view),
            "about": self.frame.about(view),
            "missing": f"{counted(count, 'lecture')} missing" if count else "",
            "working": [self.wording.safe(name) for name in self.work.knowing.names_at_work(view)],
            "cells": drawn,
        }

    def cell(
        self, slot: Slot, cell: Cell, gone: list[Lecture], newest: list[Lecture]
    ) -> CellData:
        rooms = self.planning.instance.rooms
        changed = self.work.changed_here(slot) if cell.is_others else None
        brief = self.frame.brief
        return {
            "at": slot,
            "lectures": [
                self.frame.lecture(one, rooms[one.room], signs)
                for one, signs in zip(cell.lectures, cell.signs)
            ],
            "mine": cell.is_mine,
            "others": self.who_changed(changed) if changed else [],
            "changed": self.wording.notice(changed) if changed else "",
            # what stands there for all others, if that is not what is drawn
            "now": [brief(one) for one in newest]
            if cell.is_others and newest != cell.lectures
            else None,
            "closed": cell.is_closed,
            "gone": [brief(one) for one in gone] if cell.is_mine else [],
            "working": sorted({self.wording.safe(one.name) for one in cell.at_work}),
            "pinned": bool(cell.pins),
            "blocked": [self.blocked(one) for one in cell.blocked],
        }

    def blocked(self, closure: Closure) -> BlockedData:
        """Why a slot is blocked, in few words, and with by whom and when."""
        return {
            "why": self.wording.safe(closure.why),
            "text": self.wording.notice(blocked_here_notice(closure)),
        }

    def who_changed(self, changed: Notice) -> list[str]:
        """Who has changed a slot: by a draft, or by what he has blocked."""
        if "who" in changed.data:
            return [self.wording.notice(changed.data["who"])]
        closures = [one for change in self.planning.changes[-1:] for one in change.closures]
        return sorted({self.wording.notice(by_notice(one)) for one in closures})

    def gone(self) -> dict[Slot, list[Lecture]]:
        """The lectures that the draft has moved out of the slots of the week."""
        known, view = self.planning.known, self.work.view
        if known.base is None:
            return {}
        now = by_slot(of_view(known.present(), view))
        return {
            slot: [one for one in lectures if one not in now.get(slot, [])]
            for slot, lectures in by_slot(of_view(known.base, view)).items()
        }

    def course_lines(self, name: str) -> list[str]:
        """A course in words: who needs it, how far it is placed, and what it costs by itself."""
        planning, wording = self.planning, self.wording
        course = planning.instance.courses[name]
        lectures = planning.lectures(f"course {name}")
        days = len({lecture.day for lecture in lectures})
        costs = costs_in(planning.look(f"coursecost {name}"))
        points = ", ".join(f"{kind} {points}" for kind, points in costs.items() if points)
        return [
            f"{counted(course.students, 'student')}, "
            f"teacher {wording.name('teacher', course.teacher)}",
            f"{len(lectures)} of {course.lectures} placed, on {counted(days, 'day')} "
            f"({course.minimum_days} wanted)",
            f"costs {points or 'nothing'}",
        ]

    def about(self, lecture: Lecture) -> AboutLectureData:
        """The lecture at the cursor, with the weeks in which it stands."""
        wording, instance = self.wording, self.planning.instance
        seats = instance.rooms[lecture.room]
        short = students_without_seat(instance, lecture)
        lacking = f", {counted(short, 'student')} without one" if short else ""
        room = f"room {wording.room(lecture.room)}, {counted(seats, 'seat')}{lacking}"
        cell = self.work.cells()[lecture.slot]
        changed = self.work.changed_here(lecture.slot) if cell.is_others else None
        notices = [*([changed] if changed else []), *self.work.knowing.notices_of(cell)]
        notices += [blocked_here_notice(one) for one in cell.blocked]
        return {
            "course": lecture.course,
            "said": wording.course(lecture.course),
            "where": wording.slot(lecture.slot),
            "lines": [room, *self.course_lines(lecture.course)],
            # what others have to do with it
            "notices": wording.lines(notices),
            "weeks": [(view, wording.name(*view)) for view in weeks_of(instance, lecture)],
        }

    # what is held

    def held(self, carry: Carry) -> HeldData:
        """The cheapest offer of each slot, in the own slot of what is moved all rooms, or why there
        is none."""
        best = carry.best()
        found: dict[str, object] = {
            "kind": carry.kind.value,
            **self.frame.course(carry.course),
            "about": self.frame.about(View("course", carry.course)),
            "hint": self.wording.notice(carry.best_notice()),
            "at": carry.slot,
            "room": carry.lecture.room if carry.lecture else None,
            "room_said": self.wording.short("room", carry.lecture.room) if carry.lecture else "",
            "best": best[0] if best and not carry.stands_best() else None,
            # the place of the cheapest offer in its slot
            "place": carry.cheapest(best[0]).index(best[1]) if best else 0,
            "slots": [self.slot(carry, slot) for slot in self.planning.instance.slots()],
        }
        return cast(HeldData, found)

    def slot(self, carry: Carry, slot: Slot) -> HeldSlotData:
        offers = carry.cheapest(slot)
        if offers:
            return {"at": slot, "offers": [self.offer(carry, offer) for offer in offers]}
        shortly, why = carry.short_reason(slot), carry.reason(slot)
        words = self.wording.notice
        return {"at": slot, "offers": [], "shortly": words(shortly), "why": words(why)}

    def offers(self, slot: Slot) -> list[OfferData]:
        """All that a slot offers for what is held, cheapest first."""
        carry = self.work.carry
        return [self.offer(carry, offer) for offer in carry.at(slot)] if carry else []

    def offers_data(self, slot: Slot) -> dict[str, object]:
        """All that a slot offers, and by which names, if it does."""
        offers = self.offers(slot)
        return {"offers": offers, "told": self.offers_told(slot)} if offers else {"offers": []}

    def offers_told(self, slot: Slot) -> list[str]:
        """The rooms or courses of them by name, a room with its seats."""
        carry, wording = self.work.carry, self.wording
        about = [offer.about for offer in carry.at(slot)] if carry else []
        if carry and carry.kind is SWAP:
            return [wording.course(code) for code in about]
        rooms = self.planning.instance.rooms
        return [f"{wording.room(code)}, {counted(rooms[code], 'seat')}" for code in about]

    def offer(self, carry: Carry, offer: Offer) -> OfferData:
        kind = "course" if carry.kind is SWAP else "room"
        return offer.price, offer.about, self.wording.short(kind, offer.about)
