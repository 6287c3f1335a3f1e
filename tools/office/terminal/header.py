"""The rows above and below the grid."""
from __future__ import annotations

from typing import Optional

from office.day.costs import COSTS
from office.day.lecture import Lecture, Slot
from office.day.rules import students_without_seat
from office.seat.answers import costs_in
from office.terminal.grid import Row
from office.words.actions import FREE, key_of, row_of
from office.words.text import counted, cut, fit, shown, width as columns
from office.words.wording import Wording
from office.work.carry import SWAP, Carry
from office.work.planning import Planning
from office.work.week import Cell, courses_of_view
from office.work.work import Work


def draft_text(planning: Planning) -> str:
    """The draft in words."""
    if not planning.is_open:
        return f"no draft open; {counted(len(planning.minutes.entries), 'draft')} accepted today"
    parts = [f"draft open: {counted(len(planning.edits()), 'edit')}"]
    if planning.base_total is not None:
        saved = planning.base_total - sum(planning.costs().values())
        parts.append(f"saves {saved}" if saved >= 0 else f"costs {-saved} more")
    parts.append(f"{planning.accepted_count()} accepted since")
    return ", ".join(parts)


def cost_text(planning: Planning) -> str:
    """What the timetable costs, with its parts by name, and what is missing."""
    costs, missing = planning.costs(), planning.missing()
    if not costs:
        return f"cost not known; missing {sum(missing.values())}"
    parts = ", ".join(f"{kind} {costs.get(kind, 0)}" for kind in COSTS)
    return f"cost {sum(costs.values())}: {parts}; missing {sum(missing.values())}"


class Header:
    """What stands around the grid of a planner's work."""

    def __init__(self, work: Work, wording: Wording, width: int) -> None:
        self.work, self.wording, self.width = work, wording, width
        self.planning = work.planning

    def missing_text(self) -> str:
        """How many lectures are missing in the week."""
        missing = self.planning.missing()
        courses = courses_of_view(self.planning.instance, self.work.view)
        count = sum(missing.get(course, 0) for course in courses)
        return f": {counted(count, 'lecture')} missing" if count else ""

    def head_rows(self) -> list[Row]:
        planning, work, width = self.planning, self.work, self.width
        seat = planning.seat
        who = f" seat {seat.planner} {shown(seat.name)}: {draft_text(planning)}"
        title = f" week of {self.wording.view(*work.view)}{self.missing_text()}"
        title += self.others_text()
        if work.carry is not None:
            what = "picked up to swap" if work.carry.kind is SWAP else "picked up"
            title = f" {self.wording.course(work.carry.course)} is {what};{title}"
        last: Row = [(fit(title, width), "title")]
        if planning.is_open and planning.stale_preview:
            row = self.wording.row(planning.stale_preview)
            what = f"stale by now: {row} has changed; {key_of('commit')} says who "
            if not planning.edits():
                what = f"{row} has changed; no edits here: {key_of('commit')} goes on "
            text = cut(what, width)
            last = [(fit(title, width - columns(text)), "title"), (text, "bad")]
        cost = fit(f" {cost_text(planning)}", width)
        return [[(fit(who, width), "head")], [(cost, "head")], last]

    def others_text(self) -> str:
        """Who else works on the week."""
        names = self.work.knowing.names_at_work(self.work.view)
        return f"; at work on it: {shown(', '.join(names))}" if names else ""

    def course_text(self, name: str) -> str:
        """A course in words: who needs it, and how far it is placed."""
        course = self.planning.instance.courses[name]
        lectures = self.planning.lectures(f"course {name}")
        days = len({lecture.day for lecture in lectures})
        return (
            f"{self.wording.course(name)}: {counted(course.students, 'student')}, "
            f"teacher {self.wording.name('teacher', course.teacher)}, "
            f"{len(lectures)} of {course.lectures} placed, on {counted(days, 'day')} "
            f"({course.minimum_days} wanted)"
        )

    def points_text(self, name: str) -> str:
        """What a course costs by itself, and which curricula have it."""
        costs = costs_in(self.planning.look(f"coursecost {name}"))
        points_text = ", ".join(f"{kind} {points}" for kind, points in costs.items() if points)
        curricula = " ".join(
            self.wording.short("curriculum", one)
            for one in self.planning.instance.curricula_of[name]
        )
        told_curricula = f"curricula {curricula}" if curricula else "in no curriculum"
        points_text = points_text or ("nothing" if costs else "not known")
        return f"costs {points_text}; {told_curricula}"

    def room_text(self, lecture: Lecture) -> str:
        instance = self.planning.instance
        seats = instance.rooms[lecture.room]
        short = students_without_seat(instance, lecture)
        lacking = f", {counted(short, 'student')} without one" if short else ""
        return f"room {self.wording.room(lecture.room)}, {counted(seats, 'seat')}{lacking}"

    def here_text(self, lecture: Lecture) -> str:
        return (
            f"here now: {self.wording.course(lecture.course)} in {self.wording.room(lecture.room)}"
        )

    def detail_rows(self, cursor: Slot, cell: Cell) -> list[Row]:
        """Three rows about the slot at the cursor."""
        lecture = next(iter(cell.lectures), None)
        carry, wording, where = self.work.carry, self.wording, self.wording.slot(cursor)
        if carry is not None:
            text = wording.notice(carry.notice(cursor))
            lines = [self.course_text(carry.course), f"{where}: {text}"]
            lines.append(self.here_text(lecture) if lecture else "")
        elif lecture is not None:
            lines = [self.course_text(lecture.course), self.points_text(lecture.course)]
            lines.append(f"{where}: {self.room_text(lecture)}")
        else:
            lines = [f"{where}: nothing of {wording.view(*self.work.view)}", "", ""]
        changed = self.work.changed_here(cursor) if cell.is_others and not carry else None
        if changed is not None:
            lines[-1] += f"{'; ' if lines[-1] else ''}{wording.notice(changed)}"
        return [[(fit(f" {shown(line)}", self.width), "detail")] for line in lines]


def key_rows(carry: Optional[Carry], width: int) -> list[Row]:
    if carry is not None:
        first = "arrows go  Enter puts it down  b cheapest  Tab next room  Escape leaves it"
        second = "s swap with another  v week of ..  w week of its course, teacher ..  ? help"
    else:
        first, second = map(row_of, FREE)
    return [[(fit(f" {line}", width), "head")] for line in (first, second)]
