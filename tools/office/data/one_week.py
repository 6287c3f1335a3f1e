"""The week of one teacher, course, room or curriculum, as people read it: in words, and as a
table."""
from __future__ import annotations

from typing import NamedTuple

from office.data.exceptions import words_of
from office.data.labels import Labels, clock
from office.day.costs import COSTS
from office.day.lecture import Lecture, Slot
from office.day.rules import alone_points, students_without_seat
from office.past.timetable_at import At
from office.words.text import counted, shown
from office.work.week import View, by_slot, courses_of_view, of_view

CSV_HEADS = (
    "day,period,weekday,from,to,course,course name,room,room name,teacher,teacher name,students"
)


class LectureWords(NamedTuple):
    """A lecture in words: what it is to whom the week is of, the rest, and what it costs."""

    first: str
    rest: str
    costs: str


class OneWeek:
    """The week of a view in a timetable."""

    def __init__(self, at: At, labels: Labels, view: View) -> None:
        self.at = at
        self.labels = labels
        self.view = view
        found = sorted(of_view(at.timetable, view), key=lambda lecture: lecture.slot)
        self.slots = by_slot(found)

    def lectures(self) -> list[Lecture]:
        return [lecture for found in self.slots.values() for lecture in found]

    def title(self) -> str:
        return shown(self.labels.said(*self.view))

    def teacher(self, course: str) -> str:
        return self.labels.teacher(self.at.instance.courses[course].teacher)

    def facts(self) -> str:
        """What is known of whom the week is of."""
        kind, code = self.view
        instance, labels = self.at.instance, self.labels
        if kind == "room":
            return labels.counted(instance.rooms[code], "seat")
        if kind == "course":
            curricula = ", ".join(map(labels.curriculum, instance.curricula_of[code]))
            students = labels.counted(instance.courses[code].students, "student")
            text = f"{self.teacher(code)}, {students}"
            return shown(f"{text}; {curricula}" if curricula else text)
        return labels.counted(len(courses_of_view(instance, self.view)), "course")

    def missing(self) -> list[str]:
        """What has not been placed."""
        found, labels = self.at.missing, self.labels
        of = labels.word("of")
        return [
            shown(f"{labels.counted(found[course], 'lecture')} {of} {labels.course(course)}")
            for course in courses_of_view(self.at.instance, self.view)
            if course in found
        ]

    def single_dates(self) -> list[str]:
        """What is not as in the week on a single date."""
        courses = {lecture.course for lecture in self.lectures()}
        return [
            words_of(one)
            for one in self.labels.single_dates
            if courses & {*self.labels.called("course", one.course, list(courses))}
        ]

    def words(self, lecture: Lecture) -> LectureWords:
        """A lecture without what the title says already."""
        course, room = self.labels.course(lecture.course), self.labels.room(lecture.room)
        teacher = self.teacher(lecture.course)
        first, *rest = {
            "course": [room],
            "room": [course, teacher],
            "teacher": [course, room],
            "curriculum": [course, room, teacher],
        }[self.view.kind]
        return LectureWords(shown(first), shown(", ".join(rest)), self.costs(lecture))

    def costs(self, lecture: Lecture) -> str:
        """What a lecture costs where it stands, in words; empty if nothing."""
        instance = self.at.instance
        short = students_without_seat(instance, lecture)
        of_course = instance.curricula_of[lecture.course]
        curricula = [self.view.name] if self.view.kind == "curriculum" else of_course
        alone = alone_points(self.at.timetable, curricula, lecture.slot)
        parts = [f"{counted(short, 'student')} without a seat"] if short else []
        parts += [f"stands alone: {counted(alone, 'point')}"] if alone else []
        return "; ".join(parts)

    def when(self, slot: Slot) -> str:
        """When a slot is on its day: from when to when, or its period."""
        return self.labels.span(slot) or f"{self.labels.word('period')} {slot[1] + 1}"


def cost_line(at: At) -> str:
    """What the whole timetable costs, with its parts by name."""
    parts = ", ".join(f"{kind} {at.costs[kind]}" for kind in COSTS)
    return f"cost {sum(at.costs.values())} ({parts})"


def text_of(week: OneWeek, has_costs: bool) -> str:
    """A week as text, day by day."""
    lines = [f"{week.title()}: {week.facts()}", shown(week.at.title())]
    width = max((len(week.when(slot)) for slot in week.slots), default=0)
    days = list(dict.fromkeys(day for day, _ in week.slots))
    for day in days:
        lines += ["", week.labels.day(day)]
        for slot, lectures in week.slots.items():
            for words in map(week.words, lectures if slot[0] == day else []):
                costs = f" ({words.costs})" if has_costs and words.costs else ""
                what = ", ".join(filter(None, words[:2]))
                lines.append(f"  {week.when(slot):>{width}}  {what}{costs}")
    if not days:
        lines += ["", "no lectures"]
    if week.missing():
        lines += ["", f"not placed: {'; '.join(week.missing())}"]
    if week.single_dates():
        lines += ["", "single dates", *(f"  {one}" for one in week.single_dates())]
    if has_costs:
        lines += ["", f"whole timetable: {cost_line(week.at)}"]
    return "".join(f"{line}\n" for line in lines)


def rows_of(week: OneWeek) -> list[tuple[object, ...]]:
    """A week as rows of a table, with codes and names."""
    labels, courses = week.labels, week.at.instance.courses
    rows: list[tuple[object, ...]] = []
    for lecture in week.lectures():
        (day, period), course = lecture.slot, courses[lecture.course]
        time = labels.times.get(lecture.slot)
        weekday = labels.day(day) if day in labels.weekdays else ""
        when = (clock(time.begins), clock(time.ends)) if time else ("", "")
        coded = [("course", course.name), ("room", lecture.room), ("teacher", course.teacher)]
        codes = [cell for kind, code in coded for cell in (code, labels.name(kind, code))]
        rows.append((day + 1, period + 1, weekday, *when, *codes, course.students))
    return rows
