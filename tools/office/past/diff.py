"""`office diff`: in which lectures two timetables differ, of one day or of two."""
from __future__ import annotations

from typing import Optional

from office.data.label_files import read_labels
from office.data.labels import Labels
from office.day.shifts import Shift
from office.past.drafts import exchanged, row_shifts
from office.past.log import difference_words
from office.past.subjects import Subject, subject_names
from office.past.timetable_at import At, parse_at, read_at
from office.words.text import counted
from office.words.wording import Wording


def differences(one: At, other: At) -> list[Shift]:
    """What stands elsewhere in the other timetable, in the order of courses."""
    rows, others = one.timetable.by_course, other.timetable.by_course
    courses = dict.fromkeys([*rows, *others])
    return [
        shift
        for course in courses
        for shift in row_shifts(course, rows.get(course, {}), others.get(course, {}))
    ]


def concerns(what: Subject, one: At, other: At, shift: Shift) -> bool:
    """Whether it concerns something, in either instance, what has become of a lecture."""
    return any(
        what.is_touched(at.instance, shift)
        for at in (one, other)
        if shift.course in at.instance.courses
    )


def diff_lines(one: At, other: At, what: Optional[Subject], labels: Labels) -> list[str]:
    """The differences in words."""
    wording = Wording({}, labels)
    shifts = [
        shift
        for shift in differences(one, other)
        if what is None or concerns(what, one, other, shift)
    ]
    of = f", of {wording.view(*what)}" if what else ""
    count = f"{counted(len(shifts), 'lecture')} differ{'s' if len(shifts) == 1 else ''}"
    lines = [f"{one.title()} -> {other.title()}: {count}{of}"]
    lines += [f"    {wording.shifts(group)}" for group in exchanged(shifts)]
    return [*lines, difference_words(one.costs, other.costs)]


def whose(one: At, other: At, kind: str, typed: str, labels: Labels) -> Subject:
    """Whose lectures are compared: something that one of the instances has, by code or by name."""
    named = [subject_names(at.instance, ())[kind] for at in (one, other)]
    codes = dict.fromkeys(code for names in named for code in names)
    return Subject(kind, labels.find(kind, typed, list(codes)))


def print_diff(first: str, second: str, chosen: Optional[tuple[str, str]] = None) -> int:
    """Prints in what two timetables differ, each of a day, or as in `monday:9` after a draft; if
    something is chosen, in what of it."""
    one, other = read_at(*parse_at(first)), read_at(*parse_at(second))
    labels = read_labels(other.day.path)
    what = whose(one, other, *chosen, labels) if chosen else None
    print("\n".join(diff_lines(one, other, what, labels)))
    return 0
