"""`office show`: the timetable of a day, after any of its drafts."""
from __future__ import annotations

from typing import Optional

from office.data.label_files import read_labels
from office.day.costs import costs_in_words
from office.day.folder import Day
from office.past.timetable_at import At, read_at


def cost_lines(at: At) -> list[str]:
    """What a timetable costs, and how many lectures are missing."""
    return [
        f"cost {costs_in_words(at.costs)}",
        f"missing lectures {sum(at.missing.values())}",
    ]


def whole_lines(at: At) -> list[str]:
    """All lectures, slot by slot, each with its room and its teacher."""
    courses, lines, labels = at.instance.courses, [], read_labels(at.day.path)
    for slot in at.instance.slots():
        lectures = at.timetable.of_slot(slot)
        if lectures:
            lines += ["", labels.slot(slot)]
        lines += [
            f"    {labels.course(one.course)}  {labels.room(one.room)}  "
            f"{labels.teacher(courses[one.course].teacher)}"
            for one in lectures
        ]
    return lines


def print_show(day: Day, number: Optional[int]) -> int:
    """Prints the timetable of a day after a draft; without a number the newest one."""
    at = read_at(day, number)
    for line in [at.title(), *cost_lines(at), *whole_lines(at)]:
        print(line)
    return 0
