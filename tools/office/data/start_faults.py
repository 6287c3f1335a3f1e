"""Why a lecture of a start cannot stand, by the answers of a desk: said with the row of the other
one."""
from __future__ import annotations

from typing import Sequence

from office.data.instance_files import written
from office.data.labels import Labels
from office.data.tables import Row
from office.day.edits import Edit
from office.day.instance import Instance
from office.day.lecture import Lecture, Place
from office.day.scratch_desk import Scratch
from office.refused import Refused
from office.seat.answers import Answer, Said, fault_in

Start = Sequence[tuple[Row, Lecture]]


def answers_of(program: list[str], instance: Instance, start: Start, quiet: bool) -> list[Answer]:
    """What a desk answers to who places the lectures one after another."""
    edits = [Edit.place(one.course, one.room, one.slot) for _, one in start]
    with written(instance) as files:
        return Scratch([*program, "run", *files], quiet=quiet).answers(edits)


def find_faults(program: list[str], instance: Instance, labels: Labels, start: Start) -> None:
    """Notes for each lecture why it cannot stand beside those of the rows before it."""
    faults = start[0][0].faults
    is_wrong = bool(faults.found)
    try:
        answers = answers_of(program, instance, start, quiet=is_wrong)
    except Refused:
        if not is_wrong:
            raise
        # the program may not take an instance of which something is wrong
        faults.add(start[0][0].file, 0, "its rows are compared once all else is right")
        return
    rows: dict[Place, int] = {}
    for (row, lecture), answer in zip(start, answers):
        if answer is Said.DONE:
            rows[lecture.course, lecture.slot] = row.number
        else:
            row.fault(fault_words(instance, labels, lecture, answer, rows))


def fault_words(
    instance: Instance, labels: Labels, lecture: Lecture, answer: Answer, rows: dict[Place, int]
) -> str:
    """Why a lecture cannot stand; `rows` are those of the lectures that do."""
    course, room, slot = lecture.course, lecture.room, lecture.slot
    kind, other = fault_in(answer)
    when = labels.slot(slot)
    if kind == "already":
        return f"{course} stands at {when} in row {rows[course, slot]} already"
    if kind == "full":
        return f"{course} has {instance.courses[course].lectures} lectures, not one more"
    if kind == "unavailable":
        return f"{course} is unavailable at {when}"
    if kind == "barred":
        return f"the room {room} is barred for {course}"
    if kind == "blocked":
        return f"the room {room} is blocked at {when}"
    if kind == "roomtaken":
        return f"{room} has {other} at {when}, in row {rows[other, slot]}"
    if kind != "clash":
        return f"{course} cannot stand at {when}: {answer}"
    why = " ".join(instance.cause(course, other))
    where = f"row {rows[other, slot]}"
    return f"{course} and {other}, in {where}, stand at {when}, and share the {why}"
