"""What a day has left, under a changed instance. Lectures and barred rooms of which a name or a
slot is gone are set aside here, and what cannot stand for another reason by the program."""
from __future__ import annotations

import contextlib
import os
import sys
from typing import Optional

from office.data.label_files import read_labels
from office.day import processes
from office.day.desk_words import decoded, encoded
from office.day.edits import Edit
from office.day.file_faults import POINT, explained
from office.day.folder import Day
from office.day.instance import Instance, read_barred, read_instance, read_solution
from office.day.parts import Aside, Part
from office.day.processes import Signals
from office.day.safe_files import make_anew, write_whole
from office.refused import Silent
from office.seat.answers import Fault
from office.words.notice import say
from office.words.reasons import reason
from office.words.text import counted
from office.words.wording import Wording


def missing_part(instance: Instance, lecture: tuple[str, str, int, int]) -> Optional[str]:
    """Why an instance has no place for a lecture by its names and its slot alone."""
    course, room, day, period = lecture
    if course not in instance.courses:
        return "no such course"
    if room not in instance.rooms:
        return "no such room"
    if day >= instance.days or period >= instance.periods:
        return "no such slot"
    return None


def write_solution(path: str, lectures: list[tuple[str, str, int, int]]) -> None:
    lines = [" ".join(map(str, lecture)) + "\n" for lecture in lectures]
    write_whole(path, encoded("".join(lines)))


def keep_barred(day: Day, source: str) -> None:
    """Copies barred rooms, but those of which a name is gone."""
    instance = read_instance(day.instance)
    pairs = [
        f"{course} {room}\n"
        for course, room in sorted(read_barred(source))
        if course in instance.courses and room in instance.rooms
    ]
    write_whole(day.barred, encoded(f"Barred: {len(pairs)}\n{''.join(pairs)}END.\n"))


def aside_words(line: str, instance: Instance, wording: Wording) -> str:
    """A line about a lecture that was set aside, as people read it; another line as it is."""
    aside = Aside.parse(line)
    if aside is None:
        return line
    lecture, fault = aside
    if fault.startswith("no such "):
        notice = say(fault, course=lecture.course, room=lecture.room, slot=lecture.slot)
    else:
        edit = Edit.place(lecture.course, lecture.room, lecture.slot)
        notice = reason(instance, edit, Fault.parse(fault))
    where = f"{wording.course(lecture.course)}, {wording.place(lecture)}"
    return f"office: set aside {where}: {wording.notice(notice)}"


def mend(
    signals: Signals, program: list[str], part: Part, instance: Instance, solution: str
) -> None:
    """Makes the start of a part of a solution, under the instance with the rules of the part, and
    lists what is set aside: in words on standard error, as the program does beside the start."""
    left, lines = [], []
    for lecture in read_solution(solution):
        why = missing_part(instance, lecture)
        if why is None:
            left.append(lecture)
        else:
            lines.append(f"office: set aside {' '.join(map(str, lecture))}: {why}\n")
    known = part.file("known.sol")
    write_solution(known, left)
    words = [*program, "mend", part.day.instance, known, *part.side_words(), POINT]
    ends = make_anew(part.start, 0o640), make_anew(part.aside, 0o640, os.O_RDWR)
    with open(ends[0], "wb") as start, open(ends[1], "w+b") as aside:
        aside.write(encoded("".join(lines)))
        aside.flush()
        status = processes.run(signals, words, stdout=start, stderr=aside)
        for file in (start, aside):
            os.fsync(file.fileno())
        aside.seek(0)
        said = decoded(aside.read())
    os.remove(known)
    tell_aside(part, said, instance, is_whole=status == 0)
    if status != 0:
        raise Silent(status)


def tell_aside(part: Part, said: str, instance: Instance, is_whole: bool) -> None:
    """Says what was set aside, and how much that is, once all of it is."""
    wording = Wording({}, read_labels(part.day.path))
    count = said.count("set aside ")
    with contextlib.suppress(OSError):
        for line in explained(said).split("\n")[:-1]:
            print(aside_words(line, instance, wording), file=sys.stderr)
        if is_whole:
            place = Part(part.day, part.number).aside
            print(f"office: {counted(count, 'lecture')} set aside, in {place}", file=sys.stderr)
        sys.stderr.flush()
