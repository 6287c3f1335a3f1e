"""An instance and its side files, as the program reads them."""
from __future__ import annotations

import contextlib
import os
import tempfile
from typing import Iterator

from office.data.imported import BARRED, INSTANCE
from office.data.new_folder import write_files
from office.day.closures_file import blocked_text
from office.day.desk_words import encoded
from office.day.instance import Instance
from office.refused import Refused

# the side file of what is blocked, as long as the program reads it
BLOCKED = "blocked"


def instance_text(instance: Instance) -> bytes:
    """An instance as the desk reads it."""
    courses = instance.courses.values()
    away = instance.unavailable
    closed = [(one.name, *slot) for one in courses for slot in sorted(away[one.name])]
    lines: list[tuple[object, ...]] = [
        ("Name:", instance.name),
        ("Courses:", len(courses)),
        ("Rooms:", len(instance.rooms)),
        ("Days:", instance.days),
        ("Periods_per_day:", instance.periods),
        ("Curricula:", len(instance.curricula)),
        ("Constraints:", len(closed)),
        ("COURSES:",),
        *((c.name, c.teacher, c.lectures, c.minimum_days, c.students) for c in courses),
        ("ROOMS:",),
        *instance.rooms.items(),
        ("CURRICULA:",),
        *((name, len(members), *members) for name, members in instance.curricula.items()),
        ("UNAVAILABILITY_CONSTRAINTS:",),
        *closed,
        ("END.",),
    ]
    return encoded("".join(" ".join(map(str, line)) + "\n" for line in lines))


def barred_text(instance: Instance) -> bytes:
    """Barred rooms as the desk reads them."""
    pairs = "".join(f"{course} {room}\n" for course, room in sorted(instance.barred))
    return encoded(f"Barred: {len(instance.barred)}\n{pairs}END.\n")


@contextlib.contextmanager
def written(instance: Instance) -> Iterator[list[str]]:
    """The words for an instance and its side files, in a folder that is there as long as they are
    needed. The script of a `run` stands after the first one."""
    with tempfile.TemporaryDirectory() as folder:
        files = {
            INSTANCE: instance_text(instance),
            BARRED: barred_text(instance),
            BLOCKED: blocked_text(instance.closures),
        }
        try:
            write_files(folder, files)
        except OSError as fault:
            raise Refused(f"cannot write into {folder}: {fault.strerror}") from None
        path, barred, blocked = (os.path.join(folder, name) for name in files)
        yield [path, "-", "--barred", barred, "--blocked", blocked]
