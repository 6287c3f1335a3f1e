"""Room on the disk that a day keeps free for its end: a file that is taken away when the day is
closed, so that journal, audit and last timetable can be written though the disk is full."""
from __future__ import annotations

import contextlib
import os

from office.day.folder import Day
from office.day.safe_files import make_anew

# bytes that are kept free, and the part of a small disk that is not more than that
SPARE, PART = 4 << 20, 8


def spare_path(day: Day) -> str:
    return day.file("spare")


def keep_room(day: Day) -> None:
    """Keeps room free, as far as there is any."""
    with contextlib.suppress(OSError):
        found = os.statvfs(day.path)
        size = min(SPARE, found.f_bavail * found.f_frsize // PART)
        end = make_anew(spare_path(day), 0o640)
        try:
            if size:
                os.posix_fallocate(end, 0, size)
        finally:
            os.close(end)


def free_room(day: Day) -> None:
    """Gives the room free."""
    with contextlib.suppress(OSError):
        os.remove(spare_path(day))
