"""What a look would be told of the timetable on the disk; the desk has another one when its minutes
fail."""
from __future__ import annotations

import contextlib

from office.day.folder import Day
from office.day.timetable import Timetable
from office.past.timetable_at import read_at
from office.refused import Refused
from office.seat.answers import Answer, CostsAre, LecturesAre, MissingAre, Other
from office.seat.calls import Look


def look_on_disk(day: Day, newest: Timetable, look: Look) -> Answer:
    """The answer to a look, by the newest timetable on the disk. Prices are not known then."""
    if look.words == ("cost",):
        with contextlib.suppress(Refused):
            return CostsAre("", read_at(day).costs)
    if look.words == ("missing",):
        short = {name: newest.missing(name) for name in newest.by_course}
        return MissingAre("", {name: count for name, count in short.items() if count > 0})
    lectures = newest.look(look.words)
    return Other("not known") if lectures is None else LecturesAre("", lectures)
