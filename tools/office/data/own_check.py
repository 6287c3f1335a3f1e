"""The page in which a visitor checks a timetable himself, with the files of a timetable in it."""
from __future__ import annotations

import base64
import dataclasses
import enum
import json
import os
import re
from collections.abc import Sequence

from office.data.labels import Labels
from office.day.program import HERE
from office.past.timetable_at import At
from office.refused import Refused
from office.words.text import shown

# what whoever publishes is told before anything is written
SHOWN = (
    "whoever reads the site gets the whole instance with the page of checks: the numbers of "
    "students, and when teachers and rooms are closed"
)
# what a visitor is told of what is in the page
CHECKED = (
    "This page has the rules and the timetable as they were published: the courses with their "
    "numbers of students, the rooms, the curricula, what is barred and closed, and where each "
    "lecture is. This browser counts from them what is broken and what it costs."
)
UNCHECKED = (
    "Not checked are the names of courses, rooms and teachers and the times on the pages of the "
    "weeks, which the rules do not know, and whether the rules are those that were agreed."
)
# where `./check-page` and `./install` leave the page
PLACES = ("check.html", "out/check-page/check.html")
# the place of the files in it
GIVEN = re.compile(r'(?<=<script type="application/json" id="given">)[^<]*(?=</script>)')


class Kind(enum.Enum):
    """What a file is, as the page says it."""

    INSTANCE = "instance"
    SOLUTION = "solution"
    BARRED = "barred"
    BLOCKED = "blocked"


@dataclasses.dataclass(frozen=True)
class Given:
    """A file that is put into the page."""

    name: str
    kind: Kind
    text: bytes


def with_files(page: str, files: Sequence[Given], told: Sequence[str], days: str) -> str:
    """The page with files in it, which it checks as it opens, and with what is said of them."""
    packed = [
        {"name": one.name, "kind": one.kind.value, "text": base64.b64encode(one.text).decode()}
        for one in files
    ]
    # nothing in it ends the script that has it
    text = json.dumps({"told": list(told), "files": packed, "days": days}).replace("<", "\\u003c")
    if len(GIVEN.findall(page)) != 1:
        raise Refused("the page of checks has no place for files: ./check-page makes a new one")
    return GIVEN.sub(lambda _: text, page)


def read_page() -> str:
    """The page that was made of these sources, or installed beside them: CHECK_PAGE names
    another."""
    named = os.environ.get("CHECK_PAGE")
    for place in [named] if named else PLACES:
        path = os.path.join(HERE, place)
        if os.path.exists(path):
            with open(path, encoding="utf-8") as file:
                return file.read()
    raise Refused("there is no page of checks here: ./check-page makes it")


def path_bytes(path: str) -> bytes:
    with open(path, "rb") as file:
        return file.read()


def files_of(at: At) -> list[Given]:
    """The files of a timetable, with the rules of its part of the day."""
    given = [
        Given("instance.ctt", Kind.INSTANCE, path_bytes(at.day.instance)),
        Given("timetable.sol", Kind.SOLUTION, at.solution()),
    ]
    if at.day.barred_words():
        given.append(Given("rooms.barred", Kind.BARRED, path_bytes(at.day.barred)))
    if os.path.exists(at.part.blocked):
        given.append(Given("closures.blocked", Kind.BLOCKED, path_bytes(at.part.blocked)))
    return given


def day_names(at: At, labels: Labels) -> str:
    """The names of the days with commas between them, or nothing if they have none."""
    days = range(at.instance.days)
    has_names = all(day in labels.weekdays for day in days)
    return ",".join(labels.day(day) for day in days) if has_names else ""


def check_of(page: str, at: At, labels: Labels) -> str:
    """The page in which a visitor checks this timetable."""
    title = f"{shown(labels.title or at.instance.name)}: {at.title()}."
    return with_files(page, files_of(at), [title, CHECKED, UNCHECKED], day_names(at, labels))
