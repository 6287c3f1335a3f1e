"""What calendars of a plan have told: its lectures with their identities, and each event as
telephones have it. It is kept as `plan.json` in the published folder and in that of the day, and
goes with the tables, so that another day or folder goes on with the same identities."""
from __future__ import annotations

import json
import os
import secrets
from dataclasses import dataclass, field
from typing import NamedTuple, Optional

from office.day.lecture import Lecture
from office.day.safe_files import must_be_own, read_whole
from office.refused import Refused

FILE = "plan.json"
FORMAT = 1


class Known(NamedTuple):
    """A lecture with its identity, where it was published last; one that was taken out since is
    not placed."""

    name: str
    lecture: Lecture
    is_placed: bool


class What(NamedTuple):
    """What an event is of, and how that is said."""

    course: str
    room: str
    teacher: str
    curricula: tuple[str, ...]
    summary: str
    location: str
    told: str


class Event(NamedTuple):
    """A lecture on a date, from when to when by the clocks of the plan's zone."""

    begins: str
    ends: str
    what: What
    # off on this date, or not as in its week; and why
    is_off: bool = False
    is_moved: bool = False
    why: str = ""
    # how often it was revised, and when it was changed last, in UTC
    sequence: int = 0
    changed: str = ""
    # of one that is gone the number of its revisions is remembered
    is_shown: bool = True


@dataclass(frozen=True)
class Book:
    plan: str
    revision: int = 0
    lectures: tuple[Known, ...] = ()
    # by their identities
    events: dict[str, Event] = field(default_factory=dict)
    # for each kind the codes with what they are called, and with the lectures in their week
    views: dict[str, dict[str, tuple[str, frozenset[str]]]] = field(default_factory=dict)
    # what had another code when its page was first published: the kind and code, now and then
    renamed: dict[str, str] = field(default_factory=dict)


def new_book() -> Book:
    return Book(secrets.token_hex(8))


def book_text(book: Book) -> bytes:
    """A book as a file: an event in a line, so that a person can see what has changed."""
    whats: dict[What, int] = {}
    for event in book.events.values():
        whats.setdefault(event.what, len(whats))
    views = {
        kind: {code: [name, sorted(names)] for code, (name, names) in of_kind.items()}
        for kind, of_kind in book.views.items()
    }
    parts = {
        "format": FORMAT,
        "plan": book.plan,
        "revision": book.revision,
        "renamed": book.renamed,
        "views": views,
        "lectures": book.lectures,
        "whats": list(whats),
    }
    lines = [f"{json.dumps(name)}: {json.dumps(part)}" for name, part in parts.items()]
    events = [
        f"{json.dumps(name)}: {json.dumps([*event[:2], whats[event.what], *event[3:]])}"
        for name, event in book.events.items()
    ]
    return ("{" + ",\n".join([*lines, '"events": {\n' + ",\n".join(events)]) + "\n}}\n").encode()


def read_book(text: bytes, where: str) -> Book:
    """The book of a file."""
    try:
        found = json.loads(text)
        if found["format"] != FORMAT:
            raise Refused(f"cannot read {where}: a later program has written it")
        whats = [What(*row)._replace(curricula=tuple(row[3])) for row in found["whats"]]
        return Book(
            str(found["plan"]),
            int(found["revision"]),
            tuple(Known(name, Lecture(*row), placed) for name, row, placed in found["lectures"]),
            {
                name: Event(row[0], row[1], whats[row[2]], *row[3:])
                for name, row in found["events"].items()
            },
            {
                kind: {code: (name, frozenset(names)) for code, (name, names) in of_kind.items()}
                for kind, of_kind in found["views"].items()
            },
            dict(found["renamed"]),
        )
    except (ValueError, KeyError, TypeError, IndexError, AttributeError, RecursionError) as fault:
        raise Refused(f"cannot read {where}: it has no lectures of a plan ({fault})") from None


def book_in(folder: str) -> Optional[Book]:
    """The book of a day, of a plan, or of tables; None if there is none."""
    path = os.path.join(folder, FILE)
    try:
        return read_book(read_whole(path, must_be_own), path)
    except FileNotFoundError:
        return None
    except OSError as fault:
        raise Refused(f"cannot read {path}: {fault.strerror}") from None


def newer(published: Optional[Book], own: Optional[Book]) -> Optional[Book]:
    """Which of two books is gone on with: what telephones follow, unless the plan has a later one
    of its own."""
    if published is None or own is None:
        return published or own
    is_later = own.plan == published.plan and own.revision > published.revision
    return own if is_later else published
