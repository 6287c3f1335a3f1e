"""The folder of a day: the names of its files, what is known of the day, and how far its office
is."""
from __future__ import annotations

import json
import math
import os
from typing import Any, Optional

from office.day.safe_files import is_locked, must_be_own, read_text, read_whole, write_whole
from office.refused import Refused

# planners of a day at most
SEATS = 64
# how far an office is
CHECKING, STARTING, OPEN, CHANGING, REOPENING, CLOSED = (
    "checking starting open changing reopening closed".split()
)


def is_day(found: Any) -> bool:
    """Whether a file has said how many planners a day has, by which program, and since when."""
    if not isinstance(found, dict) or not isinstance(found.get("opened"), str):
        return False
    words, after = found.get("program"), found.get("after")
    has_words = isinstance(words, list) and words and all(isinstance(one, str) for one in words)
    is_counted = is_count(found.get("planners"), 1, SEATS) and is_count(found.get("closures", 0))
    return bool(has_words and is_counted and (after is None or isinstance(after, str)))


def is_count(found: Any, least: int = 0, most: float = math.inf) -> bool:
    return isinstance(found, int) and not isinstance(found, bool) and least <= found <= most


class Day:
    """The folder of a day."""

    def __init__(self, path: str) -> None:
        self.path = path
        self.name = os.path.basename(os.path.abspath(path))
        # what is known of the day from its opening on
        self.facts_file = self.file("day.json")
        # the office holds the lock of this file, which has its number, the desk's, and how far it
        # is
        self.office = self.file("office")
        # when the seats are closed, as long as the office is closing
        self.closing = self.file("closing")
        self.instance = self.file("instance.ctt")
        self.start = self.file("start.sol")
        self.barred = self.file("barred")
        # with a changed instance, what was set aside
        self.aside = self.file("aside")
        self.minutes = self.file("minutes")
        # is there when minutes cannot be written any more
        self.failing = self.file("failing")
        self.journal = self.file("journal")
        self.audit = self.file("audit")
        self.end = self.file("end.sol")
        # all names of the instance and words of lines, by which rlwrap completes
        self.names = self.file("names")

    def file(self, name: str) -> str:
        return os.path.join(self.path, name)

    def seat(self, planner: int) -> str:
        """The path of a seat, to which the desk adds `.in` and `.out`."""
        return self.file(str(planner))

    def log(self, planner: int) -> str:
        return self.file(f"{planner}.log")

    def sitter(self, planner: int) -> str:
        """The file of who sits at a seat, and holds its lock as long."""
        return self.file(f"{planner}.sitter")

    def is_there(self) -> bool:
        return os.path.exists(self.facts_file)

    def facts(self) -> dict[str, Any]:
        try:
            found = json.loads(read_whole(self.facts_file, must_be_own))
        except FileNotFoundError:
            raise Refused(f"{self.path} is not the folder of a day") from None
        except PermissionError:
            raise Refused(f"the folder {self.path} is closed to you") from None
        except OSError as fault:
            raise Refused(f"cannot read {self.facts_file}: {fault.strerror}") from None
        except (ValueError, RecursionError) as fault:
            raise Refused(f"cannot read {self.facts_file}: {fault}") from None
        if not is_day(found):
            raise Refused(f"cannot read {self.facts_file}: it has no facts of a day")
        return dict(found)

    def write_facts(self, facts: dict[str, Any]) -> None:
        text = json.dumps(facts, indent=1, ensure_ascii=True) + "\n"
        write_whole(self.facts_file, text.encode())

    def is_open(self) -> bool:
        """Whether an office holds the day, or a desk that it left."""
        return is_locked(self.office)

    def stage(self) -> str:
        """How far the office is, by what it has noted last."""
        return " ".join(read_text(self.office).split()[2:])

    def is_ready(self) -> bool:
        """Whether planners can sit down."""
        return self.is_open() and self.stage() == OPEN

    def is_changing(self) -> bool:
        """Whether the office changes the rules just now: those who sit go on in the next part."""
        return self.is_open() and self.stage() in (CHANGING, REOPENING)

    def numbers(self) -> list[int]:
        """The numbers of the office's and the desk's processes, as far as they are known."""
        return [int(word) for word in read_text(self.office).split()[:2] if word.isdigit()]

    def closes_at(self) -> Optional[float]:
        """When the seats are closed, in seconds of the epoch, if the office is closing."""
        try:
            found = float(read_text(self.closing, must_be_own))
        except (OSError, ValueError):
            return None
        return found if math.isfinite(found) else None

    def barred_words(self) -> list[str]:
        """The option for barred rooms, if the day has any."""
        return ["--barred", self.barred] if os.path.exists(self.barred) else []

    def start_words(self) -> list[str]:
        """The options for the start and the barred rooms of the day."""
        return (["--start", self.start] if os.path.exists(self.start) else []) + self.barred_words()
