"""By whom, when and why the drafts of a day were committed, by the logs of its seats and the notes
of commits."""
from __future__ import annotations

from typing import NamedTuple, Optional

from office.day.commit_notes import read_commit_notes
from office.day.folder import Day
from office.day.parts import last_part, read_parts
from office.seat.seat_log import SeatPast, read_past


class CommitFacts(NamedTuple):
    """By whom, when and why a draft was committed, as far as it is known."""

    name: str
    time: str
    why: str


NO_FACTS = CommitFacts("", "", "")


def read_pasts(day: Day) -> list[Optional[SeatPast]]:
    """What the log of each seat says; None for those that are closed to the reader. What was open
    at a part of the day that has ended is kept, and not open any more."""
    return [read_seat_past(day, planner) for planner in range(day.facts()["planners"])]


def read_seat_past(day: Day, planner: int) -> Optional[SeatPast]:
    """What the log of one seat says; None if it is closed to the reader."""
    try:
        past = read_past(day.log(planner))
    except OSError:
        return None
    bring_up(past, day, planner)
    return past


def bring_up(past: SeatPast, day: Day, planner: int) -> None:
    """Brings what a log says up to the last part of the day, if the seat was not used in it."""
    number = last_part(day).number
    if past.part == number:
        return
    before = [one for part, entries in read_parts(day) if part.number < number for one in entries]
    past.settle(before, planner)
    past.begin_part(number, len(before))


def commits_of(pasts: list[Optional[SeatPast]]) -> dict[int, tuple[str, str]]:
    """When each accepted draft was told, and to whom, as far as the logs know it."""
    found: dict[int, tuple[str, str]] = {}
    for past in pasts:
        found.update(past.commits if past else {})
    return found


def read_commit_facts(day: Day) -> dict[int, CommitFacts]:
    """What is known of each draft: by the notes of commits, or without a reason by the logs that
    are open to the reader."""
    commits = commits_of(read_pasts(day))
    found = {number: CommitFacts(name, time, "") for number, (time, name) in commits.items()}
    for note in read_commit_notes(day).values():
        found[note.number] = CommitFacts(note.name, note.time, note.why)
    return found
