"""The week that a planner sees, as a page to print."""
from __future__ import annotations

import os
from typing import NamedTuple

from office.data.label_files import read_labels
from office.data.one_week import OneWeek
from office.data.site import file_name
from office.data.week_page import week_page
from office.day.safe_files import write_whole
from office.past.timetable_at import At
from office.refused import Refused
from office.words.notice import Notice, say
from office.words.text import counted, shown
from office.work.planning import Planning
from office.work.week import View


def seen(planning: Planning) -> At:
    """The timetable that a planner sees, with his draft."""
    count, present = len(planning.minutes.entries), planning.known.present()
    return At(
        planning.seat.day,
        planning.minutes.part,
        count,
        count,
        planning.instance,
        present.lectures(),
        planning.costs(),
        planning.missing(),
    )


class PrintedWeek(NamedTuple):
    """A page with the name of its file."""

    name: str
    text: str


def page_of(planning: Planning, view: View) -> PrintedWeek:
    """A week as a planner sees it, as a page that needs nothing else."""
    at = seen(planning)
    foot = shown(at.title())
    if planning.edits():
        foot += f", with {counted(len(planning.edits()), 'edit')} of a draft"
    week = OneWeek(at, read_labels(at.day.path), view)
    name = f"{at.day.name}-{view.kind}-{file_name(view.name)}.html"
    return PrintedWeek(name, week_page(week, False, foot=foot))


def print_week(planning: Planning, view: View) -> Notice:
    """Writes a week into the folder in which one sat down, and says where."""
    try:
        page = page_of(planning, view)
        write_whole(page.name, page.text.encode("utf-8", "surrogateescape"), 0o600)
    except Refused as refused:
        return say("not printed", why=refused.reason)
    return say("printed", path=os.path.abspath(page.name))
