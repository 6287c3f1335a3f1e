"""`office show` of the week of one: as text, a page, a table or a calendar."""
from __future__ import annotations

import argparse
import datetime
import sys
from typing import Iterable, Optional

from office.data.calendars import Events, calendar_of, timeless, why_none
from office.data.label_files import read_labels
from office.data.labels import KINDS, Labels
from office.data.one_week import CSV_HEADS, OneWeek, rows_of, text_of
from office.data.plan_book import book_in
from office.data.tables import write_table
from office.data.telling import From, Told, first_book
from office.data.week_page import week_page
from office.day.folder import Day
from office.day.instance import Instance
from office.past.timetable_at import At, read_at
from office.refused import CONTENT, WORDS, Refused
from office.words.text import shown
from office.work.week import View


def codes_of(instance: Instance, kind: str) -> Iterable[str]:
    """All codes of a kind."""
    if kind == "course":
        return instance.courses
    if kind == "room":
        return instance.rooms
    return instance.teachers if kind == "teacher" else instance.curricula


def asked(words: argparse.Namespace) -> Optional[tuple[str, str]]:
    """The kind and the name of whom a week is asked for."""
    found = [(kind, getattr(words, kind)) for kind in KINDS if getattr(words, kind) is not None]
    if not found and (words.form or words.costs):
        kinds = ", ".join(f"--{kind}" for kind in KINDS)
        raise Refused(f"whose week is it? one of {kinds} is needed", WORDS)
    return found[0] if found else None


def calendar_now(week: OneWeek) -> bytes:
    """The calendar of a week as a publishing would write it now; that of an earlier draft for the
    whole term."""
    why = why_none(week.labels) or timeless(week)
    if why:
        raise Refused(why, CONTENT)
    at = week.at
    book = book_in(at.day.path) or first_book(at.instance.name, at.lectures)
    now = datetime.datetime.now(datetime.timezone.utc)
    since = From(is_whole_term=not at.is_newest()).text(now, week.labels.zone)
    told = Told(book, at, week.labels, since, f"{now:%Y%m%dT%H%M%SZ}")
    return calendar_of(Events(told.book), week.labels, week.view)


def week_bytes(at: At, labels: Labels, view: View, form: Optional[str], has_costs: bool) -> bytes:
    """A week in a form; text, if none is named."""
    week = OneWeek(at, labels, view)
    if form == "ics":
        return calendar_now(week)
    if form == "csv":
        return write_table(CSV_HEADS.split(","), rows_of(week))
    if form == "html":
        text = week_page(week, has_costs, foot=shown(at.title()))
    else:
        text = text_of(week, has_costs)
    return text.encode("utf-8", "surrogateescape")


def print_one_week(day: Day, words: argparse.Namespace, kind: str, typed: str) -> int:
    """Prints the week of one."""
    at, labels = read_at(day, words.at), read_labels(day.path)
    code = labels.find(kind, typed, list(codes_of(at.instance, kind)))
    sys.stdout.buffer.write(week_bytes(at, labels, View(kind, code), words.form, words.costs))
    sys.stdout.buffer.flush()
    return 0
