"""Readers of labels: a folder with `labels.csv`, `times.csv`, `term.csv` and `exceptions.csv`, each
of which may be missing. A day has its own in its folder."""
from __future__ import annotations

import datetime
import os
from typing import Optional

from office.data import exceptions
from office.data.labels import KINDS, PLAN, Labels, Name, Term, Time
from office.data.readings import read_date, read_minute, read_weekday
from office.data.sources import Source
from office.data.tables import Column, Faults, Row
from office.data.time_zones import fault_of_zone
from office.day.lecture import Slot
from office.refused import CONTENT, Refused

FILES = ("labels.csv", "times.csv", "term.csv", exceptions.FILE)
# as many as the desk takes
SLOTS = 2000

LABELS_COLUMNS = (
    Column("kind"),
    Column("code"),
    Column("name", is_needed=False),
    Column("short name", ("short",), is_needed=False),
)
TIMES_COLUMNS = (
    Column("day"),
    Column("period"),
    Column("weekday", is_needed=False),
    Column("from", ("begins", "start"), is_needed=False),
    Column("to", ("ends", "end"), is_needed=False),
)
TERM_COLUMNS = (
    Column("what", ("kind",)),
    Column("from", ("first", "first day")),
    Column("to", ("last", "last day"), is_needed=False),
    Column("name", is_needed=False),
)


def take_name(labels: Labels, row: Row) -> None:
    """Takes up a row of labels.csv."""
    kind, code = row.word("kind"), row.needed("code")
    if not kind or not code:
        return
    if kind not in (*KINDS, PLAN):
        row.fault(f"the kind is not {', '.join(KINDS)} or {PLAN}: {kind}")
    elif " " in code:
        row.fault(f"the code has a blank: {code}")
    elif (kind, code) in labels.names:
        row.fault(f"the {kind} {code} has a label already")
    elif kind == PLAN and labels.title:
        row.fault(f"there is an {PLAN} already")
    else:
        labels.names[kind, code] = Name(row["name"], row["short name"])
        if kind == PLAN:
            labels.title = row["name"] or code


def take_weekday(labels: Labels, row: Row, day: int) -> None:
    """Takes up the weekday of a row of times.csv: one for each day."""
    weekday = read_weekday(row["weekday"], row.words)
    if weekday is None:
        row.fault(f"the weekday is not Mon to Sun: {row['weekday']}")
    elif labels.weekdays.setdefault(day, weekday) != weekday:
        row.fault(f"day {day + 1} was {labels.day(day)} before, and is {row['weekday']} here")
    elif list(labels.weekdays.values()).count(weekday) > 1:
        row.fault(f"two days are {labels.day(day)}")


def take_time(labels: Labels, row: Row, slot: Slot) -> None:
    """Takes up from when to when a slot is, by a row of times.csv."""
    begins, ends = read_minute(row.needed("from")), read_minute(row.needed("to"))
    for column, minute in (("from", begins), ("to", ends)):
        if row[column] and minute is None:
            row.fault(f"{column}: {row[column]} is no time as 10:15")
    if begins is None or ends is None:
        return
    if begins >= ends:
        row.fault(f"it ends at {row['to']}, and does not begin before that")
    labels.times[slot] = Time(begins, ends)


def take_slots(labels: Labels, rows: list[Row]) -> list[Slot]:
    """Takes up times.csv: its slots, in the order of its rows."""
    slots: dict[Slot, int] = {}
    for row in rows:
        day, period = row.count("day", 1, SLOTS), row.count("period", 1, SLOTS)
        if day is None or period is None:
            continue
        slot = day - 1, period - 1
        if slot in slots:
            row.fault(f"day {day}, period {period} stands in row {slots[slot]} already")
            continue
        slots[slot] = row.number
        if row["weekday"]:
            take_weekday(labels, row, slot[0])
        if row["from"] or row["to"]:
            take_time(labels, row, slot)
    for slot, number in slots.items():
        before = labels.times.get((slot[0], slot[1] - 1))
        if slot in labels.times and before and before.ends > labels.times[slot].begins:
            rows[0].faults.add("times.csv", number, "it begins before the period before it ends")
    return list(slots)


def take_zone(labels: Labels, row: Row) -> None:
    """Takes up the time zone of term.csv."""
    if labels.zone is not None:
        row.fault("there is a zone already")
    labels.zone, labels.zone_row = row.needed("name") or None, row.number


def take_dates(labels: Labels, rows: list[Row]) -> None:
    """Takes up term.csv."""
    days_off: list[tuple[datetime.date, datetime.date]] = []
    teaching: list[tuple[datetime.date, datetime.date, str]] = []
    for row in rows:
        what = row.word("what")
        if what == "zone":
            take_zone(labels, row)
        elif what in ("teaching", "off"):
            ends = [read_date(row[column] or row["from"]) for column in ("from", "to")]
            if row.needed("from") and None in ends:
                row.fault("a date is not as 2026-10-12 or 12.10.2026")
            first, last = ends
            if first is None or last is None:
                continue
            if first > last:
                row.fault("it ends before it begins")
            if what == "off":
                days_off.append((first, last))
            elif teaching:
                row.fault("teaching has a row already")
            else:
                teaching.append((first, last, row["name"]))
        elif what:
            row.fault(f"this is not teaching, off or zone: {what}")
    for first, last, name in teaching:
        labels.term = Term(first, last, days_off, name)


def take_labels(source: Source, faults: Faults) -> tuple[Labels, list[Slot]]:
    """The labels of a folder, and the slots that its times have."""
    labels = Labels()
    for row in source.rows("labels.csv", LABELS_COLUMNS, faults) or []:
        take_name(labels, row)
    slots = take_slots(labels, source.rows("times.csv", TIMES_COLUMNS, faults) or [])
    take_dates(labels, source.rows("term.csv", TERM_COLUMNS, faults) or [])
    rows = source.rows(exceptions.FILE, exceptions.COLUMNS, faults) or []
    labels.single_dates = [one for one in map(exceptions.take_exception, rows) if one is not None]
    return labels, slots


def has_labels(folder: str) -> bool:
    return any(os.path.exists(os.path.join(folder, file)) for file in FILES)


def stamps(folder: str) -> list[tuple[int, int, int]]:
    """What tells whether the labels of a folder have changed."""
    found = []
    for file in FILES:
        try:
            stat = os.stat(os.path.join(folder, file))
        except OSError:
            found.append((0, 0, 0))
        else:
            found.append((stat.st_mtime_ns, stat.st_ino, stat.st_size))
    return found


class Watched:
    """The labels of a day, as long as somebody looks at it: they are read again when one of their
    files has changed. If something is wrong in them, those before stay."""

    def __init__(self, folder: str) -> None:
        self.folder, self._stamps = folder, stamps(folder)
        self.labels = read_labels(folder)

    def read_on(self) -> bool:
        """Whether there are new labels."""
        found = stamps(self.folder)
        if found == self._stamps:
            return False
        self._stamps = found
        try:
            self.labels = read_labels(self.folder)
        except Refused:
            return False
        return True


def check_zone(labels: Labels, folder: str) -> None:
    """Refuses a time zone that nobody knows. Screens need none, and are not kept from opening."""
    fault = fault_of_zone(labels.zone) if labels.zone else ""
    if fault:
        raise Refused(f"the labels in {folder}: term.csv row {labels.zone_row}: {fault}", CONTENT)


def read_labels(folder: str) -> Labels:
    """The labels of a folder, without any if it has none. All that is wrong in them is said."""
    faults = Faults()
    labels, _ = take_labels(Source(folder), faults)
    faults.refuse(f"the labels in {folder}")
    return labels
