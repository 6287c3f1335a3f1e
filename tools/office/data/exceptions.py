"""Single dates that are not as the week: `exceptions.csv`, of which a row says that a lecture is
off on a date, or is elsewhere or at another time then, and why."""
from __future__ import annotations

from typing import Optional

from office.data.labels import SingleDate, clock
from office.data.readings import read_date, read_minute
from office.data.tables import Column, Row
from office.words.text import shown

FILE = "exceptions.csv"
COLUMNS = (
    Column("course"),
    Column("date"),
    Column("from", ("begins", "start", "time"), is_needed=False),
    Column("what", ("kind",)),
    Column("new date", is_needed=False),
    Column("new from", ("new start",), is_needed=False),
    Column("new to", ("new end",), is_needed=False),
    Column("new room", is_needed=False),
    Column("why", ("reason",), is_needed=False),
)
OFF, MOVED = "off", "moved"


def take_exception(row: Row) -> Optional[SingleDate]:
    """What a row says; None is a fault."""
    course, typed, what = row.needed("course"), row.needed("date"), row.word("what")
    before = sum(map(len, row.faults.found.values()))
    date, new_date = read_date(typed), read_date(row["new date"])
    for column, found in (("date", date), ("new date", new_date)):
        if row[column] and found is None:
            row.fault(f"the {column} is not as 2026-10-12 or 12.10.2026: {row[column]}")
    minutes = {name: read_minute(row[name]) for name in ("from", "new from", "new to")}
    for column, minute in minutes.items():
        if row[column] and minute is None:
            row.fault(f"{column}: {row[column]} is no time as 10:15")
    if what not in ("", OFF, MOVED):
        row.fault(f"this is not {OFF} or {MOVED}: {what}")
    news = [row[name] for name in ("new date", "new from", "new to", "new room")]
    if what == MOVED and not any(news):
        row.fault("it is moved, but not to another date, time or room")
    if what == OFF and any(news):
        row.fault("it is off, and cannot be elsewhere")
    begins, ends = minutes["new from"], minutes["new to"]
    if begins is not None and ends is not None and begins >= ends:
        row.fault("it ends before it begins")
    if sum(map(len, row.faults.found.values())) > before or not course or date is None:
        return None
    is_off = what == OFF
    return SingleDate(
        row.number,
        course,
        date,
        minutes["from"],
        is_off,
        new_date,
        begins,
        ends,
        row["new room"],
        row["why"],
    )


def words_of(one: SingleDate) -> str:
    """A row as it is read: `2026-12-08 16:15: Ethics: moved to 2026-12-09, room 12 (a fair)`."""
    time = "" if one.begins is None else f" {clock(one.begins)}"
    news = [f"{one.new_date}"] if one.new_date else []
    if one.new_begins is not None:
        to = "" if one.new_ends is None else f"\N{EN DASH}{clock(one.new_ends)}"
        news.append(f"{clock(one.new_begins)}{to}")
    if one.new_room:
        news.append(one.new_room)
    what = "off" if one.is_off else f"moved to {', '.join(news)}"
    why = f" ({one.why})" if one.why else ""
    return shown(f"{one.date}{time}: {one.course}: {what}{why}")
