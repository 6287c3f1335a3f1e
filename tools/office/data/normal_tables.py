"""Times, terms and single dates as tables of the office's own, in English and with dates and clocks
in one form."""
from __future__ import annotations

from typing import Optional, Sequence

from office.data import exceptions
from office.data.label_files import TERM_COLUMNS, TIMES_COLUMNS
from office.data.labels import Labels, clock
from office.data.tables import Column

Rows = list[tuple[object, ...]]


def times_rows(labels: Labels, days: int, periods: int) -> Rows:
    """Each slot, with its weekday and its times if they are known."""
    rows: Rows = []
    for slot in ((day, period) for day in range(days) for period in range(periods)):
        weekday = labels.day(slot[0]) if slot[0] in labels.weekdays else ""
        time = labels.times.get(slot)
        span = (clock(time.begins), clock(time.ends)) if time else ("", "")
        rows.append((slot[0] + 1, slot[1] + 1, weekday, *span))
    return rows


def term_rows(labels: Labels) -> Rows:
    """When there is teaching and when not, and the zone."""
    rows: Rows = []
    if labels.term is not None:
        rows.append(("teaching", labels.term.first, labels.term.last, labels.term.name))
        rows += [("off", first, last, "") for first, last in labels.term.days_off]
    if labels.zone is not None:
        rows.append(("zone", "", "", labels.zone))
    return rows


def single_rows(labels: Labels) -> Rows:
    """What is not as the week on a single date."""

    def time(minute: Optional[int]) -> str:
        return "" if minute is None else clock(minute)

    return [
        (
            one.course,
            one.date,
            time(one.begins),
            exceptions.OFF if one.is_off else exceptions.MOVED,
            one.new_date or "",
            time(one.new_begins),
            time(one.new_ends),
            one.new_room,
            one.why,
        )
        for one in labels.single_dates
    ]


def heads(columns: Sequence[Column]) -> list[str]:
    return [column.name for column in columns]


def normal_tables(labels: Labels, days: int, periods: int) -> dict[str, tuple[list[str], Rows]]:
    """The tables by their files, with headings and rows."""
    return {
        "times.csv": (heads(TIMES_COLUMNS), times_rows(labels, days, periods)),
        "term.csv": (heads(TERM_COLUMNS), term_rows(labels)),
        exceptions.FILE: (heads(exceptions.COLUMNS), single_rows(labels)),
    }
