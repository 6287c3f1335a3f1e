"""When the clocks of a time zone are changed, by the machine's tables of zones."""
from __future__ import annotations

from datetime import datetime, timedelta
from difflib import get_close_matches
from typing import Iterator
from zoneinfo import ZoneInfo, available_timezones

from office.refused import CONTENT, Refused

DAY, MINUTE = timedelta(days=1), timedelta(minutes=1)


def zone_of(name: str) -> ZoneInfo:
    try:
        return ZoneInfo(name)
    except (KeyError, OSError, ValueError):
        raise Refused(f"this machine knows no time zone {name}", CONTENT) from None


def fault_of_zone(name: str) -> str:
    """What is wrong with the name of a zone; empty if nothing is, or if this machine knows none."""
    try:
        zone_of(name)
    except Refused as refused:
        known = available_timezones()
        alike = [zone for zone in sorted(known) if zone.lower().endswith("/" + name.lower())]
        found = alike or get_close_matches(name, known, 1, 0.75)
        return f"{refused.reason}{f': did you mean {found[0]}?' if found else ''}" if known else ""
    return ""


def clocks(time: datetime) -> tuple[object, ...]:
    """What clocks show is this far from UTC; part of it is summer time; and it has a name."""
    return time.utcoffset(), time.dst(), time.tzname()


def changes(zone: ZoneInfo, first: datetime, last: datetime) -> Iterator[datetime]:
    """The times between two others at which the clocks of a zone are changed."""
    while first < last:
        after = clocks((first + DAY).astimezone(zone))
        if clocks(first.astimezone(zone)) != after:
            minutes = (first + n * MINUTE for n in range(DAY // MINUTE + 1))
            yield next(time for time in minutes if clocks(time.astimezone(zone)) == after)
        first += DAY
