"""Weekdays, times, dates and numbers as people write them in tables."""
from __future__ import annotations

import datetime
import re
from typing import Optional

from office.data.vocabulary import Vocabulary, own_words

CLOCK = r"(\d{1,2})[:.h](\d\d)(?:[:.]00)?(?: ?([AaPp])\.?[Mm]\.?)?(?: ?Uhr)?"


def read_weekday(text: str, words: Optional[Vocabulary] = None) -> Optional[int]:
    """The weekday of a name or of its first letters."""
    return (words or own_words()).weekday(text)


def read_minute(text: str) -> Optional[int]:
    """The minute of its day that a clock shows: `8:15`, `8.15`, `08:15:00`, `8.15 Uhr`."""
    found = re.fullmatch(CLOCK, text, re.ASCII)
    if found is None:
        return None
    hour, minute, half = int(found[1]), int(found[2]), found[3]
    if minute > 59 or not (1 <= hour <= 12 if half else hour <= 23):
        return None
    if half:
        hour = hour % 12 + 12 * (half in "Pp")
    return 60 * hour + minute


def read_date(text: str) -> Optional[datetime.date]:
    """A date as 2026-10-12 or as 12.10.2026; with slashes it could be either of two."""
    found = re.fullmatch(r"(\d{4})-(\d{1,2})-(\d{1,2})", text, re.ASCII)
    parts = found.groups() if found else ()
    if not found:
        found = re.fullmatch(r"(\d{1,2})\.(\d{1,2})\.(\d{4})", text, re.ASCII)
        parts = found.groups()[::-1] if found else ()
    try:
        return datetime.date(*map(int, parts)) if parts else None
    except ValueError:
        return None


def read_count(text: str) -> str:
    """A number without a fraction of zeros, as spreadsheets write whole ones: `30,0`."""
    found = re.fullmatch(r"(\d+)[.,]0+", text, re.ASCII)
    return found[1] if found else text
