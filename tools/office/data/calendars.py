"""The calendar of one by RFC 5545: an event for each lecture in each week of the term."""
from __future__ import annotations

import datetime
from functools import lru_cache

from office.data.labels import Labels
from office.data.one_week import OneWeek
from office.data.plan_book import Book, Event
from office.data.time_zones import MINUTE, changes, zone_of
from office.refused import CONTENT, Refused
from office.words.text import shown
from office.work.week import View

YEAR, WEEK = datetime.timedelta(366), datetime.timedelta(7)


def why_none(labels: Labels) -> str:
    """Why there can be no calendar; empty if there can be one."""
    if labels.term is None:
        return "no calendar without the days of teaching: term.csv has no row teaching"
    if labels.zone is None:
        return "no calendar without a time zone: term.csv has no row zone"
    if not labels.times or not labels.weekdays:
        return "no calendar without weekdays and times: times.csv does not have them"
    return ""


def timeless(week: OneWeek) -> str:
    """Which lectures of a week have no time; empty if all have one."""
    labels = week.labels
    slots = [
        labels.slot(slot)
        for slot in week.slots
        if slot not in labels.times or slot[0] not in labels.weekdays
    ]
    return f"times.csv has no time for {'; '.join(slots)}" if slots else ""


class Events:
    """The events of a book by whose calendars they stand in."""

    def __init__(self, book: Book) -> None:
        self.plan = book.plan
        self.of: dict[tuple[str, str], list[tuple[str, Event]]] = {}
        self.lines: dict[tuple[object, ...], bytes] = {}
        shown_ones = [pair for pair in book.events.items() if pair[1].is_shown]
        for name, event in sorted(shown_ones, key=lambda pair: (pair[1].begins, pair[0])):
            what = event.what
            views = [("course", what.course), ("room", what.room), ("teacher", what.teacher)]
            for kind, code in [*views, *(("curriculum", code) for code in what.curricula)]:
                now = book.renamed.get(f"{kind}/{code}", f"{kind}/{code}").partition("/")[2]
                self.of.setdefault((kind, now), []).append((name, event))

    def text(self, event: Event) -> bytes:
        """What an event says, which most of its lecture's events have alike."""
        key = event[2:6]
        if key not in self.lines:
            summary, _, told = event.what[4:]
            if event.is_off:
                summary = f"Off: {summary}"
            if event.is_off or event.is_moved:
                what = "off on this date" if event.is_off else "on this date alone"
                told = f"{told}; {what}{f': {event.why}' if event.why else ''}"
            self.lines[key] = folded_lines(
                f"SUMMARY:{escaped(summary)}",
                f"LOCATION:{escaped(event.what.location)}",
                f"DESCRIPTION:{escaped(told)}",
                *(["STATUS:CANCELLED"] if event.is_off else []),
            )
        return self.lines[key]


def escaped(text: str) -> str:
    for letter in "\\;,":
        text = text.replace(letter, f"\\{letter}")
    return shown(text)


def folded(line: str) -> bytes:
    """A line in parts of at most 75 bytes."""
    whole = line.encode()
    if len(whole) <= 75:
        return whole + b"\r\n"
    parts: list[bytes] = [b""]
    for letter in line:
        if len(parts[-1]) + len(letter.encode()) > 75:
            parts.append(b" ")
        parts[-1] += letter.encode()
    return b"".join(part + b"\r\n" for part in parts)


def folded_lines(*lines: str) -> bytes:
    return b"".join(map(folded, lines))


def stamp(time: datetime.datetime) -> str:
    return f"{time:%Y%m%dT%H%M%S}"


@lru_cache(maxsize=8)
def zone_lines(name: str, term_first: datetime.date, term_last: datetime.date) -> tuple[str, ...]:
    """The clocks of a zone from a year before a term to its end."""
    zone = zone_of(name)
    first, last = (
        datetime.datetime(day.year, day.month, day.day, tzinfo=datetime.timezone.utc)
        for day in (term_first - YEAR, term_last + WEEK)
    )
    lines = ["BEGIN:VTIMEZONE", f"TZID:{name}"]
    for time in (first, *changes(zone, first, last)):
        before, after = (time - MINUTE).astimezone(zone), time.astimezone(zone)
        part = "DAYLIGHT" if after.dst() else "STANDARD"
        lines += [
            f"BEGIN:{part}",
            # by the clocks before the change
            f"DTSTART:{stamp(before + MINUTE)}",
            f"TZOFFSETFROM:{before:%z}",
            f"TZOFFSETTO:{after:%z}",
            f"TZNAME:{after:%Z}",
            f"END:{part}",
        ]
    return (*lines, "END:VTIMEZONE")


def clock_text(time: str) -> str:
    """`2026-12-01T14:05` as calendars write it."""
    return time.replace("-", "").replace(":", "") + "00"


def calendar_of(events: Events, labels: Labels, view: View) -> bytes:
    """The calendar of somebody. It is refused where there can be none."""
    why = why_none(labels)
    if why:
        raise Refused(why, CONTENT)
    assert labels.term is not None and labels.zone is not None
    found = events.of.get(view, [])
    dates = [datetime.date.fromisoformat(event.begins[:10]) for _, event in found]
    first, last = min([labels.term.first, *dates]), max([labels.term.last, *dates])
    name = escaped(labels.name(*view))
    parts = [
        folded_lines(
            "BEGIN:VCALENDAR",
            "VERSION:2.0",
            "PRODID:-//timedesk//office//EN",
            "CALSCALE:GREGORIAN",
            f"NAME:{name}",
            f"X-WR-CALNAME:{name}",
            "REFRESH-INTERVAL;VALUE=DURATION:PT6H",
            "X-PUBLISHED-TTL:PT6H",
            *zone_lines(labels.zone, first, last),
        )
    ]
    for uid, event in found:
        parts += [
            folded_lines(
                "BEGIN:VEVENT",
                f"UID:{uid}@{events.plan}.timedesk",
                f"DTSTAMP:{event.changed}",
                f"LAST-MODIFIED:{event.changed}",
                f"SEQUENCE:{event.sequence}",
                f"DTSTART;TZID={labels.zone}:{clock_text(event.begins)}",
                f"DTEND;TZID={labels.zone}:{clock_text(event.ends)}",
            ),
            events.text(event),
            folded_lines("END:VEVENT"),
        ]
    return b"".join([*parts, folded_lines("END:VCALENDAR")])
