"""The pages of a timetable as a folder for a web server: an index, a page and a calendar for each
week, and what has changed. Each page needs nothing else."""
from __future__ import annotations

import datetime
import hashlib
import os
from html import escape
from typing import Any, NamedTuple, Optional
from urllib.parse import quote

from office.data.alike import key_of
from office.data.calendars import Events, calendar_of, timeless, why_none
from office.data.changed_weeks import by_view
from office.data.feed import Entry, feed
from office.data.labels import KINDS, Labels
from office.data.one_week import OneWeek
from office.data.page_words import Language
from office.data.plan_book import Book, Event
from office.data.week_page import FOLLOW, HERE, page, week_page
from office.day.shifts import Shift
from office.past.timetable_at import At
from office.words.text import shown
from office.words.wording import Wording
from office.work.week import View, all_views

INDEX, CHANGES, CHECK = "index.html", "changes.html", "check.html"
TITLES = {"teacher": "Teachers", "curriculum": "Curricula", "room": "Rooms", "course": "Courses"}
LONGEST = 60
# how many publishings with changes in a week are told on its page
SHOWN = 10
# whose weeks are told of: a room and a course read no mail
PEOPLE = ("teacher", "curriculum")
NEWS = "News of this week"


class Published(NamedTuple):
    """What was changed by a publishing: when, what, and from which date on; an empty one is the
    whole term."""

    time: str
    changes: list[Shift]
    since: str = ""
    # when, in UTC
    stamp: str = ""


def file_name(code: str) -> str:
    """The name of the files of a code: its letters, digits, `-` and `_`, and others by number."""
    name = "".join(
        letter if letter.isalnum() or letter in "-_" else f"~{ord(letter):x}" for letter in code
    )
    if len(name) > LONGEST:
        digest = hashlib.sha256(code.encode("utf-8", "surrogateescape")).hexdigest()[:16]
        name = f"{name[:LONGEST]}~{digest}"
    return name


def path_of(view: View, ending: str) -> str:
    return f"{view.kind}/{file_name(view.name)}.{ending}"


def link(path: str, text: str, kind: str = "") -> str:
    of_kind = f' class="{kind}"' if kind else ""
    return f'<a{of_kind} href="{quote(path)}">{escape(text)}</a>'


def single_date(labels: Labels, event: Event) -> str:
    """A lecture on a date on which it is not as in its week, as a page says it."""
    date = datetime.date.fromisoformat(event.begins[:10])
    span = f"{event.begins[11:]}\N{EN DASH}{event.ends[11:]}"
    when = f"{labels.weekday(date.weekday())} {date} {span}"
    why = f" ({event.why})" if event.why else ""
    alone = f"{event.what.location}, {labels.word('on this date alone')}"
    what = labels.word("off") if event.is_off else alone
    return f"{when}: {event.what.summary}: {what}{why}"


def leading_page(path: str) -> str:
    """A page that leads to another one."""
    return page(
        "Moved",
        f'<meta http-equiv="refresh" content="0; url={quote(path)}">\n<p>{link(path, path)}</p>\n',
    )


class Site:
    """The files of a timetable, by their paths."""

    def __init__(
        self, at: At, labels: Labels, history: list[Published], book: Book, has_check: bool = False
    ) -> None:
        self.at = at
        self.labels = labels
        # the newest last
        self.history = history
        self.book = book
        self.events = Events(book)
        # whether a page stands beside the weeks in which a visitor checks them
        self.has_check = has_check
        self.wording = Wording({}, labels)
        # what was changed in each week, the newest first
        self.changed: dict[View, list[tuple[Published, list[Shift]]]] = {}
        for published in reversed(history):
            for view, shifts in by_view(at.instance, published.changes).items():
                self.changed.setdefault(view, []).append((published, shifts))
        self.title = shown(labels.title or at.instance.name)
        # what is to be said to who publishes
        self.notes: list[str] = []

    def files(self) -> dict[str, bytes]:
        found = {INDEX: self.index(), CHANGES: self.changes()}
        why = why_none(self.labels)
        if why:
            self.notes.append(why)
        for view in all_views(self.at.instance):
            week = OneWeek(self.at, self.labels, view)
            calendar = None if why else self.calendar(week)
            if calendar is not None:
                found[path_of(view, "ics")] = calendar
            found[path_of(view, "html")] = self.week(week, calendar is not None)
            if view.kind in PEOPLE:
                found[path_of(view, "atom")] = self.feed(view)
        found.update(self.old_links(found))
        return found

    def old_links(self, files: dict[str, bytes]) -> dict[str, bytes]:
        """What people have links to though its code is another one now: its calendar, and a page
        that leads to its own."""
        found: dict[str, bytes] = {}
        for old, new in self.book.renamed.items():
            was, now = (View(*one.split("/", 1)) for one in (old, new))
            calendar, page_file = files.get(path_of(now, "ics")), path_of(now, "html")
            if calendar is not None:
                found[path_of(was, "ics")] = calendar
            if page_file in files:
                found[path_of(was, "html")] = self.encoded(leading_page(f"../{page_file}"))
        return found

    def calendar(self, week: OneWeek) -> Optional[bytes]:
        why = timeless(week)
        if why:
            self.notes.append(f"{self.wording.view(*week.view)}: {why}")
            return None
        return calendar_of(self.events, self.labels, week.view)

    def week(self, week: OneWeek, has_calendar: bool) -> bytes:
        links = [link(f"../{INDEX}", self.labels.word("All weeks"))]
        if has_calendar:
            file = os.path.basename(path_of(week.view, "ics"))
            links.append(link(file, self.labels.word("Calendar for a telephone"), "calendar"))
            # to be copied where a telephone does not open the other one
            links.append(link(file, self.labels.word("Address of the calendar")))
        if week.view.kind in PEOPLE:
            links.append(link(os.path.basename(path_of(week.view, "atom")), self.labels.word(NEWS)))
        nav = f"<nav>{' '.join(links)}</nav>\n"
        script = FOLLOW if has_calendar else ""
        below = self.single_dates(week.view) + self.changes_of(week.view)
        return self.encoded(week_page(week, False, nav, script=script, below=below))

    def title_of(self, published: Published) -> str:
        """When something was published, and from when on it holds."""
        if not published.since:
            return published.time
        on = " on" if self.labels.language is Language.ENGLISH else ""
        return f"{published.time}, {self.labels.word('from')} {published.since}{on}"

    def shift(self, shift: Shift) -> str:
        """A change in words."""
        if self.labels.language is Language.ENGLISH or None not in shift:
            return self.wording.shifts([shift])
        word = "placed on" if shift.was is None else "taken out of"
        place = shift.now or shift.was
        assert place is not None
        where = f"{self.labels.word(word)} {self.wording.place(place)}"
        return f"{self.wording.course(shift.course)}: {where}"

    def feed(self, view: View) -> bytes:
        """What has changed in a week, for who wants to be told."""
        entries = [
            Entry(
                published.stamp or published.time,
                published.stamp or f"{published.time.replace(' ', 'T')}:00Z",
                self.title_of(published),
                [self.shift(shift) for shift in shifts],
            )
            for published, shifts in self.changed.get(view, [])[:SHOWN]
        ]
        name = f"urn:timedesk:{self.book.plan}:{quote(f'{view.kind}/{view.name}')}"
        page_file = os.path.basename(path_of(view, "html"))
        return feed(name, shown(self.labels.said(*view)), quote(page_file), entries)

    def single_dates(self, view: View) -> str:
        """The dates on which something is not as in the week."""
        rows = [
            f"<li>{escape(shown(single_date(self.labels, event)))}</li>\n"
            for _, event in self.events.of.get(view, [])
            if event.is_off or event.is_moved
        ]
        title = self.labels.word("Single dates")
        return f"<h2>{title}</h2>\n<ul>\n{''.join(rows)}</ul>\n" if rows else ""

    def changes_of(self, view: View) -> str:
        """What has changed in a week since it was first published."""
        rows = [
            f"<li>{escape(f'{self.title_of(published)}: {self.shift(shift)}')}</li>\n"
            for published, shifts in self.changed.get(view, [])[:SHOWN]
            for shift in shifts
        ]
        if not rows:
            return ""
        title = self.labels.word("What has changed")
        items = f"<ul>\n{''.join(rows)}</ul>"
        return f'<div class="history"><h2>{title}</h2>\n{items}</div>\n'

    def index(self) -> bytes:
        newest = self.history[-1]
        parts = [f"<header>\n<h1>{escape(self.title)}</h1>\n"]
        if self.labels.term is not None:
            name = f"{self.labels.term.name}, " if self.labels.term.name else ""
            to = self.labels.word("to")
            dates = f"{name}{self.labels.term.first} {to} {self.labels.term.last}"
            parts.append(f"<p>{escape(dates)}</p>\n")
        word, found = self.labels.word, len(newest.changes)
        lectures = self.labels.counted(found, "lecture")
        count = f"{lectures} {word('changed')}" if found else word("new")
        parts.append(f"<p>{newest.time}: {link(CHANGES, count)}</p>\n")
        if self.has_check:
            parts.append(f"<p>{link(CHECK, word('Check this timetable yourself'))}</p>\n")
        parts.append("</header>\n<main>\n")
        views = all_views(self.at.instance)
        for kind, title in TITLES.items():
            of_kind = [view for view in views if view.kind == kind]
            names = {view: self.wording.name(*view) for view in of_kind}
            rows = [
                f"<li>{link(path_of(view, 'html'), names[view])}</li>\n"
                for view in sorted(of_kind, key=lambda view: (key_of(names[view]), view.name))
            ]
            items = f"<ul>\n{''.join(rows)}</ul>\n"
            parts.append(f"<section>\n<h2>{word(title)}</h2>\n{items}</section>\n")
        with open(os.path.join(HERE, "index.js"), encoding="utf-8") as file:
            parts.append(f"</main>\n<script>\n{self.script(file.read())}</script>\n")
        return self.encoded(self.page(self.title, "".join(parts)))

    def script(self, text: str) -> str:
        """The script of the index, in the language of the pages."""
        for words in ("name or code", "nothing is called so"):
            text = text.replace(words, self.labels.word(words))
        return text

    def changes(self) -> bytes:
        back = link(INDEX, self.labels.word("All weeks"))
        first = self.labels.word("published for the first time")
        parts = [f'<nav>{back}</nav>\n<main class="changes">\n']
        title = f"{self.labels.word('What has changed')}: {self.title}"
        parts.append(f"<h1>{escape(title)}</h1>\n")
        for published in reversed(self.history):
            rows = "".join(
                f"<li>{escape(self.shift(shift))}</li>\n" for shift in published.changes
            )
            items = f"<ul>\n{rows}</ul>\n" if rows else f"<p>{first}</p>\n"
            parts.append(f"<section>\n<h2>{self.title_of(published)}</h2>\n{items}</section>\n")
        parts.append("</main>\n")
        return self.encoded(self.page(title, "".join(parts)))

    def page(self, title: str, body: str) -> str:
        return page(title, body, language=self.labels.language.value)

    def encoded(self, text: str) -> bytes:
        return text.encode("utf-8", "surrogateescape")

    def person(self, view: View, shifts: list[Shift], has: dict[str, bytes]) -> dict[str, Any]:
        """Somebody whose week has changed, for a program that tells him."""
        calendar = path_of(view, "ics")
        return {
            "kind": view.kind,
            "code": view.name,
            "name": self.labels.name(*view),
            "page": path_of(view, "html"),
            "calendar": calendar if calendar in has else None,
            "changes": [self.wording.shifts([shift]) for shift in shifts],
        }


assert set(TITLES) == set(KINDS)
