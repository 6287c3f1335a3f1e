"""`office publish`: the weeks of a day as a folder for a web server. The folder is a link to its
newest version, so that readers see an old one or a new one and no mixture, whatever happens."""
from __future__ import annotations

import contextlib
import datetime
import json
import os
import shutil
import sys
import time
from typing import NamedTuple, Optional

from office.data.changed_weeks import by_view, changes_between
from office.data.label_files import check_zone, read_labels
from office.data.own_check import SHOWN, check_of
from office.data.page_words import Language
from office.data.plan_book import FILE as BOOK, Book, book_in, book_text, new_book, newer, read_book
from office.data.site import CHECK, PEOPLE, Published, Site
from office.data.telling import From, Told, first_book
from office.day.folder import Day
from office.day.lecture import Lecture
from office.day.parts import DayMinutes
from office.day.safe_files import lock, write_whole
from office.day.shifts import Shift
from office.past.timetable_at import read_at
from office.refused import Refused
from office.words.text import counted

STATE = "published.json"
# how many publishings are remembered
REMEMBERED = 100
# how many seconds `--follow` waits before it looks again
PACE = 0.5


class State(NamedTuple):
    """What a publishing leaves to the next one."""

    lectures: list[Lecture]
    history: list[Published]


def read_state(text: Optional[bytes]) -> Optional[State]:
    if text is None:
        return None
    found = json.loads(text)
    history = []
    for one in found["history"]:
        changes = [Shift(*(row and Lecture(*row) for row in pair)) for pair in one["changes"]]
        history.append(Published(one["time"], changes, one.get("since", ""), one.get("stamp", "")))
    return State([Lecture(*row) for row in found["lectures"]], history)


def state_text(state: State) -> bytes:
    history = [one._asdict() for one in state.history]
    return (json.dumps({"lectures": state.lectures, "history": history}) + "\n").encode()


class Folder:
    """A folder that is published: a link to its newest version, which stands beside it."""

    def __init__(self, path: str) -> None:
        self.path = os.path.abspath(path)
        self.versions = os.path.join(
            os.path.dirname(self.path), f".{os.path.basename(self.path)}.published"
        )
        if os.path.islink(self.path):
            target = os.path.join(os.path.dirname(self.path), os.readlink(self.path))
            if os.path.dirname(os.path.abspath(target)) != self.versions:
                raise Refused(f"{path} is a link to elsewhere, and is not written over")
        elif os.path.isdir(self.path) and not os.listdir(self.path):
            os.rmdir(self.path)
        elif os.path.exists(self.path):
            raise Refused(f"{path} is there already, was not published, and is not written over")
        os.makedirs(self.versions, exist_ok=True)
        held = lock(os.path.join(self.versions, "lock"))
        if held is None:
            raise Refused(f"{path} is being published already")
        self.held = held

    def newest(self) -> int:
        """The number of the version that is seen; 0 for none."""
        return int(os.path.basename(os.readlink(self.path))) if os.path.islink(self.path) else 0

    def version(self, number: int) -> str:
        return os.path.join(self.versions, str(number))

    def old(self, name: str) -> Optional[bytes]:
        """What a file of the version that is seen has."""
        try:
            with open(os.path.join(self.path, name), "rb") as file:
                return file.read()
        except FileNotFoundError:
            return None

    def is_as(self, files: dict[str, bytes]) -> bool:
        """Whether the version that is seen has these files and no others."""
        there = {
            os.path.relpath(os.path.join(folder, name), self.path)
            for folder, _, names in os.walk(self.path)
            for name in names
        }
        return there == set(files) and all(self.old(name) == files[name] for name in files)

    def write(self, files: dict[str, bytes]) -> None:
        """Makes a new version, and lets it be seen. A file that has not changed is the old one."""
        number = self.newest() + 1
        version = self.version(number)
        shutil.rmtree(version, ignore_errors=True)
        for folder in ["", *sorted({os.path.dirname(name) for name in files} - {""})]:
            os.makedirs(os.path.join(version, folder), exist_ok=True)
            os.chmod(os.path.join(version, folder), 0o755)
        os.chmod(self.versions, 0o755)
        for name, text in files.items():
            new = os.path.join(version, name)
            if self.old(name) == text:
                with contextlib.suppress(OSError):
                    os.link(os.path.join(self.path, name), new)
                    continue
            with open(new, "wb") as file:
                # a site is for all, whatever is asked of other files
                os.fchmod(file.fileno(), 0o644)
                file.write(text)
                file.flush()
                os.fsync(file.fileno())
        link = f"{self.versions}/newest"
        with contextlib.suppress(FileNotFoundError):
            os.remove(link)
        os.symlink(os.path.join(os.path.basename(self.versions), str(number)), link)
        os.replace(link, self.path)
        self.remove_but(number)

    def remove_but(self, number: int) -> None:
        """Removes old versions. The last one stays for those who are reading it."""
        for name in os.listdir(self.versions):
            if name.isdigit() and int(name) not in (number - 1, number):
                shutil.rmtree(self.version(int(name)), ignore_errors=True)


class Wanted(NamedTuple):
    """What is asked of a publishing beside the weeks."""

    # the date from which on it holds
    since: From
    # to tell of changes in a form for programs
    is_json: bool = False
    # the page in which visitors check the timetable, before files are in it
    check: Optional[str] = None
    # of the pages
    language: Language = Language.ENGLISH


def book_of(day: Day, folder: Folder, state: Optional[State], plan: str) -> Book:
    """What calendars have told of a plan so far."""
    text = folder.old(BOOK)
    published = None if text is None else read_book(text, os.path.join(folder.path, BOOK))
    if published is None and state is not None:
        published = first_book(plan, state.lectures)
    return newer(published, book_in(day.path)) or new_book()


def keep_book(day: Day, book: Book) -> str:
    """Writes the book into the day's folder, so that it goes on with the plan; why not, if it
    cannot be done."""
    try:
        if book_in(day.path) != book:
            write_whole(day.file(BOOK), book_text(book))
    except Refused as refused:
        return f"another folder would begin with new calendars: {refused.reason}"
    return ""


def publish_once(day: Day, folder: Folder, wanted: Wanted) -> None:
    """Publishes the newest timetable of a day, and says whose weeks have changed."""
    at, labels = read_at(day), read_labels(day.path)
    check_zone(labels, day.path)
    now = datetime.datetime.now(datetime.timezone.utc)
    state = read_state(folder.old(STATE))
    book = book_of(day, folder, state, at.instance.name)
    public = labels.published(wanted.language)
    told = Told(book, at, public, wanted.since.text(now, labels.zone), f"{now:%Y%m%dT%H%M%SZ}")
    holds = told.since[:10] if labels.term else ""
    changed = changes_between(state.lectures, at.lectures) if state else []
    history = state.history if state else []
    if changed or not history:
        when = time.strftime("%Y-%m-%d %H:%M", time.localtime(now.timestamp()))
        newest = Published(when, changed, holds, f"{now:%Y-%m-%dT%H:%M:%SZ}")
        history = [*history, newest][-REMEMBERED:]
    site = Site(at, public, history, told.book, has_check=wanted.check is not None)
    files = site.files()
    if wanted.check is not None:
        files[CHECK] = check_of(wanted.check, at, labels).encode()
    files[STATE], files[BOOK] = state_text(State(at.lectures, history)), book_text(told.book)
    for note in filter(None, [*told.notes, *site.notes, keep_book(day, told.book)]):
        print("office:", note, file=sys.stderr)
    if folder.is_as(files):
        print("office: nothing has changed", file=sys.stderr)
        return
    differ = sum(folder.old(name) != files[name] for name in files)
    folder.write(files)
    summary = f"{at.title()}: {counted(len(changed), 'lecture')} changed, {counted(differ, 'file')}"
    print(f"office: {summary} of {len(files)} written", file=sys.stderr, flush=True)
    for view, shifts in sorted(by_view(at.instance, changed).items()):
        if view.kind in PEOPLE:
            person = site.person(view, shifts, files)
            line = f"{site.wording.view(*view)}: {'; '.join(person['changes'])}"
            print(json.dumps(person, ensure_ascii=False) if wanted.is_json else line, flush=True)


def publish(day: Day, path: str, follows: bool, wanted: Wanted) -> int:
    """Publishes a day; with `follows` again after each accepted draft, until the day is closed."""
    day.facts()
    folder = Folder(path)
    if wanted.check is not None:
        print(f"office: {SHOWN}", file=sys.stderr, flush=True)
    minutes = DayMinutes(day)
    while True:
        is_open = follows and day.is_open()
        minutes.read_to_end()
        publish_once(day, folder, wanted)
        if not is_open:
            return 0
        time.sleep(PACE)
        while day.is_open() and not minutes.has_more():
            time.sleep(PACE)
