"""`office web`: the server of a day's seats."""
from __future__ import annotations

import asyncio
import contextlib
import os
import signal
import socket as sockets
import time
from typing import Any, Optional

import tornado.netutil

from office.data.label_files import Watched
from office.day.commit_notes import notes_path
from office.day.folder import Day
from office.day.parts import instance_of, last_part
from office.day.pins import pins_path
from office.refused import Refused
from office.web.action_names import BrowserKeyNames
from office.web.connections import Connections, Listener, allow_files
from office.web.frame import Frame, PageWording, isolated
from office.web.guard import BODY, HEAD, Guard, read_logins
from office.web.handlers import application
from office.web.launch import Served
from office.web.look_faults import LookFaults
from office.web.message_types import PersonData
from office.web.readers import Readers
from office.web.seat_keys import READER, file_of, links_of, lock_server, read_keys
from office.web.sitter import Sitter
from office.web.static_files import read_pages
from office.web.windows import Window
from office.work.shared_reading import SharedReading

# seconds in which a head and a body have to come, and between two looks for news: at most, and at
# least, however often somebody commits
COMES, TICK, LEAST = 10.0, 0.25, 0.05
# seconds between two looks on what the others work: each has all weeks looked at
WORKS = 1.0
# so many seats look for news at once: while one waits for its desk, the others go on
AT_ONCE = 4
# a path of a Unix socket has so many bytes at most
LONGEST_PATH = 107
# so many that have just come wait while the server is at work
WAITING = 1024
# how long the windows have to hear that all is over
FAREWELL = 0.3
Data = dict[str, Any]


class Office:
    """The seats of a day, those who read, and who listens."""

    def __init__(self, day: Day, guard: Guard, files: int) -> None:
        self.day, self.guard = day, guard
        self.pages = read_pages()
        self.faults = LookFaults()
        self.labels = Watched(day.path)
        self.frame = frame = Frame(
            instance_of(day), PageWording(BrowserKeyNames(), self.labels.labels, isolated)
        )
        self.readers = Readers(day, frame)
        planners = day.facts()["planners"]
        self.part, self.shared = last_part(day), SharedReading(day, planners)
        self.sitters = [Sitter(day, planner, frame, self.shared) for planner in range(planners)]
        self.connections = Connections(files, len(self.sitters))
        self.keys_at = self.stat_keys()
        self.closes: Optional[float] = None
        self.people: list[PersonData] = []
        # when it was looked last on what all work
        self.works_at = 0.0
        # somebody has committed, or the server is ended: the next look is made at once
        self.woken = asyncio.Event()

    def place(self, who: str) -> Any:
        return self.readers if who == READER else self.sitters[int(who)]

    # what is asked

    async def hello(self, who: str, window: str, data: Data) -> Data:
        """A window begins, or begins again."""
        place = self.place(who)
        is_again = window in place.windows.by_name
        begun: Window = place.windows.begin(window)
        begun.holder = str(data.get("login") or "")
        found: Data = await place.answer(begun, "hello", data)
        found.update(day=self.day.name, closes=self.closes, now=time.time(), again=is_again)
        if who != READER:
            # the others are told at the next look
            found.update(people=self.who_sits())
        return found

    async def answer(self, who: str, window: str, verb: str, data: Data, number: str) -> Data:
        """What a window asks; with the number of an act it is done once."""
        place = self.place(who)
        known: Window = place.windows.known(window)

        async def act() -> Data:
            found: Data = await place.answer(known, verb, data)
            return found

        found = await known.once(number, act)
        if found.pop("committed", False):
            # who has committed hears it first
            self.woken.set()
        return found

    def listen(self, who: str, window: str) -> Window:
        listened: Window = self.place(who).windows.listen(window)
        return listened

    # news

    async def watch(self, stop: asyncio.Event) -> None:
        """Looks for news until the office closes, or the server is ended. What fails meanwhile is
        said, and looked at again."""
        while not stop.is_set() and not self.is_over():
            with self.faults.kept("the keys"):
                self.look_at_keys()
            with self.faults.kept("the labels"):
                await self.look_at_labels()
            await self.look()
            with self.faults.kept("the closing"):
                self.tell_closing()
            await asyncio.sleep(LEAST)
            with contextlib.suppress(asyncio.TimeoutError):
                await asyncio.wait_for(self.woken.wait(), TICK - LEAST)
            self.woken.clear()
        await self.end()

    async def end(self) -> None:
        """All windows are told that it is over, and all seats are left."""
        if self.closes is None:
            # a desk that has died closes no office: its seats are told so first
            await self.look()
        for place in self.places():
            place.tell({"over": True})
            place.windows.end_all()
        await asyncio.sleep(FAREWELL)
        for sitter in self.sitters:
            with self.faults.kept(f"seat {sitter.planner}"):
                await sitter.leave()

    def places(self) -> list[Any]:
        return [*self.sitters, self.readers]

    def is_over(self) -> bool:
        with self.faults.kept("the day"):
            at = self.day.closes_at()
            return not self.day.is_open() or (at is not None and time.time() > at)
        return False

    def see(self) -> Any:
        """How the day is now: as long as this is the same, no seat has news but by its own acts. It
        is read in a thread of its own, so that nobody waits for the disk."""
        while not self.part.is_last():
            self.part = self.part.next()
        if time.monotonic() > self.works_at + WORKS:
            self.works_at = time.monotonic()
            self.shared.everybody.read_on()
        day = self.day
        files = self.part.minutes, notes_path(day), pins_path(day), day.failing, day.office
        # works are replaced where one of them changes
        facts = self.part.number, day.is_open(), day.is_changing(), self.shared.everybody.works
        return *map(stamp_of, files), *facts

    async def look(self) -> None:
        """Looks for news at each place at which somebody is, first where somebody has asked last.
        What fails at one is that one's."""
        stamp, loop = None, asyncio.get_running_loop()
        with self.faults.kept("the day"):
            stamp = await loop.run_in_executor(None, self.see)
        if self.day.is_changing():
            # the desk ends as soon as all seats have left it
            await asyncio.gather(*(self.look_at(sitter, stamp) for sitter in self.sitters))
        places = sorted(self.places(), key=asked_at, reverse=True)
        for at in range(0, len(places), AT_ONCE):
            some = places[at : at + AT_ONCE]
            await asyncio.gather(*(self.look_at(place, stamp) for place in some))
        people = await loop.run_in_executor(None, self.who_sits)
        if people != self.people:
            self.people = people
            for sitter in self.sitters:
                sitter.tell({"people": people})

    async def look_at(self, place: Any, stamp: Any) -> None:
        with self.faults.kept(place.called):
            await place.look(stamp)

    def who_sits(self) -> list[PersonData]:
        found: list[Optional[PersonData]] = []
        for sitter in self.sitters:
            with self.faults.kept(f"who sits at {sitter.called}"):
                found.append(sitter.person())
        return [one for one in found if one]

    def tell_closing(self) -> None:
        at = self.day.closes_at()
        if at != self.closes:
            self.closes = at
            for place in self.places():
                place.tell({"closes": at})

    async def look_at_labels(self) -> None:
        """Takes up names and times that have changed."""
        if self.labels.read_on():
            self.frame.wording.labels = self.labels.labels
            self.frame.news.clear()
            for place in self.places():
                await place.rename()

    def stat_keys(self) -> int:
        try:
            return os.stat(file_of(self.day)).st_mtime_ns
        except OSError:
            return 0

    def look_at_keys(self) -> None:
        """Takes up keys that were made anew; windows of the old ones are let go."""
        at = self.stat_keys()
        if at == self.keys_at:
            return
        self.keys_at, old = at, self.guard.keys.by_name
        self.guard.keys = read_keys(self.day)
        for name, key in self.guard.keys.by_name.items():
            if old[name] != key:
                self.place(name).tell({"gone": True})
                self.place(name).windows.end_all()


def asked_at(place: Any) -> float:
    return float(place.windows.asked_at)


def stamp_of(path: str) -> Optional[tuple[int, int]]:
    """Is another one when a file has been written to."""
    try:
        found = os.stat(path)
    except OSError:
        return None
    return found.st_size, found.st_mtime_ns


def hosts_of(url: Optional[str]) -> set[str]:
    return {url.split("//", 1)[1].split("/", 1)[0]} if url else set()


def guard_of(day: Day, served: Served) -> Guard:
    keys = read_keys(day)
    guard = Guard(keys, hosts_of(served.url))
    if served.login_header and served.logins:
        guard.login_header = served.login_header
        guard.logins = read_logins(served.logins, set(keys.by_name))
    return guard


def listen_at(served: Served, path: str) -> sockets.socket:
    """The socket at which requests come."""
    try:
        if served.port is not None:
            family = sockets.AF_INET
            return tornado.netutil.bind_sockets(served.port, "127.0.0.1", family, WAITING)[0]
        if len(os.fsencode(path)) > LONGEST_PATH:
            raise Refused(f"{path} is too long for a socket: --socket names a shorter one")
        return tornado.netutil.bind_unix_socket(path, mode=0o660, backlog=WAITING)
    except (OSError, ValueError) as fault:
        raise Refused(f"cannot listen: {fault}") from None


def base_of(served: Served, end: sockets.socket) -> str:
    """Where the links lead: to the proxy, to the port, or to a port that leads to the socket."""
    if served.url:
        return served.url.rstrip("/") + "/"
    if served.port is not None:
        return f"http://127.0.0.1:{end.getsockname()[1]}/"
    return "http://localhost:8470/"


def say_links(day: Day, served: Served, base: str, path: str) -> None:
    where = (
        f"127.0.0.1, port {base.rsplit(':', 1)[1].rstrip('/')}" if served.port is not None else path
    )
    print(f"office: the seats of {day.path} are served at {where}")
    if served.port is None and not served.url:
        print(f"  from another machine: ssh -L 8470:{os.path.abspath(path)} HOST")
    print("  who has a link can plan at its seat; the reader's link shows the timetable")
    for name, link in links_of(day, base):
        print(f"  {name:<7} {link}", flush=True)


async def run(day: Day, served: Served, held: int) -> int:
    office = Office(day, guard_of(day, served), allow_files())
    path = served.socket or day.file("web.socket")
    at = listen_at(served, path)
    base = base_of(served, at)
    os.pwrite(held, f"{base}\n".encode(), 0)
    server = Listener(
        application(office),
        max_header_size=HEAD,
        max_body_size=BODY,
        body_timeout=COMES,
        idle_connection_timeout=COMES,
    )
    server.connections = office.connections
    server.listen_at(at)
    stop = asyncio.Event()

    def end() -> None:
        stop.set()
        office.woken.set()

    for sign in (signal.SIGINT, signal.SIGTERM):
        asyncio.get_running_loop().add_signal_handler(sign, end)
    try:
        say_links(day, served, base, path)
        await office.watch(stop)
    finally:
        server.stop_listening()
        if served.port is None:
            with contextlib.suppress(OSError):
                os.remove(path)
    return 0


def serve_day(day: Day, served: Served) -> int:
    """Serves the seats of a day until it is closed."""
    if not day.is_ready():
        raise Refused(f"no office is open in {day.path}")
    held = lock_server(day)
    signal.signal(signal.SIGHUP, signal.SIG_IGN)
    return asyncio.run(run(day, served, held))
