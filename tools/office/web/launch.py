"""Begins the server of the seats with a Python that has tornado; another may run the office."""
from __future__ import annotations

import argparse
import os
import re
import subprocess
import sys
from typing import NamedTuple, Optional

from office.day.folder import Day
from office.day.program import HERE
from office.refused import WORDS, Refused

# set where the Python was chosen for its tornado, and by who wants a certain one
CHOSEN, NAMED = "OFFICE_WEB_CHOSEN", "OFFICE_WEB_PYTHON"
# each seat has a thread: an arena of memory for each would give nothing back
ARENAS = {"MALLOC_ARENA_MAX": "2"}
PROBE = "import sys, tornado; sys.exit(tornado.version_info < (6,))"
LACKING = (
    "the seats are served by tornado, which no Python here has: apt-get install python3-tornado, "
    "or python3 -m pip install tornado; all else works without it"
)
URL = re.compile(r"https?://[A-Za-z0-9.:\[\]-]+(/[A-Za-z0-9._~/-]*)?\Z")


class Served(NamedTuple):
    """Where the seats are served, and who is trusted."""

    socket: Optional[str]
    port: Optional[int]
    url: Optional[str]
    login_header: Optional[str]
    logins: Optional[str]


def add_places(one: argparse.ArgumentParser) -> None:
    """Adds the options about where seats are served."""
    socket = "the Unix socket to listen at; DAY/web.socket by default"
    one.add_argument("--socket", metavar="PATH", help=socket)
    one.add_argument("--port", type=int, metavar="N", help="listen at this port of 127.0.0.1")
    url = "where browsers reach it through a proxy, as https://desk.example.org/seats/"
    one.add_argument("--url", help=url)
    header = "the header in which the proxy names who has logged in; at a socket alone"
    one.add_argument("--login-header", metavar="NAME", help=header)
    logins = "whose login is which seat: lines of a login and a seat, or `reader`"
    one.add_argument("--logins", metavar="FILE", help=logins)


def places_of(words: argparse.Namespace) -> Served:
    """The options about where seats are served, if they go together."""
    if words.socket is not None and words.port is not None:
        raise Refused("a socket or a port, not both", WORDS)
    if words.port is not None and not 0 <= words.port < 65536:
        raise Refused("a port is 0 to 65535", WORDS)
    if words.url is not None and not URL.match(words.url):
        raise Refused("--url is an address as https://desk.example.org/seats/", WORDS)
    if (words.login_header is None) != (words.logins is None):
        raise Refused("--login-header and --logins belong together", WORDS)
    if words.login_header is not None and words.port is not None:
        raise Refused(
            "a login header is trusted at a socket alone: everybody on this machine can write one "
            "to a port",
            WORDS,
        )
    return Served(words.socket, words.port, words.url, words.login_header, words.logins)


def words_of_places(served: Served) -> list[str]:
    """The words that say the same again."""
    found = []
    for name, value in zip(("socket", "port", "url", "login-header", "logins"), served):
        found += [] if value is None else [f"--{name}", str(value)]
    return found


def find_python() -> str:
    """A Python that has tornado."""
    named = os.environ.get(NAMED)
    for python in [named] if named else [sys.executable, "python3", "/usr/bin/python3"]:
        try:
            done = subprocess.run([python, "-c", PROBE], capture_output=True, check=False)
        except OSError:
            continue
        if done.returncode == 0:
            return python
    raise Refused(LACKING)


def server_words(day: Day, served: Served) -> list[str]:
    """The command that serves the seats."""
    return [find_python(), os.path.join(HERE, "office"), "web", day.path, *words_of_places(served)]


def web_of(day: Day, words: argparse.Namespace) -> list[str]:
    """The command that serves the seats of a day beside its office; none if it is not wanted."""
    served = places_of(words)
    if words.web:
        return server_words(day, served)
    if any(value is not None for value in served):
        raise Refused("where seats are served is for --web", WORDS)
    return []


def serve(day: Day, words: argparse.Namespace) -> int:
    """Does `office web`."""
    from office.web.seat_keys import make_key, print_links

    day.facts()
    served = places_of(words)
    if words.new_key is not None:
        return make_key(day, words.new_key)
    if words.links:
        return print_links(day)
    if os.environ.get(CHOSEN) is None:
        command = server_words(day, served)
        sys.stdout.flush()
        os.execvpe(command[0], command, {**ARENAS, **os.environ, CHOSEN: "1"})
    try:
        from office.web.server import serve_day
    except ImportError:
        raise Refused(LACKING) from None
    return serve_day(day, served)
