"""The keys of a day's seats and of its readers: in a file that its owner alone can read."""
from __future__ import annotations

import os
import re
import secrets
import time
from typing import NamedTuple, Optional

from office.day.folder import Day
from office.day.safe_files import (
    is_locked,
    lock,
    must_be_own,
    must_be_secret,
    read_text,
    write_whole,
)
from office.refused import Refused, sentence

READER = "reader"
# a key as it is made
KEY = re.compile(r"[A-Za-z0-9_-]{32,200}\Z")
# bytes of a key: 192 bits; seconds that a server may take to begin
LONG, BEGINS = 24, 10.0


class Keys(NamedTuple):
    """The key of each seat by its number, and of those who read."""

    by_name: dict[str, str]

    def text(self) -> str:
        return "".join(f"{name} {key}\n" for name, key in self.by_name.items())


def file_of(day: Day) -> str:
    return day.file("web.keys")


def key_names(day: Day) -> list[str]:
    """All that has a key."""
    return [*map(str, range(day.facts()["planners"])), READER]


def read_file(day: Day) -> dict[str, str]:
    """The keys that a day has on the disk."""
    try:
        lines = [line.split() for line in read_text(file_of(day), must_be_secret).split("\n")]
    except PermissionError:
        raise Refused(f"the keys of {day.path} are closed to you") from None
    except OSError as fault:
        raise Refused(f"cannot read {sentence(fault)}") from None
    return {line[0]: line[1] for line in lines if len(line) == 2}


def keys_before(day: Day) -> dict[str, str]:
    """The keys of the day that this one follows: links hold over the night."""
    seen: set[str] = set()
    before = day.facts().get("after")
    while before and before not in seen:
        seen.add(before)
        earlier = Day(before)
        if os.path.exists(file_of(earlier)):
            return read_file(earlier)
        before = earlier.facts().get("after") if earlier.is_there() else None
    return {}


def check_keys(day: Day, keys: Keys) -> None:
    """Refuses keys that can be guessed, and two that are the same."""
    names: dict[str, str] = {}
    for name, key in keys.by_name.items():
        if not KEY.match(key):
            told = f"the key of {name} is none that was made by `--new-key {name}`"
            raise Refused(f"cannot take {file_of(day)}: {told}")
        if names.setdefault(key, name) != name:
            told = f"{names[key]} and {name} have the same key: `--new-key {name}` makes one"
            raise Refused(f"cannot take {file_of(day)}: {told}")


def read_keys(day: Day, anew: Optional[str] = None) -> Keys:
    """The keys of a day. Those that it lacks are taken from the day before, or made; one is made
    anew."""
    found = read_file(day)
    if anew is not None:
        found[anew] = secrets.token_urlsafe(LONG)
        write_keys(day, found)
    wanted = key_names(day)
    if any(name not in found for name in wanted):
        before = keys_before(day)
        for name in wanted:
            found.setdefault(name, before.get(name) or secrets.token_urlsafe(LONG))
        write_keys(day, found)
    keys = Keys({name: found[name] for name in wanted})
    check_keys(day, keys)
    return keys


def write_keys(day: Day, found: dict[str, str]) -> None:
    write_whole(file_of(day), Keys(found).text().encode(), 0o600)


def lock_server(day: Day) -> int:
    """Takes the place of the day's one server."""
    path = day.file("web")
    held = lock(path, 0o640)
    if held is None:
        raise Refused(f"the seats of {day.path} are served already: office web {day.path} --links")
    must_be_own(held, path)
    # where an earlier one has served them is no address any more
    os.truncate(held, 0)
    return held


def served_at(day: Day) -> Optional[str]:
    """Where the seats are served now. A server that begins just now is waited for."""
    until = time.monotonic() + BEGINS
    while is_locked(day.file("web")) and time.monotonic() < until:
        base = read_text(day.file("web"), must_be_own).strip()
        if base:
            return base
        time.sleep(0.05)
    return None


def links_of(day: Day, base: str) -> list[tuple[str, str]]:
    """The link of each seat and of the readers."""
    keys = read_keys(day).by_name
    links = [(f"seat {name}", f"{base}#{keys[name]}") for name in keys if name != READER]
    return [*links, (READER, f"{base}read#{keys[READER]}")]


def print_links(day: Day) -> int:
    """Prints the links of seats that are served."""
    base = served_at(day)
    if base is None:
        raise Refused(f"the seats of {day.path} are not served: office web {day.path}")
    for name, link in links_of(day, base):
        print(f"  {name:<7} {link}", flush=True)
    return 0


def make_key(day: Day, name: str) -> int:
    """Makes a new key; the link that there was leads nowhere any more. A server that runs takes it
    up by itself."""
    names = key_names(day)
    if name not in names:
        raise Refused(f"{day.path} has no seat {name}: its links are of {', '.join(names)}")
    read_keys(day, name)
    base = served_at(day)
    if base is None:
        print(f"a new key is made: office web {day.path} prints its link")
        return 0
    who = name if name == READER else f"seat {name}"
    print(f"  {who:<7} {dict(links_of(day, base))[who]}")
    return 0
