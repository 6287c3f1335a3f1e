"""How a seat waits for its desk, and for its pipes."""
from __future__ import annotations

import select
import time
from typing import Callable

from office.day.folder import Day

# a desk that says nothing for so many seconds is not waited for; after the first ones it is said
# how long it has been
PATIENCE = 30.0
SAID_AFTER = 1.0
# how many seconds the last answers of a desk that ends are waited for, and how long it takes to
# look again whether the next one is there
LAST, AGAIN = 10.0, 0.05


def wait_for_desk(day: Day, waits: Callable[[float], None]) -> None:
    """Waits as long as the office changes the rules, and tells `waits` how long it has been."""
    begun = time.monotonic()
    while day.is_changing():
        time.sleep(AGAIN)
        waited = time.monotonic() - begun
        if waited >= SAID_AFTER:
            waits(waited)


def is_ready(seconds: float, *ends: tuple[int, int]) -> bool:
    """Whether one of some pipes can be read or written within so many seconds. Unlike `select` it
    takes any number of a descriptor, so that one process may sit at many seats."""
    poll = select.poll()
    for end, sign in ends:
        poll.register(end, sign)
    return bool(poll.poll(max(0.0, seconds) * 1000))
