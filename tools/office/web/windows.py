"""The windows that listen: what each is to be sent, until it has gone."""
from __future__ import annotations

import asyncio
import time
from collections import Counter, deque
from typing import Any, Awaitable, Callable, Deque, Optional, Union

from office.web.guard import Fault
from office.web.lines import STILL, Line

# events that may wait for a window, windows of one seat, and the seconds after which one that
# neither listens nor asks is forgotten
WAIT, MOST, SILENT = 32, 4, 90.0
# seconds for which a window is known whose connection has ended: it may come back
LOST = 20.0
# acts of a window of which the answers are kept
ACTS = 2
Data = dict[str, Any]


class Window:
    """A window of a browser."""

    def __init__(self, windows: Windows, name: str) -> None:
        self.windows, self.name = windows, name
        # what the face of the model keeps for this window
        self.shown: Any = None
        self.is_listening = self.is_ending = False
        self.asked_at = time.monotonic()
        # its connection has ended, and it may come back
        self.is_lost = False
        # the login of whose window it is, if there is one
        self.holder = ""
        self._answers: dict[str, asyncio.Future[Data]] = {}
        self._lines: Deque[Line] = deque()
        self._woken = asyncio.Event()

    def take_over(self, old: Window) -> None:
        """Takes up what the same window of a browser had before it began anew."""
        self.shown, self._answers, self.holder = old.shown, old._answers, old.holder

    async def once(self, number: str, act: Callable[[], Awaitable[Data]]) -> Data:
        """Does what is asked under a number. If that is asked again, since its answer was not
        heard, the same is answered, and nothing done."""
        if not number:
            return await act()
        if number not in self._answers:
            self._answers[number] = asyncio.ensure_future(act())
            for old in [*self._answers][:-ACTS]:
                del self._answers[old]
        return await asyncio.shield(self._answers[number])

    def tell(self, event: Union[Data, Line]) -> None:
        """Tells the window something; one that does not take it begins anew."""
        if self.is_lost:
            return
        if len(self._lines) < WAIT:
            self._lines.append(event if isinstance(event, Line) else Line(event))
            self._woken.set()
        else:
            self.end()

    async def next_line(self, seconds: float) -> Optional[Line]:
        """The next line; a sign of life after so many seconds; None if the window has gone."""
        if not self._lines and not self.is_ending:
            try:
                await asyncio.wait_for(self._woken.wait(), seconds)
            except asyncio.TimeoutError:
                return STILL
        self._woken.clear()
        if self._lines:
            return self._lines.popleft()
        return None if self.is_ending or not self.is_listening else STILL

    def lose(self) -> None:
        """Its connection has ended."""
        if self.is_listening:
            self.is_listening, self.is_lost = False, True
            self.asked_at = self.windows.gone_since = time.monotonic()
            self.clear()

    def clear(self) -> None:
        """What it was to be told is old: it begins anew, or has gone."""
        self._lines.clear()
        self._woken.set()

    def end_soon(self) -> None:
        """The window is let go when it was sent what there is to be sent."""
        self.is_ending = True
        self._woken.set()
        self.windows.forget(self)

    def end(self) -> None:
        """The window has gone, or listens no more."""
        self.is_listening = False
        self.clear()
        self.windows.forget(self)


class Windows:
    """The windows of a seat, or of the readers."""

    def __init__(self, most: int = MOST, makes_room: bool = False) -> None:
        # whether one that listens is let go for a new one; its page comes back by itself
        self.most, self.makes_room = most, makes_room
        self.by_name: dict[str, Window] = {}
        # when one of them was begun, or has asked, last
        self.asked_at = 0.0
        self.gone_since = time.monotonic()

    def begin(self, name: str) -> Window:
        """A window that begins. If it listens, that was broken off: what it is told from now on is
        for the next listening."""
        old = self.by_name.get(name)
        if old is not None and old.is_listening:
            old.end()
        elif old is not None:
            old.is_lost = False
            old.clear()
        if name not in self.by_name:
            if len(self.by_name) >= self.most:
                self._make_room()
            self.by_name[name] = Window(self, name)
            if old is not None:
                self.by_name[name].take_over(old)
        self.asked_at = time.monotonic()
        return self.by_name[name]

    def _make_room(self) -> None:
        """Forgets the oldest of those that do not listen, as a page that was loaded anew before it
        did; else, if that makes room, the oldest of who holds most."""
        silent = [window for window in self.all() if not window.is_listening]
        if not silent and self.makes_room:
            held = Counter(window.holder for window in self.all())
            most = max(held.values())
            theirs = [one for one in self.all() if held[one.holder] == most]
            min(theirs, key=lambda window: window.asked_at).end_soon()
            return
        if not silent:
            raise Fault(429, f"{self.most} windows of this link are open: close one of them")
        self.forget(min(silent, key=lambda window: window.asked_at))

    def known(self, name: str) -> Window:
        """A window that has begun here."""
        if name not in self.by_name:
            raise Fault(410, "this window is not known here: it begins anew")
        window = self.by_name[name]
        window.asked_at = self.asked_at = time.monotonic()
        return window

    def listen(self, name: str) -> Window:
        """A window listens; if it did before, that was broken off."""
        window = self.known(name)
        if window.is_listening:
            window = self.begin(name)
        window.is_listening, window.is_lost = True, False
        return window

    def drop_silent(self) -> None:
        """Forgets those that neither listen nor ask."""
        for window in self.all():
            patience = LOST if window.is_lost else SILENT
            if not window.is_listening and time.monotonic() > window.asked_at + patience:
                self.forget(window)

    def forget(self, window: Window) -> None:
        if self.by_name.get(window.name) is window:
            del self.by_name[window.name]
            if not window.is_lost:
                self.gone_since = time.monotonic()

    def all(self) -> list[Window]:
        return list(self.by_name.values())

    def end_all(self) -> None:
        for window in self.all():
            window.end_soon()

    def idle_for(self) -> float:
        """For how many seconds nobody listens here."""
        is_there = any(not window.is_lost for window in self.all())
        return 0.0 if is_there else time.monotonic() - self.gone_since
