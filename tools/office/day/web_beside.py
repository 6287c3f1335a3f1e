"""The server of the seats that runs beside an office: where it dies it is started again, and that
is said."""
from __future__ import annotations

import contextlib
import subprocess
import time
from typing import Optional

from office.day import processes
from office.words.announce import announce

# seconds until a server is started again that has died, at first and at most, and those behind
# which one that goes on has begun well
FIRST, LAST, GOOD = 1.0, 60.0, 60.0


class WebBeside:
    """A server that is kept; none, if there is no command for one."""

    def __init__(self, words: list[str]) -> None:
        self.words = words
        self._child: Optional[subprocess.Popen[bytes]] = None
        self._pause, self._begun, self._again = FIRST, 0.0, 0.0

    def start(self) -> None:
        if self.words:
            self._begun = time.monotonic()
            self._child = processes.start(self.words, None)

    def look(self) -> None:
        """Starts it again some time after it has died; the time grows, if it dies at once."""
        now = time.monotonic()
        if self._child is None:
            if self._again and now > self._again:
                self._again = 0.0
                self.start()
            return
        status = self._child.poll()
        if status is None:
            return
        self._child = None
        if now > self._begun + GOOD:
            self._pause = FIRST
        how = processes.how_ended(status)
        announce(f"the server of the seats has ended {how}; it begins again in {self._pause:.0f} s")
        self._again, self._pause = now + self._pause, min(2 * self._pause, LAST)

    def end(self) -> None:
        """Ends it. It sees that the day is closed, and says so in its windows first."""
        self._again = 0.0
        if self._child is not None:
            with contextlib.suppress(subprocess.TimeoutExpired):
                self._child.wait(processes.GRACE)
            processes.end(self._child)
