"""Children of the office, and the signals that end it: Ctrl-C and TERM."""
from __future__ import annotations

import contextlib
import os
import select
import signal
import subprocess
import time
from typing import Any, Sequence

GRACE = 3.0


class Stopped(Exception):
    """Ctrl-C or TERM came."""


class Alarm:
    """Raises an exception at the first of some signals; those that come after it, or after `stop`,
    change nothing."""

    def __init__(self, raised: type[Exception], *signs: signal.Signals) -> None:
        self.raised = raised
        self.is_over = False
        for sign in signs:
            signal.signal(sign, self._ring)

    def _ring(self, *_: Any) -> None:
        if not self.is_over:
            self.is_over = True
            raise self.raised

    def stop(self) -> None:
        self.is_over = True


class Signals:
    """Ctrl-C and TERM are counted, and wake whoever waits. The office goes on when its terminal
    closes."""

    def __init__(self) -> None:
        self.count = 0
        self._woken, write = os.pipe()
        for end in (self._woken, write):
            os.set_blocking(end, False)
        signal.set_wakeup_fd(write, warn_on_full_buffer=False)
        signal.signal(signal.SIGINT, self._counted)
        signal.signal(signal.SIGTERM, self._counted)
        signal.signal(signal.SIGCHLD, lambda *_: None)
        signal.signal(signal.SIGHUP, signal.SIG_IGN)

    def _counted(self, *_: Any) -> None:
        self.count += 1

    def wait(self, seconds: float, *ends: int) -> list[int]:
        """Waits so long, or until a signal comes or one of the ends can be read; these are
        answered."""
        found = select.select([self._woken, *ends], [], [], max(0.0, seconds))[0]
        if self._woken in found:
            with contextlib.suppress(BlockingIOError):
                while os.read(self._woken, 512):
                    pass
        return [end for end in found if end != self._woken]

    def check(self) -> None:
        if self.count:
            raise Stopped


def start(
    words: Sequence[str], stdout: Any = subprocess.DEVNULL, keep: Sequence[int] = (), **more: Any
) -> subprocess.Popen[bytes]:
    """Starts a child in a session of its own, so that Ctrl-C comes to the office alone, which then
    ends the child and its children."""
    return subprocess.Popen(
        words,
        stdin=subprocess.DEVNULL,
        stdout=stdout,
        pass_fds=tuple(keep),
        start_new_session=True,
        **more,
    )


def end(child: subprocess.Popen[bytes]) -> None:
    """Ends a child with all of its session."""
    if child.poll() is not None:
        return
    for sign, seconds in ((signal.SIGTERM, GRACE), (signal.SIGKILL, None)):
        with contextlib.suppress(ProcessLookupError, PermissionError):
            os.killpg(child.pid, sign)
        with contextlib.suppress(subprocess.TimeoutExpired):
            child.wait(seconds)
            return


def run(
    signals: Signals, words: Sequence[str], stdout: Any = subprocess.DEVNULL, **more: Any
) -> int:
    """Runs a child to its end, and answers its status. It is ended if Ctrl-C or TERM comes."""
    signals.check()
    child = start(words, stdout, **more)
    try:
        while child.poll() is None:
            signals.check()
            signals.wait(1.0)
    except Stopped:
        end(child)
        raise
    return child.returncode


def is_alive(number: int) -> bool:
    """Whether a process is there."""
    try:
        os.kill(number, 0)
    except ProcessLookupError:
        return False
    except PermissionError:
        pass
    return True


def how_ended(status: int) -> str:
    """The end of a child in words."""
    if status >= 0:
        return f"with status {status}"
    try:
        return f"by {signal.Signals(-status).name}"
    except ValueError:
        return f"by signal {-status}"


def now() -> str:
    """The time of this moment as it is written in logs, with the zone of this machine."""
    whole = time.time()
    local = time.localtime(whole)
    return (
        time.strftime("%Y-%m-%dT%H:%M:%S", local)
        + f".{int(whole % 1 * 1000):03d}"
        + time.strftime("%z", local)
    )
