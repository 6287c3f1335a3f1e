#!/usr/bin/env python3
"""Runs the office, and kills it, by SIGKILL, at a step of a change of its rules: KILL_AT says at
which; STEPS names a file to which the steps are written as they are done. A step is anything that
the office does to a file or a process."""
import os
import signal
import sys

HERE = os.path.dirname(os.path.dirname(os.path.dirname(os.path.abspath(__file__))))
sys.path.insert(0, os.path.join(HERE, "tools"))
sys.dont_write_bytecode = True

from office.day import next_part, open_office  # noqa: E402
from office.main import main  # noqa: E402

AT, OFFICE = int(os.environ["KILL_AT"]), os.getpid()
EVENTS = ("os.rename", "os.remove", "os.mkdir", "os.rmdir", "os.chmod", "subprocess.Popen")
WRAPPED = ("fsync", "pwrite", "ftruncate", "write", "mkfifo", "close")


class Steps:
    """Counts steps as long as the rules change."""

    is_counting = False
    count = 0

    def take(self, what):
        if not self.is_counting or os.getpid() != OFFICE:
            return
        self.count += 1
        with_steps = os.environ.get("STEPS")
        if self.count == AT:
            os.kill(os.getpid(), signal.SIGKILL)
        if with_steps:
            self.is_counting = False
            with open(with_steps, "a") as file:
                file.write(f"{what}\n")
            self.is_counting = True


def hook(event, arguments):
    if event == "open" and isinstance(arguments[2], int) and arguments[2] & os.O_CREAT:
        steps.take(f"{event} {arguments[0]}")
    elif event in EVENTS:
        steps.take(f"{event} {arguments[0]}")


def wrapped(name):
    """A call of the system before which a step is counted."""
    call = getattr(os, name)

    def counted(*arguments, **more):
        steps.take(name)
        return call(*arguments, **more)

    return counted


def counted_change(change):
    """A change of rules of which the steps are counted."""

    def changed(office, taken):
        steps.is_counting = True
        change(office, taken)
        steps.is_counting = False

    return changed


steps = Steps()
sys.addaudithook(hook)
for each in WRAPPED:
    setattr(os, each, wrapped(each))
open_office.Running.change = counted_change(open_office.Running.change)
assert next_part.os is os
if __name__ == "__main__":
    sys.exit(main())
