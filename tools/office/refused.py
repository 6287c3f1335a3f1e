"""Why a command of the office ends without doing what it was asked."""
from __future__ import annotations

import os

CONTENT, WORDS, MACHINE = 1, 2, 3


class Refused(Exception):
    """A command is refused: the reason in one line, and the status with which the office ends."""

    def __init__(self, reason: str, status: int = MACHINE) -> None:
        super().__init__(reason)
        self.reason = reason
        self.status = status


class Silent(Refused):
    """A command is refused, and the program has said why."""

    def __init__(self, status: int) -> None:
        super().__init__("", status)


def reason_of(fault: Exception) -> str:
    """Why something was not done, in one line."""
    return sentence(fault) if isinstance(fault, OSError) else str(fault)


def sentence(fault: OSError) -> str:
    """What the system refuses, with the name of the file."""
    why = fault.strerror or str(fault)
    return f"{os.fsdecode(fault.filename)}: {why}" if fault.filename else why
