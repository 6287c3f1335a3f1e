"""What is said in a window where something fails at its seat: a refusal, or that the seat begins
anew."""
from __future__ import annotations

import traceback

from office.refused import Refused, sentence
from office.seat.seat import DEAD, DeskEnded, NoAnswer
from office.web.guard import Fault

# the status of a seat whose desk has ended or does not answer, or that has failed
LOST = 503
SILENT = "the desk does not answer"
FAILED = (
    "something has failed here, and the office's terminal says what; what was committed is "
    "on the disk, and open edits are in the log of their seat"
)


def fault_of(thrown: Exception) -> Fault:
    """What was thrown, as a fault for who has asked. Behind what nobody has thought of the seat
    begins anew, since what it has by then is not known."""
    if isinstance(thrown, Fault):
        return thrown
    if isinstance(thrown, Refused):
        return Fault(409, thrown.reason)
    if isinstance(thrown, OSError):
        return Fault(409, sentence(thrown))
    if isinstance(thrown, DeskEnded):
        return Fault(LOST, DEAD)
    if isinstance(thrown, NoAnswer):
        return Fault(LOST, SILENT)
    traceback.print_exception(type(thrown), thrown, thrown.__traceback__)
    return Fault(LOST, FAILED)
