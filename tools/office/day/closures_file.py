"""What is blocked on a day, by whom, when and why: a text file of the day, a line for each closure,
and one for each that is lifted.

    2026-11-30T08:00:00.123+0100<TAB>room<TAB>r04<TAB>2<TAB>*<TAB>ben<TAB>1<TAB>heating<TAB>block

A day and a period count from 0, or are `*` for all; then follow who, the seat, or `-` at none, why,
and what is done, so that a line that is torn does nothing. The side file of the program is made of
it.
"""
from __future__ import annotations

from typing import Iterable, Optional

from office.day.closure import BLOCKABLE, Closure, Scope, starred, unstarred
from office.day.desk_words import decoded, encoded
from office.day.folder import Day
from office.day.instance import Instance, Reader, readable
from office.day.processes import now
from office.day.safe_files import file_size, read_text
from office.day.shared_lines import add_line, fields_of, one_line

BLOCK, UNBLOCK = "block", "unblock"
# what stands for no seat
NO_SEAT = "-"


def closures_path(day: Day) -> str:
    return day.file("closures")


def closures_size(day: Day) -> int:
    return file_size(closures_path(day))


def closures_end(day: Day) -> int:
    """Where the last line of the file ends that is whole."""
    return encoded(read_text(closures_path(day))).rfind(b"\n") + 1


def line_of(closure: Closure) -> list[str]:
    """A closure as the fields of its line."""
    kind, name, day, period = closure.scope
    where = [kind, name, starred(day), starred(period)]
    seat = NO_SEAT if closure.seat is None else str(closure.seat)
    act = UNBLOCK if closure.is_lifted else BLOCK
    return [closure.time, *where, closure.who, seat, closure.why, act]


def closure_of(fields: list[str]) -> Optional[Closure]:
    """The closure of a line; None if the line has none."""
    time, kind, name, day, period, who, seat, why, act = fields
    try:
        scope = Scope(kind, name, unstarred(day), unstarred(period))
        at = None if seat == NO_SEAT else int(seat)
    except ValueError:
        return None
    if act not in (BLOCK, UNBLOCK) or kind not in BLOCKABLE:
        return None
    return Closure(scope, who, at, time, why, act == UNBLOCK)


def add_closure(day: Day, closure: Closure) -> str:
    """Says to the office what is blocked or lifted from now on, and has it on the disk when this
    returns; answers why it could not be written, or nothing."""
    return add_line(closures_path(day), line_of(closure))


def blocked_now(scope: Scope, who: str, seat: Optional[int], why: str) -> Closure:
    return Closure(scope, who, seat, now(), why)


def lifted_now(scope: Scope, who: str, seat: Optional[int], why: str) -> Closure:
    return Closure(scope, who, seat, now(), why, True)


def closures_text(closures: Iterable[Closure]) -> bytes:
    """Closures as the lines of a file."""
    lines = ("\t".join(map(one_line, line_of(closure))) + "\n" for closure in closures)
    return encoded("".join(lines))


def read_closures(day: Day, first: int = 0, last: Optional[int] = None) -> list[Closure]:
    """What was said, in its order: of the whole file, or from one of its bytes to another."""
    text = decoded(encoded(read_text(closures_path(day)))[first:last])
    found = map(closure_of, fields_of(text, 9))
    return [closure for closure in found if closure is not None]


def standing(closures: Iterable[Closure]) -> list[Closure]:
    """What is blocked after all that was said, in the order in which it was. Lifting takes away all
    that is a part of what is lifted."""
    found: dict[Scope, Closure] = {}
    for closure in closures:
        scope = closure.scope
        if closure.is_lifted:
            found = {one: kept for one, kept in found.items() if not scope.covers(one)}
        else:
            found.pop(scope, None)
            found[scope] = closure
    return list(found.values())


def standing_of(day: Day, instance: Instance, last: Optional[int] = None) -> list[Closure]:
    """What is blocked on a day, as far as its instance has it; up to a byte of the file."""
    found = standing(read_closures(day, 0, last))
    return [closure for closure in found if closure.scope.is_of(instance)]


def blocked_text(closures: Iterable[Closure]) -> bytes:
    """The side file of the program, of what is blocked."""
    lines = sorted({f"{closure.scope.words()}\n" for closure in closures})
    return encoded(f"Blocked: {len(lines)}\n{''.join(lines)}END.\n")


def read_blocked(path: str) -> list[Scope]:
    """What a side file blocks that the program has taken, each once."""
    with readable(path):
        reader = Reader(path)
        found = [
            Scope(reader.word(), reader.word(), unstarred(reader.word()), unstarred(reader.word()))
            for _ in range(reader.count())
        ]
    return list(dict.fromkeys(found))
