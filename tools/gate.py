#!/usr/bin/env python3
"""Runs all tests: proofs, edits that have to be refused, and tests of the program.

Parts run side by side: tests that need no program; the proofs, on a copy without the edits that
must fail, and then these edits; and tests of the program as soon as it is proved. What each prints
is printed when it has ended, and kept in out/test. The last page is a table of all parts. The last
line is 'N passed, M failed', and the status is 0 only where none failed.
"""
from __future__ import annotations

import argparse
import os
import signal
import sys
from typing import Optional, Sequence

import gate_tree
from gate_parts import EDITS, NAMES, Need, chosen, table, total_of
from gate_run import LOGS, Run, Work
from gate_tree import TOP

ENDING = (signal.SIGINT, signal.SIGTERM, signal.SIGHUP)
BUILD = {Need.PROGRAM: "./timedesk --proved --build", Need.TRIALS: "./test proofs"}


def take_signals(run: Run) -> None:
    """Has signals end the run, but those that it was begun without, as by nohup."""

    def end(number: int, _: object) -> None:
        run.ended_by = number

    for number in ENDING:
        if signal.getsignal(number) != signal.SIG_IGN:
            signal.signal(number, end)


def read_words(words: Optional[Sequence[str]] = None) -> Work:
    """What the words of the command ask for; where they are wrong, it is said, and the run ends."""
    reader = argparse.ArgumentParser(
        prog="./test",
        description=__doc__,
        formatter_class=argparse.RawDescriptionHelpFormatter,
        epilog=f"parts: {' '.join(NAMES)}",
    )
    reader.add_argument(
        "names",
        nargs="*",
        metavar="NAME",
        help="run these parts alone, with the program as it stands, or as named proofs make it",
    )
    reader.add_argument(
        "--edits", action="store_true", help="try all edits, also those whose record holds"
    )
    reader.add_argument("--write", action="store_true", help="write what refused each edit")
    asked = reader.parse_args(words)
    unknown = [name for name in asked.names if name not in NAMES]
    if unknown:
        reader.error(f"no part is named {unknown[0]}; the parts are: {' '.join(NAMES)}")
    rows = chosen(asked.names)
    if (asked.edits or asked.write) and not any(EDITS in row for row in rows):
        reader.error("--edits and --write are of the part edits, which is not named")
    return Work(rows, gate_tree.count_lanes(), asked.edits, asked.write)


def in_order(names: Sequence[str]) -> str:
    return " ".join(sorted(names, key=NAMES.index))


def failures(run: Run) -> list[str]:
    """A line for each part that has failed, and for what was not there to be run."""
    lines = []
    for outcome in run.outcomes:
        if outcome.failed:
            kept = (LOGS / f"{outcome.name}.txt").relative_to(TOP)
            where = f" ({kept})" if outcome.times else ""
            lines.append(f"FAILED: {outcome.name}: {outcome.failure()}{where}")
    for need, names in run.lacking.items():
        why = "was not built" if run.proves else f"is not there ({BUILD[need]} builds it)"
        lines.append(f"FAILED: the program of {need.value} {why}, so not run: {in_order(names)}")
    return lines


def tell(run: Run) -> bool:
    """Prints the last page, and answers whether all has passed."""
    outcomes, seconds = list(run.outcomes), run.seconds()
    all_parts = total_of(outcomes, seconds)
    failed = all_parts.failed + len(run.lacking) + run.is_stopped
    lines = failures(run) + ["FAILED: the run was ended before its end"] * run.is_stopped
    lines += table(outcomes, seconds)
    lanes = f", {run.work.lanes} lanes for proofs and edits" if run.proves else ""
    lines.append(f"{len(os.sched_getaffinity(0))} processors{lanes}")
    lines.append(f"{all_parts.passed} passed, {failed} failed")
    run.show("\n".join(["", *lines, ""]).encode())
    return not failed


def main() -> int:
    run = Run(read_words())
    take_signals(run)
    try:
        run.start()
        run.wait()
    finally:
        run.clean()
    if tell(run):
        return 0
    return 128 + run.ended_by if run.ended_by else 1


if __name__ == "__main__":
    sys.exit(main())
