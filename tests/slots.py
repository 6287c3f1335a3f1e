#!/usr/bin/env python3
"""Runs the worked cases of what each slot offers, tests/slots/cases.md, and drawn scripts; and lines that are no such look, in a script and
at a seat.

PROGRAM names another program. The last line is 'N passed, M failed'.
"""
import os
import subprocess
import sys
import tempfile

sys.dont_write_bytecode = True
from blocked import check_cases  # noqa: E402
from program import EXAMPLES, HERE, PROGRAM, check, check_run, end, pair_of  # noqa: E402
from slots_drawn import check_drawn  # noqa: E402

CASES = os.path.join(HERE, "tests/slots/cases.md")
# lines that are no look at what slots offer, each with the word at which that shows
BAD_LINES = (
    ("slots", "2"),
    ("slots geo", "2 geo"),
    ("slots 3 place geo * * *", "2 3"),
    ("slots reroom geo * 0 1", "2 reroom"),
    ("slots drop geo 0 1", "2 drop"),
    ("slots price place geo * * *", "2 price"),
    ("slots place", "3"),
    ("slots place phy * * *", "3 phy"),
    ("slots place geo C * *", "4 C"),
    ("slots place geo A 0 1", "5 0"),
    ("slots place geo * 0 *", "5 0"),
    ("slots place geo * * 1", "6 1"),
    ("slots place geo * *", "6"),
    ("slots place geo * * * *", "7 *"),
    ("slots move geo * * * * *", "4 *"),
    ("slots move geo 1 2 A 1 1", "7 1"),
    ("slots move geo 1 2 A * 1", "8 1"),
    ("slots move geo 1 3 A * *", "5 3"),
    ("slots move geo 1 2 A * * 0", "9 0"),
    ("slots swap geo * * * * *", "4 *"),
    ("slots swap geo 1 2 top * *", "6 top"),
    ("slots swap geo 1 2 * 0 2", "7 0"),
    ("slots swap geo 1 2 * * 2", "8 2"),
    ("slots swap geo 1 2 * *", "8"),
    ("slots swap geo 1 2 * * * *", "9 *"),
)
# of an instance with rooms A and `*`, the last of which cannot be named where a `*` is any room
STARRED = "Name: s Courses: 1 Rooms: 2 Days: 1 Periods_per_day: 2 Curricula: 0 Constraints: 0 COURSES: c t 2 0 9 " \
    "ROOMS: A 5 * 9 CURRICULA: UNAVAILABILITY_CONSTRAINTS: END."
STARRED_LINES = (
    ("open", "opened"),
    ("slots place c * * *", "slots 2 0 place c * 0 0 0 place c * 0 1"),
    ("slots place c A * *", "slots 2 4 place c A 0 0 4 place c A 0 1"),
    ("place c * 0 0", "done"),
    ("slots move c 0 0 * * *", "slots 2 - sameslot 0 move c 0 0 * 0 1"),
    ("slots place c A * *", "slots 2 - already 5 place c A 0 1"),
    ("peek slots move c 0 0 A * *", "slots 2 - sameslot 4 move c 0 0 A 0 1"),
    ("commit", "committed 1"),
)


def write(folder, name, text):
    """A file with this text."""
    path = os.path.join(folder, name)
    with open(path, "w", encoding="utf-8") as opened:
        opened.write(text)
    return path


def sit(lines, instance, *words):
    """What is answered at a seat of a desk."""
    done = subprocess.run([PROGRAM, "desk", instance, "-", *words], input=lines.encode(), capture_output=True, timeout=300)
    return done.stdout.decode()


def check_bad_lines(folder):
    """Lines that are no look are bad ones, behind `show`, in a draft, and behind `peek`."""
    instance, solution = pair_of(EXAMPLES, "small")[0], os.path.join(EXAMPLES, "s.sol")
    typed = "open\n" + "".join(f"{front}{line}\n" for line, _ in BAD_LINES for front in ("", "peek ", "show ")) + "commit\n"
    in_script = "".join(line if line.startswith("show") else f"0 {line}" for line in typed.splitlines(keepends=True))
    answers = "opened\n" + 3 * len(BAD_LINES) * "bad line\n" + "committed 1\n"
    journal = os.path.join(folder, "journal")
    words = ["--start", solution, "--journal", journal]
    check_run("bad lines of a script", "run", instance, write(folder, "script", in_script), *words, wanted=answers)
    with open(journal, encoding="utf-8") as opened:
        check("no call is in their journal", opened.read(), "journal 1\nentry 0 0\nEND.\n")
    answers = "opened\n"
    for _, at in BAD_LINES:
        number, *word = at.split()
        answers += f"bad line {at}\n" + 2 * f"bad line {' '.join([str(int(number) + 1), *word])}\n"
    check("bad lines at a seat", sit(typed, instance, "--start", solution), answers + "committed 1\n")


def check_starred(folder):
    """A room that is named `*` is offered, and cannot be asked for by itself."""
    instance = write(folder, "starred", STARRED)
    lines, answers = ("".join(text + "\n" for text in texts) for texts in zip(*STARRED_LINES))
    check("a room named *, at a seat", sit(lines, instance), answers)
    script = write(folder, "script", "".join(f"0 {line}\n" for line, _ in STARRED_LINES))
    journal = os.path.join(folder, "journal")
    check_run("a room named *", "run", instance, script, "--journal", journal, wanted=answers)
    check_run("a room named *, audited", "audit", instance, journal, wanted="agrees\n")


def main():
    check("a seat tells the word", "slots" in sit("help\n", pair_of(EXAMPLES, "small")[0]).split(), True)
    with tempfile.TemporaryDirectory() as folder:
        check_cases(folder, CASES)
        check_bad_lines(folder)
        check_starred(folder)
        check_drawn(folder)
    end()


main()
