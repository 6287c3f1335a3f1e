#!/usr/bin/env python3
"""The plain desk in place of the program's, with faults: FAULT names one. Any other command is
PROGRAM's. Nothing here is the client's."""
import contextlib
import os
import select
import sys
import threading

HERE = os.path.dirname(os.path.dirname(os.path.dirname(os.path.abspath(__file__))))
sys.path.append(os.path.join(HERE, "tests"))

from plain_instance import text_of  # noqa: E402
from plain_seats import SeatsDesk, bad_word, to_bytes, words_of  # noqa: E402
from rules import Instance, lectures_in  # noqa: E402

FAULT = os.environ.get("FAULT")
PROGRAM = os.environ.get("PROGRAM", os.path.join(HERE, "crates/ctt_tool/out/ctt_tool"))


class FakeDesk:
    """A desk with a fault, whose minutes are a file."""

    def __init__(self, instance, start, minutes):
        self.desk, self.minutes = SeatsDesk(instance, start, self.keep), minutes
        self.lines = 0

    def answer(self, planner, line):
        """What a desk with a fault answers."""
        self.lines += 1
        is_good = bad_word(self.desk.rules.instance, words_of(line)) is None
        if FAULT == "no memory" and self.lines % 3 == 0 and is_good:
            return "no memory"
        if line == "commit" and FAULT == "dies before":
            os._exit(9)
        if line == "commit" and FAULT == "no minutes":
            del self.desk.drafts[planner]
            self.desk.entries.append((planner, []))
            return f"committed {len(self.desk.entries)}"
        answer = self.desk.answer_at(planner, line)
        if line == "commit" and FAULT == "dies after":
            os._exit(9)
        if FAULT == "lies" and answer.startswith("refused "):
            return "done"
        if FAULT == "no sense" and is_good and not line.startswith(("peek", "show", "status")):
            return answer + " \x1b[2J \udcff"
        if FAULT == "no answer" and line == "commit":
            return ""
        return answer

    def keep(self, entry):
        """Writes what is committed, at once or later."""
        if FAULT in ("late", "later"):
            threading.Timer(0.3 if FAULT == "late" else 3.0, self.write, [entry]).start()
        else:
            self.write(entry)

    def write(self, entry):
        with open(self.minutes, "a") as file:
            file.write(entry)


def options(words):
    """The files and options of `desk`. It reads what is whole, so it has no place to point at."""
    files, found, rest = [], {}, iter(words)
    for word in rest:
        if word == "--point":
            continue
        if word.startswith("--"):
            found[word] = next(rest)
        else:
            files.append(word)
    return files, found


def keep(words):
    files, found = options(words)
    sides = (text_of(found.get(side)) for side in ("--barred", "--blocked"))
    start, minutes = text_of(found.get("--start")), found.get("--minutes", os.devnull)
    fake = FakeDesk(Instance(text_of(files[0]), *sides), lectures_in(start), minutes)
    # the office holds the other ends, so that none of these waits
    seats = {}
    for planner, seat in enumerate(files[1:]):
        lines = os.open(seat + ".in", os.O_RDONLY | os.O_NONBLOCK)
        seats[lines] = [planner, os.open(seat + ".out", os.O_WRONLY), b""]
    while seats:
        for lines in select.select(list(seats), [], [])[0]:
            planner, answers, typed = seats[lines]
            more = os.read(lines, 65536)
            *whole, seats[lines][2] = (typed + more).split(b"\n")
            left = not more
            for line in filter(bytes.split, whole):
                answer = fake.answer(planner, line.decode(errors="replace"))
                with contextlib.suppress(BrokenPipeError):
                    os.write(answers, to_bytes(answer) + b"\n" if answer else b"")
                left = left or answer == "left"
            if left:
                os.close(lines)
                os.close(answers)
                del seats[lines]
    print(f"journal {len(fake.desk.entries)}\n{fake.desk.costs()}", end="")


if __name__ == "__main__":
    if sys.argv[1:2] == ["desk"]:
        keep(sys.argv[2:])
    else:
        os.execv(PROGRAM, ["timedesk", *sys.argv[1:]])
