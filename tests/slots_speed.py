#!/usr/bin/env python3
"""Times how long a desk takes to say what each slot offers, and, beside it, which edits are cheapest: of lectures that are drawn, at one
seat with nobody else at the desk.

    tests/slots_speed.py INSTANCE SOLUTION

prints for places, moves and swaps the middle and the longest time of processor that the desk has taken, in milliseconds, the same until
the answer was there, and how long the answers are. PROGRAM names another program.
"""
import glob
import random
import statistics
import subprocess
import sys
import time

sys.dont_write_bytecode = True
from program import PROGRAM  # noqa: E402

DRAWN = 60
LOOKS = ("slots", "cheapest 1", "cheapest 1000")


class Seat:
    """A seat of a desk on its own pipes."""

    def __init__(self, instance, solution):
        words = [PROGRAM, "desk", instance, "-", "--start", solution]
        self.desk = subprocess.Popen(words, stdin=subprocess.PIPE, stdout=subprocess.PIPE, stderr=subprocess.DEVNULL)

    def processor(self):
        """How many nanoseconds of processor the threads of the desk have had."""
        total = 0
        for path in glob.glob(f"/proc/{self.desk.pid}/task/*/schedstat"):
            with open(path, encoding="ascii") as opened:
                total += int(opened.read().split()[0])
        return total

    def ask(self, line):
        """The answer to a line, and how many milliseconds of processor, and in all, it took."""
        before, began = self.processor(), time.perf_counter()
        self.desk.stdin.write(line.encode() + b"\n")
        self.desk.stdin.flush()
        answer = self.desk.stdout.readline().decode()
        ended = time.perf_counter()
        return answer, (self.processor() - before) / 1e6, 1000 * (ended - began)


def main():
    instance, solution = sys.argv[1:]
    with open(solution, encoding="utf-8") as opened:
        lectures = [line.split() for line in opened]
    seat = Seat(instance, solution)
    seat.ask("open")
    times, sizes = {}, {}
    print(f"{'':22}" + "".join(f"{name:>10}" for name in ("processor", "longest", "in all", "longest", "bytes")))
    for course, room, day, period in random.Random(70).sample(lectures, min(DRAWN, len(lectures))):
        here = f"{course} {day} {period}"
        for pattern in (f"move {here} * * *", f"swap {here} * * *", f"place {course} * * *"):
            kind = pattern.split(" ")[0]
            if kind == "place":
                assert seat.ask(f"drop {here}")[0] == "done\n"
            for look in LOOKS:
                answer, *took = seat.ask(f"peek {look} {pattern}")
                assert answer.split(" ")[0] in ("slots", "prices"), answer
                times.setdefault((kind, look), []).append(took)
                sizes.setdefault((kind, look), []).append(len(answer))
        assert seat.ask(f"place {course} {room} {day} {period}")[0] == "done\n"
    for (kind, look), took in sorted(times.items()):
        own, whole = ([statistics.median(some), max(some)] for some in zip(*took))
        told = "".join(f"{number:10.2f}" for number in (*own, *whole))
        print(f"{kind + ' ' + look:22}{told}{max(sizes[kind, look]):10}")
    seat.desk.stdin.close()
    seat.desk.wait(60)


main()
