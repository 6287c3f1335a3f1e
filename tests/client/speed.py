#!/usr/bin/env python3
"""Not a test: how long keys of the screen take, with what is drawn after each.

    tests/client/speed.py INSTANCE SOLUTION      PROGRAM names another program

A line for each key: how often it was pressed, the middle and the longest time in milliseconds.
"""
import os
import sys
import time
import unittest

sys.dont_write_bytecode = True
sys.path.insert(0, os.path.dirname(os.path.abspath(__file__)))

from support import OfficeTest  # noqa: E402

from office.terminal.board import Board  # noqa: E402

# a move, a swap that is taken back, a lecture out and in again, pages and lists, a commit
ROUND = (
    ["tab", "enter", "b", "tab", "backtab", "enter", "w", "w", "enter", "right", "down", "escape"]
    + ["tab", "s", "b", "enter", "u", "v", "c", "0", "enter", "tab", "enter", "left", "up", "escape"]
    + ["tab", "x", "m", "enter", "b", "enter", "e", "escape", "?", "q", "c", "w", "enter", "enter"]
    + ["tab", "h", "escape", "i", "escape"]
)


def press_keys(board, rounds):
    """The times of each key in milliseconds, the shortest first."""
    times = {}
    for key in ROUND * rounds:
        begun = time.perf_counter()
        board.press(key)
        board.rows(24, 80)
        times.setdefault(key, []).append((time.perf_counter() - begun) * 1000)
    return {key: sorted(found) for key, found in times.items()}


class Speed(OfficeTest):
    def test_keys(self):
        begun = time.perf_counter()
        self.open("day", WORDS[0], "1", "--start", WORDS[1])
        opened = time.perf_counter()
        board = Board(self.planning("day", 0))
        board.begin()
        board.rows(24, 80)
        print(f"open {opened - begun:.2f} s, sit down {time.perf_counter() - opened:.2f} s")
        for key, found in sorted(press_keys(board, 12).items(), key=lambda pair: -pair[1][-1]):
            print(f"{key:8}{len(found):4}{found[len(found) // 2]:9.2f}{found[-1]:9.2f}")


if __name__ == "__main__":
    WORDS = [os.path.abspath(word) for word in sys.argv[1:3]]
    unittest.main(argv=sys.argv[:1])
