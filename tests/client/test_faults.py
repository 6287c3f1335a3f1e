"""Desks and disks with faults: nothing typed is lost, and the screen says what is wrong."""
import os
import resource
import subprocess
import sys
import time

from support import (
    FAKE,
    OFFICE,
    SMALL,
    SMALL_SOL,
    SPRING,
    SPRING_SOL,
    OfficeTest,
    lines_of,
    make_edit,
    said,
    wait_until,
)

import office.seat.seat
from office.day.edits import Edit
from office.past.earlier_days import Earlier
from office.seat.seat import NoAnswer
from office.seat.seat_log import read_past
from office.terminal.board import Board

EDIT = "drop geo 1 2"
TOLD = "geo: taken out of day 2, period 3"
# a desk that says nothing, or something else than costs, at its seats
MUTE = """#!/bin/sh
[ "$1" = desk ] || exec {program} "$@"
for word; do [ ! -p "$word.in" ] || {{ read -r _ <"$word.in"; {answer} >"$word.out"; }}; done
exec sleep 600
"""


class Faults(OfficeTest):
    def board(self, fault, planner=0):
        """A screen at a desk with a fault."""
        self.program, self.environment["TIMEDESK"] = FAKE, FAKE
        self.environment["FAULT"] = fault
        self.process = self.open("day", SMALL, "2", "--start", SMALL_SOL)
        board = Board(self.planning("day", planner))
        board.begin()
        return board

    @staticmethod
    def text(board):
        return "\n".join("".join(text for text, _ in row) for row in board.rows(24, 80))

    def type_line(self, board, line):
        for key in [":", *line, "enter"]:
            board.press(key)
        return self.text(board)

    def test_desk_lies(self):
        """An answer that was not expected: everything is read anew, and the screen says so."""
        board = self.board("lies")
        make_edit(board.planning, EDIT)
        self.assertNotIn("read anew", self.text(board))
        text = self.type_line(board, EDIT)
        self.assertIn("The desk answered otherwise than expected: everything was read anew.", text)
        self.assertEqual(len(board.planning.known.present().of_course("geo")), 1)
        board.press("down")
        self.assertNotIn("read anew", self.text(board))

    def test_committed_without_minutes(self):
        """Nothing is said to be on the disk that the minutes do not have."""
        board = self.board("no minutes")
        make_edit(board.planning, EDIT)
        self.commit(board)
        text = self.text(board)
        self.assertIn("Not written: committed 1, says the desk; the minutes do not have it.", text)
        self.assertNotIn("on the disk", text)

    def test_no_memory_now_and_then(self):
        board = self.board("no memory")
        planning = board.planning
        for _ in range(8):
            make_edit(planning, EDIT)
            self.text(board)
            planning.undo()
            self.text(board)
        while lines_of(planning.edits()) != [EDIT]:
            make_edit(planning, EDIT)
        while not planning.minutes.entries:
            self.commit(board)
        self.assertEqual(planning.minutes.entries[0].edits[-1], Edit.parse(EDIT))
        self.assertEqual(len(planning.known.newest.of_course("geo")), 1)

    def test_answers_without_sense(self):
        """What a terminal would take as a command is not shown, and nothing breaks."""
        board = self.board("no sense")
        for line in ("open", EDIT, "undo", "redo", "help", "commit"):
            text = self.type_line(board, line)
            self.assertNotIn("\x1b", text)
        for key in ("enter", "b", "enter", "u", "c", "enter", "f", "r", "a", "y"):
            board.press(key)
            self.text(board)

    def test_no_answer(self):
        board = self.board("no answer")
        make_edit(board.planning, EDIT)
        patience, office.seat.seat.PATIENCE = office.seat.seat.PATIENCE, 0.5
        try:
            with self.assertRaises(NoAnswer):
                self.commit(board)
        finally:
            office.seat.seat.PATIENCE = patience
        board.desk_ended("The desk does not answer")
        # it was accepted, as the minutes say
        self.assertIn("Your accepted drafts are on the disk: 1.", self.text(board))
        self.assertNotIn(TOLD, self.text(board))

    def test_minutes_are_late(self):
        """The desk shows an accepted draft a moment before it is in the minutes: that is no answer
        that was not expected, with and without a draft."""
        board = self.board("late")
        anna, ben = board.planning, self.seat("day", 1, "ben")

        def commit(edit):
            answers = [ben.ask(line) for line in ("open", edit, "commit")]
            self.assertEqual(str(answers[1]), "done")
            anna._cache.clear()

        commit(EDIT)
        self.assertEqual(len(anna.lectures("course geo")), 1)
        make_edit(anna, "move top 0 2 B 1 1")
        make_edit(anna, "reroom geo B 0 1")
        commit("drop top 0 2")
        self.assertTrue(wait_until(anna.tick))
        self.commit(board)
        commit("move geo 0 1 A 1 1")
        board.press("r")
        text = self.text(board)
        self.assertIn("0 of 2 edits made again, none committed yet.", text)
        self.assertEqual((said(anna.alarm), lines_of(anna.edits())), ("", []))
        self.assertTrue(anna.known.base.same_as(anna.known.newest))

    def dies(self, fault):
        """The desk dies at a commit: what the minutes have is not offered again, and the rest
        is."""
        board = self.board(fault)
        make_edit(board.planning, EDIT)
        with self.assertRaises(office.seat.seat.DeskEnded):
            self.commit(board)
        board.desk_ended("The desk has ended")
        shown = self.text(board)
        board.planning.seat.go()
        self.process.wait(20)
        status = self.office("status", self.path("day"))[1]
        self.assertEqual(self.office("close", self.path("day"))[0], 0)
        del self.environment["FAULT"]
        self.open("next", "--after", self.path("day"))
        return shown, status, Earlier(self.planning("next", 0)).edits

    def test_dies_before_it_writes(self):
        shown, status, offered = self.dies("dies before")
        self.assertIn("Your accepted drafts are on the disk: none.", shown)
        self.assertIn(TOLD, shown)
        self.assertRegex(status, r"0 +nobody +1 edit, not accepted +\d\d:\d\d:\d\d +0\n")
        self.assertEqual(lines_of(offered), [EDIT])

    def test_dies_after_it_writes(self):
        shown, status, offered = self.dies("dies after")
        self.assertIn("Your accepted drafts are on the disk: 1.", shown)
        self.assertNotIn(EDIT, shown)
        self.assertRegex(status, r"0 +nobody +none +\d\d:\d\d:\d\d +1\n")
        self.assertEqual(offered, [])


class NotOpen(OfficeTest):
    """No office is said to be open before its desk answers at each seat."""

    def test_desk_says_nothing(self):
        text = MUTE.format(program=self.program, answer="sleep 600")
        self.environment["TIMEDESK"] = self.write("mute", text, 0o755)
        process = self.start("open", self.path("day"), SMALL, "2")
        self.assertTrue(wait_until(lambda: os.path.exists(self.path("day/1.out"))))
        time.sleep(0.5)
        printed = self.office("status", self.path("day"))[1]
        self.assertIn("day: not open yet", printed)
        status, _, said = self.office("sit", self.path("day"), "0")
        self.assertEqual((status, said[:37]), (3, "office: the office is not open yet in"))
        self.end(process)
        self.assertFalse(os.path.exists(self.path("day")))

    def test_desk_says_something_else(self):
        text = MUTE.format(program=self.program, answer="echo 'no place'")
        self.environment["TIMEDESK"] = self.write("mute", text, 0o755)
        status, printed, said = self.office("open", self.path("day"), SMALL, "2")
        self.assertEqual(
            (status, printed, said),
            (3, "", "office: the desk does not answer as it should: no place\n"),
        )
        self.assertFalse(os.path.exists(self.path("day")))


class FullDisk(OfficeTest):
    """A log that cannot be written any more: the planner goes on, and is told."""

    def test_log(self):
        self.open("day", SPRING, "1", "--start", SPRING_SOL)
        board = Board(self.planning("day", 0))
        board.begin()
        log = self.path("day/0.log")
        hard = resource.getrlimit(resource.RLIMIT_FSIZE)[1]
        resource.setrlimit(resource.RLIMIT_FSIZE, (os.path.getsize(log) + 100, hard))
        try:
            self.assertTrue(make_edit(board.planning, "move c0109 4 1 r04 4 3"))
            text = Faults.text(board)
        finally:
            resource.setrlimit(resource.RLIMIT_FSIZE, (hard, hard))
        self.assertIn("The log cannot be written (", text)
        self.assertIn("draft open: 1 edit, ", text)
        self.commit(board)
        self.assertIn("Committed as draft 1: 1 edit, on the disk.", Faults.text(board))
        self.assertNotIn("The log", Faults.text(board))
        board.planning.seat.go()
        with open(log) as file:
            lines = file.read().split("\n")
        self.assertTrue(lines[-2].endswith("= went away"))
        # what could not be written was written when it could be
        past = read_past(log)
        self.assertEqual((past.state.accepted, past.state.ended, past.waiting), ([1], [], []))
        self.assertIn(" > commit", "\n".join(lines))
        self.assertEqual(self.sit("day", 0, "status\n"), ["no draft"])

    def test_lines(self):
        """The same by lines."""
        self.open("day", SMALL, "1", "--start", SMALL_SOL)
        self.sit("day", 0, "")
        size = os.path.getsize(self.path("day/0.log")) + 200
        done = self.limited(size, ["sit", self.path("day"), "0"], f"open\n{EDIT}\ncommit\n")
        self.assertEqual((done.returncode, done.stdout), (0, "opened\ndone\ncommitted 1\n"))
        self.assertEqual(
            done.stderr,
            "office: the log cannot be written (File too large): "
            "edits are lost if the desk dies\n",
        )

    def limited(self, size, words, text):
        """A command of the office that can write files of so many bytes."""
        limit = f"resource.setrlimit(resource.RLIMIT_FSIZE, ({size}, {size}))"
        program = f"import os, resource, sys; {limit}; os.execv(sys.argv[1], sys.argv[1:])"
        return subprocess.run(
            [sys.executable, "-c", program, OFFICE, *words],
            input=text,
            capture_output=True,
            text=True,
            env=self.environment,
            timeout=60,
        )

    def test_open(self):
        """A folder on a full disk: nothing is open, and the reason is said."""
        done = self.limited(99, ["open", self.path("day"), SPRING, "2"], "")
        self.assertEqual((done.returncode, done.stdout), (3, ""))
        path = self.path("day/instance.ctt")
        self.assertEqual(done.stderr, f"office: cannot write {path}: File too large\n")
        self.assertFalse(os.path.exists(self.path("day")))
