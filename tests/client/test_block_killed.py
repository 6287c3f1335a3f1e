"""An office that is killed at each step of a change of its rules: the day can be closed, or goes
on, and nothing that was told is lost. EACH says how many steps are left out between two; 1 takes
all of them."""
import os
import subprocess
import sys
import unittest

from changed_rules import HALL, MOVE, REROOM, Parts
from support import HERE, PATIENCE, SMALL, SMALL_SOL, lines_of, make_edit, wait_until

from office.day.closures_file import blocked_text, read_closures, standing
from office.day.folder import Day
from office.day.parts import half_made, last_part, parts_of, read_entries
from office.seat.seat_log import read_past

KILLED = os.path.join(HERE, "tests/client/killed_office.py")
EACH = int(os.environ.get("EACH", "9"))


class Killed(Parts):
    def open_killed(self, at):
        """An office that is killed at a step of the first change, with a draft that is accepted and
        one that is open."""
        environment = dict(self.environment, KILL_AT=str(at), STEPS=self.path("steps"))
        words = [sys.executable, KILLED, "open", self.path("day"), SMALL, "2"]
        self.process = subprocess.Popen(
            [*words, "--start", SMALL_SOL],
            stderr=subprocess.PIPE,
            stdout=subprocess.DEVNULL,
            stdin=subprocess.PIPE,
            text=True,
            env=environment,
            start_new_session=True,
        )
        self.addCleanup(self.end_all, self.process)
        self.assertIn("open, seats 0 to 1", self.process.stderr.readline())
        self.day = Day(self.path("day"))
        self.anna, self.ben = self.sit_at(0, "anna"), self.sit_at(1, "ben")
        make_edit(self.ben.planning, "reroom alg A 1 0")
        self.ben.planning.commit("the beamer")
        for edit in (MOVE, REROOM):
            make_edit(self.anna.planning, edit)

    def end_all(self, process):
        """Ends an office, and the desk that it may have left."""
        for number in Day(self.path("day")).numbers():
            if subprocess.run(["kill", "-0", str(number)], capture_output=True).returncode == 0:
                subprocess.run(["kill", "-9", str(number)], capture_output=True)
        process.kill()
        process.wait()
        process.stderr.close()
        process.stdin.close()

    def change(self):
        """The rules change; those who sit leave, and the office is killed, or goes on."""
        self.block()
        self.assertTrue(wait_until(lambda: self.anna.work.is_over() or self.is_dead()))
        for board in (self.anna, self.ben):
            board.planning.seat.go()
        wait_until(lambda: self.is_dead() or self.day.is_ready() and len(parts_of(self.day)) == 2)

    def is_dead(self):
        return self.process.poll() is not None

    def count_steps(self):
        self.open_killed(0)
        self.change()
        self.assertFalse(self.is_dead())
        with open(self.path("steps")) as file:
            return len(file.readlines())

    def killed_at(self, at):
        self.setUp()
        try:
            self.open_killed(at)
            self.change()
            self.assertTrue(self.is_dead())
            self.told()
            if at % 2:
                self.goes_on()
            else:
                self.is_closed()
        finally:
            self.doCleanups()

    def told(self):
        """What was told is there, whatever has become of the change."""
        self.assertEqual([one.scope for one in read_closures(self.day)], [HALL])
        self.assertEqual(len(read_entries(self.day)), 1)
        past = read_past(self.day.log(0))
        self.assertEqual(lines_of(past.unfinished()), [MOVE, REROOM])
        printed = self.office("status", self.path("day"))
        self.assertEqual(printed[0], 0)
        self.assertIn("1 draft accepted", printed[1])

    def rules(self, day):
        """The rules of the last part of a day."""
        try:
            with open(last_part(day).blocked, "rb") as file:
                return file.read()
        except FileNotFoundError:
            return blocked_text([])

    def is_closed(self):
        """The day can be closed, and the next one begins under the rules that were told."""
        status, printed, said = self.office("close", self.path("day"), "--wait", "0")
        self.assertEqual(status, 0, said)
        self.assertIn("1 draft accepted", printed)
        self.assertEqual(half_made(self.day), [])
        self.start_day("next", "--after", self.path("day"))
        after = Day(self.path("next"))
        told = standing(read_closures(self.day))
        self.assertEqual(standing(read_closures(after)), told)
        self.assertEqual(self.rules(after), blocked_text(told))
        anna = self.sit_at(0, "anna", "next")
        self.assertEqual(anna.overlay.title, "2 edits of day not accepted: make them again?")
        self.press(anna, "y")
        self.assertEqual(lines_of(anna.planning.edits()), [MOVE])
        anna.planning.seat.go()

    def goes_on(self):
        """The day goes on under the rules that were told, with the draft that was open."""
        self.start_day("day")
        self.assertEqual(half_made(self.day), [])
        self.assertEqual(self.rules(self.day), blocked_text(read_closures(self.day)))
        self.assertEqual(len(parts_of(self.day)), 2)
        anna = self.sit_at(0, "anna")
        self.assertEqual(lines_of(anna.planning.edits()), [MOVE])
        self.assertEqual(anna.planning.missing(), {"alg": 1, "geo": 1})
        anna.planning.commit("again")
        anna.planning.seat.go()
        status, printed, said = self.office("close", self.path("day"), "--wait", "0")
        self.assertEqual(status, 0, said)
        self.assertIn("2 drafts accepted in 2 parts, the audit agrees", printed)

    def start_day(self, day, *words):
        """An office that is open, whatever it says before."""
        process = self.start("open", self.path(day), *words)
        line = " "
        while line and "open, seats 0 to 1" not in line:
            line = process.stderr.readline()
        self.assertTrue(line)

    def test_at_each_step(self):
        count = self.count_steps()
        self.doCleanups()
        self.assertGreater(count, 30)
        for at in range(1, count + 1, EACH):
            with self.subTest(at=at, of=count):
                self.killed_at(at)


if __name__ == "__main__":
    unittest.main()
