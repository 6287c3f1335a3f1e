"""A day of two parts as one: its status, log and close, and what is refused of it."""
import json
import os

from changed_rules import MOVE, Parts
from support import PROGRAM, lines_of, make_edit

from office.day.closures_file import read_closures, standing
from office.day.folder import Day
from office.day.parts import half_made, parts_of


class Whole(Parts):
    """The day as one."""

    def setUp(self):
        super().setUp()
        self.blocked_under_draft()
        self.press(self.anna, "enter")
        self.anna.planning.commit("after it")

    def test_status_and_log(self):
        printed = self.office("status", self.path("day"))[1]
        self.assertIn("2 drafts accepted; part 2 of the day", printed)
        self.assertIn("blocked: A is blocked on day 1: heating (ben at seat 1)\n", printed)
        self.assertRegex(printed, r"0 +anna +\d\d:\d\d +none +\d\d:\d\d:\d\d +1\n")
        self.assertRegex(printed, r"1 +ben +\d\d:\d\d +none +\d\d:\d\d:\d\d +1\n")
        printed = self.office("log", self.path("day"))[1]
        self.assertRegex(
            printed,
            r"^draft 1, ben at seat 1, [-0-9 :]+: the beamer\n    alg: .*\n    cost (\d+) -> (\d+).*\n"
            r"rules, [-0-9 :]+: A is blocked on day 1: heating \(ben at seat 1\); 2 lectures are "
            r"missing now\n    alg: taken out of day 1, period 1, A\n    geo: taken out of day 1, "
            r"period 2, A\n    cost \2 -> (\d+).*\n"
            r"draft 2, anna at seat 0, [-0-9 :]+: after it\n    geo: .*\n    cost \3 -> .*\n$",
        )
        found = json.loads(self.office("log", self.path("day"), "--json")[1])
        self.assertEqual([one.get("draft") for one in found], [1, None, 2])
        self.assertEqual(found[1]["rules"][0]["code"], "A")
        self.assertEqual([one["course"] for one in found[1]["lectures"]], ["alg", "geo"])
        printed = self.office("log", self.path("day"), "top")[1]
        self.assertEqual(printed, "")
        self.assertEqual(self.office("log", self.path("day"), "room", "A")[1].count("rules, "), 1)
        told = "A is blocked on day 1: heating (ben at seat 1), 20"
        self.assertTrue(self.office("blocks", self.path("day"))[1].startswith(told))

    def test_what_was(self):
        day = self.path("day")
        self.assertIn("alg  A", self.office("show", day, "--at", "1")[1])
        self.assertIn("day, after 2 drafts\n", self.office("show", day)[1])
        printed = self.office("diff", f"{day}:1", day)[1]
        self.assertIn("3 lectures differ", printed)
        self.assertIn("geo: day 1, period 2, A", printed)
        self.assertEqual(self.office("show", day, "--at", "3")[0], 1)
        told = self.press(self.ben, "escape", "v", *"course alg", "enter", "h", *"beamer", "enter")
        self.assertIn("Draft 1, ben,", told)
        self.assertIn("Why: the beamer", told)
        self.press(self.ben, "t")
        self.assertEqual(lines_of(self.ben.planning.edits()), ["reroom alg B 1 0"])

    def test_close_and_the_next_day(self):
        for board in (self.anna, self.ben):
            board.planning.seat.go()
        status, printed, _ = self.office("close", self.path("day"))
        self.assertEqual(status, 0)
        self.assertIn("day: 2 drafts accepted in 2 parts, the audit agrees\n", printed)
        self.assertIn("missing lectures 2\n", printed)
        self.open("next", "--after", self.path("day"))
        after = Day(self.path("next"))
        self.assertEqual(read_closures(after), standing(read_closures(self.day)))
        self.assertEqual(self.sit("next", 0, "show price place alg A 0 0\n"), ["refused blocked"])
        self.assertEqual(len(parts_of(after)), 1)


class Audited(Parts):
    """What is not as it should be is refused."""

    def closed_day(self):
        self.blocked_under_draft()
        for board in (self.anna, self.ben):
            board.planning.seat.go()
        self.end(self.process)

    def refused(self, told, status=1):
        found = self.office("close", self.path("day"))
        self.assertEqual(found[0], status, found)
        self.assertIn(told, found[2])
        self.assertFalse(os.path.exists(self.day.end))

    def test_begins_with_what_is_blocked(self):
        self.closed_day()
        with open(self.path("day/part2/start.sol"), "a") as file:
            file.write("alg A 0 0\n")
        self.refused("part 2 does not begin where part 1 ended")

    def test_begins_without_a_lecture(self):
        """A change that drops a lecture that could stand is found."""
        self.closed_day()
        path = self.path("day/part2/start.sol")
        with open(path) as file:
            lines = file.readlines()
        with open(path, "w") as file:
            file.writelines(lines[1:])
        self.refused("part 2 does not begin where part 1 ended")

    def test_other_rules(self):
        """Minutes that were kept under other rules than those of their part do not agree."""
        self.blocked_under_draft()
        self.anna.planning.commit("it")
        for board in (self.anna, self.ben):
            board.planning.seat.go()
        self.end(self.process)
        with open(self.path("day/part2/blocked"), "w") as file:
            file.write("Blocked: 2\nroom A 0 *\nroom A 1 1\nEND.\n")
        self.refused("does not agree")

    def test_goes_on(self):
        """A day whose desk was killed goes on; a day that is closed, or open, does not."""
        self.blocked_under_draft()
        self.press(self.anna, "enter")
        self.assertIn("an office is open in", self.office("open", self.path("day"))[2])
        os.kill(self.desk_of("day"), 9)
        for board in (self.anna, self.ben):
            board.planning.seat.go()
        self.process.wait(60)
        self.reopen()
        self.assertEqual(len(parts_of(self.day)), 2)
        anna = self.sit_at(0, "anna")
        self.assertEqual(lines_of(anna.planning.edits()) or lines_of(anna.planning.ended()), [MOVE])
        anna.planning.seat.go()
        self.end(self.process)
        self.assertEqual(self.office("close", self.path("day"))[0], 0)
        told = f"office: {self.day.path} is closed: office open NEXT --after {self.day.path}\n"
        self.assertEqual(self.office("open", self.path("day")), (3, "", told))

    def test_a_program_that_mends_nothing(self):
        """A part that would begin with lectures that are blocked is not begun."""
        self.program = self.environment["TIMEDESK"] = self.write(
            "lazy", f'#!/bin/sh\n[ "$1" = mend ] && exec cat "$3"\nexec {PROGRAM} "$@"\n', 0o755
        )
        self.open_day()
        make_edit(self.anna.planning, MOVE)
        self.block()
        self.anna.planning.seat.go()
        self.ben.planning.seat.go()
        self.assertEqual(self.process.wait(60), 1)
        self.assertIn("timedesk: opening 1 blocked\n", self.process.stderr.read())
        self.assertEqual(len(parts_of(self.day)), 1)
        self.assertEqual(len(half_made(self.day)), 1)
        # the day can go on by another program
        self.environment["TIMEDESK"] = PROGRAM
        self.reopen()
        self.assertEqual(len(parts_of(self.day)), 2)
        self.assertEqual(half_made(self.day), [])
        self.assertEqual(lines_of(self.sit_at(0, "anna").planning.edits()), [MOVE])

    def reopen(self):
        """Goes on with the day."""
        self.process = self.start("open", self.path("day"))
        said = ""
        while "open, seats 0 to 1" not in said:
            said = self.process.stderr.readline()
            self.assertTrue(said)
