"""The screen in a real terminal: the days of planners."""
import os
import signal

from at_terminals import TO_BEST, AtTerminals
from support import OFFICE, PROGRAM, SMALL, SMALL_SOL, SPRING, SPRING_SOL, wait_until
from test_day import LIMITED

# an edit in words, and where the old room is not known
SAID = "c0109: day 5, period 2, r01 -> day 5, period 4, r04"
TOLD = "c0109: day 5, period 2 -> day 5, period 4, r04"


class Screens(AtTerminals):
    def test_day_of_two(self):
        """Two planners at two screens, from open to close; the journal agrees."""
        self.open("day", SPRING, "2", "--start", SPRING_SOL)
        anna = self.sit_down("day", 0, "--name", "anna")
        ben = self.sit_down("day", 1, "--name", "ben")
        costs = "cost 8847: capacity 8030, days 0, compactness 708, stability 109; missing 0"
        self.sees(anna, "seat 0 anna: no draft open", costs)
        anna.press(*TO_BEST)
        cheapest = "Cheapest: -257 in r04, day 5, period 4: b goes there."
        self.sees(anna, "c0109 is picked up", cheapest, "clash c0120", "closed")
        anna.press("b", "Enter")
        self.sees(anna, f"Done: {SAID}.", "draft open: 1 edit, saves 257, 0 accepted since", "*r04")
        ben.press("v", *"c0014", "Enter", "s")
        self.sees(ben, "c0014 is picked up to swap")
        ben.press("b", "Enter", "c", *"swap", "Enter")
        self.sees(ben, "Committed as draft 1: 1 edit, on the disk. The reason is kept.")
        self.sees(anna, "1 accepted since")
        self.take_out_and_back(anna)
        anna.press("c", "Enter")
        self.sees(anna, "Committed as draft 2: 1 edit, on the disk.")
        for terminal in (anna, ben):
            terminal.press("q")
            self.sees(terminal, "ended 0")
        status, printed, _ = self.office("close", self.path("day"))
        line = printed.split("\n")[1]
        self.assertEqual((status, line), (0, "day: 2 drafts accepted, the audit agrees"))
        self.assertRegex(
            self.office("log", self.path("day"))[1],
            r"draft 1, ben at seat 1, [-0-9 :]+: swap\n    c0014 .* <-> .*\n    cost .*\n"
            rf"draft 2, anna at seat 0, [-0-9 :]+\n    {SAID}\n    cost .*\n",
        )

    def take_out_and_back(self, anna):
        """A lecture is taken out, and the edit is taken back."""
        anna.press("x")
        self.sees(anna, "missing 1", "draft open: 2 edits")
        anna.press("u")
        self.sees(
            anna,
            "missing 0",
            "draft open: 1 edit,",
            "Taken back: c0109: taken out of day 5, period 4, r04.",
        )
        anna.press("e")
        self.sees(anna, "The edits of your draft: 1", f"1. {SAID}")
        anna.press("Escape")
        self.sees(anna, "draft open: 1 edit,")

    def test_stale_and_redo(self):
        self.open("day", SPRING, "2", "--start", SPRING_SOL)
        anna = self.sit_down("day", 0)
        self.sees(anna, "no draft open")
        anna.press(*TO_BEST, "b", "Enter")
        self.sees(anna, "Done:")
        anna.press(":", "reroom c0049 r04 0 0", "Enter")
        self.sees(anna, "reroom c0049 r04 0 0: done")
        self.sit("day", 1, "open\nmove c0109 4 1 r09 4 2\ncommit\n", "--name", "ben")
        self.sees(anna, "stale by now: course c0109 has changed")
        anna.press("c", "Enter")
        self.sees(
            anna,
            "Your draft is stale: nothing is lost",
            "draft 1, ben, ",
            "  c0109: day 5, period 2, r01 -> day 5, period 3, r09",
            f"  {TOLD}",
        )
        anna.press("r")
        self.sees(
            anna,
            "1 of 2 edits made again, none committed yet.",
            f"1. {TOLD}: no lecture of c0109 stands",
        )
        self.assertEqual(self.sit("day", 1, "show course c0049\n")[0].count("r04"), 0)
        anna.press("q", "c", "Enter")
        self.sees(anna, "Committed as draft 2: 1 edit, on the disk.")

    def test_goes_away(self):
        self.open("day", SPRING, "1", "--start", SPRING_SOL)
        anna = self.sit_down("day", 0)
        self.sees(anna, "no draft open")
        anna.press(*TO_BEST, "b", "Enter")
        self.sees(anna, "draft open: 1 edit")
        anna.press("q")
        self.sees(anna, "Leave the seat?", "Your draft stays as it is")
        anna.press("y")
        self.sees(anna, "office: your draft stays as it is", "ended 0")
        said = self.path("said")
        words = [OFFICE, "sit", self.path("day"), "0"]
        anna = self.terminals.open(["sh", "-c", f'exec "$@" 2>{said}', "sh", *words])
        self.sees(anna, "Your draft is as you left it: 1 edit.", "draft open: 1 edit, saves 257")
        # the terminal is closed under it
        anna.close()
        self.assertTrue(
            wait_until(lambda: " nobody " in self.office("status", self.path("day"))[1])
        )
        with open(said) as file:
            self.assertRegex(file.read(), r"^(office: .*\n)*$")
        anna = self.sit_down("day", 0)
        self.sees(anna, "draft open: 1 edit, saves 257")
        anna.press("c", "Enter")
        self.sees(anna, "Committed as draft 1")

    def test_desk_is_killed(self):
        office = self.open("day", SPRING, "2", "--start", SPRING_SOL)
        anna = self.sit_down("day", 0)
        self.sees(anna, "no draft open")
        anna.press(*TO_BEST, "b", "Enter", "c", "Enter")
        self.sees(anna, "Committed as draft 1")
        anna.press("x")
        self.sees(anna, "draft open: 1 edit")
        os.kill(self.desk_of("day"), signal.SIGKILL)
        self.sees(
            anna,
            "The desk has ended",
            "Your accepted drafts are on the disk: 1.",
            "  c0109: taken out of day 5, period 4",
            "again after the next opening",
        )
        anna.press("c", "q")
        self.sees(anna, "office: the desk has ended; committed drafts are on the disk", "ended 3")
        self.assertNotIn("stays as it is", anna.text())
        office.wait(30)
        self.assertEqual(self.office("close", self.path("day"))[0], 0)
        self.open("next", "--after", self.path("day"))
        anna = self.sit_down("next", 0)
        self.sees(
            anna,
            "1 edit of day not accepted: make them again?",
            "c0109: taken out of day 5, period 4",
        )
        anna.press("y")
        self.sees(
            anna, "1 of 1 edits made again, none committed yet.", "draft open: 1 edit", "missing 1"
        )

    def test_office_closes(self):
        self.open("day", SMALL, "1", "--start", SMALL_SOL)
        anna = self.sit_down("day", 0)
        self.sees(anna, "no draft open")
        closing = self.start("close", self.path("day"), "--wait", "4")
        self.sees(anna, "The office closes in ")
        self.sees(anna, "ended 0")
        self.assertEqual(closing.wait(30), 0)

    def test_full_disk(self):
        self.environment["TIMEDESK"] = self.write(
            "limited", LIMITED.format(program=PROGRAM).replace("600, 600", "150, 150"), 0o755
        )
        self.open("day", SMALL, "1", "--start", SMALL_SOL)
        anna = self.sit_down("day", 0)
        self.sees(anna, "no draft open")
        for line in ("drop geo 1 2", "place geo A 1 2") * 9:
            anna.press(":", "open", "Enter", ":", line, "Enter")
            anna.press("c", "Enter")
            if "Not written" in anna.wait_settled():
                break
        self.sees(anna, "Not written: the disk is full, or fails.")

    def test_office_closes_over_a_draft(self):
        """The farewell says what is true then: the next day offers the edits."""
        self.open("day", SMALL, "1", "--start", SMALL_SOL)
        anna = self.sit_down("day", 0)
        self.sees(anna, "no draft open")
        anna.press(":", "drop geo 1 2", "Enter")
        self.sees(anna, "draft open: 1 edit")
        closing = self.start("close", self.path("day"), "--wait", "3")
        self.sees(anna, "1 edit not committed: the next day offers them", "--after", "ended 0")
        self.assertNotIn("stays as it is", anna.text())
        self.assertEqual(closing.wait(30), 0)

    def test_desk_does_not_answer(self):
        """It is said, with the time, and one can leave."""
        self.open("day", SPRING, "1", "--start", SPRING_SOL)
        anna = self.sit_down("day", 0)
        self.sees(anna, "no draft open")
        desk = self.desk_of("day")
        os.kill(desk, signal.SIGSTOP)
        try:
            anna.press(*TO_BEST)
            self.sees(anna, "The desk has not answered for 2 s; q leaves")
            anna.press("x", "q")
            self.sees(anna, "office: you went away", "ended 0")
        finally:
            os.kill(desk, signal.SIGCONT)
        self.assertEqual(self.sit("day", 0, "show missing\n")[-1], "missing 0")

    def test_seat_is_taken(self):
        self.open("day", SMALL, "1")
        anna = self.sit_down("day", 0, "--name", "anna")
        self.sees(anna, "no draft open")
        ben = self.sit_down("day", 0, "--name", "ben")
        self.sees(ben, "office: anna sits at seat 0, since ", "ended 3")
