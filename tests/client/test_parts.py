"""A day whose rules change while two planners sit: a room is blocked under an open draft."""
import os

from changed_rules import MOVE, REROOM, Parts, text_of
from support import SMALL, SMALL_SOL, lines_of, make_edit, said, wait_until

from office.day.closure import Scope
from office.day.closures_file import read_closures, standing
from office.day.folder import Day
from office.day.parts import parts_of, read_entries
from office.seat.seat_log import read_past


class Screens(Parts):
    def test_blocked_by_a_key(self):
        self.open_day()
        make_edit(self.anna.planning, MOVE)
        self.press(self.ben, "v", *"room A", "enter")
        self.ben.set_cursor((0, 1))
        told = self.press(self.ben, "B")
        self.assertIn("What is to be blocked, or lifted?", told)
        self.assertIn("block A on day 1, period 2 (1 lecture there now)", told)
        self.assertIn("block A on day 1 (2 lectures there now)", told)
        self.assertIn("block t2 on day 1 (1 lecture there now)", told)
        self.press(self.ben, *"block A on day 1 (2", "enter")
        told = self.press(self.ben, *"heating")
        self.assertIn("Why is it blocked? heating_", told)
        told = self.press(self.ben, "enter")
        line = "A is blocked on day 1: heating (ben at seat 1)"
        self.assertIn(f"The office changes the rules: {line}.", told)
        self.go_on(self.anna, self.ben)
        told = text_of(self.ben)
        self.assertIn(f"{line}; 2 lectures are missing now", told)
        self.assertIn("These lectures are missing now:", told)
        self.assertIn("  alg: stood on day 1, period 1, A", told)
        self.assertIn("  geo: stood on day 1, period 2, A", told)
        # a letter that is being typed does not take it away unread
        self.assertIn(line, self.press(self.ben, "x"))
        told = self.press(self.ben, "enter")
        self.assertIn(f"{line}; 2 lectures are missing now.", told)
        self.assertEqual(told.count("blocked  "), 3)
        self.assertRegex(told, r"geo was set aside here, \d\d:\d\d: A is blocked on day 1: heating")
        self.assertIn("missing 2", told)
        told = self.press(self.anna, "enter").replace("made\n ", "made ")
        self.assertIn("your draft is made again: 1 of 1 edits, none committed", told)
        self.assertIn("draft open: 1 edit", told)
        # where it stood is said by the list of what is missing
        told = self.press(self.ben, "m")
        self.assertIn("alg: 1 of 2 missing, 30 students, t1; stood on day 1, period 1, A", told)

    def test_refused_is_explained(self):
        self.blocked_under_draft()
        anna = self.anna
        self.assertEqual(lines_of(anna.planning.edits()), [MOVE])
        told = text_of(anna)
        self.assertIn("1 of 2 edits made again, none committed yet.", told)
        why = "A is blocked then: heating (ben at seat 1)"
        self.assertIn(f"2. top: day 1, period 3, to A: {why}", told)
        self.assertIn("geo: stood on day 1, period 2, A", told)
        told = self.press(anna, "enter").replace("made\n ", "made ")
        self.assertIn("your draft is made again: 1 of 2 edits, none committed.", told)
        self.assertFalse(anna.planning.seat.state.again)
        # nothing of it was committed, and it can be
        self.assertEqual(len(read_entries(self.day)), 1)
        self.commit(anna, "a room")
        self.assertIn("Committed as draft 2: 1 edit, on the disk. The reason is kept.", text_of(anna))

    def test_never_offered(self):
        self.blocked_under_draft()
        ben = self.ben
        self.press(ben, "enter", "m", *"alg", "enter")
        carry = ben.work.carry
        for slot in ben.planning.instance.slots():
            for offer in carry.at(slot):
                self.assertFalse(slot[0] == 0 and offer.about == "A", offer)
        self.press(ben, "escape", "v", *"room A", "enter")
        ben.set_cursor((0, 0))
        told = text_of(ben)
        self.assertEqual(told.count("blocked  "), 3)
        self.assertRegex(told, r"A is blocked here: heating \(ben at seat 1, \d\d:\d\d\)\.")
        # and the program finds nothing blocked
        self.assertNotIn("blocked", [one["kind"] for one in ben.work.findings.read()])
        self.assertFalse(make_edit(ben.planning, "place alg A 0 0"))
        self.assertIn("A is blocked then: heating (ben at seat 1)", said(ben.planning))

    def test_lifted(self):
        self.blocked_under_draft()
        self.press(self.anna, "enter", "v", *"room A", "enter")
        self.anna.set_cursor((0, 0))
        told = self.press(self.anna, "B")
        self.assertIn("lift: A is blocked on day 1: heating (ben at seat 1)", told)
        self.assertNotIn("block A on day 1", told)
        self.press(self.anna, *"lift", "enter", *"it is warm", "enter")
        self.go_on(self.anna, self.ben)
        # what stood there is offered to who has lifted it
        self.assertIn("These lectures stood there before", text_of(self.anna))
        told = self.press(self.anna, "escape")
        self.assertIn("A is open again on day 1: it is warm (anna at seat 0)", told)
        self.assertIn("1 of 1 edits", told)
        # what ben has not read yet is there to be read
        self.assertIn("These lectures are missing now:", text_of(self.ben))
        self.assertTrue(make_edit(self.ben.planning, "place alg A 0 0"))
        self.assertEqual(standing(read_closures(self.day)), [])

    def test_teacher_and_course(self):
        self.open_day()
        self.block(Scope("teacher", "t1", 1), "ill")
        self.block(Scope("course", "geo", None, 1), "")
        self.go_on(self.anna, self.ben)
        if len(parts_of(self.day)) == 3 and self.anna.planning.seat.part.number == 2:
            self.go_on(self.anna, self.ben)
        self.press(self.anna, "enter")
        self.assertEqual(self.anna.planning.missing(), {"alg": 1, "geo": 1})
        told = self.press(self.anna, "v", *"course alg", "enter")
        self.assertEqual(told.count("blocked  "), 3, told)
        self.anna.set_cursor((1, 0))
        self.assertIn("t1 is blocked here: ill (ben at seat 1,", text_of(self.anna))
        self.press(self.anna, "m", *"alg", "enter")
        self.anna.set_cursor((1, 1))
        told = text_of(self.anna)
        self.assertIn("cannot stand there: t1 is blocked then: ill (ben at seat 1)", told)
        told = self.press(self.anna, "escape", "v", *"course geo", "enter")
        self.assertEqual(told.count("blocked  "), 2, told)

    def test_what_is_typed_stays(self):
        """A reason that is being typed is there again behind what is to be read."""
        self.open_day()
        make_edit(self.anna.planning, MOVE)
        self.press(self.anna, "c", *"why not")
        self.press(self.ben, ":", *"show cost")
        self.block()
        self.go_on(self.anna, self.ben)
        told = self.press(self.anna, "enter")
        self.assertIn("Commit 1 edit?", told)
        self.assertIn("Why? why not_", told)
        self.press(self.anna, "enter")
        self.assertIn("Committed as draft 1", text_of(self.anna))
        self.assertIn(":show cost_", self.press(self.ben, "enter"))

    def test_commit_without_an_answer(self):
        """A commit of which the answer is not heard was accepted, if the minutes have it."""
        self.open_day()
        planning = self.anna.planning
        make_edit(planning, MOVE)
        seat = planning.seat
        seat.log.noted("why quick")
        seat.send("commit")
        self.assertTrue(wait_until(lambda: read_entries(self.day)))
        self.block()
        self.assertTrue(wait_until(self.anna.work.is_over))
        os.close(seat.answers)
        seat.answers = -1
        self.go_on(self.anna, self.ben)
        self.assertEqual(planning.seat.state.accepted, [1])
        self.assertFalse(planning.is_open)
        self.assertEqual(lines_of(planning.ended()), [])
        past = read_past(self.day.log(0))
        self.assertEqual((past.part, past.state.accepted, past.waiting), (2, [1], []))
        self.assertEqual(past.whys[1], "quick")

    def test_edits_without_an_answer(self):
        """Edits that were sent and not answered are made again, too."""
        self.open_day()
        seat = self.anna.planning.seat
        make_edit(self.anna.planning, MOVE)
        self.block()
        self.assertTrue(wait_until(self.anna.work.is_over))
        seat.leave_desk()
        seat.log.sent(REROOM)
        seat.waiting.append(REROOM)
        self.go_on(self.anna, self.ben)
        self.assertIn("1 of 2 edits made again", text_of(self.anna))
        self.assertIn("A is blocked then", text_of(self.anna))


class Lines(Parts):
    def test_by_lines(self):
        """Who types lines goes on, too."""
        self.process = self.open("day", SMALL, "1", "--start", SMALL_SOL)
        self.day = Day(self.path("day"))
        sitter = self.start("sit", self.path("day"), "0", "--name", "anna")

        def ask(line):
            sitter.stdin.write(f"{line}\n")
            sitter.stdin.flush()
            return sitter.stdout.readline().rstrip("\n")

        self.assertEqual([ask("open"), ask(MOVE), ask(REROOM)], ["opened", "done", "done"])
        self.block()
        heard = [sitter.stderr.readline() for _ in range(6)]
        self.assertEqual(
            heard,
            [
                "office: the rules change: going on in a moment\n",
                "office: A is blocked on day 1: heating (ben at seat 1); 2 lectures are missing "
                "now\n",
                "office:   alg: stood on day 1, period 1, A\n",
                "office:   geo: stood on day 1, period 2, A\n",
                "office: your draft is made again: 1 of 2 edits\n",
                f"office: not made again: {REROOM}: refused blocked\n",
            ],
        )
        self.assertEqual(ask("commit"), "committed 1")
        self.assertEqual(ask("place alg A 0 0"), "no draft")
        self.assertEqual(ask("show price place alg A 0 0"), "refused blocked")

    def test_who_comes_back(self):
        """A draft that was left open is made again for who sits down by lines."""
        self.process = self.open("day", SMALL, "1", "--start", SMALL_SOL)
        self.day = Day(self.path("day"))
        self.sit("day", 0, f"open\n{MOVE}\n{REROOM}\n", "--name", "anna")
        self.block()
        self.assertTrue(wait_until(lambda: len(parts_of(self.day)) == 2 and self.day.is_ready()))
        words = ["sit", self.path("day"), "0", "--name", "anna"]
        status, printed, told = self.office(*words, text="status\nopen\n")
        self.assertEqual((status, printed), (0, "draft 1 0 fresh\nalready open\n"))
        self.assertEqual(
            told,
            "office: your draft is made again: 1 of 2 edits\n"
            f"office: not made again: {REROOM}: refused blocked\n",
        )
        self.assertEqual(self.office(*words, text="status\n"), (0, "draft 1 0 fresh\n", ""))
