"""The screen in terminals of all kinds and sizes, and the office in one."""
import os
import random
import subprocess
import time

from at_terminals import TO_BEST, AtTerminals
from support import HERE, OFFICE, SMALL, SMALL_SOL, SPRING, SPRING_SOL, is_alive, wait_until


class Screens(AtTerminals):
    def test_sizes(self):
        self.open("day", SPRING, "1", "--start", SPRING_SOL)
        anna = self.sit_down("day", 0)
        self.sees(anna, "day 5")
        for columns, lines in ((200, 60), (80, 24), (50, 12), (20, 5), (132, 40), (80, 24)):
            anna.resize(columns, lines)
            anna.press("Down")
            seen = anna.wait_settled()
            self.assertEqual(len(seen.split("\n")) - 1, lines)
            self.assertIn("the window" if lines < 10 else "week of curriculum q000", seen)
            self.assertNotIn("Traceback", seen)
        anna.press(*TO_BEST)
        self.sees(anna, "c0109 is picked up")

    def test_wide_names(self):
        with open(SMALL) as file:
            text = file.read()
        for old, new in (("alg", "数学の時間"), ("geo", "Géométrie"), ("q1", "一年")):
            text = text.replace(old, new)
        self.open("day", self.write("wide.ctt", text), "1")
        anna = self.sit_down("day", 0, "--name", "アンナ")
        self.sees(anna, "seat 0 アンナ")
        for _ in range(4):
            anna.press("m", "Enter", "b", "Enter")
            self.sees(anna, "placed on")
        anna.press("v", "一", "Enter")
        self.sees(anna, "week of curriculum 一年", "数学の時間 ")
        rows = [row for row in anna.text().split("\n") if row.endswith("|")]
        self.assertGreater(len(rows), 4)

    def test_no_colour(self):
        self.open("day", SMALL, "1", "--start", SMALL_SOL)
        coloured = self.sit_down("day", 0)
        self.sees(coloured, "!")
        self.assertRegex(coloured.text("-e"), "\x1b\\[[0-9;]*3[1-6]m")
        coloured.press("q")
        self.sees(coloured, "ended 0")
        self.terminals.tmux("set-environment", "-g", "NO_COLOR", "1")
        plain = self.sit_down("day", 0)
        self.sees(plain, "!")
        self.assertNotRegex(plain.text("-e"), "\x1b\\[[0-9;]*3[1-6]m")

    def test_alt(self):
        """Alt with a key does nothing."""
        self.open("day", SMALL, "1", "--start", SMALL_SOL)
        anna = self.sit_down("day", 0)
        self.sees(anna, "no draft open")
        anna.press(":", "drop geo 1 2", "Enter")
        self.sees(anna, "draft open: 1 edit")
        anna.press("M-c", "M-x", "M-u", "M-q", "M-a")
        self.assertIn("draft open: 1 edit", anna.wait_settled())
        self.assertNotIn("Why?", anna.text())
        anna.press("c")
        self.sees(anna, "Why?")
        anna.press("Escape")
        self.sees(anna, "draft open: 1 edit")

    def test_any_keys(self):
        """Five hundred keys, as fast as they come: the screen is there, and shows what the desk
        has."""
        self.open("day", SMALL, "1", "--start", SMALL_SOL)
        anna = self.sit_down("day", 0)
        self.sees(anna, "no draft open")
        draw = random.Random(7)
        keys = "Up Down Left Right Tab BTab Enter Enter Enter b s x m u w v e c f r a y ? :"
        keys = [*keys.split(), "Escape", "BSpace", "PPage", "数"]
        for _ in range(50):
            self.terminals.tmux("send-keys", "-t", anna.name, *draw.choices(keys, k=10))
        anna.press("Escape")
        anna.wait_settled()
        anna.press("Escape")
        self.sees(anna, "seat 0")
        self.assertNotIn("Traceback", anna.text())

    def test_other_terminals(self):
        """A terminal without colours has the screen; one that cannot place a cursor has lines."""
        self.open("day", SMALL, "1", "--start", SMALL_SOL)
        words = [OFFICE, "sit", self.path("day"), "0"]
        anna = self.terminals.open(["env", "TERM=vt100", *words])
        self.sees(anna, "week of curriculum q1", "? help")
        anna.press("q")
        self.sees(anna, "ended 0")
        for kind in ("dumb", "a-terminal-that-nobody-has"):
            anna = self.terminals.open(["env", f"TERM={kind}", "OFFICE_WRAPPED=1", *words])
            self.sees(anna, "Ctrl-D goes away for a while")
            anna.press("show cost", "Enter")
            self.sees(anna, "costs 15 0 4 1")
            anna.press("C-d")
            self.sees(anna, "ended 0")

    def test_office_in_a_terminal(self):
        """Ctrl-C in the terminal of an office closes it; closing the terminal does not."""
        for number in (1, 2):
            day = f"day{number}"
            office = self.terminals.open([OFFICE, "open", self.path(day), SMALL, "2"])
            self.sees(office, "office: open, seats 0 to 1")
            desk = self.desk_of(day)
            if number == 1:
                office.press("C-c")
                self.sees(office, "office: closed; office close ", "ended 0")
                self.assertFalse(is_alive(desk))
                self.assertNotIn("0.in", self.left_in(day))
            else:
                office.close()
                self.assertEqual(self.sit(day, 0, "show cost\n"), ["costs 0 20 0 0"])
                self.assertEqual(self.office("close", self.path(day))[0], 0)
                self.assertFalse(is_alive(desk))

    def test_pictures(self):
        """The pictures of the pages are what a planner sees."""
        done = subprocess.run(
            [os.path.join(HERE, "tools/captures.py"), "--check"],
            env=self.environment,
            capture_output=True,
            text=True,
            timeout=300,
        )
        self.assertEqual((done.returncode, done.stdout, done.stderr), (0, "", ""))

    def test_terminal_closes_at_any_moment(self):
        """The terminal is closed while keys are answered: no traceback, and the draft stays."""
        self.open("day", SMALL, "1", "--start", SMALL_SOL)
        words = [OFFICE, "sit", self.path("day"), "0"]
        for moment in range(12):
            said = self.path(f"said{moment}")
            anna = self.terminals.open(["sh", "-c", f'exec "$@" 2>{said}', "sh", *words])
            if moment < 6:
                self.sees(anna, "seat 0")
                anna.press("x", "u", "e")
            else:
                # before all of the screen is there
                wait_until(lambda: os.path.exists(said))
                time.sleep(0.03 * moment)
            anna.close()
            self.assertTrue(
                wait_until(lambda: " nobody " in self.office("status", self.path("day"))[1])
            )
            with open(said) as file:
                self.assertNotIn("Traceback", file.read())
        self.assertEqual(self.sit("day", 0, "status\n")[-1][:6], "draft ")
