"""The screen without a terminal: drawn days, windows of all sizes, names of all kinds."""
import os
import random
import subprocess
import sys
import threading
import unicodedata
import unittest.mock

from support import HERE, PROGRAM, SMALL, SMALL_SOL, SPRING, SPRING_SOL, OfficeTest, make_edit, said
from support import wait_until

sys.path.append(os.path.join(HERE, "tests"))
from drawn import draw_instance, draw_solution  # noqa: E402
from rules import Instance as Plain  # noqa: E402

from office.day.closures_file import blocked_text, closures_end, standing_of  # noqa: E402
from office.day.edits import Edit  # noqa: E402
from office.day.folder import Day  # noqa: E402
from office.day.instance import read_instance, read_solution  # noqa: E402
from office.day.parts import parts_of  # noqa: E402
from office.day.timetable import Timetable  # noqa: E402
from office.seat.answers import Said, offers_in  # noqa: E402
from office.terminal.board import Board  # noqa: E402
from office.terminal.overlays import CommitBox  # noqa: E402
from office.words.text import cut, fit, shown, width, wrap  # noqa: E402
from office.work.week import View  # noqa: E402

DAYS = int(os.environ.get("DAYS", "20"))
STEPS = int(os.environ.get("STEPS", "500"))
KEYS = (
    ["up", "down", "left", "right", "tab", "backtab"] * 3
    + ["enter"] * 12
    + ["b"] * 6
    + ["s", "x", "m", "u", "escape", "w"] * 2
)
KEYS += [
    "v",
    "e",
    "c",
    "c",
    "f",
    "r",
    "a",
    "y",
    "n",
    ":",
    "?",
    "o",
    "p",
    "backspace",
    "pageup",
    "pagedown",
    "\u6570",
    "h",
    "t",
    "i",
    "p",
    "N",
    "U",
    "d",
    "!",
    "q",
    "resize",
    "",
]
SIZES = [(24, 80), (60, 200), (10, 40), (24, 41), (5, 20), (33, 97), (1, 1)]


def text_of(board, height=24, columns=80):
    return "\n".join("".join(text for text, _ in row) for row in board.rows(height, columns))


class Drawn(OfficeTest):
    def draw(self, draw):
        """Files of an instance in which something can stand, and of a start that a desk takes."""
        while True:
            text, barred = draw_instance(draw)
            plain = Plain(text, barred)
            files = []
            for name, held in (
                ("drawn.ctt", text),
                ("drawn.sol", draw_solution(draw, plain)),
                ("drawn.barred", barred),
            ):
                if held is not None:
                    with open(self.path(name), "wb") as file:
                        file.write(held)
                    files.append(self.path(name))
            options = ["--start", files[1]] + (["--barred", files[2]] if barred is not None else [])
            run = subprocess.run(
                [PROGRAM, "run", files[0], os.devnull, *options], capture_output=True
            )
            if plain.courses and run.returncode == 0:
                return files[0], options

    def calls(self):
        """What the minutes of the day have, but the answers."""
        found = []
        for part in parts_of(Day(self.path("day"))):
            with open(part.minutes) as file:
                lines = file.read().split("\n")
            while lines and lines[0]:
                count = 2 * int(lines.pop(0).split()[2])
                found += lines[0:count:2]
                del lines[:count]
        return found

    def check_rows(self, board, draw):
        """The rows fill a window of any size."""
        height, columns = draw.choice(SIZES)
        rows = board.rows(height, columns)
        self.assertEqual(len(rows), height)
        for row in rows:
            self.assertLessEqual(sum(width(text) for text, _ in row), max(columns, 21))

    def watch_commits(self, board):
        """No line `commit` is sent but by Enter in the box, with the edits that it showed."""
        ask = board.planning.seat.ask

        def watched(line):
            if str(line).strip() == "commit":
                self.assertIsNotNone(self.box)
                self.assertEqual(self.box.box.edits, board.planning.edits())
            return ask(line)

        press, self.box = CommitBox.press, None

        def press_box(box, key):
            self.box = box if key == "enter" else None
            try:
                return press(box, key)
            finally:
                self.box = None

        board.planning.seat.ask = watched
        patch = unittest.mock.patch.object(CommitBox, "press", press_box)
        patch.start()
        self.addCleanup(patch.stop)

    def play(self, seed):
        """A day of two planners who press any keys."""
        draw = random.Random(seed)
        instance, options = self.draw(draw)
        self.open("day", instance, "2", *options)
        boards = [Board(self.planning("day", planner)) for planner in (0, 1)]
        self.closures = 0
        for board in boards:
            board.begin()
            self.watch_commits(board)
        for _ in range(STEPS):
            board = draw.choice(boards)
            self.go_on(boards)
            if draw.random() < 0.05:
                board.tick()
            elif draw.random() < 0.01 and seed % 2:
                self.block(board, draw)
            else:
                board.press(draw.choice(KEYS))
            board.work.is_done = False
            self.check_rows(board, draw)
            self.assertEqual(said(board.planning.alarm), "")
        # no look of the screen is a call
        self.go_on(boards)
        self.assertEqual([call for call in self.calls() if Edit.parse(call) is None], [])
        for board in boards:
            board.tick()
        newest = boards[0].planning.known.newest
        self.assertTrue(newest.same_as(boards[1].planning.known.newest))
        for board in boards:
            board.planning.seat.go()
        found = "".join(lecture.words() + "\n" for lecture in newest.lectures())
        self.assertEqual(found, self.listed("day"))

    @staticmethod
    def block(board, draw):
        """Blocks or lifts something by the keys, if the screen is at a week."""
        downs = ["down"] * draw.randrange(9)
        for key in ["escape", "B", *downs, "enter", *draw.choice(["", "x"]), "enter"]:
            board.press(key)

    def go_on(self, boards):
        """Goes on in the next part of the day, if the rules have been changed at a screen."""
        day, seats = boards[0].planning.seat.day, [board.planning.seat for board in boards]
        if closures_end(day) == self.closures:
            return
        self.closures = closures_end(day)
        instance = boards[0].planning.instance
        wanted = blocked_text(standing_of(day, instance))
        if wanted == blocked_text(instance.closures):
            return
        self.assertTrue(wait_until(lambda: all(seat.is_over() for seat in seats)))
        threads = [threading.Thread(target=board.step_over) for board in boards]
        for thread in threads:
            thread.start()
        for thread in threads:
            thread.join()
        for board in boards:
            self.assertEqual(blocked_text(board.planning.instance.closures), wanted)
            self.assertEqual(board.planning.seat.state.again, [])

    def test_days(self):
        for seed in range(DAYS):
            with self.subTest(seed=seed):
                self.setUp()
                self.play(seed)


class Beside(OfficeTest):
    """A screen beside planners who commit as fast as they can."""

    def commit_on(self, planner):
        """Takes lectures out and puts them in again, each in a draft of its own."""
        seat, draw = self.seat("day", planner, f"planner{planner}"), random.Random(planner)
        while not self.is_over:
            course, _, day, period = draw.choice(self.lectures)
            seat.ask("open")
            if seat.ask(f"drop {course} {day} {period}") is not Said.DONE:
                found = offers_in(seat.ask(f"peek cheapest 1 place {course} * * *"))
                if found:
                    seat.ask(found[0].edit)
            seat.ask("commit")

    def test_beside_others(self):
        """No answer is other than expected, and the end is what `list` prints."""
        self.open("day", SPRING, "3", "--start", SPRING_SOL)
        self.lectures, self.is_over = read_solution(SPRING_SOL), False
        board, draw = Board(self.planning("day", 0)), random.Random(1)
        board.begin()
        others = [threading.Thread(target=self.commit_on, args=(planner,)) for planner in (1, 2)]
        for other in others:
            other.start()
        try:
            for _ in range(1500):
                board.tick()
                board.press(draw.choice(KEYS))
                board.rows(24, 80)
                self.assertEqual(said(board.planning.alarm), "")
        finally:
            self.is_over = True
            for other in others:
                other.join()
        board.tick()
        newest = board.planning.known.newest
        self.assertGreater(len(board.planning.minutes.entries), 20)
        board.planning.seat.go()
        found = "".join(lecture.words() + "\n" for lecture in newest.lectures())
        self.assertEqual(found, self.listed("day"))


class Shown(OfficeTest):
    def test_widths(self):
        self.assertEqual(
            [width(text) for text in ("abc", "数学", "e\u0301", "ﷺ", "a\u200bb")], [3, 4, 1, 1, 2]
        )
        # as a file's name on a Mac has it, letter by letter; and a sign with a column of its own
        self.assertEqual(width(unicodedata.normalize("NFD", "한국어")), width("한국어"))
        self.assertEqual(width("\u1b13\u1b44"), 2)
        self.assertEqual(
            [fit("数学a", n) for n in (1, 2, 3, 4, 5, 6)], ["~", "~ ", "数~", "数~ ", "数学a", "数学a "]
        )
        self.assertEqual(cut("abc", 0), "")
        self.assertEqual(wrap("  aa bb cc", 7), ["  aa bb", "  cc"])
        self.assertEqual(shown("a\x1b[2Jb"), "a\ufffd[2Jb")

    def test_wide_names(self):
        with open(SMALL) as file:
            text = file.read()
        for old, new in (
            ("alg", "数学の時間"),
            ("geo", "Géométrie"),
            ("top", "🎓"),
            ("q1", "一年"),
            ("t1", "e\u0301a"),
        ):
            text = text.replace(old, new)
        instance = self.write("wide.ctt", text)
        self.open("day", instance, "1")
        board = Board(self.planning("day", 0))
        board.begin()
        for _ in range(5):
            for key in ("m", "enter", "b", "enter"):
                board.press(key)
            widths = [sum(width(text) for text, _ in row) for row in board.rows(24, 80)]
            self.assertEqual(len(set(widths[4:10])), 1)
            self.assertLessEqual(max(widths), 80)
        board.show_view(View("curriculum", "一年"))
        self.assertIn("数学の時間", text_of(board))
        self.assertEqual(board.planning.missing(), {})

    def test_typed_lines(self):
        self.open("day", SMALL, "1", "--start", SMALL_SOL)
        board = Board(self.planning("day", 0))
        board.begin()
        for line, answer in [
            ("course geo", "no draft"),
            ("open", "opened"),
            ("drop geo 1 2", "done"),
            ("cost", "costs 15 0 2 1"),
            ("frob", "bad line"),
            ("place geo B 1 2", "done"),
        ]:
            for key in [":", *line, "enter"]:
                board.press(key)
            self.assertIn(f"{line}: {answer}", text_of(board))
            self.assertEqual(said(board.planning.alarm), "")
        # a commit has its box, also when it is typed
        for key in [":", *"commit", "enter"]:
            board.press(key)
        self.assertIn("Why?", text_of(board))
        self.assertEqual(board.planning.minutes.read_on(), [])
        board.press("enter")
        self.assertIn("Committed as draft 1: 2 edits", text_of(board))
        for key in [":", *"leave", "enter"]:
            board.press(key)
        self.assertTrue(board.is_done)
        board.planning.seat.go()
        self.assertEqual(
            self.sit("day", 0, "show course geo\n"), ["lectures 2 geo A 0 1 geo B 1 2"]
        )

    def test_asks_before_it_gives_up(self):
        self.open("day", SMALL, "1", "--start", SMALL_SOL)
        board = Board(self.planning("day", 0))
        board.begin()
        make_edit(board.planning, "drop geo 1 2")
        for key in ("a", "escape", "a", "x"):
            board.press(key)
        self.assertTrue(board.planning.is_open)
        board.press("y")
        self.assertFalse(board.planning.is_open)


class Known(OfficeTest):
    def test_same(self):
        instance = read_instance(SMALL)
        self.assertTrue(Timetable(instance).same_as(Timetable(instance)))
