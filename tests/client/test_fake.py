"""The desk in plain Python beside the program: the same lines have the same answers."""
import os

from support import OfficeTest
from test_known import PLANNERS, Drawn, Seats

from plain_instance import lectures_of
from plain_seats import SeatsDesk
from office.day.instance import read_solution
from seat_states import KnownState

DRAWS = int(os.environ.get("DRAWS", "200")) // 5


class Beside(OfficeTest):
    def line(self, drawn, known):
        """A line of those that a screen sends, or a planner types."""
        way = drawn.draw.random()
        if way < 0.5:
            return drawn.line(known)
        edit = drawn.edit(known).split()
        looks = ("cost", "missing", "coursecost", "price", "cheapest", "slots", "slots")
        look = drawn.draw.choice(looks)
        if look == "coursecost":
            look += f" {drawn.draw.choice(list(drawn.instance.courses))}"
        elif look == "price":
            look += " " + " ".join(edit)
        elif look == "cheapest":
            count = drawn.draw.choice((0, 1, 3, 1000))
            look += f" {count} " + " ".join(self.pattern(drawn, edit))
        elif look == "slots":
            look += " " + " ".join(self.slot_pattern(drawn, edit))
        return drawn.draw.choice(("", "peek ", "show ")) + look

    @staticmethod
    def wrong(draw, words):
        """A line that may have a word too few, a word too many, or one that cannot stand."""
        at = draw.randrange(len(words))
        word = draw.choice(("x", "9999", "*", "\u6570", "status", "peek", "1000000000", "-1", "0x1"))
        way = draw.randrange(4)
        if way == 0:
            words = words[:at] or words
        elif way == 1:
            words = [*words[:at], word, *words[at:]]
        elif way == 2:
            words = [*words[:at], word, *words[at + 1 :]]
        else:
            words = [*words, word]
        return " ".join(words)

    def pattern(self, drawn, edit):
        """An edit with parts that are left open; one of `drop` is none."""
        if edit[0] == "swap":
            return [*edit[:4], "*", "*", "*"]
        at = {"place": 2, "reroom": 2, "move": 4}.get(edit[0])
        if at is not None and drawn.draw.random() < 0.7:
            edit[at] = "*"
        if edit[0] in ("place", "move") and drawn.draw.random() < 0.7:
            edit[-2:] = ["*", "*"]
        return edit

    @staticmethod
    def slot_pattern(drawn, edit):
        """An edit whose new slot is left open; one of `reroom` or `drop` is none."""
        if edit[0] == "swap":
            return [*edit[:4], "*", "*", "*"]
        if edit[0] in ("place", "move"):
            edit[-2:] = ["*", "*"]
            edit[-3] = drawn.draw.choice(("*", edit[-3]))
        return edit

    def play(self, seed):
        drawn = Drawn(self, seed)
        start = read_solution(drawn.start) if drawn.start else []
        seats = Seats(self, drawn)
        plain = SeatsDesk(drawn.plain, lectures_of(drawn.start))
        knowns = [KnownState(drawn.instance, start) for _ in range(PLANNERS)]
        for _ in range(80):
            planner = drawn.draw.randrange(PLANNERS)
            line = self.line(drawn, knowns[planner])
            if drawn.draw.random() < 0.1:
                line = drawn.draw.choice(("status", "redo", "undo", "help"))
            if drawn.draw.random() < 0.1:
                line = self.wrong(drawn.draw, line.split())
            answer, told = seats.ask(planner, line), plain.answer_at(planner, line)
            self.assertEqual(told, answer, (seed, line))
            made = list(knowns[planner].made)
            self.assertTrue(knowns[planner].feed(line, answer), (seed, line, answer))
            if answer.startswith("committed "):
                for known in knowns:
                    known.accept_edits(made)
        seats.end()

    def test_drawn(self):
        for seed in range(DRAWS):
            with self.subTest(seed=seed):
                self.setUp()
                self.play(seed)
