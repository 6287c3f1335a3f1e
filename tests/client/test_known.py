"""What a client knows by the answers of the program, and the desk of the tests beside both."""
import os
import random
import subprocess

from support import PROGRAM, OfficeTest

from desks import Desk
from drawn import draw_instance, draw_solution
from plain_instance import file_of_closures, lectures_of, text_of
from plain_rules import Week
from plain_seats import SeatsDesk
from rules import Instance as Plain

from office.day.closure import Scope
from office.day.closures_file import blocked_now
from office.day.instance import read_instance, read_solution
from office.day.minutes import Minutes
from office.seat.answers import read_answer
from seat_states import FedState, KnownState

DRAWS = int(os.environ.get("DRAWS", "200"))
PLANNERS = 3


class Drawn:
    """An instance with a start, and lines of planners on it."""

    def __init__(self, test, seed):
        self.draw = random.Random(seed)
        text, barred = draw_instance(self.draw)
        plain = Plain(text, barred)
        while not plain.courses or not plain.rooms:
            text, barred = draw_instance(self.draw)
            plain = Plain(text, barred)
        self.words = [self.write(test, "drawn.ctt", text)]
        self.barred = self.write(test, "drawn.barred", barred) if barred is not None else None
        start = self.write(test, "drawn.sol", draw_solution(self.draw, plain))
        self.options = ["--barred", self.barred] if barred is not None else []
        self.instance = read_instance(self.words[0], self.barred)
        self.blocked = self.block(test)
        self.plain = Plain(*map(text_of, (self.words[0], self.barred, self.blocked)))
        run = subprocess.run(
            [PROGRAM, "run", *self.words, os.devnull, "--start", start, *self.options],
            capture_output=True,
        )
        self.start = start if run.returncode == 0 else None
        if self.start:
            self.options += ["--start", start]

    def block(self, test):
        """Blocks something in every second instance; answers the side file, if there is one."""
        if self.draw.random() < 0.5:
            return None
        instance = self.instance
        named = [("room", name) for name in instance.rooms]
        named += [("teacher", name) for name in instance.teachers]
        named += [("course", name) for name in instance.courses]
        scopes = [
            Scope(
                *self.draw.choice(named),
                self.draw.choice([None, *range(instance.days)]),
                self.draw.choice([None, *range(instance.periods)]),
            )
            for _ in range(self.draw.randrange(5))
        ]
        instance.block([blocked_now(scope, "", None, "") for scope in scopes])
        path = self.write(test, "drawn.blocked", file_of_closures(scopes))
        self.options += ["--blocked", path]
        return path

    @staticmethod
    def write(test, name, text):
        with open(test.path(name), "wb") as file:
            file.write(text)
        return test.path(name)

    def slot(self):
        day, period = map(self.draw.randrange, (self.instance.days, self.instance.periods))
        return f"{day} {period}"

    def lecture(self, known):
        """A course and a slot: of a lecture that is placed, or any."""
        lectures = known.present().lectures()
        if lectures and self.draw.random() < 0.9:
            lecture = self.draw.choice(lectures)
            return f"{lecture.course} {lecture.day} {lecture.period}"
        return f"{self.draw.choice(list(self.instance.courses))} {self.slot()}"

    def edit(self, known):
        kind = self.draw.choice(("place", "place", "move", "swap", "reroom", "drop"))
        room, course = self.draw.choice(list(self.instance.rooms)), self.draw.choice(
            list(self.instance.courses)
        )
        if kind == "place":
            return f"place {course} {room} {self.slot()}"
        one = self.lecture(known)
        if kind == "move":
            return f"move {one} {room} {self.slot()}"
        if kind == "swap":
            return f"swap {one} {self.lecture(known)}"
        if kind == "reroom":
            course, slot = one.split(" ", 1)
            return f"reroom {course} {room} {slot}"
        return f"drop {one}"

    def look(self):
        instance = self.instance
        kinds = {
            "course": instance.courses,
            "teacher": instance.teachers,
            "curriculum": instance.curricula,
        }
        kind = self.draw.choice([kind for kind in kinds if kinds[kind]] + ["slot"])
        return (
            f"slot {self.slot()}"
            if kind == "slot"
            else f"{kind} {self.draw.choice(list(kinds[kind]))}"
        )

    def line(self, known):
        way = self.draw.random()
        if known.draft is None and way < 0.5:
            return "open"
        if way < 0.7:
            return self.edit(known)
        if way < 0.85:
            return self.look()
        if way < 0.9:
            return f"show {self.look()}"
        if way < 0.95:
            return self.draw.choice(("commit", "commit", "refresh", "abandon", "open"))
        return self.draw.choice(("status", "undo", "undo", "redo", "redo"))


class Seats(Desk):
    """The seats of a desk of the program, in a folder of its own."""

    def __init__(self, test, drawn):
        folder = test.path("seats")
        os.mkdir(folder)
        super().__init__(PLANNERS, *drawn.options, instance=drawn.words[0], folder=folder)

    def ask(self, planner, line):
        """Types a line at a seat, and answers what it is told."""
        return self.seats[planner].ask(line)

    def end(self):
        for seat in self.seats:
            seat.go()
        super().end()


class Scripts(OfficeTest):
    """What is known of drafts, beside the answers of `run`."""

    def play(self, seed):
        """Draws a script line by line; each answer is that of the desk of the tests, and fits what
        is known."""
        drawn = Drawn(self, seed)
        start = read_solution(drawn.start) if drawn.start else []
        lines = []
        # the program answers the script so far: each line is drawn by what is known after the
        # answers before
        seats = Seats(self, drawn)
        plain = SeatsDesk(drawn.plain, lectures_of(drawn.start))
        knowns = [KnownState(drawn.instance, start) for _ in range(PLANNERS)]
        logged = [FedState() for _ in range(PLANNERS)]
        for _ in range(60):
            planner = drawn.draw.randrange(PLANNERS)
            known = knowns[planner]
            line = drawn.line(known)
            answer = seats.ask(planner, line)
            self.assertEqual(plain.answer_at(planner, line), answer, (seed, line))
            edits = list(known.made)
            lines += self.lines_of_run(planner, known, line, answer)
            self.assertTrue(known.feed(line, answer), (seed, planner, line, answer, lines))
            logged[planner].feed(line, answer)
            self.check_log(logged[planner], known, drawn)
            if answer.startswith("committed "):
                for each in knowns:
                    self.assertTrue(each.accept_edits(edits), (seed, line, edits))
        seats.end()
        self.minutes = seats.minutes
        return drawn, lines, knowns

    @staticmethod
    def lines_of_run(planner, known, line, answer):
        """The same for `run`, which has no `undo` and no `redo`: the edits that these stand for,
        with their answers."""
        if line == "undo" and answer.startswith(("done ", "refused ")):
            told = "done" if answer.startswith("done ") else answer
            return [(planner, str(known.standing[-1].back), told)]
        if line == "redo" and answer.startswith("redone "):
            made = read_answer(answer).made_of(known.ended_made)
            return [(planner, "open", "opened"), *((planner, str(edit), "done") for edit in made)]
        return [] if line in ("undo", "redo") else [(planner, line, answer)]

    def check_log(self, logged, known, drawn):
        """By the log a seat has the draft that is known from answers, and its edits lead to it."""
        self.assertEqual(logged.is_open, known.draft is not None)
        self.assertEqual(logged.is_open, known.is_open)
        self.assertEqual(logged.made, known.made)
        self.assertEqual(logged.ended_made, known.ended_made)
        self.assertEqual(logged.accepted, known.accepted)
        if logged.is_open:
            timetable = known.timetables.base.copy()
            week = Week(drawn.plain, timetable.lectures())
            for edit in logged.edits:
                self.assertIsNone(week.fault(str(edit)))
                self.assertEqual(str(timetable.make(edit)), week.make(str(edit)))
            self.assertTrue(timetable.same_as(known.draft))
            self.assertEqual(week.by_course(), known.draft.by_course)

    def test_drawn(self):
        for seed in range(DRAWS):
            with self.subTest(seed=seed):
                self.setUp()
                drawn, lines, knowns = self.play(seed)
                self.check_minutes(drawn, lines, knowns[0])

    def check_minutes(self, drawn, lines, known):
        """The minutes lead to the newest timetable, and `list` prints the same one; `run` answers
        the script as the desk."""
        minutes = Minutes(self.minutes)
        start = read_solution(drawn.start) if drawn.start else []
        newest = KnownState(drawn.instance, start)
        for entry in minutes.read_on():
            self.assertTrue(newest.accept_edits(entry.edits))
        self.assertTrue(newest.newest.same_as(known.newest))
        script = "".join(
            line + "\n" if line.startswith("show") else f"{p} {line}\n" for p, line, _ in lines
        )
        path, journal = self.path("script"), self.path("journal")
        with open(path, "w") as file:
            file.write(script)
        done = subprocess.run(
            [PROGRAM, "run", *drawn.words, path, *drawn.options, "--journal", journal],
            capture_output=True,
            check=True,
        )
        self.assertEqual(done.stdout.decode(), "".join(answer + "\n" for _, _, answer in lines))
        listed = subprocess.run(
            [PROGRAM, "list", *drawn.words, journal, *drawn.options],
            capture_output=True,
            check=True,
        )
        self.assertEqual(
            listed.stdout.decode(), "".join(one.words() + "\n" for one in newest.newest.lectures())
        )
