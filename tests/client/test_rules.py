"""The rules that the client computes by itself, each beside what the program says of it: on drawn
timetables that may break any rule."""
import json
import os
import random
import subprocess

from support import PROGRAM, SMALL, SMALL_SOL, OfficeTest

from drawn import draw_instance
from plain_instance import file_of_closures
from rules import Instance as Plain

from office.data.instance_files import barred_text, instance_text
from office.data.label_files import SLOTS
from office.data.plan_tables import LIMITS
from office.data.tables import MOST
from office.day.closure import BLOCKABLE, Scope, blockable_names
from office.day.closures_file import blocked_now, blocked_text
from office.day.folder import Day
from office.day.instance import read_instance
from office.day.lecture import Lecture
from office.day.rules import alone_points, students_without_seat
from office.day.timetable import Timetable
from office.seat.calls import Look
from office.work.looks_on_disk import look_on_disk

DRAWS = int(os.environ.get("DRAWS", "200")) // 2
# what a plain instance of one course says, with parts that a test changes
ONE = {"courses": ["c t 1 1 1"], "rooms": ["r 1"], "days": 1, "periods": 1, "curricula": []}


def text_of(courses, rooms, days, periods, curricula):
    """An instance of these lines."""
    heads = f"Name: x Courses: {len(courses)} Rooms: {len(rooms)} Days: {days}\n"
    heads += f"Periods_per_day: {periods} Curricula: {len(curricula)} Constraints: 0\n"
    parts = ["COURSES:", *courses, "ROOMS:", *rooms, "CURRICULA:", *curricula]
    return heads + "\n".join([*parts, "UNAVAILABILITY_CONSTRAINTS:", "END."]) + "\n"


class Found(OfficeTest):
    """The findings of the program on drawn timetables."""

    def draw(self, seed):
        """An instance with closures, and lectures anywhere, of each course in any slot one."""
        draw = random.Random(seed)
        text, barred = draw_instance(draw)
        while not Plain(text, barred).courses:
            text, barred = draw_instance(draw)
        path = self.path("drawn.ctt")
        with open(path, "wb") as file:
            file.write(text)
        instance = read_instance(path)
        slots, rooms = instance.slots(), list(instance.rooms)
        lectures = [
            Lecture(course, draw.choice(rooms), *slot)
            for course in instance.courses
            for slot in draw.sample(slots, draw.randint(0, min(4, len(slots))))
        ]
        named = [(kind, name) for kind in BLOCKABLE for name in blockable_names(instance, kind)]
        scopes = [
            Scope(
                *draw.choice(named),
                draw.choice([None, *range(instance.days)]),
                draw.choice([None, *range(instance.periods)]),
            )
            for _ in range(draw.choice((0, 1, 3, 6)))
        ]
        instance.block([blocked_now(scope, "", None, "") for scope in scopes])
        return instance, Timetable(instance, lectures), scopes

    def findings(self, timetable, scopes):
        """What the program finds, by kinds: the other data of each."""
        blocked = self.path("drawn.blocked")
        with open(blocked, "wb") as file:
            file.write(file_of_closures(scopes))
        lines = "".join(f"{lecture.words()}\n" for lecture in timetable.lectures())
        words = ["check", self.path("drawn.ctt"), "-", "--explain", "--json", "--blocked", blocked]
        done = subprocess.run(
            [PROGRAM, *words],
            input=lines.encode("utf-8", "surrogateescape"),
            capture_output=True,
            check=True,
        )
        found = {}
        for one in json.loads(done.stdout.decode("utf-8", "surrogateescape"))["findings"]:
            found.setdefault(one["kind"], []).append(one)
        return found

    def test_drawn(self):
        for seed in range(DRAWS):
            with self.subTest(seed=seed):
                self.setUp()
                instance, timetable, scopes = self.draw(seed)
                found = self.findings(timetable, scopes)
                self.check_seats(instance, timetable, found.get("capacity", []))
                self.check_alone(instance, timetable, found.get("compactness", []))
                self.check_clashes(instance, timetable, found.get("conflict", []))
                self.check_closed(instance, timetable, found)
                self.check_missing(instance, timetable, found.get("lectures", []))

    def check_seats(self, instance, timetable, found):
        wanted = {
            (one["course"], one["room"], one["day"], one["period"]): one["points"] for one in found
        }
        without = {one: students_without_seat(instance, one) for one in timetable.lectures()}
        self.assertEqual({one: count for one, count in without.items() if count}, wanted)

    def check_alone(self, instance, timetable, found):
        wanted = {
            (one["course"], one["curriculum"], (one["day"], one["period"])): one["points"]
            for one in found
        }
        points = {
            (one.course, name, one.slot): alone_points(timetable, [name], one.slot)
            for one in timetable.lectures()
            for name in instance.curricula_of[one.course]
        }
        self.assertEqual({at: count for at, count in points.items() if count}, wanted)

    def check_clashes(self, instance, timetable, found):
        """Two courses of a slot clash if the program says so, and for the same cause."""
        causes = {
            (one["course"], one["other"], one["day"], one["period"]): (one["cause"], one["name"])
            for one in found
        }
        for slot in instance.slots():
            there = [one.course for one in timetable.of_slot(slot)]
            for at, course in enumerate(there):
                for other in there[at + 1 :]:
                    is_found = (course, other, *slot) in causes
                    self.assertEqual(other in instance.mates[course], is_found)
                    self.assertEqual(course in instance.mates[other], is_found)
                    if is_found:
                        cause = causes[(course, other, *slot)]
                        self.assertEqual(instance.cause(course, other), cause)

    def check_closed(self, instance, timetable, found):
        """What closures close for courses, and where they block rooms."""
        away = {
            (one["course"], (one["day"], one["period"])) for one in found.get("availability", [])
        }
        lectures = timetable.lectures()
        closed = {one for one in lectures if one.slot in instance.closed[one.course]}
        self.assertEqual({(one.course, one.slot) for one in closed}, away)
        rooms = {
            (one["course"], one["room"], one["day"], one["period"])
            for one in found.get("blocked", [])
        }
        blocked = {one for one in lectures if one.slot in instance.blocked.get(one.room, set())}
        self.assertEqual(blocked, rooms)

    def check_missing(self, instance, timetable, found):
        wanted = {one["course"]: one["stated"] - one["placed"] for one in found}
        missing = {name: timetable.missing(name) for name in instance.courses}
        self.assertEqual({name: count for name, count in missing.items() if count}, wanted)

    def test_written(self):
        """An instance that is read and written, with its side files, is the same to the program."""
        for seed in range(DRAWS // 4):
            self.setUp()
            instance, timetable, scopes = self.draw(seed)
            before = self.findings(timetable, scopes)
            with open(self.path("drawn.ctt"), "wb") as file:
                file.write(instance_text(instance))
            self.assertEqual(self.findings(timetable, scopes), before)
            for text, kind in (
                (barred_text(instance), "--barred"),
                (blocked_text(instance.closures), "--blocked"),
            ):
                with open(self.path("side"), "wb") as file:
                    file.write(text)
                words = ["check", self.path("drawn.ctt"), os.devnull, kind, self.path("side")]
                self.assertEqual(subprocess.run([PROGRAM, *words], capture_output=True).stderr, b"")


class Limits(OfficeTest):
    """How much an import takes is how much the program takes, and no more."""

    def refused(self, **parts):
        """The code for which an instance is refused; empty if it is taken."""
        path = self.write("limit.ctt", text_of(**{**ONE, **parts}))
        done = subprocess.run([PROGRAM, "check", path, os.devnull], capture_output=True, text=True)
        return "" if done.returncode == 0 else done.stderr.split()[2]

    def check(self, most, part):
        self.assertEqual(self.refused(**part(most)), "")
        self.assertEqual(self.refused(**part(most + 1)), "I5")

    def test_courses(self):
        self.check(LIMITS["course"], lambda n: {"courses": [f"c{k} t 1 1 1" for k in range(n)]})

    def test_rooms(self):
        self.check(LIMITS["room"], lambda n: {"rooms": [f"r{k} 1" for k in range(n)]})

    def test_curricula(self):
        self.check(LIMITS["curriculum"], lambda n: {"curricula": [f"q{k} 0" for k in range(n)]})

    def test_slots(self):
        self.check(SLOTS, lambda n: {"periods": n})

    def test_numbers(self):
        """A number is at most so great; of one that is greater the program says it is none."""
        self.assertEqual(self.refused(rooms=[f"r {MOST}"]), "")
        self.assertIn(self.refused(rooms=[f"r {MOST + 1}"]), ("I4", "I5"))


class OnDisk(OfficeTest):
    """What is said of the timetable on the disk is what the desk says."""

    def test_looks(self):
        self.open("day", SMALL, "1", "--start", SMALL_SOL)
        anna = self.planning("day", 0)
        for words in (
            "cost",
            "missing",
            "course geo",
            "slot 0 1",
            "teacher t1",
            "curriculum q1",
        ):
            answer = anna.seat.ask(f"show {words}")
            look = Look(tuple(words.split()))
            self.assertEqual(look_on_disk(Day(self.path("day")), anna.known.newest, look), answer)
