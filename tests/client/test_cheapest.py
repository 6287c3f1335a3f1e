"""The cheapest of what is offered, and each slot of it."""
import random

from support import SPRING, SPRING_SOL, lines_of, said
from two_screens import Two, text_of

from office.terminal.board import Board
from office.work.carry import MOVE, SWAP, Carry
from office.work.week import View


class Cheapest(Two):
    def test_of_all_that_is_offered(self):
        """The cheapest is the cheapest of the grid, its own slot too, for moves and swaps."""
        anna, _ = self.boards()
        for course in ("c0049", "c0110", "c0109", "c0025"):
            for lecture in anna.planning.known.present().of_course(course):
                for kind in (MOVE, SWAP):
                    carry = Carry(anna.planning, kind, course, lecture)
                    slots = anna.planning.instance.slots()
                    offers = [one for slot in slots for one in carry.at(slot)]
                    wanted = min(
                        one.price
                        for one in offers
                        if not str(one.edit).startswith(
                            f"reroom {course} {lecture.room} {lecture.day} {lecture.period}"
                        )
                    )
                    self.assertEqual(carry.best()[1].price, wanted, (lecture, kind))
        text = self.go_to(anna, "course c0049", (0, 0))
        text = self.type_keys(anna, "enter")
        self.assertIn("-231 r04", text)
        self.assertIn("Cheapest: -231 in r04, day 1, period 1", text)
        self.type_keys(anna, "b", "enter")
        self.assertEqual(lines_of(anna.planning.edits()), ["reroom c0049 r04 0 0"])

    def test_is_said_anew(self):
        """A move that becomes a swap has another cheapest, also where the lecture stands best."""
        anna, _ = self.boards()
        for slot, told in (((0, 1), "Cheapest: "), ((2, 3), "It stands best: ")):
            self.go_to(anna, "room r04", slot)
            self.assertIn(told, self.type_keys(anna, "enter"))
            before = said(anna.planning)
            text = self.type_keys(anna, "s")
            self.assertNotIn(before, text)
            self.assertRegex(text, r"Cheapest: \S+ with c\d+, day")
            self.type_keys(anna, "escape")

    def test_cheapest_place_in_under_ten_keys(self):
        """Who has seen no page finds the cheapest place of a lecture by what the screen says, and
        commits it."""
        self.open("day", SPRING, "1", "--start", SPRING_SOL)
        board = Board(self.planning("day", 0))
        board.begin()
        self.assertIn("Enter pick up", text_of(board))
        # the first one stands best, the one beside it does not
        told = [
            (["enter"], "It stands best: no slot is cheaper."),
            (["escape", "right", "enter"], "b goes there"),
            (["b", "enter", "c", "enter"], "Committed as draft 1: 1 edit, on the disk."),
        ]
        for keys, text in told:
            for key in keys:
                board.press(key)
            self.assertIn(text, text_of(board))
        self.assertLess(sum(len(keys) for keys, _ in told), 10)

    def test_no_slot_is_left_open(self):
        """Where a thousand offers would not be enough for the grid, each slot is told."""
        draw, courses, rooms = random.Random(3), 1400, 300
        names = [f"c{number:04}" for number in range(courses)]
        lines = [
            f"Name: many Courses: {courses} Rooms: {rooms} Days: 5 Periods_per_day: 4 "
            "Curricula: 1 Constraints: 0 COURSES:",
            *(f"{name} t{name} 2 2 {draw.randrange(20, 90)}" for name in names),
            "ROOMS:",
            *(f"r{number:03} {draw.randrange(20, 90)}" for number in range(rooms)),
            "CURRICULA: q 1 c0000 UNAVAILABILITY_CONSTRAINTS: END.",
        ]
        slots = [(day, period) for day in range(5) for period in range(4)]
        free = {slot: [f"r{number:03}" for number in range(rooms)] for slot in slots}
        placed = []
        for name in names:
            for slot in draw.sample([one for one in slots if free[one]], 2):
                placed.append(f"{name} {free[slot].pop()} {slot[0]} {slot[1]}\n")
        instance = self.write("many.ctt", "\n".join(lines))
        solution = self.write("many.sol", "".join(placed))
        self.open("day", instance, "1", "--start", solution)
        planning = self.planning("day", 0)
        lecture = planning.known.present().of_course("c0000")[0]
        timetable = planning.known.present()
        for kind in (MOVE, SWAP):
            carry = Carry(planning, kind, "c0000", lecture)
            for slot in slots:
                free_slot = timetable.room_at("c0000", slot) is None or slot == lecture.slot
                self.assertEqual(bool(carry.cheapest(slot)), free_slot, (kind, slot))
                self.assertEqual(carry.at(slot)[:1], carry.cheapest(slot)[:1])
        board = Board(planning)
        board.show_view(View("course", "c0000"))
        board.set_cursor(lecture.slot)
        self.assertNotIn("?  ", self.type_keys(board, "enter").replace("? help", ""))
