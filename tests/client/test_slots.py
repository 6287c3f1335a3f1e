"""What each slot offers to a lecture that is picked up, beside single questions to the same desk."""
import test_speed
from support import SMALL, SMALL_SOL, SPRING, SPRING_SOL, OfficeTest, make_edit, said

from office.day.edits import Edit
from office.day.folder import Day
from office.day.lecture import Lecture
from office.seat.answers import Fault
from office.terminal.board import Board
from office.terminal.grid import Grid
from office.words.reasons import reason
from office.work.carry import MOVE, PLACE, SWAP, Carry
from office.work.week import View
from plain_instance import text_of
from plain_rules import FAULTS
from plain_seats import words_of
from rules import Instance


class AtDesk(OfficeTest):
    """Each slot of a grid beside single questions to the same desk."""

    def lines(self, planning):
        """Keeps the lines that a seat sends."""
        found, ask = [], planning.seat.ask

        def keep(line):
            found.append(str(line))
            return ask(line)

        planning.seat.ask = keep
        return found

    def edits_to(self, planning, carry, slot):
        """The edits by which it can come to a slot."""
        about = planning.instance.courses if carry.kind is SWAP else planning.instance.rooms
        return [carry._edit(one, slot) for one in about]

    def compare(self, planning, carry):
        for slot in planning.instance.slots():
            if carry.kind is MOVE and slot == carry.slot:
                continue
            edits = self.edits_to(planning, carry, slot)
            answers = [words_of(str(planning.look(f"price {edit}"))) for edit in edits]
            prices = [int(words[1]) for words in answers if words[0] == "price"]
            offers = carry.cheapest(slot)
            if prices:
                at = [words[1:] for words in answers].index([str(min(prices))])
                self.assertEqual([one[:2] for one in offers], [(min(prices), edits[at])])
                self.assertEqual(carry.at(slot)[0], offers[0])
                self.assertEqual(sorted(prices), [one.price for one in carry.at(slot)])
            else:
                self.assertEqual(offers, [])
                faults = [" ".join(words[1:]) for words in answers]
                furthest = max(faults, key=lambda fault: FAULTS.index(fault.split(" ")[0]))
                self.assertEqual(str(carry._fault(slot)), furthest, (carry.kind, slot))
                self.assertTrue(said(carry.short_reason(slot)) and said(carry.reason(slot)))
                if carry.kind is SWAP:
                    found = said(carry.reason(slot)), said(carry.short_reason(slot))
                    self.assertEqual(found, self.swap_told(planning, carry, slot, furthest))

    def clash(self, one, other):
        """Whether two courses clash, by the plain rules."""
        plain = Instance(text_of(self.path("day/instance.ctt")))
        number = plain.names()["course"].index
        return one != other and any(plain.causes(number(one), number(other)))

    def swap_told(self, planning, carry, slot, fault):
        """Why nothing can change places with it at a slot: by a question for each lecture there,
        and one for a move to the room of the first that is refused as the slot is."""
        start, end = f"{carry.course} {carry.slot[0]} {carry.slot[1]}", f"{slot[0]} {slot[1]}"
        there = planning.lectures(f"slot {end}")
        shortly = fault if fault.startswith("clash ") else "no swap"
        if not [one for one in there if one != carry.lecture]:
            return "no lecture there to swap with", shortly
        if carry.course in [one.course for one in there] and slot != carry.slot:
            said_alone = {
                "already": f"{carry.course} has a lecture there already",
                "samecourse": f"both are lectures of {carry.course}",
            }
            return said_alone[fault], shortly
        edits = {one: f"swap {start} {one.course} {end}" for one in there}
        answers = {one: str(planning.look(f"price {edits[one]}")) for one in there}
        first = [one for one in there if answers[one] == f"refused {fault}"][0]
        told = said(reason(planning.instance, Edit.parse(edits[first]), Fault.parse(fault)))
        moved = str(planning.look(f"price move {start} {first.room} {end}"))
        kind, *other = fault.split(" ")
        if kind == "unavailable" and moved == "refused unavailable":
            return told, "closed"
        is_there = other and other[0] in [one.course for one in there]
        if kind == "clash" and is_there and self.clash(carry.course, other[0]):
            return told, shortly
        return f"with {first.course}: {told}", shortly

    def test_small(self):
        """Every lecture and every missing one, to move, to swap and to place."""
        self.open("day", SMALL, "1", "--start", SMALL_SOL)
        anna = self.planning("day", 0)
        for lecture in anna.known.present().lectures():
            for kind in (MOVE, SWAP):
                self.compare(anna, Carry(anna, kind, lecture.course, lecture))
        for lecture in anna.known.present().lectures():
            make_edit(anna, f"drop {lecture.course} {lecture.day} {lecture.period}")
            self.compare(anna, Carry(anna, PLACE, lecture.course, None))

    def test_spring(self):
        self.open("day", SPRING, "1", "--start", SPRING_SOL)
        anna = self.planning("day", 0)
        lecture = Lecture("c0109", "r01", 4, 1)
        self.compare(anna, Carry(anna, MOVE, "c0109", lecture))
        self.compare(anna, Carry(anna, SWAP, "c0109", lecture))
        make_edit(anna, "drop c0109 4 1")
        self.compare(anna, Carry(anna, PLACE, "c0109", None))

    def test_blocked(self):
        """A slot that is blocked says why, and who has said so; a room that is blocked is not
        offered."""
        self.open("day", SPRING, "1", "--start", SPRING_SOL)
        day = Day(self.path("day"))
        for words in (["room", "r04", "5"], ["teacher", "t067", "1", "5"]):
            self.assertEqual(self.office("block", day.path, *words, "--why", "ill")[0], 0)
        anna = self.planning("day", 0)
        carry = Carry(anna, MOVE, "c0109", Lecture("c0109", "r01", 4, 1))
        self.assertNotIn("r04", [one.about for one in carry.at((4, 3))])
        self.assertEqual(said(carry.short_reason((0, 4))), "blocked")
        self.assertIn("t067 is blocked then: ill (", said(carry.reason((0, 4))))
        board = Board(anna)
        board.show_view(View("course", "c0109"))
        board.work.carry = carry
        grid = Grid(board.work, board.wording, (4, 1))
        self.assertEqual(grid.below(grid.cells[0, 4], (0, 4), "", carry)[0], "blocked")

    def test_lines(self):
        """One look for the grid of a screen, one for the rooms of its own slot; a step asks for the
        slot to which it leads alone."""
        self.open("day", SPRING, "1", "--start", SPRING_SOL)
        board = Board(self.planning("day", 0))
        board.show_view(View("course", "c0109"))
        board.set_cursor((4, 1))
        board.rows(24, 80)
        lines = self.lines(board.planning)
        board.press("enter")
        board.rows(24, 80)
        looks = [line for line in lines if " slots " in line or " cheapest " in line]
        self.assertEqual(
            looks,
            ["show slots move c0109 4 1 * * *", "show cheapest 1000 reroom c0109 * 4 1"],
        )
        lines.clear()
        board.press("down")
        board.press("down")
        text = "\n".join("".join(text for text, _ in row) for row in board.rows(24, 80))
        self.assertIn("-257 in r04 (1 of 3; Tab for the next)", text)
        self.assertEqual(lines, ["show cheapest 1000 move c0109 4 1 * 4 3"])
        for key in ("tab", "backtab", "tab"):
            board.press(key)
            board.rows(24, 80)
        self.assertEqual(len(lines), 1)

    def test_lines_of_a_swap(self):
        """Why there is no swap is asked of the slot at the cursor alone, once."""
        self.open("day", SPRING, "1", "--start", SPRING_SOL)
        board = Board(self.planning("day", 0))
        board.show_view(View("course", "c0109"))
        board.set_cursor((4, 1))
        board.rows(24, 80)
        board.press("s")
        board.rows(24, 80)
        lines = self.lines(board.planning)
        for key in ("left", "up", "down", "up"):
            board.press(key)
        for _ in range(2):
            text = "\n".join("".join(text for text, _ in row) for row in board.rows(24, 80))
            self.assertIn("cannot stand there: its teacher t067 teaches c0120 then", text)
        first = board.planning.lectures("slot 3 0")[0].course
        asked = ["show slot 3 0", f"show price swap c0109 4 1 {first} 3 0"]
        self.assertEqual(lines, asked)


class Large(OfficeTest):
    """2,000 courses and 100 slots."""

    large, placed = test_speed.Keys.large, staticmethod(test_speed.Keys.placed)

    def test_no_slot_is_left_open(self):
        """Each slot shows a price or a reason, to move and to swap, by one answer."""
        self.open("day", *self.large())
        board = Board(self.planning("day", 0))
        planning = board.planning
        lecture = planning.known.present().lectures()[0]
        board.show_view(View("course", lecture.course))
        board.set_cursor(lecture.slot)
        board.rows(60, 200)
        for key, kind in (("enter", MOVE), ("s", SWAP)):
            board.press(key)
            carry, grid = board.work.carry, Grid(board.work, board.wording, board.cursor)
            self.assertEqual((carry.kind, len(carry.slots)), (kind, 100))
            for slot, cell in grid.cells.items():
                below, _ = grid.below(cell, slot, "", carry)
                offers = carry.cheapest(slot)
                self.assertTrue(below and below != "not known", slot)
                self.assertEqual(bool(offers), below[0] in "+-0", (slot, below))
                if not offers:
                    self.assertNotIn("not said", said(carry.reason(slot)))
