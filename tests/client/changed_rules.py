"""A day whose rules change while anna and ben sit at the small instance."""
import threading

from support import SMALL, SMALL_SOL, OfficeTest, make_edit, wait_until

from office.day.closure import Scope
from office.day.closures_file import add_closure, blocked_now
from office.day.folder import Day
from office.terminal.board import Board

HALL = Scope("room", "A", 0)
# where a lecture of geo goes, and top, which is refused under the new rules
MOVE, REROOM = "move geo 1 2 A 1 1", "reroom top A 0 2"


def text_of(board, height=24, columns=100):
    return "\n".join("".join(text for text, _ in row).rstrip() for row in board.rows(height, columns))


class Parts(OfficeTest):
    """Anna and ben at the small instance, at two screens."""

    def open_day(self, *words):
        self.process = self.open("day", SMALL, "2", "--start", SMALL_SOL, *words)
        self.day = Day(self.path("day"))
        self.anna = self.sit_at(0, "anna")
        self.ben = self.sit_at(1, "ben")

    def sit_at(self, planner, name, day="day"):
        board = Board(self.planning(day, planner, name))
        board.begin()
        text_of(board)
        return board

    def press(self, board, *keys):
        for key in keys:
            board.press(key)
            text_of(board)
        return text_of(board)

    def go_on(self, *boards):
        """Each goes on by itself, as soon as it sees that the rules change."""
        number = boards[0].planning.seat.part.number
        self.assertTrue(wait_until(lambda: all(board.work.is_over() for board in boards)))
        threads = [threading.Thread(target=board.step_over) for board in boards]
        for thread in threads:
            thread.start()
        for thread in threads:
            thread.join()
        for board in boards:
            self.assertGreater(board.planning.seat.part.number, number)

    def block(self, scope=HALL, why="heating", seat=1, who="ben"):
        self.assertEqual(add_closure(self.day, blocked_now(scope, who, seat, why)), "")

    def blocked_under_draft(self):
        """Ben has committed, anna has a draft open, and ben blocks a room."""
        self.open_day()
        make_edit(self.ben.planning, "reroom alg A 1 0")
        self.ben.planning.commit("the beamer")
        make_edit(self.anna.planning, MOVE)
        make_edit(self.anna.planning, REROOM)
        self.block()
        self.go_on(self.anna, self.ben)
