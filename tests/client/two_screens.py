"""Two planners at spring, each at a screen."""
from support import SPRING, SPRING_SOL, OfficeTest

from office.terminal.board import Board
from office.work.week import View

BEST = "move c0109 4 1 r04 4 3"


def text_of(board, height=24, columns=80):
    return "\n".join("".join(text for text, _ in row) for row in board.rows(height, columns))


class Two(OfficeTest):
    def boards(self):
        self.office_process = self.open("day", SPRING, "2", "--start", SPRING_SOL)
        found = [Board(self.planning("day", 0, "anna")), Board(self.planning("day", 1, "ben"))]
        for board in found:
            board.begin()
        return found

    @staticmethod
    def go_to(board, view, slot):
        board.show_view(View(*view.split()))
        board.set_cursor(slot)
        return text_of(board)

    @staticmethod
    def type_keys(board, *keys):
        for key in keys:
            board.press(key)
            text = text_of(board)
        return text
