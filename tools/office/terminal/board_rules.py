"""The rules of the day at the screen: what is blocked from there, and how the screen goes on when
they change."""
from __future__ import annotations

from typing import Callable, Optional, TYPE_CHECKING

from office.terminal.drawn import Drawn
from office.terminal.overlays import Chooser, CommitBox, Overlay
from office.words.notice import say
from office.work.closures_here import ClosureChoice

if TYPE_CHECKING:
    from office.terminal.board import Board


class BoardRules:
    """What a screen does about the rules."""

    def __init__(self, board: Board) -> None:
        self.board = board
        # what was being read or typed when the rules changed, to go on with
        self._kept: Optional[Callable[[], Optional[Overlay]]] = None

    def block(self) -> None:
        """Lists what can be blocked or lifted at the cursor."""
        board, blocking = self.board, self.board.work.blocking
        found = blocking.choices(board.work.view, board.seen(), board.cursor)
        if not found:
            board.planning.notice = say("nothing to block")
            return
        choices = [(board.wording.notice(choice.notice), choice) for choice in found]
        title = board.wording.notice(say("what to block"))
        board.overlay = Chooser(title, choices, self.choose)

    def choose(self, choice: ClosureChoice) -> None:
        """Asks why what was chosen is to be blocked, or to be lifted."""
        self.board.ask(self.board.work.blocking.question(choice))

    def step_over(self) -> None:
        """Goes on in the next part of the day, says what has happened, and shows what is to be read
        of it. What is being read or typed, as a reason, is there again after it."""
        board, front = self.board, self.board.overlay
        board.overlay = None
        question = board.work.step_over()
        board.drawn = Drawn()
        self.keep(front)
        board.ask(question)
        if board.overlay is None:
            board.overlay = self.take_kept()

    def keep(self, front: Optional[Overlay]) -> None:
        """Keeps what was being read or typed."""
        if isinstance(front, CommitBox):
            why = front.why
            self._kept = lambda: self.board.draft.commit_box(why)
        elif front is not None:
            self._kept = lambda: front

    def take_kept(self) -> Optional[Overlay]:
        kept, self._kept = self._kept, None
        return kept() if kept is not None else None
