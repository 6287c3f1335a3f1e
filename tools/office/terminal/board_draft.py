"""The draft at the screen: what is typed for a commit, for what is put aside, and as a line."""
from __future__ import annotations

from typing import Optional, TYPE_CHECKING

from office.day.edits import Edit
from office.seat.calls import Turn, read_call
from office.terminal.overlays import CommitBox, Typed
from office.terminal.variant_list import VariantList
from office.words.meant import Meant, names_of
from office.words.notice import Reason, say

if TYPE_CHECKING:
    from office.terminal.board import Board


class BoardDraft:
    """What a screen does about the draft as a whole."""

    def __init__(self, board: Board) -> None:
        self.board = board

    def meant(self, keys: str = "", is_needed: bool = False) -> Meant:
        """Asks about reasons that are typed, perhaps behind keys of the week."""
        board = self.board
        instance = board.planning.instance
        return Meant(keys, lambda: names_of(instance, board.labels.labels), is_needed)

    def ask_reason(self, reason: Reason) -> None:
        """Asks for a reason that is needed."""
        board = self.board

        def take(why: str) -> None:
            board.ask(reason.take(why))

        board.overlay = Typed(board.wording.notice(reason.label), take, self.meant("", True))

    def type_line(self) -> None:
        self.board.overlay = Typed(":", self.send_line)

    def send_line(self, line: str) -> None:
        board, call, line = self.board, read_call(line), " ".join(line.split())
        if call is Turn.LEAVE:
            board.ask(board.work.ask_leave())
        elif call is Turn.COMMIT:
            board.ask(board.free(self.show_box))
        elif line:
            board.ask(board.free(lambda: board.work.drafting.type_line(line)))

    def show_box(self) -> None:
        """Shows what a commit would publish, if there is anything to commit, with a reason that was
        begun before."""
        board, drafting = self.board, self.board.work.drafting
        box = self.commit_box(drafting.why)
        if box is not None:
            box.is_begun = bool(drafting.why)
            drafting.why = ""
            board.overlay = box

    def commit_box(self, why: str = "") -> Optional[CommitBox]:
        """What a commit would publish, with a reason that was begun; None if it is nothing."""
        board, drafting = self.board, self.board.work.drafting

        def commit(edits: list[Edit], why: str) -> None:
            board.overlay = None
            board.ask(drafting.commit(edits, why))

        box = drafting.box()
        if box is None:
            return None
        found = CommitBox(box, drafting, board.wording, commit, self.meant(board.run))
        found.why = why
        return found

    def put_aside(self) -> None:
        board = self.board
        board.work.carry = None
        prompt = board.wording.notice(say("variant name"))
        board.overlay = Typed(prompt, board.work.variants.put_aside)

    def list_variants(self) -> None:
        """Lists what was put aside."""
        board, variants = self.board, self.board.work.variants
        board.work.carry = None
        if variants.kept or variants.thrown:
            board.overlay = VariantList(variants, board.wording, board.ask)
        else:
            board.planning.notice = say("no variants")
