"""A planner's work at a seat, without a face: the draft, what it costs, what others do."""
from __future__ import annotations

from typing import Sequence

from office.day.commit_notes import CommitNote, keep_commit_note, read_commit_notes
from office.day.edits import Edit
from office.day.processes import now
from office.day.shared_lines import one_line
from office.day.shifts import shifts_of
from office.seat.answers import (
    Answer,
    BadLine,
    Committed,
    NotAllowed,
    Redone,
    Said,
    Stale,
    Undone,
    costs_in,
)
from office.seat.calls import Turn, read_call
from office.words.notice import NOTHING, Notice, say
from office.words.reasons import reason
from office.work.seat_view import Reading

# answers of the desk that are said in a sentence of their own
SENTENCES: dict[Answer, str] = {
    Said.NOTHING_TO_UNDO: "no edit to undo",
    Said.NOTHING_TO_REDO: "nothing to redo",
    Said.ALREADY_OPEN: "already open",
    Said.NO_DRAFT: "no draft",
    Said.NO_MEMORY: "no memory",
    Said.NO_PLACE: "no place",
}


def answer_notice(answer: Answer) -> Notice:
    """An answer that is none of those that were hoped for."""
    if isinstance(answer, Said) and answer in SENTENCES:
        return say(SENTENCES[answer])
    return say("desk says", answer=str(answer))


class Planning(Reading):
    """What a planner does."""

    # why the last edit was refused
    refused: Notice = NOTHING

    def open(self) -> bool:
        """Opens a draft, and reads what it stands on; answers whether one is open."""
        if self.is_open:
            return True
        if self.ended():
            self.notice = say("decide first", count=len(self.ended()))
            return False
        return self._open_new()

    def _open_new(self) -> bool:
        if self.is_failing:
            self.notice = self.refused = say("minutes fail")
            return False
        answer = self.turn(Turn.OPEN)
        if answer is Said.OPENED:
            self._stand_anew()
        else:
            self.notice = answer_notice(answer)
        return self.is_open

    def _stand_anew(self) -> None:
        """Reads the draft on the base that it has now, and what the newest timetable costs, which
        is noted in the log, too."""
        self.take_up_draft()
        # before its first edit the draft costs what its base does
        costs = self.ask("show cost" if self.state.made else "peek cost")
        self.base_costs = costs_in(costs)
        self.base_total = sum(self.base_costs.values())
        self.seat.log.noted(f"base {self.base_total}")

    def edit(self, edit: Edit) -> bool:
        """Makes an edit, in a new draft if none is open; answers whether it was made."""
        if not self.open():
            return False
        shifts = shifts_of(edit, self.known.present())
        answer = self.turn(edit)
        if answer is Said.DONE:
            self.notice = say("done", shifts=shifts)
            return True
        self.refused = answer_notice(answer)
        if isinstance(answer, NotAllowed):
            self.refused = reason(self.instance, edit, answer.fault)
        self.notice = say("refused", shifts=shifts, reason=self.refused)
        return False

    def undo(self) -> None:
        if not self.is_open:
            self.notice = say("nothing to undo")
            return
        last = self.shifts()[-1:]
        answer = self.turn(Turn.UNDO)
        if isinstance(answer, Undone) and last:
            self.notice = say("taken back", shifts=last[0])
        else:
            self.notice = answer_notice(answer)

    def take_back(self, place: int) -> list[Notice]:
        """Takes an edit of the draft back, whichever it is. Those after it are made again; answers
        those that were refused without it, with the reason."""
        edits, shifts = self.edits(), self.shifts()
        if place == len(edits) - 1:
            self.undo()
            return []
        for _ in edits[place:]:
            answer = self.turn(Turn.UNDO)
            if not isinstance(answer, Undone):
                break
        refused = []
        for number, edit in enumerate(edits[len(self.edits()) :], len(self.edits()) + 1):
            if number != place + 1 and not self.edit(edit):
                refused.append(self._left_out(number, edit, self.refused))
        self.notice = say("taken back", shifts=shifts[place])
        return refused

    def undo_undo(self) -> None:
        """Makes the edit again that was taken back last."""
        undone = self.state.undone
        if undone:
            self.edit(undone[-1])
        else:
            self.notice = say("nothing undone")

    def commit(self, why: str = "") -> None:
        """Wants the draft accepted, for a reason that others can read."""
        if not self.is_open:
            self.notice = say("nothing to commit")
            return
        count = len(self.edits())
        if not count:
            self._close_empty()
            return
        why = one_line(why)
        if why:
            # should the client die before it has written the reason, it is here
            self.seat.log.noted(f"why {why}")
        answer = self.turn(Turn.COMMIT)
        if isinstance(answer, Committed):
            number = self.minutes.offset + answer.number
            if self.has_entry(number):
                kept = self._keep_note(number, now(), self.seat.name, why)
                self.notice = say("committed", number=number, count=count, kept=kept)
            else:
                self.notice = say("not in the minutes", answer=str(answer))
        else:
            self._turned_down(answer)

    def _keep_note(self, number: int, time: str, name: str, why: str) -> Notice:
        """Writes who committed a draft, and why, for the others; the commit does not wait for
        it."""
        note = CommitNote(number, time, self.seat.planner, name, why)
        fault = keep_commit_note(self.seat.day, note)
        if not why:
            return NOTHING
        return say("reason not kept", fault=fault) if fault else say("reason kept")

    def keep_notes(self) -> None:
        """Writes what a client that died has not written of its commits."""
        past, notes = self.seat.past, read_commit_notes(self.seat.day)
        for number, (time, name) in past.commits.items():
            if number not in notes and past.whys.get(number):
                self._keep_note(number, time, name, past.whys[number])

    def begin(self) -> None:
        super().begin()
        self.keep_notes()

    def _close_empty(self) -> None:
        """A draft without edits is not committed. If others have overtaken it, it is closed."""
        self.read_status()
        row = self.stale_preview
        if row is None:
            self.notice = say("no edits")
            return
        self.turn(Turn.ABANDON)
        self.notice = say("empty draft", row=row)

    def refresh(self) -> None:
        """Brings the draft up to date."""
        if not self.is_open:
            self.notice = say("newest")
            return
        answer = self.turn(Turn.REFRESH)
        if answer is Said.REFRESHED:
            self._stand_anew()
            self.notice = say("up to date")
        else:
            self._turned_down(answer)

    def _turned_down(self, answer: Answer) -> None:
        """A commit or a refresh that did not succeed."""
        if isinstance(answer, Stale) and not self.ended():
            self.notice = say("empty draft", row=answer.row)
        elif isinstance(answer, Stale):
            self.stale_row = answer.row
            self.notice = say("stale", row=answer.row)
        elif answer is Said.NOT_WRITTEN:
            self.fail()
            self.read_again()
            # where the edits of the draft are: in the log, if that can be written
            fault = self.seat.log.fault
            self.notice = say("not written")
            if fault:
                self.notice = say("not written nor kept", fault=fault)
        else:
            self.notice = answer_notice(answer)

    def abandon(self) -> None:
        """Gives the draft up, or a stale one."""
        count = len(self.edits() or self.ended())
        code = "given up" if self.is_open else "last given up"
        if not self.is_open:
            self.forget()
        else:
            self.turn(Turn.ABANDON)
        self.notice = say(code, count=count, aside=NOTHING) if count else say("empty given up")

    def forget(self) -> None:
        """The edits of the last draft are given up, or made again by another way."""
        if self.ended():
            self.seat.forget_ended()

    def redo(self) -> list[Notice]:
        """Makes the edits of a stale draft again on the newest timetable, and answers those that
        were refused, with the reason; nothing is committed by it."""
        ended = self.ended()
        if self.is_open:
            self.notice = say("is open")
            return []
        if not ended:
            # a draft that was given up, or had no edits left, is not made again
            self.notice = say("nothing to redo")
            return []
        answer = self.turn(Turn.REDO)
        if not isinstance(answer, Redone):
            if answer is Said.NOTHING_TO_REDO:
                # the draft has ended otherwise, as when the disk is full; the log has its edits
                return self.make_again(ended)
            self.notice = answer_notice(answer)
            return []
        self._stand_anew()
        self.notice = say("made again", made=answer.made, count=answer.of)
        return self.left_out()

    def left_out(self) -> list[Notice]:
        """The edits that could not be made again when the draft was opened, with the reason."""
        return [
            self._left_out(number, edit, reason(self.instance, edit, fault))
            for number, edit, fault in self.state.left_out
        ]

    @staticmethod
    def _left_out(number: int, edit: Edit, why: Notice) -> Notice:
        return say("left out", number=number, shifts=shifts_of(edit), reason=why)

    def make_again(self, edits: Sequence[Edit]) -> list[Notice]:
        """Makes edits again in a draft, and answers those that were refused, with the reason."""
        if not self.is_open:
            self._open_new()
        refused = []
        for number, edit in enumerate(edits, 1):
            if not self.edit(edit):
                refused.append(self._left_out(number, edit, self.refused))
        made = len(edits) - len(refused)
        self.notice = say("made again", made=made, count=len(edits))
        return refused

    def type_line(self, line: str) -> None:
        """Sends a line that was typed by hand, and says what the desk answers. An edit opens a
        draft, as it does by a key."""
        call = read_call(line)
        if isinstance(call, Edit) and not self.open():
            return
        answer = self.turn(call if isinstance(call, (Edit, Turn)) else line)
        if self.is_open and call in (Turn.OPEN, Turn.REDO, Turn.REFRESH):
            self._stand_anew()
        if isinstance(answer, Stale) and self.ended():
            self.stale_row = answer.row
        code = "not understood" if isinstance(answer, BadLine) else "typed"
        self.notice = say(code, line=line, answer=str(answer))
