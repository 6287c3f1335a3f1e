"""What is done with the draft. Each act answers what is to be read or asked then, if anything."""
from __future__ import annotations

from functools import partial
from typing import Callable, NamedTuple, Optional, Sequence

from office.day.costs import Costs
from office.day.edits import Edit, edits_in
from office.day.shifts import Shift, shifts_of
from office.past.earlier_days import Earlier
from office.past.variants import Variants
from office.seat.answers import Row
from office.seat.calls import Turn, read_call
from office.seat.seat_log import settle
from office.words.notice import NOTHING, Notice, Question, say
from office.work.planning import Planning

BLANK = say("blank")
Choice = tuple[Notice, Callable[[], Optional[Question]]]


class Box(NamedTuple):
    """What is to be seen before a commit: the edits and what they do, the costs before and after,
    the lectures that they leave missing, by courses, and the row for which the draft is stale by
    now, if it is."""

    edits: list[Edit]
    shifts: list[list[Shift]]
    before: Costs
    after: Costs
    missing: dict[str, int]
    stale: Optional[Row]
    # who has changed that row
    who: list[Notice] = []

    def lines(self) -> list[Notice]:
        lines = [
            say("numbered", number=number, shifts=shifts)
            for number, shifts in enumerate(self.shifts, 1)
        ]
        lines += [BLANK, self.price()]
        if self.missing:
            lines.append(say("leaves missing", courses=self.missing))
        if self.stale is not None:
            lines += [say("box stale", row=self.stale), *self.who]
        else:
            lines.append(say("box fresh"))
        return lines

    def price(self) -> Notice:
        """What the cost changes in each part."""
        changes = {kind: self.after.get(kind, 0) - self.before.get(kind, 0) for kind in self.after}
        if not self.before:
            return say("box cost", count=sum(self.after.values()))
        return say("box change", price=sum(changes.values()), parts=changes)


def edit_notices(edits: Sequence[Edit]) -> list[Notice]:
    """Edits of which the timetable is not known, a line each."""
    return [say("edit line", shifts=shifts_of(edit)) for edit in edits]


class Drafting:
    """The acts of a draft."""

    def __init__(self, planning: Planning, variants: Variants) -> None:
        self.planning, self.variants = planning, variants
        # the reason that was begun for a commit that was not made
        self.why = ""

    def offer_earlier(self) -> Optional[Question]:
        """Offers the edits of an earlier day that were not accepted."""
        earlier = Earlier(self.planning)
        if not earlier.edits:
            return None
        title = say("earlier edits", count=len(earlier.edits), day=earlier.name)
        return Question(
            title,
            edit_notices(earlier.edits),
            {
                "make earlier": lambda: self.take_up(earlier),
                "decline": lambda: self.decline(earlier),
            },
        )

    def decline(self, earlier: Earlier) -> None:
        """What an earlier day has left is not offered any more; it is put aside."""
        name = self.variants.keep(earlier.name, earlier.edits)
        earlier.decline()
        self.planning.notice = say("not offered again", name=name)

    def take_up(self, earlier: Earlier) -> Optional[Question]:
        return self._refused(earlier.take_up())

    def _refused(self, refused: list[Notice]) -> Optional[Question]:
        """The edits that could not be made again, to be read."""
        if not refused:
            return None
        return Question(self.planning.notice, [say("these refused"), *refused])

    def undo(self) -> None:
        self.planning.undo()

    def undo_undo(self) -> None:
        self.planning.undo_undo()

    def edits(self) -> Question:
        """The edits of the draft, and those that a redo could not make again."""
        planning = self.planning
        lines = [
            say("numbered", number=number, shifts=shifts)
            for number, shifts in enumerate(planning.shifts(), 1)
        ]
        left_out = planning.left_out()
        title = say("edits of draft", count=len(lines))
        if left_out:
            lines += [BLANK, say("left out before"), *left_out]
        gone = planning.state.taken_back
        if not planning.edits() and not gone:
            return Question(title, lines)
        choices: list[Choice] = [
            (line, partial(self.ask_take_back, place, planning.edits()[place]))
            for place, line in enumerate(lines[: len(planning.edits())])
        ]
        choices += [(line, lambda: None) for line in left_out]
        choices += [
            (say("was taken back", shifts=shifts_of(edit)), partial(self.make_one, edit))
            for edit in reversed(gone)
        ]
        return Question(title, choices=choices)

    def make_one(self, edit: Edit) -> None:
        """Makes an edit again that was taken back."""
        self.planning.edit(edit)

    def ask_take_back(self, place: int, edit: Edit) -> Optional[Question]:
        """Asks whether an edit of the draft that was seen is to be taken back."""
        if self.planning.edits()[place : place + 1] != [edit]:
            self.planning.notice = say("not these edits")
            return None
        lines = [say("edit line", shifts=self.planning.shifts()[place])]
        act = partial(self.take_back, place, edit)
        return Question(say("take edit back"), lines, {"take edit back": act})

    def take_back(self, place: int, edit: Edit) -> Optional[Question]:
        """Takes an edit of the draft back that was seen, whichever it is."""
        if self.planning.edits()[place : place + 1] != [edit]:
            self.planning.notice = say("not these edits")
            return None
        return self._refused(self.planning.take_back(place))

    def box(self) -> Optional[Box]:
        """What a commit would publish; None if there is nothing to commit, which is said."""
        planning = self.planning
        if not planning.is_open or not planning.edits():
            planning.commit()
            return None
        planning.read_status()
        base, draft = planning.known.base, planning.known.draft
        assert base is not None and draft is not None
        missing = {
            course: draft.missing(course)
            for course in planning.instance.courses
            if draft.missing(course) > base.missing(course)
        }
        return self.renewed(
            Box(
                planning.edits(),
                planning.shifts(),
                planning.base_costs,
                planning.costs(),
                missing,
                planning.stale_preview,
            )
        )

    def renewed(self, box: Box) -> Box:
        """A box with what others have changed by now."""
        row = self.planning.stale_preview
        return box._replace(stale=row, who=self.who_changed(row) if row is not None else [])

    def commit(self, edits: list[Edit], why: str) -> Optional[Question]:
        """Commits the edits that were confirmed, with the reason that was given, which may be
        empty. A draft that has other edits by then is not committed."""
        if edits != self.planning.edits():
            self.planning.notice = say("not these edits")
            return None
        self.planning.commit(why)
        return self.explain_stale()

    def refresh(self) -> Optional[Question]:
        self.planning.refresh()
        return self.explain_stale()

    def explain_stale(self) -> Optional[Question]:
        """Says who changed what, and offers to make the edits again."""
        planning = self.planning
        row, planning.stale_row = planning.stale_row, None
        if row is None:
            return None
        lines = [
            say("row changed", row=row),
            *self.who_changed(row),
            BLANK,
            say("your edits"),
            *edit_notices(planning.ended()),
            BLANK,
            say("redo commits nothing"),
        ]
        return Question(say("stale title"), lines, {"make again": self.redo})

    def who_changed(self, row: Row) -> list[Notice]:
        """Who changed a row since the draft was opened, and how."""
        planning, lines = self.planning, []
        for accepted in planning.changes_of(row):
            who, facts = planning.news.who(accepted), planning.news.facts(accepted)
            because = say("because", why=facts.why) if facts.why else NOTHING
            number = accepted.entry.number
            lines.append(say("by draft", number=number, who=who, time=facts.time, because=because))
            lines += [say("edit line", shifts=shifts) for shifts in accepted.shifts]
        return lines

    def redo(self) -> Optional[Question]:
        return self._refused(self.planning.redo())

    def edit_lines(self) -> list[Notice]:
        """The edits of the draft, or of a stale one."""
        lines = [say("edit line", shifts=shifts) for shifts in self.planning.shifts()]
        return lines or edit_notices(self.planning.ended())

    def ask_abandon(self) -> Optional[Question]:
        """Asks whether the draft is given up. Its edits are put aside by it: no key loses any."""
        planning = self.planning
        if not planning.is_open and not planning.ended():
            planning.notice = say("no draft")
            return None
        lines = self.edit_lines()
        if lines:
            lines += [BLANK, say("give up why")]
        return Question(say("give up"), lines, {"give up": self.variants.give_up})

    def type_line(self, line: str) -> Optional[Question]:
        """Sends a line of the desk. A commit has its box in each face, and a draft is given up as
        it is by its key."""
        if read_call(line) is Turn.ABANDON:
            return self.ask_abandon()
        if read_call(line) is Turn.COMMIT:
            self.planning.notice = say("commit by its key")
            return None
        self.planning.type_line(line)
        return self.explain_stale()

    def left(self) -> list[Notice]:
        """What has become of a planner's drafts when the desk has ended."""
        planning = self.planning
        seat, state = planning.seat, planning.state
        planning.minutes.read_on()
        settle(state, seat.waiting, planning.minutes.entries, seat.planner)
        lines = [say("on the disk", numbers=", ".join(map(str, state.accepted)) or "none")]
        edits = state.unfinished() + edits_in(seat.waiting)
        if edits:
            fault = seat.log.fault
            title = say("not accepted nor kept", fault=fault) if fault else say("not accepted")
            lines += [title, *edit_notices(edits)]
        return lines
