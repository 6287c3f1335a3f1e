"""The timetables that a planner's client knows: the newest one, and that of its draft."""
from __future__ import annotations

from typing import Iterable, Optional

from office.day.edits import Edit
from office.day.instance import Instance
from office.day.timetable import Timetable
from office.seat.answers import Answer, LecturesAre, Said
from office.seat.calls import Look


class Timetables:
    """The newest timetable, and the draft on its base."""

    def __init__(self, instance: Instance, lectures: Iterable[tuple[str, str, int, int]]) -> None:
        self.newest = Timetable(instance, lectures)
        # the newest one when the planner sat down, or when his last draft ended
        self.marked = self.newest
        self.base: Optional[Timetable] = None
        self.draft: Optional[Timetable] = None

    def present(self) -> Timetable:
        """The timetable that a planner works on."""
        return self.draft or self.newest

    def seen(self) -> Timetable:
        """The timetable beside which changes of others are new."""
        return self.base or self.marked

    def mark_seen(self) -> None:
        """Nothing that others have changed is new from now on."""
        self.marked = self.newest.copy()

    def begin_part(self, lectures: Iterable[tuple[str, str, int, int]]) -> None:
        """Another part of the day has begun, with these lectures, at a desk without drafts. What
        is new is so beside the timetable that the planner has seen before."""
        self.newest = Timetable(self.newest.instance, lectures)
        self.end()

    def begin(self) -> None:
        """A draft is opened on the newest timetable."""
        self.base, self.draft = self.newest.copy(), self.newest.copy()

    def stand_on(self, base: Timetable) -> None:
        """The draft begins again, on another base."""
        self.base, self.draft = base, base.copy()

    def end(self) -> None:
        """The draft has ended."""
        self.base, self.draft = None, None

    def make(self, edit: Edit) -> Optional[Edit]:
        """Makes an edit in the draft, and answers the one that takes it back; None if it does not
        fit what is known."""
        return self.draft.make(edit) if self.draft is not None else None

    def accept(self, edits: Iterable[Edit]) -> bool:
        """Takes up accepted edits, and answers whether they fit what is known."""
        return all([self.newest.make(edit) is not None for edit in edits])

    def fits(self, look: Look, answer: Answer) -> bool:
        """Whether the answer to a look is what is known."""
        timetable = self.newest if look.is_of_newest else self.draft
        if timetable is None:
            return answer is Said.NO_DRAFT
        expected = timetable.look(look.words) if look.words else None
        return expected is None or (
            isinstance(answer, LecturesAre) and answer.lectures == expected
        )
