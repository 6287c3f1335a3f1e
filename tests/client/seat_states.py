"""The state of a seat, fed with lines and answers as they are typed and printed."""
from support import lines_of

from office.seat.answers import read_answer
from office.seat.calls import read_call
from office.seat.state import SeatState
from office.seat.timetables import Timetables


class FedState(SeatState):
    """The state of a seat of which a log alone is known."""

    def feed(self, line, answer):
        """Takes up a line with its answer, and answers whether it fits what is known."""
        return self.apply(read_call(line), read_answer(answer))

    @property
    def made_lines(self):
        return lines_of(self.made)


class KnownState(FedState):
    """The same with the timetables, as a screen has it."""

    def __init__(self, instance, lectures):
        super().__init__(Timetables(instance, lectures))

    @property
    def newest(self):
        return self.timetables.newest

    @property
    def draft(self):
        return self.timetables.draft

    def present(self):
        return self.timetables.present()

    def accept_edits(self, edits):
        """Takes up a draft that was accepted."""
        return self.timetables.accept(edits)
