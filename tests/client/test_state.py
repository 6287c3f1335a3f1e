"""The state of a seat by its log, which may have been cut anywhere, beside the state of the screen
that wrote it: one machine, fed by both."""
import os
import random

from support import OfficeTest, lines_of

from plain_instance import lectures_of
from plain_seats import SeatsDesk
from seat_states import FedState, KnownState
from test_known import PLANNERS, Drawn

from office.day.instance import read_solution
from office.seat.answers import read_answer
from office.seat.seat_log import SeatLog, read_past

DRAWS = int(os.environ.get("DRAWS", "200")) // 5
LINES, CUTS = 120, 60


class Seen:
    """What a state says at a moment."""

    def __init__(self, state):
        self.facts = (
            state.is_open,
            lines_of(state.made),
            lines_of(state.ended_made),
            list(state.accepted),
            lines_of(one.edit for one in state.left_out),
        )
        tables = state.timetables
        self.base = tables.base.copy() if tables.base else None
        self.draft = tables.draft.copy() if tables.draft else None


class Logs(OfficeTest):
    def play(self, seed):
        """A drawn day of a planner: his log, and what was known after each answer."""
        drawn = Drawn(self, seed)
        start = read_solution(drawn.start) if drawn.start else []
        desk = SeatsDesk(drawn.plain, lectures_of(drawn.start))
        knowns = [KnownState(drawn.instance, start) for _ in range(PLANNERS)]
        log, seen = SeatLog(self.path("log")), [Seen(knowns[0])]
        for _ in range(LINES):
            planner = drawn.draw.choice((0, 0, 1, 2))
            known = knowns[planner]
            line = drawn.line(known)
            answer, made = desk.answer_at(planner, line), list(known.made)
            self.assertTrue(known.feed(line, answer), (seed, line, answer))
            if answer.startswith("committed "):
                self.assertTrue(all([one.accept_edits(made) for one in knowns]))
            if planner == 0:
                log.sent(line)
                log.received(read_answer(answer))
                seen.append(Seen(known))
        log.close()
        return seen

    def check(self, state, seen):
        """A log leads to what was known; its edits lead from the base to the draft."""
        self.assertEqual(
            (
                state.is_open,
                lines_of(state.made),
                lines_of(state.ended_made),
                state.accepted,
                lines_of(one.edit for one in state.left_out),
            ),
            seen.facts,
        )
        if state.is_open:
            for edits in (state.edits, state.made):
                timetable = seen.base.copy()
                self.assertTrue(all([timetable.make(edit) is not None for edit in edits]))
                self.assertTrue(timetable.same_as(seen.draft))

    def test_cut_anywhere(self):
        """A log that is cut says what was known after its last whole answer, and no more."""
        for seed in range(DRAWS):
            with self.subTest(seed=seed):
                self.setUp()
                seen, draw = self.play(seed), random.Random(seed)
                with open(self.path("log"), "rb") as file:
                    text = file.read()
                for _ in range(CUTS):
                    self.check_cut(text[: draw.randrange(len(text) + 1)], seen)

    def check_cut(self, text, seen):
        with open(self.path("cut"), "wb") as file:
            file.write(text)
        whole, _, torn = text.rpartition(b"\n")
        answers = sum(line.split(b" ", 2)[1:2] == [b"<"] for line in whole.split(b"\n"))
        past = read_past(self.path("cut"))
        try:
            self.check(past.state, seen[answers])
        except AssertionError:
            # an answer that lacks nothing but the end of its line is one
            if not torn or answers + 1 >= len(seen):
                raise
            self.check(past.state, seen[answers + 1])
        self.assertLessEqual(len(past.waiting), 1)

    def test_read_twice(self):
        """What is fed line by line is what the whole log says."""
        for seed in range(DRAWS // 4):
            self.setUp()
            self.play(seed)
            with open(self.path("log")) as file:
                lines = [line.split(" ", 2) for line in file.read().split("\n")[:-1]]
            state, asked = FedState(), ""
            for _, sign, said in lines:
                if sign == ">":
                    asked = said
                else:
                    state.feed(asked, said)
            whole = read_past(self.path("log")).state
            self.assertEqual((state.made, state.edits), (whole.made, whole.edits))
            self.assertEqual(state.ended_made, whole.ended_made)
            self.assertEqual((state.undone, state.accepted), (whole.undone, whole.accepted))
