"""A planner whose desk says what a test wants, at the small instance."""
from support import SMALL, SMALL_SOL

from office.day.instance import read_instance, read_solution
from office.day.timetable import Timetable
from office.seat.answers import read_answer


class FakePlanner:
    """Serves a carry, and keeps what was asked."""

    def __init__(self, answers, sol=SMALL_SOL):
        self.instance = read_instance(SMALL)
        self.known = self
        self.now = Timetable(self.instance, read_solution(sol))
        self.answers, self.asked = answers, []
        self.minutes = self
        self.entries = []

    def present(self):
        return self.now

    def look(self, words):
        self.asked.append(words)
        return read_answer(self.answers[words])

    def lectures(self, words):
        self.asked.append(words)
        return self.now.look(words.split())
