"""A name with signs that steer a terminal steers none."""
from support import SMALL, OfficeTest

RAW = "eve\x1b]0;x\x07\x9b31m"


class Raw(OfficeTest):
    def test_status(self):
        self.open("day", SMALL, "2")
        seat = self.seat("day", 0, RAW)
        for planner, words in ((0, ["status"]), (0, ["sit", "0"]), (1, ["log"])):
            command, *more = words
            _, printed, said = self.office(command, self.path("day"), *more)
            for sign in ("\x1b", "\x07", "\x9b"):
                self.assertNotIn(sign, printed + said)
            if not planner:
                self.assertIn("eve\ufffd", printed + said)
        seat.go()

    def test_refusals(self):
        """Nor does the name of a file."""
        _, _, said = self.office("open", self.path("day"), self.path(RAW), "1")
        self.assertNotIn("\x1b", said)
        self.assertIn("\ufffd", said)
