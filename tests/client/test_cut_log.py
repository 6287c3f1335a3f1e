"""The log of a seat, cut at any of its bytes: the seat can be sat at, and the day can be read."""
import os

from support import SMALL, OfficeTest

from office.day.folder import Day
from office.day.parts import read_entries
from office.seat.seat_log import SeatLog, read_past

NUMBERS = "\n2026-11-28T08:05:11.482+0100 "


class Cut(OfficeTest):
    def setUp(self):
        super().setUp()
        self.open("day", SMALL, "2")
        self.sit("day", 0, "open\nplace geo A 0 1\ncommit\nopen\nplace top B 0 2\n")
        self.log = self.path("day/0.log")
        with open(self.log, "rb") as file:
            self.text = file.read()

    def cut(self, text):
        with open(self.log, "wb") as file:
            file.write(text)

    def test_everywhere(self):
        """What is accepted by the minutes is accepted by the log, wherever it ends."""
        entries = read_entries(Day(self.path("day")))
        commit = self.text.index(b"> commit\n") + 9
        for at in range(len(self.text)):
            self.cut(self.text[:at])
            SeatLog(self.log).close()
            for text in (self.text[:at], self.text[:at] + b"\n"):
                self.cut(text)
                past = read_past(self.log)
            self.cut(self.text[:at])
            log = SeatLog(self.log)
            log.noted("sits ben")
            log.close()
            past = read_past(self.log)
            past.settle(entries, 0)
            self.assertEqual(past.name, "ben")
            if at >= commit:
                self.assertEqual(past.state.accepted, [1], self.text[:at])

    def test_commands(self):
        """The seat is alive, and so are status and log of the day."""
        for ended in ("= base", "= base ", "= part 2", "= part 2 ", "= accepted", "= unsent x"):
            for more in ("", "\n"):
                self.cut(self.text + f"{NUMBERS[1:]}{ended}{more}".encode())
                for command in ("status", "log"):
                    status, _, said = self.office(command, self.path("day"))
                    self.assertEqual((status, said), (0, ""), ended)
        self.cut(self.text[: self.text.index(b"< committed ") + 12])
        self.assertEqual(self.office("status", self.path("day"))[0], 0)
        self.assertEqual(self.sit("day", 0, "show course geo\n"), ["lectures 1 geo A 0 1"])
        self.assertGreater(os.path.getsize(self.log), 100)
