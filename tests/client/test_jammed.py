"""Seats whose answers nobody has read, and what is kept of long answers."""
import os
import time

from support import SPRING, SPRING_SOL, OfficeTest

from office.seat.answers import read_answer
from office.seat.seat_log import SeatLog


class Jammed(OfficeTest):
    def test_newcomer(self):
        """Lines that somebody has typed blindly, until both pipes are full: who sits down next is
        served."""
        self.open("day", SPRING, "1", "--start", SPRING_SOL)
        end = os.open(self.path("day/0.in"), os.O_WRONLY | os.O_NONBLOCK)
        line, full = b"peek course c0109\n", 0
        while full < 20:
            try:
                os.write(end, 50 * line)
                full = 0
            except BlockingIOError:
                full += 1
                time.sleep(0.05)
        os.close(end)
        begun = time.monotonic()
        self.assertIn("costs ", self.sit("day", 0, "show cost\n")[-1])
        self.assertLess(time.monotonic() - begun, 25)

    def test_slots(self):
        """The log of a seat has the beginning of what each slot offers."""
        log = SeatLog(self.path("0.log"))
        log.received(read_answer("slots 900" + 900 * " -3 place geo A 1 0"))
        log.close()
        self.assertLess(os.path.getsize(self.path("0.log")), 300)
