"""Checksums of minutes: a word that is another one by now is found, though it is as good."""
import os
import unittest

from support import SPRING, SPRING_SOL, OfficeTest, wait_until

from office.day.folder import Day
from office.day.minute_sums import check_minutes, read_blocks, sums_path
from office.day.parts import last_part
from office.refused import Refused

MOVE = "open\nmove c0109 3 2 r09 3 3\ncommit\n"
SECOND = "open\nmove c0109 4 1 r09 4 2\ncommit\n"


class Sums(OfficeTest):
    def setUp(self):
        super().setUp()
        self.opened = self.open("day", SPRING, "2", "--start", SPRING_SOL)
        self.part = last_part(Day(self.path("day")))

    def committed(self, lines):
        """A draft that was committed, and of which the checksum is kept."""
        self.sit("day", 1, lines, "--name", "ben")
        size = os.path.getsize(self.part.minutes)
        self.assertTrue(wait_until(lambda: sum(b.end - b.start for b in self.blocks()) == size))

    def blocks(self):
        return read_blocks(self.part)

    def alter(self, at, byte):
        with open(self.part.minutes, "r+b") as file:
            file.seek(at)
            file.write(byte)

    def is_sound(self):
        try:
            check_minutes(self.part)
        except Refused as fault:
            self.assertIn(f"{self.part.minutes} is damaged", fault.reason)
            return False
        return True

    def test_each_digit(self):
        """No digit of the minutes is another one unnoticed."""
        self.committed(MOVE)
        self.committed(SECOND)
        self.assertTrue(self.is_sound())
        with open(self.part.minutes, "rb") as file:
            text = file.read()
        for at, byte in enumerate(text):
            if chr(byte).isdigit():
                self.alter(at, b"1" if byte != ord("1") else b"2")
                self.assertFalse(self.is_sound(), at)
                self.alter(at, bytes([byte]))
        self.assertTrue(self.is_sound())

    def test_closing(self):
        """A day of which a digit is another one is not closed as one that agrees, nor gone on with;
        once it is put back, it is."""
        self.committed(MOVE)
        with open(self.part.minutes, "rb") as file:
            at = file.read().index(b"r09") + 2
        self.opened.terminate()
        self.opened.wait(60)
        # a move into another room is as good a move
        self.alter(at, b"8")
        for words in (["close"], ["open"]):
            status, out, err = self.office(*words, self.path("day"))
            self.assertNotEqual(status, 0, out)
            self.assertIn("minutes is damaged: what stands in its bytes 0 to", err)
        self.assertIn("minutes is damaged", self.office("status", self.path("day"))[1])
        self.alter(at, b"9")
        status, out, err = self.office("close", self.path("day"))
        self.assertEqual(status, 0, err)
        self.assertIn("the audit agrees", out)

    def test_older_day(self):
        """A day that was kept without checksums is closed as before."""
        self.committed(MOVE)
        self.opened.terminate()
        self.opened.wait(60)
        os.remove(sums_path(self.part))
        self.assertEqual(self.office("close", self.path("day"))[0], 0)


if __name__ == "__main__":
    unittest.main()
