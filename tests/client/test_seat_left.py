"""Whoever cannot sit down leaves nothing behind: neither lock nor pipe, whatever has failed."""
import errno
import os
from unittest import mock

from support import SMALL, OfficeTest

from office.refused import Refused
from office.seat import seat as seats


class Left(OfficeTest):
    def setUp(self):
        super().setUp()
        self.open("day", SMALL, "2")

    def open_files(self):
        return set(os.listdir("/proc/self/fd"))

    def fails(self, *kinds, name="anna"):
        """Nobody can sit down now; then one sits by the command."""
        before = self.open_files()
        with self.assertRaises(kinds or Refused):
            self.seat("day", 0, name)
        self.assertEqual(self.open_files(), before)

    def goes(self):
        self.assertEqual(self.sit("day", 0, "show cost\n"), ["costs 0 20 0 0"])

    def test_log_is_a_folder(self):
        os.mkdir(self.path("day/0.log"))
        self.fails()
        os.rmdir(self.path("day/0.log"))
        self.goes()

    def test_log_of_another(self):
        """A log that somebody else has begun keeps one out, and not him."""
        self.write("day/0.log", "", 0o600)
        os.chown(self.path("day/0.log"), 1234, -1)
        self.fails()
        os.remove(self.path("day/0.log"))
        self.goes()

    def test_unreadable_log(self):
        with mock.patch.object(seats, "read_past", side_effect=OSError(errno.EIO, "it fails")):
            self.fails(OSError)
        self.goes()

    def test_no_pipe(self):
        os.rename(self.path("day/0.out"), self.path("day/aside"))
        self.fails()
        os.rename(self.path("day/aside"), self.path("day/0.out"))
        self.goes()

    def test_name_of_no_letters(self):
        self.fails(UnicodeError, name="an\ud800na")
        self.goes()

    def test_full_disk(self):
        """On a full disk one sits without a name."""
        full = OSError(errno.ENOSPC, "No space left on device")
        with mock.patch.object(os, "pwrite", side_effect=full):
            seat = self.seat("day", 0)
        self.assertEqual(str(seat.ask("show cost")), "costs 0 20 0 0")
        seat.go()
        self.goes()
