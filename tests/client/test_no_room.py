"""A day on a disk that is full is closed, in what it has kept free for that."""
import contextlib
import os
import subprocess
import unittest

from support import PATIENCE, SMALL, SMALL_SOL, OfficeTest


def can_mount():
    return os.geteuid() == 0 and os.path.exists("/bin/mount")


class NoRoom(OfficeTest):
    @unittest.skipUnless(can_mount(), "only root can make a small disk")
    def test_close(self):
        disk = self.path("disk")
        os.mkdir(disk)
        words = ["mount", "-t", "tmpfs", "-o", "size=256k", "tmpfs", disk]
        if subprocess.run(words, capture_output=True).returncode:
            self.skipTest("no small disk can be made here")
        self.addCleanup(subprocess.run, ["umount", "-l", disk], check=True)
        office = self.open("disk/day", SMALL, "2", "--start", SMALL_SOL)
        self.sit("disk/day", 0, "open\nmove geo 0 1 A 1 1\ncommit\n")
        with open(os.path.join(disk, "filler"), "wb", buffering=0) as file:
            with contextlib.suppress(OSError):
                while file.write(bytes(4096)):
                    pass
            with contextlib.suppress(OSError):
                while file.write(b"x"):
                    pass
        self.assertEqual(os.statvfs(disk).f_bavail, 0)
        status, printed, said = self.office("close", self.path("disk/day"), "--wait", "0")
        self.assertEqual((status, said), (0, ""))
        self.assertIn("the audit agrees", printed)
        office.communicate(timeout=PATIENCE)
        self.assertFalse(os.path.exists(self.path("disk/day/spare")))

    def test_spare(self):
        """What is kept free goes with a day that is not opened after all."""
        self.assertEqual(self.office("open", self.path("day"), SMALL, "1", "--start", "no")[0], 3)
        self.assertFalse(os.path.exists(self.path("day")))
