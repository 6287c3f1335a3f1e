"""The status with which an office ends: a supervisor sees a failure by it."""
import os
import signal

from support import PATIENCE, SMALL, OfficeTest


class Ends(OfficeTest):
    def test_killed_desk(self):
        office = self.open("day", SMALL, "1")
        os.kill(self.desk_of("day"), signal.SIGKILL)
        said = office.communicate(timeout=PATIENCE)[1]
        self.assertIn("the desk has ended by SIGKILL", said)
        self.assertEqual(office.returncode, 3)
        # it goes on, and is closed, as ever
        office = self.open("day")
        self.assertEqual(self.office("close", self.path("day"), "--wait", "0")[0], 0)
        office.communicate(timeout=PATIENCE)
        self.assertEqual(office.returncode, 0)

    def test_signal(self):
        office = self.open("day", SMALL, "1")
        office.send_signal(signal.SIGINT)
        office.communicate(timeout=PATIENCE)
        self.assertEqual(office.returncode, 0)
