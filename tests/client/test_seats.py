"""Who sits, and what is in the logs."""
import os
import stat

from support import SMALL, OfficeTest


class Seats(OfficeTest):
    """Who sits, and what is in the logs."""

    def test_log(self):
        self.open("day", SMALL, "2")
        self.sit(
            "day",
            1,
            "open\nplace geo A 0 1\nplace alg A 0 1\nslot 0 1\ncommit\n",
            "--name",
            "Ben  Ö\n",
        )
        self.sit("day", 0, "open\nplace top B 0 2\n", "--name", "anna")
        self.sit("day", 0, "commit\n", "--name", "carla")
        self.assertEqual(stat.S_IMODE(os.stat(self.path("day/0.log")).st_mode), 0o600)
        self.assertEqual(stat.S_IMODE(os.stat(self.path("day/1.log")).st_mode), 0o600)
        status, printed, _ = self.office("log", self.path("day"))
        self.assertEqual(status, 0)
        self.assertRegex(
            printed,
            r"^draft 1, Ben Ö at seat 1, 20\d\d-\d\d-\d\d \d\d:\d\d:\d\d\n"
            r"    geo: placed on day 1, period 2, A\n    cost 20 -> 17: .*\n"
            r"draft 2, carla at seat 0, 20\d\d-\d\d-\d\d \d\d:\d\d:\d\d\n"
            r"    top: placed on day 1, period 3, B\n    cost 17 -> 22: .*\n$",
        )
        self.assertTrue(
            self.office("log", self.path("day"), "top")[1].startswith("draft 2, carla at seat 0")
        )
        self.assertEqual(self.office("log", self.path("day"), "alg"), (0, "", ""))
        self.assertEqual(
            self.office("log", self.path("day"), "x"),
            (1, "", "office: there is no course, teacher, room, curriculum, planner or draft x\n"),
        )

    def test_answers_under_way(self):
        """Who is killed between a line and its answer: the next one at the seat finds the
        answer."""
        self.open("day", SMALL, "1")
        self.sit("day", 0, "open\n")
        with open(self.path("day/0.log"), "a") as log:
            log.write(
                "2026-11-28T12:00:00.000+0000 > place geo A 0 1\n"
                "2026-11-28T12:00:00.000+0000 > commit\n"
            )
        with open(self.path("day/0.in"), "w") as lines:
            lines.write("place geo A 0 1\npla")
        self.assertEqual(self.sit("day", 0, "slot 0 1\n")[0], "done")
        self.assertEqual(self.sit("day", 0, "commit\n"), ["committed 1"])

    def test_status_names_who_sits(self):
        self.open("day", SMALL, "2")
        sitter = self.start("sit", self.path("day"), "1", "--name", "ben")
        sitter.stdin.write("show cost\n")
        sitter.stdin.flush()
        sitter.stdout.readline()
        printed = self.office("status", self.path("day"))[1]
        self.assertRegex(printed, r"1 +ben +\d\d:\d\d +none +\d\d:\d\d:\d\d +0\n")
        status, _, said = self.office("sit", self.path("day"), "1")
        self.assertEqual(
            (status, said[:40]), (3, "office: ben sits at seat 1, since " + said[34:40])
        )
