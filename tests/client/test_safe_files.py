"""The folder of a group: what somebody of it lays in the place of a file of the day is not taken
for it, and nothing of its owner is written or shown by it."""
import os
import stat
from unittest import mock

from support import SMALL, OfficeTest

from office.day import safe_files
from office.day.folder import Day
from office.day.safe_files import lock, read_text, write_whole
from office.refused import Refused

MINE = "what is the owner's own\n"
OTHER = 1234


class Links(OfficeTest):
    def setUp(self):
        super().setUp()
        self.mine = self.write("mine", MINE, 0o600)
        os.mkdir(self.path("day"))
        os.chmod(self.path("day"), 0o2770)

    def link(self, name):
        os.symlink(self.mine, self.path(f"day/{name}"))

    def is_kept(self):
        with open(self.mine) as file:
            self.assertEqual(file.read(), MINE)
        self.assertEqual(stat.S_IMODE(os.stat(self.mine).st_mode), 0o600)

    def test_opening(self):
        """Links that lie there before the day is opened."""
        self.link("office")
        status, _, said = self.office("open", self.path("day"), SMALL, "1")
        self.assertEqual(status, 3)
        self.assertIn("day/office: it is a link", said)
        self.is_kept()

    def test_new_ones(self):
        """What is made anew takes the place of what lay there."""
        for name in ("instance.ctt", "day.json", "names", "closing", "web.keys"):
            self.link(f"{name}.new")
        self.open("day", SMALL, "1")
        self.is_kept()
        self.assertEqual(self.sit("day", 0, "show cost\n"), ["costs 0 20 0 0"])
        self.assertEqual(self.office("close", self.path("day"), "--wait", "0")[0], 0)
        self.is_kept()

    def test_seat(self):
        """Links in the place of what a seat has: nobody sits there, and nothing is written."""
        self.open("day", SMALL, "3")
        self.link("0.sitter")
        self.link("1.log")
        os.remove(self.path("day/2.in"))
        self.link("2.in")
        for planner in range(3):
            words = ["sit", self.path("day"), str(planner)]
            status, printed, said = self.office(*words, text="open\n")
            self.assertEqual((status, printed), (3, ""), said)
            self.assertTrue(said.startswith("office: "), said)
            self.assertEqual(said.count("\n"), 1, said)
        self.is_kept()
        self.assertEqual(self.office("status", self.path("day"))[0], 0)
        self.assertNotIn("owner's own", self.office("status", self.path("day"))[1])

    def test_shared_lines(self):
        self.open("day", SMALL, "1")
        for name in ("reasons", "closures", "pins", "0.work.new", "failing"):
            self.link(name)
        self.sit("day", 0, "open\nplace geo A 0 1\ncommit\n")
        self.assertEqual(self.office("block", self.path("day"), "room", "A")[0], 3)
        self.is_kept()

    def test_second_name(self):
        """A second name of a file of the owner's is none of the day's."""
        self.open("day", SMALL, "1")
        os.link(self.mine, self.path("day/0.sitter"))
        self.assertEqual(self.office("sit", self.path("day"), "0", text="open\n")[0], 3)
        self.is_kept()

    def test_pipe(self):
        """A pipe in the place of a file is waited for by nobody."""
        self.open("day", SMALL, "1")
        for name in ("reasons", "closures", "0.sitter", "closing"):
            os.mkfifo(self.path(f"day/{name}"))
        for words in (("status",), ("block", "room", "A"), ("sit", "0")):
            command, *more = words
            self.office(command, self.path("day"), *more)


class Owners(OfficeTest):
    """Files that another user has made."""

    def test_facts(self):
        """Which program is run is said by the owner of the day."""
        self.open("day", SMALL, "1")
        evil = self.write("evil", f"#!/bin/sh\ntouch {self.path('hit')}\n", 0o755)
        facts = self.path("day/day.json")
        with open(facts) as file:
            text = file.read()
        os.chmod(self.path("day"), 0o2770)
        os.remove(facts)
        self.write("day/day.json", text.replace(self.program, evil), 0o644)
        os.chown(facts, OTHER, -1)
        status, _, said = self.office("status", self.path("day"))
        self.assertEqual(status, 3)
        self.assertIn("day.json: it is another user's", said)
        self.assertFalse(os.path.exists(self.path("hit")))

    def test_loose_names(self):
        """A folder in which files can be exchanged is told."""
        os.mkdir(self.path("day"))
        os.chmod(self.path("day"), 0o2770)
        office = self.open("day", SMALL, "1")
        self.assertIn(f"chmod +t {self.path('day')}", office.stderr.readline())
        os.mkdir(self.path("other"))
        os.chmod(self.path("other"), 0o3770)
        office = self.open("other", SMALL, "1")
        self.assertEqual(self.office("close", self.path("other"), "--wait", "0")[0], 0)
        self.assertNotIn("chmod", office.communicate(timeout=60)[1])


class Synced(OfficeTest):
    """Names that are new are on the disk before anything is told of them."""

    def synced(self, work):
        """The folders and files that were synced meanwhile."""
        found, sync = [], os.fsync

        def noted(end):
            found.append(os.readlink(f"/proc/self/fd/{end}"))
            sync(end)

        with mock.patch.object(os, "fsync", noted):
            work()
        return found

    def test_folder(self):
        from office.day.opening import claim

        self.assertIn(self.room, self.synced(lambda: claim(Day(self.path("day")))))
        folder = self.path("day")
        self.assertIn(folder, self.synced(lambda: write_whole(self.path("day/x"), b"x")))
        self.assertIn(folder, self.synced(lambda: lock(self.path("day/y"))))

    def test_log(self):
        from office.seat.seat_log import SeatLog

        self.assertIn(self.room, self.synced(lambda: SeatLog(self.path("0.log")).close()))


class Guards(OfficeTest):
    def test_others(self):
        with open(self.write("x", "text", 0o664)) as file:
            os.chmod(self.room, 0o770)
            with self.assertRaises(OSError):
                safe_files.must_be_own(file.fileno(), self.path("x"))
            os.chmod(self.room, 0o700)
            safe_files.must_be_own(file.fileno(), self.path("x"))

    def test_text(self):
        self.assertEqual(read_text(self.path("x")), "")
        with self.assertRaises(OSError):
            read_text(self.room)
        with self.assertRaises(Refused):
            write_whole(os.path.join(self.room, "no/x"), b"")
