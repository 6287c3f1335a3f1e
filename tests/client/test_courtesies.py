"""Pins, and on what others work: what planners know of each other, though the desk does not."""
import os
import subprocess
import threading

from support import OfficeTest

from office.day.folder import Day
from office.day.lecture import Lecture
from office.day.open_drafts import AtWork, OthersAtWork, end_work, keep_work, read_work
from office.day.pins import pin, pins_path, read_pins, unpin
from office.day.shared_lines import add_line, read_lines


class Lines(OfficeTest):
    """Files of lines."""

    def test_lines(self):
        path = self.path("lines")
        self.assertEqual(read_lines(path, 2), [])
        self.assertEqual(add_line(path, ("1", "a\tb\nc  d")), "")
        with open(path, "a") as file:
            file.write("torn")
        self.assertEqual(read_lines(path, 2), [["1", "a b c d"]])
        self.assertEqual(add_line(path, ("2", "\N{GREEK SMALL LETTER PI}")), "")
        self.assertEqual(
            read_lines(path, 2), [["1", "a b c d"], ["2", "\N{GREEK SMALL LETTER PI}"]]
        )
        self.assertIn("directory", add_line(self.room, ("1", "")))

    def test_at_once(self):
        path = self.path("lines")

        def add(writer):
            for number in range(20):
                self.assertEqual(add_line(path, (str(writer), str(number))), "")

        threads = [threading.Thread(target=add, args=(writer,)) for writer in range(4)]
        for thread in threads:
            thread.start()
        for thread in threads:
            thread.join()
        found = read_lines(path, 2)
        for writer in range(4):
            numbers = [number for by, number in found if by == str(writer)]
            self.assertEqual(numbers, [str(number) for number in range(20)])

    def test_full_disk(self):
        """A line that is not written is said, and the next one begins anew."""
        disk = self.path("disk")
        os.mkdir(disk)
        words = ["mount", "-t", "tmpfs", "-o", "size=16k", "none", disk]
        if subprocess.run(words, stderr=subprocess.DEVNULL, check=False).returncode:
            self.skipTest("no disk can be mounted here")
        self.addCleanup(subprocess.run, ["umount", disk], check=True)
        path, filler = os.path.join(disk, "lines"), os.path.join(disk, "filler")
        self.assertEqual(add_line(path, ("1", "kept")), "")
        with open(filler, "wb", buffering=0) as file:
            try:
                while file.write(b"x" * 4096):
                    pass
            except OSError:
                pass
        self.assertEqual(add_line(path, ("2", "x" * 5000)), "No space left on device")
        self.assertEqual(read_lines(path, 2), [["1", "kept"]])
        os.remove(filler)
        self.assertEqual(add_line(path, ("3", "kept too")), "")
        self.assertEqual(read_lines(path, 2)[0], ["1", "kept"])
        self.assertEqual(read_lines(path, 2)[-1], ["3", "kept too"])


class Pins(OfficeTest):
    """Pins of a day."""

    def test_pins(self):
        day = Day(self.room)
        self.assertEqual(read_pins(day), {})
        self.assertEqual(pin(day, "alg", (0, 1), "anna", "the dean\nwants it"), "")
        self.assertEqual(pin(day, "geo", (1, 1), "ben", ""), "")
        found = read_pins(day)
        self.assertEqual(list(found), [("alg", (0, 1)), ("geo", (1, 1))])
        first = found["alg", (0, 1)]
        self.assertEqual((first.name, first.why), ("anna", "the dean wants it"))
        self.assertEqual(unpin(day, "alg", (0, 1), "carla"), "")
        self.assertEqual(list(read_pins(day)), [("geo", (1, 1))])
        self.assertEqual(pin(day, "geo", (1, 1), "anna", "again"), "")
        self.assertEqual(read_pins(day)["geo", (1, 1)].why, "again")

    def test_damaged(self):
        day = Day(self.room)
        with open(pins_path(day), "w") as file:
            for at_day in "x", "0":
                file.write(f"time\tpin\talg\t{at_day}\t1\tanna\twhy\nnonsense\n")
        self.assertEqual(list(read_pins(day)), [("alg", (0, 1))])


class Work(OfficeTest):
    """Files of what planners work on."""

    def test_work(self):
        day = Day(self.room)
        others = OthersAtWork(day, 3, 1)
        self.assertFalse(others.read_on())
        lectures = (Lecture("alg", "A", 0, 1), Lecture("alg", "B", 1, 1))
        keep_work(day, AtWork(0, "anna", "08:00", 1, lectures))
        keep_work(day, AtWork(1, "ben", "08:05", 1, lectures))
        self.assertTrue(others.read_on())
        self.assertFalse(others.read_on())
        # a planner is not told of himself
        self.assertEqual(others.works(), [AtWork(0, "anna", "08:00", 1, lectures)])
        keep_work(day, AtWork(0, "anna", "08:00", 2, lectures[:1]))
        self.assertTrue(others.read_on())
        self.assertEqual([work.edits for work in others.works()], [2])
        end_work(day, 0)
        self.assertTrue(others.read_on())
        self.assertEqual(others.works(), [])

    def test_damaged(self):
        day = Day(self.room)
        for text in ("", "[]", "{}", '{"name": 1, "since": 2, "edits": "x", "lectures": [[1]]}'):
            self.write("0.work", text)
            self.assertIsNone(read_work(day, 0))
        # what cannot be written leaves no old file
        keep_work(day, AtWork(0, "anna", "", 0, ()))
        os.mkdir(self.path("0.work.new"))
        keep_work(day, AtWork(0, "anna", "", 1, ()))
        self.assertIsNone(read_work(day, 0))
