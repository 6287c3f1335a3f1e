"""What is damaged in a day is told in a sentence with its name; all that is not damaged works."""
import json
import os

from support import SMALL, SMALL_SOL, OfficeTest

READS = (("status",), ("log",), ("show",), ("blocks",), ("close", "--wait", "0"))


class Damaged(OfficeTest):
    def setUp(self):
        super().setUp()
        office = self.open("day", SMALL, "2", "--start", SMALL_SOL)
        self.sit("day", 0, "open\nmove geo 0 1 A 1 1\ncommit\n")
        self.end(office)

    def each(self, name=""):
        """No command of the day ends with a traceback, and each one that is refused names the
        file."""
        for command, *more in READS:
            with self.subTest(command=command):
                status, _, said = self.office(command, self.path("day"), *more)
                self.assertNotIn("Traceback", said)
                if status != 0:
                    self.assertIn(name, said)

    def test_facts(self):
        path = self.path("day/day.json")
        with open(path) as file:
            facts = json.load(file)
        for change in (
            {"planners": 10**12},
            {"planners": -1},
            {"planners": "2"},
            {"planners": None},
            {"program": []},
            {"program": "timedesk"},
            {"opened": 7},
            {"after": 7},
            {"closures": "x"},
        ):
            self.write("day/day.json", json.dumps({**facts, **change}))
            status, printed, said = self.office("status", self.path("day"))
            self.assertEqual((status, printed), (3, ""), change)
            self.assertEqual(said, f"office: cannot read {path}: it has no facts of a day\n")
        for text in ("", "null", "[]", "{}", "[" * 99999):
            self.write("day/day.json", text)
            self.each("day.json")

    def test_instance(self):
        path = self.path("day/instance.ctt")
        with open(path) as file:
            text = file.read()
        for damaged in ("", text[:40], text[: len(text) // 2], text.replace("3", "99999999999", 1)):
            self.write("day/instance.ctt", damaged)
            self.each("instance.ctt")
        self.write("day/instance.ctt", text.replace(" 2 ", f" {5000 * '2'} ", 1))
        self.each("instance.ctt")

    def test_start(self):
        self.write("day/start.sol", "geo A x y\n")
        self.each("start.sol")

    def test_minutes(self):
        path = self.path("day/minutes")
        with open(path) as file:
            text = file.read()
        for line in ("entry 0 x", "entry 0 -3", "x", "entry 0 1\nmove geo\ndone"):
            self.write("day/minutes", f"{text}{line}\n")
            self.each("minutes")
        self.write("day/minutes", "entry 0 1\nmove no 0 1 A x 1\ndone\n")
        self.each("minutes")

    def test_lines(self):
        """Lines of other files that have no sense are left out."""
        number = 5000 * "1"
        self.write("day/reasons", f"{number}\tx\t{number}\tb\tc\n1\tx\t0\tanna\tbecause\n")
        self.write("day/pins", f"x\tpin\tgeo\t{number}\t1\tben\twhy\n")
        self.write("day/closures", f"x\troom\tA\t{number}\t1\tben\t1\twhy\tblock\n")
        self.write("day/aside", "x: set aside geo A x y: why not\n")
        self.each()
        self.assertIn("because", self.office("log", self.path("day"))[1])

    def test_folders(self):
        """Folders in the place of files."""
        for name in ("0.log", "1.log", "reasons", "pins", "closing", "failing", "0.sitter"):
            path = self.path(f"day/{name}")
            if os.path.exists(path):
                os.remove(path)
            os.mkdir(path)
        self.each()

    def test_folders_of_what_is_needed(self):
        """A folder in the place of a file without which there is no day is told by its name."""
        for name in ("instance.ctt", "start.sol", "day.json"):
            path = self.path(f"day/{name}")
            os.rename(path, path + ".kept")
            os.mkdir(path)
            for command, *more in READS:
                status, _, said = self.office(command, self.path("day"), *more)
                self.assertNotIn("Traceback", said, (name, command))
                self.assertTrue(status == 0 or name in said, (name, command, said))
            os.rmdir(path)
            os.rename(path + ".kept", path)
        self.each()
