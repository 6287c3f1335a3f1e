"""What a day was after each of its drafts."""
from support import SMALL, SPRING, SPRING_SOL, OfficeTest

from office.day.folder import Day
from office.past.timetable_at import parse_at, read_at
from office.refused import Refused


class Shown(OfficeTest):
    """The timetable after a draft."""

    def setUp(self):
        super().setUp()
        self.open("day", SMALL, "2")
        self.sit("day", 0, "open\nplace geo A 0 1\ncommit\n")
        self.sit("day", 1, "open\nplace alg B 0 0\nplace alg B 1 0\ncommit\n")

    def at(self, number):
        return read_at(Day(self.path("day")), number)

    def test_each_number(self):
        wanted = [
            (0, "day, at its start", b"", {"alg": 2, "geo": 2, "top": 1}, [0, 20, 0, 0]),
            (1, "day, after draft 1 of 2", b"geo A 0 1\n", {"alg": 2, "geo": 1, "top": 1}, [0, 15, 2, 0]),
            (2, "day, after 2 drafts", b"alg B 0 0\nalg B 1 0\ngeo A 0 1\n", {"geo": 1, "top": 1}, None),
            (None, "day, after 2 drafts", b"alg B 0 0\nalg B 1 0\ngeo A 0 1\n", {"geo": 1, "top": 1}, None),
        ]
        for number, title, solution, missing, costs in wanted:
            at = self.at(number)
            self.assertEqual((at.title(), at.solution(), at.missing), (title, solution, missing))
            self.assertEqual(at.accepted, 2)
            if costs is not None:
                self.assertEqual(list(at.costs.values()), costs)
        with self.assertRaisesRegex(Refused, "day has 2 accepted drafts, and no draft 3"):
            self.at(3)

    def test_closed(self):
        before = [self.at(number).solution() for number in range(3)]
        self.assertEqual(self.listed("day"), before[2].decode())
        self.assertEqual([self.at(number).solution() for number in range(3)], before)

    def test_command(self):
        status, printed, said = self.office("show", self.path("day"), "--at", "1")
        self.assertEqual((status, said), (0, ""))
        self.assertEqual(
            printed,
            "day, after draft 1 of 2\ncost 17 (capacity 0, days 15, compactness 2, stability 0)\n"
            "missing lectures 4\n\nday 1, period 2\n    geo  A  t2\n",
        )
        found = self.office("show", self.path("day"), "--at", "9")
        self.assertEqual(found, (1, "", "office: day has 2 accepted drafts, and no draft 9\n"))
        self.assertEqual(self.office("show", self.path("day"), "--at", "-1")[0], 2)

    def test_words(self):
        self.assertEqual(parse_at(self.path("day:12"))[1], 12)
        self.assertEqual(parse_at(self.path("day"))[1], None)
        self.assertEqual(parse_at("a:b")[0].path, "a:b")


class ShownAsListed(OfficeTest):
    """The program's own list after each draft is what is shown."""

    def test_spring(self):
        self.open("day", SPRING, "1", "--start", SPRING_SOL)
        self.sit("day", 0, "open\nswap c0109 4 1 c0078 3 1\ncommit\nopen\ndrop c0097 0 3\ncommit\n")
        newest = read_at(Day(self.path("day")))
        self.assertEqual((newest.number, newest.missing), (2, {"c0097": 1}))
        self.assertEqual(newest.solution().decode(), self.listed("day"))
