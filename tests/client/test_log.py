"""What was committed: told, compared, and taken back, by commands."""
import contextlib
import io
import json
import re

from support import SPRING, SPRING_SOL, OfficeTest

from office.day.commit_notes import CommitNote, keep_commit_note
from office.day.folder import Day
from office.main import main

SWAP = "c0109 (day 5, period 2, r01) <-> c0078 (day 4, period 2, r06)"
MOVE = "c0097: day 1, period 4, r18 -> day 3, period 4, r12"


class Comp07(OfficeTest):
    """A day of spring at which two drafts were accepted."""

    def setUp(self):
        super().setUp()
        self.open("day", SPRING, "4", "--start", SPRING_SOL)
        swap = "open\nswap c0109 4 1 c0078 3 1\ncommit\n"
        self.sit("day", 1, swap, "--name", "ben")
        self.sit("day", 0, "open\nmove c0097 0 3 r12 2 3\ncommit\n", "--name", "anna")

    def command(self, *words):
        """A command of the office in this process: status, what it prints, what it says."""
        printed, said = io.StringIO(), io.StringIO()
        with contextlib.redirect_stdout(printed), contextlib.redirect_stderr(said):
            try:
                status = main(list(words))
            except SystemExit as left:
                status = left.code
        return status, printed.getvalue(), said.getvalue()

    def told(self, *words):
        """What a command prints, with its times as TIME."""
        status, printed, said = self.command(*words)
        self.assertEqual((status, said), (0, ""))
        return re.sub(r"\d{4}-\d\d-\d\d \d\d:\d\d:\d\d", "TIME", printed)

    def log(self, *words):
        return self.told("log", self.path("day"), *words)


class Log(Comp07):
    """Who changed what, when and why."""

    def test_log(self):
        note = CommitNote(1, "2026-11-30T10:15:00.000+0100", 1, "ben", "r01 is too small")
        keep_commit_note(Day(self.path("day")), note)
        first = "draft 1, ben at seat 1, TIME: r01 is too small\n"
        cost = "    cost 8847 -> 8615: capacity -233, stability +1\n"
        second = (
            f"draft 2, anna at seat 0, TIME\n    {MOVE}\n"
            "    cost 8615 -> 8585: capacity -26, compactness -4\n"
        )
        whole = f"{first}    {SWAP}\n{cost}"
        half = (
            f"{first}    c0109: day 5, period 2, r01 -> day 4, period 2, r06\n"
            f"    and 1 other lecture: draft 1 has all\n{cost}"
        )
        for words, wanted in [
            ([], whole + second),
            (["c0109"], half),
            (["course", "c0109"], half),
            (["teacher", "t067"], half),
            (["t067"], half),
            (["r06"], whole),
            (["r18"], second),
            (["r12"], second),
            (["curriculum", "q022"], second),
            (["anna"], second),
            (["ben"], whole),
            (["planner", "1"], whole),
            (["2"], second),
            (["draft", "1"], whole),
            (["c0001"], ""),
        ]:
            with self.subTest(words=words):
                self.assertEqual(self.log(*words), wanted)

    def test_json(self):
        (draft,) = json.loads(self.log("c0078", "--json"))
        self.assertEqual((draft["draft"], draft["seat"], draft["name"]), (1, 1, "ben"))
        self.assertEqual(draft["reason"], None)
        self.assertEqual(draft["edits"], ["swap c0109 4 1 c0078 3 1"])
        (lecture,) = draft["lectures"]
        self.assertEqual(
            lecture,
            {
                "course": "c0078",
                "from": {"day": 3, "period": 1, "room": "r06"},
                "to": {"day": 4, "period": 1, "room": "r01"},
            },
        )
        self.assertEqual(draft["cost"]["before"]["total"], 8847)
        self.assertEqual(draft["cost"]["after"]["capacity"], 7797)

    def test_names(self):
        """What has a name may be meant by it."""
        self.write("day/labels.csv", "kind,code,name\ncourse,c0097,Sets\nroom,r12,Hall\n")
        told = self.log("Sets")
        self.assertIn("Sets: day 1, period 4, r18 -> day 3, period 4, Hall", told)
        self.assertEqual(self.log("room", "Hall"), told)
        compared = self.told("diff", self.path("day:0"), self.path("day"), "--room", "Hall")
        self.assertIn("1 lecture differs, of room Hall", compared)
        self.write("day/labels.csv", "kind,code,name\ncourse,c0097,Sets\ncourse,c0001,Sets\n")
        said = "office: Sets is the name of several: say course c0001 or course c0097\n"
        self.assertEqual(self.command("log", self.path("day"), "Sets"), (1, "", said))

    def test_refused(self):
        day = self.path("day")
        for words, said in [
            (["x"], "there is no course, teacher, room, curriculum, planner or draft x"),
            (["3"], "there is no course, teacher, room, curriculum, planner or draft 3"),
            (["room", "c0109"], "there is no room c0109"),
        ]:
            self.assertEqual(self.command("log", day, *words), (1, "", f"office: {said}\n"))
        self.assertEqual(self.command("log", day, "some", "thing", "else")[0], 2)


class Differences(Comp07):
    """In what two timetables differ."""

    def diff(self, first, second, *words):
        return self.told("diff", self.path(first), self.path(second), *words)

    def test_one_day(self):
        cost = "cost 8847 -> 8585: capacity -259, compactness -4, stability +1\n"
        swapped = "c0078 (day 4, period 2, r06) <-> c0109 (day 5, period 2, r01)"
        title = "day, at its start -> day, after 2 drafts: "
        self.assertEqual(
            self.diff("day:0", "day"),
            f"{title}3 lectures differ\n    {swapped}\n    {MOVE}\n{cost}",
        )
        for words, of in [
            (["--room", "r12"], "room r12"),
            (["--teacher", "t055"], "teacher t055"),
            (["--course", "c0097"], "course c0097"),
            (["--curriculum", "q022"], "curriculum q022"),
        ]:
            self.assertEqual(
                self.diff("day:0", "day:2", *words),
                f"{title}1 lecture differs, of {of}\n    {MOVE}\n{cost}",
            )
        self.assertEqual(
            self.diff("day:1", "day:1"),
            "day, after draft 1 of 2 -> day, after draft 1 of 2: 0 lectures differ\n"
            "cost 8615 -> 8615\n",
        )
        found = self.command("diff", self.path("day"), self.path("day"), "--room", "c0109")
        self.assertEqual(found, (1, "", "office: there is no room c0109\n"))
        found = self.command("diff", self.path("day"), self.path("day:3"))
        self.assertEqual(found, (1, "", "office: day has 2 accepted drafts, and no draft 3\n"))

    def test_two_days(self):
        self.listed("day")
        self.open("next", "--after", self.path("day"))
        self.sit("next", 2, "open\ndrop c0097 2 3\nplace c0097 r18 0 3\ndrop c0109 3 1\ncommit\n")
        self.assertEqual(
            self.diff("day", "next").split("\n")[:3],
            [
                "day, after 2 drafts -> next, after 1 draft: 2 lectures differ",
                "    c0097: day 3, period 4, r12 -> day 1, period 4, r18",
                "    c0109: taken out of day 4, period 2, r06",
            ],
        )
        self.assertIn("c0109: placed on day 4, period 2, r06", self.diff("next", "day"))


class Reverts(Comp07):
    """A draft is taken back by edits of a draft that nobody has committed."""

    def revert(self, *words):
        return self.told("revert", self.path("day"), *words)

    def test_swap(self):
        back = "c0109 (day 4, period 2, r06) <-> c0078 (day 5, period 2, r01)"
        self.assertEqual(
            self.revert("1"),
            "day, draft 1, ben at seat 1, TIME\n"
            f"made in the draft of seat 0, and not committed:\n    {back}\n"
            f"office sit {self.path('day')} 0 shows it; c commits it there\n",
        )
        # nothing is committed, and a seat with a draft is not taken
        self.assertEqual(self.log("2"), self.log("anna"))
        self.assertIn("the draft of seat 1", self.revert("2"))
        self.assertIn("the draft of seat 3", self.revert("2", "--seat", "3"))
        self.sit("day", 0, "commit\n")
        found = self.told("diff", self.path("day:0"), self.path("day"))
        self.assertIn(f": 1 lecture differs\n    {MOVE}\n", found)

    def test_changed_since(self):
        moved = "open\nmove c0097 2 3 r18 0 3\ndrop c0078 4 1\ncommit\n"
        self.sit("day", 2, moved, "--name", "dan")
        status, printed, _ = self.command("revert", self.path("day"), "2")
        self.assertEqual(status, 1)
        self.assertEqual(
            printed.split("\n")[1:],
            [
                "left as it is:",
                "    c0097: day 3, period 4, r12 -> day 1, period 4, r18: it is so already",
                "",
            ],
        )
        self.assertEqual(
            self.revert("1", "--seat", "3").split("\n")[1:5],
            [
                "made in the draft of seat 3, and not committed:",
                "    c0109: day 4, period 2, r06 -> day 5, period 2, r01",
                "left as it is:",
                "    c0078: day 5, period 2, r01 -> day 4, period 2, r06: "
                "draft 3 of dan has changed it since",
            ],
        )

    def test_earlier_day(self):
        self.listed("day")
        self.open("next", "--after", self.path("day"))
        printed = self.told("revert", self.path("next"), self.path("day:2"))
        self.assertIn("c0097: day 3, period 4, r12 -> day 1, period 4, r18\n", printed)

    def test_refused(self):
        day = self.path("day")
        found = self.command("revert", day, "3")
        self.assertEqual(found, (1, "", "office: day has 2 accepted drafts, and no draft 3\n"))
        found = self.command("revert", day, "x")
        self.assertEqual(found[0], 2)
        self.sit("day", 1, "open\ndrop c0001 1 2\n", "--name", "ben")
        found = self.command("revert", day, "1", "--seat", "1", "--name", "dean")
        said = "office: seat 1 has a draft of ben: first say there what becomes of it\n"
        self.assertEqual(found, (3, "", said))
        for planner in range(4):
            self.sit("day", planner, "open\n")
        found = self.command("revert", day, "1")
        said = f"no seat of {day} is free: --seat names one, whose draft gets the edits"
        self.assertEqual(found, (3, "", f"office: {said}\n"))
        self.office("close", day, "--wait", "0")
        self.assertEqual(
            self.command("revert", day, "1", "--seat", "0"),
            (3, "", f"office: no office is open in {day}\n"),
        )
