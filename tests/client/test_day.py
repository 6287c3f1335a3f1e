"""Days from open to close."""
import os
import signal
import stat
import time

from support import (
    PATIENCE,
    PROGRAM,
    SMALL,
    SMALL_SOL,
    SPRING,
    SPRING_SOL,
    OfficeTest,
    is_alive,
    wait_until,
)

# a program that is slow at one step; at its seats it does not answer
SLOW = """#!/bin/sh
echo "$$ $1" >>{room}/steps
[ "$1" = {step} ] && sleep 600
exec {program} "$@"
"""
# a desk that can write files of 600 bytes
LIMITED = """#!/usr/bin/env python3
import os, resource, signal, sys
if sys.argv[1] == "desk":
    signal.signal(signal.SIGXFSZ, signal.SIG_IGN)
    resource.setrlimit(resource.RLIMIT_FSIZE, (600, 600))
os.execv("{program}", ["timedesk", *sys.argv[1:]])
"""


class Refusals(OfficeTest):
    """What is refused, before anything is open."""

    def refused(self, words, status, said):
        found = self.office("open", self.path("day"), *words)
        self.assertEqual(found, (status, "", said))
        self.assertFalse(os.path.exists(self.path("day")))

    def test_files(self):
        bad = self.write("bad", "geo A 0 1 geo")
        clash = self.write("clash", "alg A 0 1\ngeo B 0 1\n")
        nowhere = self.path("nowhere")
        self.refused(
            [nowhere, "2"], 3, f"office: cannot read {nowhere}: No such file or directory\n"
        )
        self.refused([self.room, "2"], 3, f"office: cannot read {self.room}: Is a directory\n")
        self.refused([bad, "2"], 1, f"{bad}:1:1: I3: expected Name:, found geo\n")
        self.refused(
            [SMALL, "2", "--start", nowhere],
            3,
            f"office: cannot read {nowhere}: No such file or directory\n",
        )
        latin = self.path("latin")
        with open(latin, "wb") as file:
            file.write(b"Name: \xe9")
        self.refused([latin, "2"], 1, f"{latin}:1:7: I1: not UTF-8 from this byte on\n")
        self.refused([os.devnull, "2"], 1, "/dev/null:1:1: I2: the words end in the header\n")
        self.refused([SMALL_SOL, "2"], 1, f"{SMALL_SOL}:1:1: I3: expected Name:, found alg\n")
        said = f"{bad}:1:14: S2: lecture 2: room: the words end in an entry, which has four\n"
        self.refused([SMALL, "2", "--start", bad], 1, said)
        said = f"{latin}:1:7: S1: not UTF-8 from this byte on\n"
        self.refused([SMALL, "2", "--start", latin], 1, said)
        said = f"{SPRING_SOL}:1:1: S3: lecture 1: course: no course c0001\n"
        self.refused([SMALL, "2", "--start", SPRING_SOL], 1, said)
        barred = ["--barred", self.write("barred", "Barred: 1 geo A END.")]
        self.refused(
            [SMALL, "2", "--start", SMALL_SOL, *barred], 1, "timedesk: opening 3 barred\n"
        )
        said = f"{SMALL}:1:1: B3: expected Barred:, found Name:\n"
        self.refused([SMALL, "2", "--barred", SMALL], 1, said)
        self.refused(
            [SMALL, "2", "--barred", nowhere],
            3,
            f"office: cannot read {nowhere}: No such file or directory\n",
        )
        blocked = ["--blocked", self.write("blocked", "Blocked: 1 room A 0 1 END.")]
        self.refused(
            [SMALL, "2", "--start", SMALL_SOL, *blocked], 1, "timedesk: opening 3 blocked\n"
        )
        told = f"{SMALL}:1:1: L3: expected Blocked:, found Name:\n"
        self.refused([SMALL, "2", "--blocked", SMALL], 1, told)
        self.refused([SMALL, "2", "--blocked", SMALL, "--barred", SMALL], 1, said)
        self.refused(
            [SMALL, "2", "--blocked", nowhere],
            3,
            f"office: cannot read {nowhere}: No such file or directory\n",
        )
        self.refused([SMALL, "2", "--start", clash], 1, "timedesk: opening 2 clash alg\n")
        said = f"{bad}:1:1: B3: expected Barred:, found geo\n"
        self.refused([SMALL, "2", "--barred", bad], 1, said)
        self.refused([SMALL, "0"], 3, "office: planners are 1 to 64\n")
        self.refused([SMALL, "65"], 3, "office: planners are 1 to 64\n")
        self.refused(["--after", nowhere], 3, f"office: {nowhere} is not the folder of a day\n")

    def test_words(self):
        for words in [
            ["x"],
            [SMALL],
            [SMALL, "x"],
            [SMALL, "2", "--after", "x"],
            [SMALL, "2", "--minutes", "x"],
            [],
        ]:
            self.assertEqual(self.office("open", self.path("day"), *words)[:2], (2, ""))
        for words in [
            ["frob"],
            [],
            ["sit", "x"],
            ["sit", "x", "64"],
            ["--unproved", "sit", "x", "0"],
            ["close"],
        ]:
            self.assertEqual(self.office(*words)[:2], (2, ""))
        self.assertEqual(self.office("--help")[0], 0)
        for command in ("status", "close", "log"):
            found = self.office(command, self.path("x"))
            self.assertEqual(
                found, (3, "", f"office: {self.path('x')} is not the folder of a day\n")
            )

    def test_no_program(self):
        self.environment["TIMEDESK"] = self.path("nowhere")
        self.refused([SMALL, "1"], 3, f"office: TIMEDESK: {self.path('nowhere')} is no program\n")
        self.environment["TIMEDESK"] = self.write("program", "#!/bin/sh\nexit 3\n", 0o755)
        self.refused([SMALL, "1"], 3, "office: there is no program to run a desk with\n")

    def test_folder_of_a_group(self):
        os.mkdir(self.path("day"))
        os.chmod(self.path("day"), 0o770)
        self.assertEqual(self.office("open", self.path("day"), self.path("nowhere"), "1")[0], 3)
        self.assertEqual(self.left_in("day"), [])
        office = self.open("day", SMALL, "1")
        self.assertEqual(stat.S_IMODE(os.stat(self.path("day")).st_mode), 0o770)
        self.assertEqual(stat.S_IMODE(os.stat(self.path("day/0.in")).st_mode), 0o660)
        self.end(office)
        self.assertEqual(
            self.office("open", self.path("day"), SMALL, "1")[2],
            f"office: {self.path('day')} has a day already: give each day a folder of its own\n",
        )


class Signals(OfficeTest):
    """Ctrl-C and TERM at each step of `open`."""

    def stopped(self, step, sign):
        """Stops an office at a step: it ends, with its children, and nothing of it is left."""
        program = self.write("slow", SLOW.format(room=self.room, step=step, program=PROGRAM), 0o755)
        self.environment["TIMEDESK"] = program
        office = self.start("open", self.path("day"), SMALL, "2", "--start", SMALL_SOL)

        def steps():
            if not os.path.exists(self.path("steps")):
                return []
            with open(self.path("steps")) as file:
                return [line.split() for line in file]

        self.assertTrue(wait_until(lambda: [word for _, word in steps()][-1:] == [step]))
        time.sleep(0.1)
        office.send_signal(sign)
        self.assertEqual(office.wait(PATIENCE), 130)
        self.assertEqual(office.stderr.read(), "office: ended before it was open\n")
        self.assertFalse(os.path.exists(self.path("day")))
        self.assertEqual([number for number, _ in steps() if is_alive(number)], [])
        os.remove(self.path("steps"))

    def test_each_step(self):
        for step in ("--help", "run", "desk"):
            for sign in (signal.SIGINT, signal.SIGTERM):
                with self.subTest(step=step, sign=sign):
                    self.stopped(step, sign)

    def test_open(self):
        for sign in (signal.SIGINT, signal.SIGTERM):
            with self.subTest(sign=sign):
                day = f"day{sign}"
                office = self.open(day, SMALL, "2")
                desk = self.desk_of(day)
                office.send_signal(sign)
                self.assertEqual(office.wait(PATIENCE), 0)
                self.assertEqual(office.stdout.read(), "journal 0\ncosts 0 20 0 0\n")
                self.assertFalse(is_alive(desk))
                left = ["day.json", "instance.ctt", "minutes", "names", "office", "spare"]
                self.assertEqual(self.left_in(day), left)

    def test_twice_while_somebody_sits(self):
        office = self.open("day", SMALL, "1")
        sitter = self.start("sit", self.path("day"), "0")
        sitter.stdin.write("open\n")
        sitter.stdin.flush()
        self.assertEqual(sitter.stdout.readline(), "opened\n")
        office.send_signal(signal.SIGINT)
        self.assertTrue(sitter.stderr.readline().startswith("office: the office closes in "))
        self.assertIsNone(office.poll())
        office.send_signal(signal.SIGINT)
        office.wait(PATIENCE)
        self.assertEqual(sitter.wait(PATIENCE), 3)
        self.assertEqual(
            [name for name in self.left_in("day") if name.endswith((".in", ".out"))], []
        )

    def test_terminal_closes(self):
        office = self.open("day", SMALL, "1")
        office.send_signal(signal.SIGHUP)
        time.sleep(0.3)
        self.assertEqual(self.sit("day", 0, "show cost\n"), ["costs 0 20 0 0"])


class Days(OfficeTest):
    """What a day leaves."""

    def test_two_days_and_a_crash(self):
        office = self.open("monday", SPRING, "2", "--start", SPRING_SOL)
        self.sit(
            "monday",
            0,
            "open\nmove c0109 4 1 r04 4 3\ncommit\nopen\ndrop c0109 4 3\n",
            "--name",
            "anna",
        )
        self.sit("monday", 1, "open\nswap c0110 4 2 c0014 4 2\ncommit\n", "--name", "ben")
        os.kill(self.desk_of("monday"), signal.SIGKILL)
        self.assertEqual(office.wait(PATIENCE), 3)
        self.assertIn(
            "the desk has ended by SIGKILL; what was committed is in", office.stderr.read()
        )
        printed = self.office("status", self.path("monday"))[1]
        self.assertIn("monday: no desk: it has ended, or was killed", printed)
        self.assertIn("2 drafts accepted; minutes are written", printed)
        self.assertRegex(printed, r"0 +nobody +1 edit, not accepted +\d\d:\d\d:\d\d +1\n")
        self.assertEqual(self.office("open", self.path("x"), "--after", self.path("monday"))[0], 3)
        status, printed, said = self.office("close", self.path("monday"))
        self.assertEqual((status, said), (0, ""))
        self.assertTrue(
            printed.startswith("monday: 2 drafts accepted, the audit agrees\ncost before 8847 ")
        )
        self.open("tuesday", "--after", self.path("monday"))
        with open(self.path("tuesday/start.sol")) as start, open(
            self.path("monday/end.sol")
        ) as end:
            self.assertEqual(start.read(), end.read())
        self.assertEqual(
            self.sit("tuesday", 1, "show course c0014\n")[0].split()[:2], ["lectures", "4"]
        )
        self.assertIn("monday: closed", self.office("status", self.path("monday"))[1])

    def test_office_is_killed(self):
        office = self.open("day", SMALL, "2")
        desk = self.desk_of("day")
        sitter = self.start("sit", self.path("day"), "0")
        sitter.stdin.write("open\nplace geo A 0 1\ncommit\n")
        sitter.stdin.flush()
        self.assertEqual(
            [sitter.stdout.readline() for _ in range(3)], ["opened\n", "done\n", "committed 1\n"]
        )
        office.kill()
        office.wait()
        sitter.stdin.write("show cost\n")
        sitter.stdin.flush()
        self.assertEqual(sitter.stdout.readline(), "costs 0 15 2 0\n")
        self.assertTrue(is_alive(desk))
        status, printed, _ = self.office("close", self.path("day"), "--wait", "1")
        self.assertEqual(
            (status, printed.split("\n")[1]), (0, "day: 1 draft accepted, the audit agrees")
        )
        self.assertFalse(is_alive(desk))
        self.assertEqual(sitter.wait(PATIENCE), 0)

    def test_close_waits(self):
        office = self.open("day", SMALL, "1")
        sitter = self.start("sit", self.path("day"), "0")
        sitter.stdin.write("open\nplace geo A 0 1\n")
        sitter.stdin.flush()
        self.assertEqual(sitter.stdout.readline(), "opened\n")
        closing = self.start("close", self.path("day"), "--wait", "20")
        self.assertTrue(sitter.stderr.readline().startswith("office: the office closes in "))
        self.assertIn("day: closes", self.office("status", self.path("day"))[1])
        sitter.stdin.write("commit\n")
        sitter.stdin.close()
        sitter.stdin = open(os.devnull)
        self.assertEqual(sitter.wait(PATIENCE), 0)
        self.assertEqual(closing.wait(PATIENCE), 0)
        self.assertIn("day: 1 draft accepted, the audit agrees", closing.stdout.read())
        self.assertEqual(office.wait(PATIENCE), 0)

    def test_full_disk(self):
        self.environment["TIMEDESK"] = self.write("limited", LIMITED.format(program=PROGRAM), 0o755)
        office = self.open("day", SMALL, "1")
        text = "open\nplace geo A 0 1\ncommit\n" + "open\ncost\ncommit\n" * 30
        answers = [
            answer for answer in self.sit("day", 0, text) if answer.startswith(("committed", "not"))
        ]
        count = answers.index("not written")
        self.assertGreater(count, 1)
        self.assertEqual(set(answers[count:]), {"not written"})
        self.assertIn("minutes cannot be written", self.office("status", self.path("day"))[1])
        self.end(office)
        status, printed, _ = self.office("close", self.path("day"))
        self.assertEqual((status, printed.split(":")[0]), (0, "day"))
