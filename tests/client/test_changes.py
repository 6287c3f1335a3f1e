"""A day that follows another one under a changed instance."""
import os
import signal
import time

from support import PATIENCE, SMALL, SMALL_SOL, OfficeTest, wait_until
from test_day import SLOW


class Changes(OfficeTest):
    def before(self, *words):
        """A day that is closed."""
        self.end(self.open("monday", SMALL, "1", *words))
        self.assertEqual(self.office("close", self.path("monday"))[0], 0)

    def changed(self, *changes):
        with open(SMALL) as file:
            text = file.read()
        for old, new in changes:
            self.assertIn(old, text)
            text = text.replace(old, new)
        return self.write("changed.ctt", text)

    def follow(self, changed, *words):
        """Opens Tuesday, and answers what is said before it is open, and the lectures of it."""
        self.before(*words)
        after = ["--after", self.path("monday"), "--instance", changed]
        office = self.start("open", self.path("tuesday"), *after)
        said = [office.stderr.readline()]
        while said[-1] and "open, seats" not in said[-1]:
            said.append(office.stderr.readline())
        with open(self.path("tuesday/start.sol")) as file:
            return said[:-1], file.read()

    def test_one_that_cannot_stand(self):
        changed = self.changed(("Constraints: 1", "Constraints: 2"), ("geo 0 0", "geo 0 0 alg 1 0"))
        said, start = self.follow(changed, "--start", SMALL_SOL)
        aside = self.path("tuesday/aside")
        line = "office: set aside alg, day 2, period 1, B: alg is unavailable then\n"
        self.assertEqual(said, [line, f"office: 1 lecture set aside, in {aside}\n"])
        with open(aside) as file:
            self.assertEqual(file.read(), "timedesk: set aside alg B 1 0 unavailable\n")
        with open(SMALL_SOL) as file:
            self.assertEqual(start.split(), file.read().replace("alg B 1 0", "").split())
        self.assertEqual(self.sit("tuesday", 0, "show missing\n"), ["missing 1 alg 1"])

    def test_names_and_slots_that_are_gone(self):
        changed = self.changed(("geo", "geometry"), ("\nA 25", "\nC 25"), ("Days: 2", "Days: 1"))
        said, start = self.follow(changed, "--start", SMALL_SOL)
        self.assertEqual(
            said,
            [
                "office: set aside alg, day 1, period 1, A: there is no room A\n",
                "office: set aside alg, day 2, period 1, B: there is no day 2, period 1\n",
                "office: set aside geo, day 1, period 2, A: there is no course geo\n",
                "office: set aside geo, day 2, period 3, A: there is no course geo\n",
                f"office: 4 lectures set aside, in {self.path('tuesday/aside')}\n",
            ],
        )
        self.assertEqual(start, "top B 0 2\n")

    def test_barred_rooms_go_on(self):
        changed = self.changed(("geo", "geometry"))
        self.follow(changed, "--barred", self.write("rooms", "Barred: 2 geo A top B END."))
        with open(self.path("tuesday/barred")) as file:
            self.assertEqual(file.read(), "Barred: 1\ntop B\nEND.\n")

    def test_other_rooms_are_barred(self):
        self.before("--start", SMALL_SOL)
        barred = self.write("rooms", "Barred: 1 geo A END.")
        after = ["--after", self.path("monday"), "--barred", barred]
        office = self.start("open", self.path("tuesday"), *after)
        said = [office.stderr.readline() for _ in range(4)]
        self.assertEqual(
            said[:3],
            [
                "office: set aside geo, day 1, period 2, A: A is barred for geo\n",
                "office: set aside geo, day 2, period 3, A: A is barred for geo\n",
                f"office: 2 lectures set aside, in {self.path('tuesday/aside')}\n",
            ],
        )
        self.assertIn("open, seats", said[3])

    def test_closures_go_on(self):
        """What is blocked stays so, but what the changed instance has no more."""
        changed = self.changed(("geo", "geometry"), ("\nA 25", "\nC 25"))
        entries = "Blocked: 4 room A 0 * teacher t1 * 1 course geo 1 1 course top 0 0 END."
        said, _ = self.follow(changed, "--blocked", self.write("closed", entries))
        self.assertEqual(
            said[:2],
            [
                "office: not blocked any more: room A 0 *: there is no such thing\n",
                "office: not blocked any more: course geo 1 1: there is no such thing\n",
            ],
        )
        with open(self.path("tuesday/blocked")) as file:
            self.assertEqual(file.read(), "Blocked: 2\ncourse top 0 0\nteacher t1 * 1\nEND.\n")
        printed = self.office("blocks", self.path("tuesday"))[1]
        self.assertRegex(printed, r"^t1 is blocked each day in period 2 \(.*\), 20.*\ntop is blocked ")

    def test_something_else_is_blocked(self):
        self.before("--start", SMALL_SOL, "--blocked", self.write("one", "Blocked: 0 END."))
        entries = self.write("two", "Blocked: 3 room A 0 1 teacher t1 1 * room A 0 1 END.")
        after = ["--after", self.path("monday"), "--blocked", entries]
        office = self.start("open", self.path("tuesday"), *after)
        said = [office.stderr.readline() for _ in range(4)]
        self.assertRegex(said[0], r"set aside alg, day 2, period 1, B: t1 is blocked then \(.*\)\n$")
        self.assertRegex(said[1], r"set aside geo, day 1, period 2, A: A is blocked then \(.*\)\n$")
        self.assertIn("office: 2 lectures set aside", said[2])
        self.assertIn("open, seats", said[3])
        self.assertEqual(self.sit("tuesday", 0, "show missing\n"), ["missing 2 alg 1 geo 1"])
        with open(self.path("tuesday/closures")) as file:
            self.assertEqual(len(file.readlines()), 2)

    def test_wrong_instance(self):
        changed = self.changed(("END.", "geo"))
        self.before()
        after = ["--after", self.path("monday"), "--instance", changed]
        found = self.office("open", self.path("tuesday"), *after)
        # it is named as it was given, and not as the day has copied it
        said = f"{changed}:19:1: I3: expected END., found geo\n"
        self.assertEqual(found, (1, "", said))
        self.assertFalse(os.path.exists(self.path("tuesday")))

    def test_as_it_was(self):
        said, start = self.follow(SMALL, "--start", SMALL_SOL)
        self.assertEqual(said, [f"office: 0 lectures set aside, in {self.path('tuesday/aside')}\n"])
        with open(self.path("monday/end.sol")) as file:
            self.assertEqual(start, file.read())

    def test_stopped_while_it_mends(self):
        self.before("--start", SMALL_SOL)
        text = SLOW.format(room=self.room, step="mend", program=self.program)
        self.environment["TIMEDESK"] = self.write("slow", text, 0o755)
        after = ["--after", self.path("monday"), "--instance", SMALL]
        office = self.start("open", self.path("tuesday"), *after)
        self.assertTrue(wait_until(lambda: os.path.exists(self.path("tuesday/start.sol"))))
        time.sleep(0.1)
        office.send_signal(signal.SIGINT)
        self.assertEqual(office.wait(PATIENCE), 130)
        self.assertFalse(os.path.exists(self.path("tuesday")))
