"""Days of earlier programs, which any later one reads: an archive of closed days, one for each
form that a day's folder has had. A new form gets a day of its own there."""
import json
import os
import shutil
import subprocess
import unittest
from unittest import mock

from support import HERE, PROGRAM, SMALL, OfficeTest

from office.day import program
from office.day.program import day_program, named_words

DAYS = os.path.join(HERE, "tests/data/days")
ABOUT = "timedesk 0.1.0\nunproved: of a test\n"
# by each day what of its accepted drafts is told, and the costs at its end
ARCHIVE = {
    "2026-11-28": (["top"], "cost 15 (capacity 5, days 5, compactness 4, stability 1)"),
    "2026-11-30": (["top"], "cost 15 (capacity 5, days 5, compactness 4, stability 1)"),
    "2026-12-01": (["geo", "top"], "cost 31 (capacity 30, days 0, compactness 0, stability 1)"),
}


class Archive(OfficeTest):
    def installed(self, name):
        """An office as it is installed, in a folder of this name."""
        top = self.path(name)
        os.makedirs(f"{top}/tools")
        shutil.copytree(os.path.join(HERE, "tools/office"), f"{top}/tools/office")
        shutil.copy(os.path.join(HERE, "office"), top)
        shutil.copy(os.path.join(HERE, "tools/installed.sh"), f"{top}/timedesk")
        os.symlink(PROGRAM, f"{top}/ctt_tool")
        self.write(f"{name}/about", ABOUT)
        return top

    def run_office(self, top, *words):
        environment = {key: value for key, value in os.environ.items() if key != "TIMEDESK"}
        done = subprocess.run(
            [f"{top}/office", *words], capture_output=True, text=True, env=environment
        )
        self.assertEqual(done.returncode, 0, f"{words}: {done.stderr}")
        return done.stdout

    def test_each_is_read(self):
        self.assertEqual(sorted(os.listdir(DAYS)), sorted(ARCHIVE))
        top = self.installed("office")
        for name, (courses, costs) in ARCHIVE.items():
            with self.subTest(name):
                day = shutil.copytree(os.path.join(DAYS, name), self.path(name))
                for folder, _, files in os.walk(day):
                    os.chmod(folder, 0o700)
                    for file in files:
                        os.chmod(os.path.join(folder, file), 0o600)
                log = self.run_office(top, "log", day)
                for course in courses:
                    self.assertIn(f" {course}", log)
                shown = self.run_office(top, "show", day, "--course", "geo", "--costs")
                self.assertIn(costs, shown)
                self.run_office(top, "show", day)
                self.assertIn("top", self.run_office(top, "diff", f"{day}:0", day))
                self.run_office(top, "export", day, "-o", self.path(f"{name}.tables"))
                self.run_office(top, "publish", day, self.path(f"{name}.site"))
                self.assertTrue(os.path.exists(self.path(f"{name}.site/course/geo.html")))

    def test_after_an_upgrade(self):
        """A day that one office has opened and closed is read by the next, in another folder."""
        old = self.installed("timedesk-1")
        environment = dict(os.environ)
        environment.pop("TIMEDESK", None)
        day = self.path("day")
        office = subprocess.Popen(
            [f"{old}/office", "open", day, SMALL, "1"],
            stderr=subprocess.PIPE,
            stdout=subprocess.DEVNULL,
            text=True,
            env=environment,
        )
        self.addCleanup(office.stderr.close)
        while "seats" not in office.stderr.readline():
            self.assertIsNone(office.poll())
        self.run_office(old, "close", day, "--wait", "0")
        office.wait(60)
        with open(f"{day}/day.json") as file:
            facts = json.load(file)
        self.assertEqual(facts["program"], ["timedesk"])
        self.assertIn("timedesk 0.1.0", facts["version"])
        os.rename(old, self.path("timedesk-2"))
        later = self.path("timedesk-2")
        self.assertIn("geo", self.run_office(later, "show", day, "--course", "geo"))


class Programs(OfficeTest):
    def test_which_program_a_day_has(self):
        here = self.path("here")
        os.mkdir(here)
        own, named = f"{here}/timedesk", self.write("named", "", 0o755)
        os.mkdir(self.path("old"))
        old = self.write("old/timedesk", "", 0o755)
        self.write("old/office", "", 0o755)
        with mock.patch.object(program, "HERE", here), mock.patch.dict(os.environ):
            os.environ.pop("TIMEDESK", None)
            for words, wanted in (
                (["timedesk"], [own]),
                (["timedesk", "--unproved"], [own, "--unproved"]),
                # of an office that is there, or gone
                ([old], [own]),
                ([old, "--unproved"], [own, "--unproved"]),
                (["/nowhere/timedesk"], [own]),
                (["/nowhere/other"], [own]),
                # one that was named for the day
                ([named], [named]),
            ):
                self.assertEqual(day_program({"program": words}), wanted)
            self.assertEqual(named_words([own, "--unproved"]), ["timedesk", "--unproved"])
            self.assertEqual(named_words([named]), [named])
            self.write("here/about", "")
            self.assertEqual(day_program({"program": [old, "--unproved"]}), [own])
            os.environ["TIMEDESK"] = named
            self.assertEqual(day_program({"program": ["timedesk"]}), [named])


if __name__ == "__main__":
    unittest.main()
