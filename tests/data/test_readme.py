"""The README's day, typed as it stands there."""
import os
import re
import shutil
import subprocess
import unittest

from support import HERE, PATIENCE, OfficeTest

LINES = "open\nplace Topology-advanced Cellar 1 1\ncommit\n"


class Readme(OfficeTest):
    def setUp(self):
        super().setUp()
        with open(os.path.join(HERE, "README.md")) as file:
            self.readme = file.read()
        shutil.copytree(os.path.join(HERE, "examples"), self.path("examples"))
        os.symlink(os.path.join(HERE, "office"), self.path("office"))

    def commands(self, title):
        part = self.readme.split(f"## {title}\n", 1)[1].split("\n## ", 1)[0]
        return re.findall(r"^    \./office (.*)$", part, re.MULTILINE)

    def test_the_first_command_is_the_quick_one(self):
        first = re.search(r"^    (\./.*)$", self.readme, re.MULTILINE)[1]
        self.assertEqual(first, "./timedesk --unproved check examples/small.ctt examples/s.sol")

    def test_a_day(self):
        here = os.getcwd()
        os.chdir(self.room)
        self.addCleanup(os.chdir, here)
        commands = self.commands("A day")
        self.assertEqual(len(commands), 9)
        printed = {}
        office = None
        for command in commands:
            words = command.split()
            if words[0] == "open":
                if office is not None and office.poll() is None:
                    office.terminate()
                    office.wait(PATIENCE)
                office = self.start(*words)
                line = office.stderr.readline()
                while "set aside" in line:
                    line = office.stderr.readline()
                self.assertIn("open, seats 0 to 1", line)
                continue
            if words[0] == "close":
                words += ["--wait", "0"]
            status, out, said = self.office(*words, text=LINES if words[0] == "sit" else "")
            self.assertEqual(status, 0, f"{command}: {said}")
            printed[words[0]] = out + said
        self.assertIn("committed 1", printed["sit"])
        self.assertIn("Topology", printed["log"])
        self.assertIn("Cellar is blocked on Tue", printed["block"])
        self.assertIn("1 lecture is missing now", printed["block"])
        self.assertTrue(os.path.exists(self.path("site/course/Topology-advanced.html")))
        self.assertIn("the audit agrees", printed["close"])

    def test_what_the_day_leaves_is_no_change_of_the_tree(self):
        for name in "plan/x", "monday/x", "tuesday/x", "spring/x", "site", ".site.published/x":
            tree = subprocess.run(["git", "-C", HERE, "rev-parse"], capture_output=True)
            if tree.returncode == 0:
                words = ["git", "-C", HERE, "check-ignore", "-q", name]
                self.assertEqual(subprocess.run(words).returncode, 0, name)


if __name__ == "__main__":
    unittest.main()
