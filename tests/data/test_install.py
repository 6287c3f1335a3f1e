"""Installations of a small tree with a program that was built before, below paths with blanks."""
import os
import shutil
import subprocess
import unittest

from support import HERE, PROGRAM, SMALL, SMALL_SOL, OfficeTest

# a kit that tells its name, and cannot build anything
KIT = """#!/bin/sh
[ "$1" != version ] || { echo "kit of the test"; exit; }
echo "the kit was asked to build" >&2
exit 1
"""


class Install(OfficeTest):
    def setUp(self):
        super().setUp()
        self.top = self.path("a tree")
        shutil.copytree(os.path.join(HERE, "docs"), f"{self.top}/docs")
        shutil.copytree(os.path.join(HERE, "examples"), f"{self.top}/examples")
        ignored = shutil.ignore_patterns("__pycache__")
        shutil.copytree(os.path.join(HERE, "tools"), f"{self.top}/tools", ignore=ignored)
        for name in "README.md", "timedesk", "office", "install", "uninstall":
            shutil.copy(os.path.join(HERE, name), self.top)
        os.makedirs(f"{self.top}/crates/ctt_tool/src")
        for name in "crates.txt", "crates/ctt_tool/src/main.rt":
            self.write(f"a tree/{name}", "ctt_tool:\n")
        os.mkdir(self.path("kit"))
        self.write("kit/rt", KIT, 0o755)
        self.environment["PATH"] = f"{self.path('kit')}:{os.environ['PATH']}"
        self.environment.pop("TIMEDESK")
        for word in "init", "add .", "-c user.name=x -c user.email=x commit -qm x":
            self.git(*word.split())
        self.commit = self.git("rev-parse", "--short=12", "HEAD").strip()

    def git(self, *words):
        done = subprocess.run(["git", *words], cwd=self.top, capture_output=True, text=True)
        self.assertEqual(done.returncode, 0, done.stderr)
        return done.stdout

    def build(self, way="proved"):
        """Puts a program there, as a build does, with its notes."""
        take = "take_unproved; " if way == "unproved" else ""
        script = f'here="{self.top}"; . "$here/tools/build.sh"; {take}mkdir -p "$built"; '
        script += f'cp "{PROGRAM}" "$program"; touch "$built/built.fast"; note_build "$(sums)"'
        self.run_in("bash", "-c", script)
        # what is built is no source
        self.write("a tree/.git/info/exclude", "out/\n")

    def run_in(self, *words, status=0):
        """What a command in the tree prints and says."""
        done = subprocess.run(
            words,
            cwd=self.top,
            env=self.environment,
            stdout=subprocess.PIPE,
            stderr=subprocess.STDOUT,
            text=True,
        )
        self.assertEqual(done.returncode, status, done.stdout)
        return done.stdout

    def files(self, name):
        top = self.path(name)
        return sorted(
            os.path.relpath(os.path.join(folder, file), top)
            for folder, _, files in os.walk(top)
            for file in files
        )

    def about(self, way):
        told = {
            "proved": "proved: each function was proved before it was compiled\n",
            "unproved": "unproved: it was built without proof, and nothing is guaranteed of it\n"
            "speed: full\n",
        }[way]
        return f"timedesk 0.1.0\ncommit: {self.commit}\nkit: kit of the test\n{told}"


class Installed(Install):
    def test_it_runs_without_the_tree(self):
        self.build()
        prefix = self.path("a prefix")
        told = self.run_in("./install", "--prefix", prefix)
        self.assertIn("install: the proved program, office, manual, completions", told)
        # the kit of this test makes no module
        self.assertIn("install: without the page of checks: office publish --with-check is", told)
        self.assertIn(f"install: {prefix}/bin is not on the path", told)
        shutil.rmtree(self.top)
        os.mkdir(self.top)
        self.environment["PATH"] = f"{prefix}/bin:/usr/bin:/bin"
        kind = os.uname()
        wanted = f"{self.about('proved')}for: {kind.sysname} {kind.machine}\n"
        self.assertEqual(self.run_in("timedesk", "--version"), wanted)
        found = self.run_in("timedesk", "check", SMALL, SMALL_SOL)
        self.assertTrue(found.startswith("instance Small\n"))
        self.assertIn("Usage: timedesk", self.run_in("timedesk", "frobnicate", status=2))
        self.assertIn("keep it until it is closed", self.run_in("office", "--help"))
        refused = self.run_in("timedesk", "--unproved", "check", SMALL, SMALL_SOL, status=3)
        self.assertEqual(
            refused, "timedesk: the program that is installed here is the proved one\n"
        )
        # a day of the installed office has the installed program
        os.environ.pop("TIMEDESK", None)
        office = self.start_installed(prefix)
        self.assertIn("open, seats 0 to 0", office.stderr.readline())
        self.run_in("office", "close", self.path("day"), "--wait", "0")
        self.assertEqual(office.wait(60), 0)
        self.assertIn("agrees", self.run_in("cat", self.path("day/audit")))

    def start_installed(self, prefix):
        process = subprocess.Popen(
            [f"{prefix}/bin/office", "open", self.path("day"), SMALL, "1"],
            stdin=subprocess.PIPE,
            stdout=subprocess.PIPE,
            stderr=subprocess.PIPE,
            text=True,
            env=self.environment,
            start_new_session=True,
        )
        self.addCleanup(self.end, process)
        return process

    def test_again_and_removed(self):
        self.build()
        prefix = self.path("a prefix")
        os.makedirs(f"{prefix}/bin")
        self.write("a prefix/bin/other", "mine")
        self.run_in("./install", f"--prefix={prefix}")
        first = self.files("a prefix")
        self.assertIn("share/man/man1/office.1", first)
        self.assertIn("share/bash-completion/completions/office", first)
        self.write("a tree/tools/office/new.py", "")
        self.run_in("./install", "--prefix", prefix)
        second = self.files("a prefix")
        self.assertEqual(set(second) - set(first), {"lib/timedesk/tools/office/new.py"})
        told = self.run_in(f"{prefix}/bin/timedesk", "--version")
        self.assertIn(f"commit: {self.commit}, and changes\n", told)
        told = self.run_in(f"{prefix}/lib/timedesk/uninstall")
        self.assertEqual(told, f"uninstall: what was installed in {prefix} is removed\n")
        self.assertEqual(self.files("a prefix"), ["bin/other"])
        self.assertEqual(os.listdir(prefix), ["bin"])
        told = self.run_in("./uninstall", "--prefix", prefix, status=3)
        self.assertEqual(told, f"uninstall: nothing is installed in {prefix}\n")

    def test_the_unproved_build_only_if_asked(self):
        self.build("unproved")
        prefix = self.path("a prefix")
        told = self.run_in("./install", "--prefix", prefix, status=3)
        # it would prove first, which this kit cannot
        self.assertIn("building, which proves each crate first", told)
        self.assertIn("install: there is no proved program to install\n", told)
        self.assertFalse(os.path.exists(prefix))
        self.run_in("./install", "--prefix", prefix, "--unproved")
        told = self.run_in(f"{prefix}/bin/timedesk", "--version")
        self.assertTrue(told.startswith("timedesk: unproved build\n" + self.about("unproved")))
        told = self.run_in(f"{prefix}/bin/timedesk", "--unproved", "check", SMALL, SMALL_SOL)
        self.assertTrue(told.startswith("timedesk: unproved build\ninstance Small\n"))

    def test_words(self):
        for words in ["--frob"], ["--prefix"], ["--dist", ""]:
            self.run_in("./install", *words, status=2)
        told = self.run_in("./install", "--dist", self.path("x.zip"), status=3)
        self.assertIn("the archive's name ends with .tar.gz", told)
        self.assertIn("--prefix DIR", self.run_in("./install", "--help"))


class Archive(Install):
    def test_an_archive_is_unpacked_elsewhere(self):
        self.build()
        archive = self.path("an archive.tar.gz")
        told = self.run_in("./install", "--dist", archive)
        name = f"timedesk-{self.commit}"
        self.assertIn(f"run {name}/bin/timedesk and {name}/bin/office\n", told)
        shutil.rmtree(self.top)
        os.mkdir(self.top)
        os.mkdir(self.path("another machine"))
        self.run_in("tar", "-C", self.path("another machine"), "-xzf", archive)
        top = self.path(f"another machine/{name}")
        self.environment["PATH"] = "/usr/bin:/bin"
        self.assertIn(self.about("proved"), self.run_in(f"{top}/bin/timedesk", "--version"))
        found = self.run_in(f"{top}/bin/timedesk", "check", SMALL, SMALL_SOL)
        self.assertTrue(found.startswith("instance Small\n"))
        self.assertIn("COMMAND", self.run_in(f"{top}/bin/office", "--help"))
        self.run_in(f"{top}/lib/timedesk/uninstall")
        self.assertEqual(self.files(f"another machine/{name}"), [])


class FirstCommand(Install):
    def test_it_says_what_is_built(self):
        """What an office does first in a tree without a program, with a kit that builds none."""
        for words in (
            ("import", "examples/college", "-o", self.path("plan")),
            ("open", self.path("day"), SMALL, "2"),
        ):
            told = self.run_in("./office", *words, status=3)
            self.assertRegex(told, "^timedesk: building, which proves each crate first; .* minutes")
            self.assertRegex(told, "without proof it takes .* seconds: .* --unproved --build\n")
            self.assertIn("office: there is no program to ", told)
            told = self.run_in("./office", "--unproved", *words, status=3)
            self.assertRegex(told, "^timedesk: building without proof, which takes .* seconds")


class Version(Install):
    def test_of_the_tree(self):
        told = self.run_in("./timedesk", "--version")
        self.assertEqual(told, "timedesk: not built yet\n")
        self.build()
        self.assertEqual(self.run_in("./timedesk", "--version"), self.about("proved"))
        self.build("unproved")
        told = self.run_in("./timedesk", "--unproved", "-V")
        self.assertEqual(told, "timedesk: unproved build\n" + self.about("unproved"))
        os.remove(f"{self.top}/out/unproved/built.fast")
        told = self.run_in("./timedesk", "--unproved", "-V")
        self.assertIn("speed: 80 to 500 times slower, as each access is checked\n", told)


if __name__ == "__main__":
    unittest.main()
