"""A small tree in which `test` runs, with an `rt`, edits and tests that do as they are told."""
import os
import pathlib
import shutil
import subprocess
import sys
import tempfile
import unittest

HERE = pathlib.Path(__file__).resolve().parent.parent
sys.path.insert(0, str(HERE / "tools"))

from gate_parts import ROWS  # noqa: E402

MODULES = sorted(path.name for path in (HERE / "tools").glob("gate*.py"))
TESTS = [part for row in ROWS for part in row if part.file]
PASSED = "1 passed, 0 failed"
# each call is noted, and does what the file of its name says
CALLED = """#!/usr/bin/env bash
echo "$NAME begun $*" >>"$ROOM/order"
if [ -e "$ROOM/$NAME" ]; then . "$ROOM/$NAME"; else echo "1 passed, 0 failed"; fi
"""
RT = """#!/usr/bin/env bash
[ "$1" != version ] || { echo "kit of the test" && exit; }
NAME=proofs
wait_for() {
    for ((n = 0; n < 200; n++)); do
        ! grep -qs "$1" "$ROOM/order" || return
        sleep 0.05
    done
}
# makes the program of a crate
prove() {
    mkdir -p "crates/$1/out"
    printf '#!/bin/sh\\necho "proved %s"\\n' "$1" >"crates/$1/out/$1"
    chmod +x "crates/$1/out/$1"
    echo "== $1"
    echo "rt: $1 $2"
}
pwd >"$ROOM/where"
find . >"$ROOM/copied"
""" + CALLED.partition("\n")[2]
# the program's tests begin before the proofs end
PROVED = """
echo "rt: low is kept: an earlier run proved it"
prove ctt_tool proved
wait_for "client begun"
prove ctt_trials "is kept: an earlier run proved it"
wait_for "memory begun"
echo "proofs ended" >>"$ROOM/order"
echo "4 passed, 0 failed"
"""
EDITS = """import os, subprocess, sys
told = {**os.environ, "NAME": "edits"}
words = ["bash", os.environ["ROOM"] + "/called", *sys.argv[1:]]
sys.exit(subprocess.run(words, env=told).returncode)
"""


def write(path, text, mode=0o644):
    path.parent.mkdir(parents=True, exist_ok=True)
    path.write_text(text)
    path.chmod(mode)


class SmallTree(unittest.TestCase):
    def setUp(self):
        self.room = pathlib.Path(tempfile.mkdtemp())
        self.addCleanup(shutil.rmtree, self.room)
        self.top = self.room / "a folder"
        tools = ["build.sh", "unproved.sh", *MODULES]
        for name in ["test", "timedesk", *(f"tools/{name}" for name in tools)]:
            (self.top / name).parent.mkdir(parents=True, exist_ok=True)
            shutil.copy2(HERE / name, self.top / name)
        write(self.top / "tools/edits/__main__.py", EDITS)
        for part in TESTS:
            write(self.top / "tests" / part.file, CALLED.replace("$NAME", part.name), 0o755)
        write(self.top / "crates.txt", "low: indexmap\nctt_tool: low\nctt_trials: low\n")
        for name in ("low", "ctt_tool", "ctt_trials"):
            write(self.top / "crates" / name / "src/lib.rt", name)
            write(self.top / "crates" / name / "must-fail/wrong.edit", "")
            write(self.top / "crates" / name / "out/kept", "")
        write(self.room / "bin/rt", RT, 0o755)
        write(self.room / "called", CALLED)
        (self.room / "tmp").mkdir()
        self.tell(proofs=PROVED)
        self.told = {**os.environ, "ROOM": str(self.room), "TMPDIR": str(self.room / "tmp")}
        self.told["PATH"] = f"{self.room / 'bin'}:{self.told['PATH']}"
        for name in ("PROGRAM", "TRIALS", "RT_JOBS"):
            self.told.pop(name, None)

    def tell(self, **texts):
        """What parts are to do."""
        for name, text in texts.items():
            write(self.room / name, text)

    def run_gate(self, *words, status=0):
        """Runs `test`; the lines that it prints."""
        done = subprocess.run(
            [str(self.top / "test"), *words],
            stdin=subprocess.DEVNULL,
            stdout=subprocess.PIPE,
            stderr=subprocess.STDOUT,
            text=True,
            env=self.told,
            timeout=100,
        )
        self.assertEqual(done.returncode, status, done.stdout)
        return done.stdout.splitlines()

    def order(self):
        """What was begun, and ended, in this order."""
        path = self.room / "order"
        return path.read_text().splitlines() if path.exists() else []

    def begun(self):
        return [line.split()[0] for line in self.order() if " begun" in line]

    def rows(self, lines):
        """The table: the words of each row by their first one."""
        at = max(number for number, line in enumerate(lines) if line.startswith("part "))
        return {words[0]: words[1:] for words in map(str.split, lines[at + 1 : -2])}
