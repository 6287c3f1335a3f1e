#!/usr/bin/env python3
"""Runs `test` in a small tree, with an `rt`, edits and tests that do as they are told.

Words name some of the tests here, as in `gate.py Gate.test_names`. The last line is
'N passed, M failed'.
"""
import os
import pathlib
import re
import shutil
import signal
import subprocess
import sys
import time
import unittest

sys.dont_write_bytecode = True
sys.path.insert(0, os.path.dirname(os.path.abspath(__file__)))

from gate_small import HERE, MODULES, PASSED, PROVED, TESTS, SmallTree, write  # noqa: E402
from part import run_part  # noqa: E402

from gate_parts import NAMES, ROWS, Times, judge, table, total_of  # noqa: E402

# what says how fast something is, and compares nothing
MEASURES = {"slots_speed.py"}
SLOW = f"echo 'a line'; sleep 0.3; echo 'another line'; echo '{PASSED}'"


def lives(process):
    """Whether a process has not ended."""
    try:
        text = pathlib.Path(f"/proc/{process}/stat").read_text()
    except OSError:
        return False
    return text.rpartition(")")[2].split()[0] != "Z"


class Gate(SmallTree):
    def test_all_pass(self):
        """Each part is run once, and counted; the program comes out of the proofs."""
        lines = self.run_gate()
        rows = self.rows(lines)
        self.assertEqual(set(rows), {*NAMES, "all"})
        self.assertEqual(rows["web"][3:], ["1", "0", "0"])
        self.assertEqual(rows["proofs"][3:], ["4", "0", "0"])
        self.assertEqual(lines[-1], f"{len(NAMES) + 3} passed, 0 failed")
        self.assertEqual(sorted(self.begun()), sorted(NAMES))
        program = self.top / "crates/ctt_tool/out/ctt_tool"
        done = subprocess.run([program], capture_output=True, text=True)
        self.assertEqual(done.stdout, "proved ctt_tool\n")
        # nothing is built again
        done = subprocess.run(
            [self.top / "timedesk", "--version"], capture_output=True, text=True, env=self.told
        )
        self.assertIn("kit: kit of the test", done.stdout)
        self.assertEqual(list((self.room / "tmp").iterdir()), [])

    def test_order(self):
        """Tests of the program wait for it, but not for proofs and edits; edits for all others."""
        self.run_gate()
        order = self.order()
        at = {line.split()[0]: number for number, line in enumerate(order) if " begun" in line}
        ended = order.index("proofs ended")
        for row in ROWS[2:]:
            for before, after in zip(row, row[1:]):
                self.assertLess(at[before.name], at[after.name])
            self.assertLess(at["proofs"], at[row[0].name])
            self.assertLess(at[row[0].name], ended)
        self.assertLess(ended, at["edits"])
        self.assertEqual(max(at, key=lambda name: at[name]), "edits")

    def test_copy(self):
        """The copy has neither edits nor what was built, with git and without, and is no part."""
        self.tell(proofs=f"echo '{PASSED}'")
        for has_git in (False, True):
            with self.subTest(has_git=has_git):
                if has_git:
                    write(self.top / ".gitignore", "out/\n/monday/\n")
                    write(self.top / "monday/kept", "")
                    subprocess.run(["git", "init", "-q"], cwd=self.top, check=True)
                self.run_gate("proofs")
                copied = set((self.room / "copied").read_text().splitlines())
                wanted = {"./crates.txt", "./crates/low/src/lib.rt", "./tools/build.sh", "./.git"}
                self.assertLessEqual(wanted, copied)
                other = [it for it in copied if re.search("must-fail|/out|monday", it)]
                self.assertEqual(other, [])
                where = (self.room / "where").read_text()
                self.assertTrue(where.startswith(f"{self.room}/tmp/"), where)

    def test_edits_words(self):
        """The edits are tried over the copy; if a crate was refused, those of the others."""
        self.told["RT_JOBS"] = "3"
        self.tell(proofs=f"echo '{PASSED}'")
        self.run_gate("edits", "--edits", "--write")
        tree = (self.room / "where").read_text().strip()
        words = f"--tree {tree} --edits {self.top} --all --write --lanes 3"
        self.assertEqual(self.order()[-1], f"edits begun {words}")
        refused = "echo 'rt: low proved'; echo 'rt: ctt_tool NOT PROVED'; echo '1 passed, 1 failed'"
        self.tell(proofs=refused + "; exit 1")
        self.run_gate("edits", status=1)
        tree = (self.room / "where").read_text().strip()
        self.assertEqual(
            self.order()[-1], f"edits begun --tree {tree} --edits {self.top} --lanes 3 low"
        )

    def test_failures(self):
        """What fails, counts nothing or is killed has failed, and nothing else is left out."""
        self.tell(
            web="echo '5 passed, 2 failed'; exit 1",
            data="echo 'no such file'; exit 3",
            runs="echo 'half a'; kill -9 $$",
            script="echo '3 skipped: lacking'; echo '7 passed, 0 failed'; exit 1",
            edits="printf '8 passed, 1 failed'; exit 1",
            flags="echo '2 passed, 0 failed'; echo later",
        )
        lines = self.run_gate(status=1)
        rows = self.rows(lines)
        self.assertEqual(set(rows), {*NAMES, "all"})
        wanted = {
            "web": ["5", "2", "0"],
            "data": ["0", "1", "0"],
            "runs": ["0", "1", "0"],
            "script": ["7", "1", "3"],
            "edits": ["8", "1", "0"],
            "flags": ["0", "1", "0"],
        }
        self.assertEqual({name: rows[name][3:] for name in wanted}, wanted)
        failed = [line for line in lines if line.startswith("FAILED: ")]
        self.assertEqual(len(failed), 6)
        self.assertIn("FAILED: web: 2 failed of 7 (out/test/web.txt)", failed)
        killed = "its last line counts nothing; signal 9 ended it"
        self.assertIn(f"FAILED: runs: {killed} (out/test/runs.txt)", failed)
        self.assertEqual(lines[-1], f"{len(NAMES) - 6 + 3 + 20} passed, 7 failed")
        self.assertEqual((self.top / "out/test/runs.txt").read_text(), "half a\n")

    def test_no_program(self):
        """Where the program is refused, all else is run; that of an earlier run is not."""
        write(self.top / "crates/ctt_tool/out/ctt_tool", "#!/bin/sh\n", 0o755)
        refused = "prove ctt_trials proved; echo 'rt: ctt_tool NOT PROVED'"
        self.tell(proofs=refused + "; echo '3 passed, 1 failed'; exit 1")
        lines = self.run_gate(status=1)
        alone = {"script", "proved", "named", "gate", "edits_tool", "proofs", "edits"}
        self.assertEqual(set(self.begun()), alone)
        failed = [line for line in lines if line.startswith("FAILED: ")]
        self.assertEqual(failed[0], "FAILED: proofs: 1 failed of 4 (out/test/proofs.txt)")
        told = "the program of ctt_tool was not built, so not run: check_page runs "
        self.assertIn(told, failed[1])
        self.assertEqual(lines[-1], "9 passed, 2 failed")

    def test_names(self):
        """Parts that are named are run alone, with the program that stands there."""
        lines = self.run_gate("web", "script", "nobody", status=2)
        self.assertIn("no part is named nobody; the parts are: " + " ".join(NAMES), lines[-1])
        self.run_gate("web", "--write", status=2)
        self.assertEqual(self.order(), [])
        lines = self.run_gate("web", "script", status=1)
        self.assertEqual((self.begun(), lines[-1]), (["script"], "1 passed, 1 failed"))
        self.assertIn("so not run: web", "\n".join(lines))
        write(self.top / "crates/ctt_tool/out/ctt_tool", "#!/bin/sh\n", 0o755)
        lines = self.run_gate("web", "script", "memory", status=1)
        self.assertEqual(sorted(self.begun()), ["script", "script", "web"])
        self.assertEqual(set(self.rows(lines)), {"web", "script", "all"})
        self.assertEqual(lines[-1], "2 passed, 1 failed")
        self.told["TRIALS"] = "/bin/true"
        self.assertEqual(self.run_gate("memory")[-1], PASSED)

    def test_not_mixed(self):
        """Each part is printed whole, also while others print."""
        self.tell(web=SLOW, client=SLOW, runs=SLOW)
        lines = self.run_gate()
        for name in ("web", "client", "runs"):
            at = next(n for n, line in enumerate(lines) if f" {name} has ended" in line)
            self.assertEqual(lines[at + 1 : at + 4], ["a line", "another line", PASSED])
            self.assertEqual(len([line for line in lines if line.endswith(f" {name} begins")]), 1)

    def test_changed_meanwhile(self):
        """A build of sources that were changed since is not noted, and it is said."""
        self.tell(proofs=f"echo new >'{self.top}/crates/low/src/lib.rt'" + PROVED)
        lines = self.run_gate()
        self.assertIn("the sources have changed since it began", "\n".join(lines))
        self.assertFalse((self.top / "crates/ctt_tool/out/built.sums").exists())

    def test_interrupted(self):
        """A signal ends all parts with what they have begun, and the rest is not run."""
        nap = f"sleep 100 & echo $! $$ >>'{self.room}/naps'; wait"
        for number, deaf in ((signal.SIGINT, ""), (signal.SIGTERM, "trap '' INT; ")):
            with self.subTest(number=number):
                proofs = f"prove ctt_tool proved\n{deaf}{nap}"
                self.tell(proofs=proofs, web=deaf + nap, client=deaf + nap, naps="")
                # (a job in the background is begun with signals ignored)
                words = ["env", "--default-signal", str(self.top / "test")]
                gate = subprocess.Popen(words, stdout=subprocess.PIPE, text=True, env=self.told)
                naps = []
                while len(naps) < 6:
                    naps = (self.room / "naps").read_text().split()
                    time.sleep(0.05)
                gate.send_signal(number)
                printed, _ = gate.communicate(timeout=120)
                self.assertEqual(gate.returncode, 128 + number, printed)
                self.assertIn("FAILED: the run was ended before its end", printed)
                self.assertNotIn("edits begins", printed)
                self.assertRegex(printed, r"\d+ passed, \d+ failed\n\Z")
                self.assertEqual([nap for nap in naps if lives(nap)], [])
                self.assertEqual(list((self.room / "tmp").iterdir()), [])

    @unittest.skipUnless(shutil.which("mypy"), "mypy is not installed, so no type was checked")
    def test_typed(self):
        words = ["mypy", "--strict", "--python-version", "3.9", "--cache-dir", os.devnull, *MODULES]
        done = subprocess.run(words, capture_output=True, text=True, cwd=HERE / "tools")
        self.assertEqual(done.returncode, 0, done.stdout + done.stderr)


class Parts(unittest.TestCase):
    def test_each_test_is_a_part(self):
        """Each test that can be run is a part, and stands there."""
        files = filter(pathlib.Path.is_file, (HERE / "tests").iterdir())
        found = {path.name for path in files if os.access(path, os.X_OK)}
        self.assertEqual(found - MEASURES, {part.file for part in TESTS})

    def test_judged(self):
        times = Times(0, 0, 0)
        uncounted = "its last line counts nothing; it ended with status"
        for text, status, wanted in (
            ("a\n3 passed, 0 failed\n", 0, (3, 0, 0, "")),
            ("3 passed, 0 failed, 2 skipped", 0, (3, 0, 0, "")),
            ("2 skipped: a\n1 skipped: b\n3 passed, 1 failed\n", 1, (3, 1, 3, "")),
            ("3 passed, 0 failed\n", -9, (3, 1, 0, "it counts none; signal 9 ended it")),
            ("13 passed, 0 failed (low alone)\n", 0, (0, 1, 0, f"{uncounted} 0")),
            ("", 2, (0, 1, 0, f"{uncounted} 2")),
        ):
            with self.subTest(text=text):
                found = judge("a", text, status, times)
                self.assertEqual((found.passed, found.failed, found.skipped, found.wrong), wanted)

    def test_table(self):
        """The rows stand in the order of their begin; minutes are by the clock and of processor."""
        late = judge("late", "12 passed, 1 failed", 1, Times(61, 600, 90))
        early = judge("early", "1 skipped: a\n2 passed, 0 failed", 0, Times(0, 30, 6))
        self.assertEqual(
            table([late, early], 661),
            [
                "part           began  minutes  processor   passed  failed skipped",
                "early           0:00      0.5        0.1        2       0       1",
                "late            1:01     10.0        1.5       12       1       0",
                "all             0:00     11.0        1.6       14       1       1",
            ],
        )
        self.assertEqual(total_of([], 1).passed, 0)


if __name__ == "__main__":
    run_part("gate.py")
