"""Offices for the tests: each in a folder of its own, with the program that is tested. PROGRAM
names another one."""
import contextlib
import os
import shutil
import signal
import subprocess
import sys
import tempfile
import time
import unittest

sys.dont_write_bytecode = True
HERE = os.path.dirname(os.path.dirname(os.path.dirname(os.path.abspath(__file__))))
sys.path.insert(0, os.path.join(HERE, "tools"))
sys.path.append(os.path.join(HERE, "tests"))
import program  # noqa: E402
from program import FAST, SMALL, SMALL_SOL, SPRING, SPRING_SOL  # noqa: E402

PROGRAM = os.environ["PROGRAM"] = os.path.abspath(program.PROGRAM)
OFFICE = os.path.join(HERE, "office")
FAKE = os.path.join(HERE, "tests/client/fake_desk.py")
# what takes longer hangs
PATIENCE = 2 * int(os.environ.get("PATIENCE", "30"))


def wait_until(fact, seconds=PATIENCE):
    """Waits until a fact holds, and answers whether it does."""
    until = time.monotonic() + seconds
    while time.monotonic() < until:
        if fact():
            return True
        time.sleep(0.02)
    return fact()


def said(told):
    """A notice, or the last one of a planner, in the words of the screen."""
    from office.words.actions import KeyNames
    from office.words.wording import Wording

    return Wording(KeyNames()).notice(getattr(told, "notice", told))


def make_edit(planning, line):
    """Makes an edit, which is written as a line of the desk; answers whether it was made."""
    from office.day.edits import Edit

    return planning.edit(Edit.parse(line))


def lines_of(edits):
    """Edits as lines of the desk."""
    return [str(edit) for edit in edits]


def is_alive(number):
    """Whether a process goes on; one that has ended and was not waited for does not."""
    try:
        with open(f"/proc/{number}/stat") as file:
            return file.read().rsplit(")", 1)[1].split()[0] != "Z"
    except FileNotFoundError:
        return False


class OfficeTest(unittest.TestCase):
    """A test with a folder of its own; offices that it opens are ended with it."""

    program = PROGRAM

    def setUp(self):
        self.room = tempfile.mkdtemp(dir=FAST)
        self.addCleanup(shutil.rmtree, self.room, ignore_errors=True)
        self.environment = dict(os.environ, TIMEDESK=self.program)

    def path(self, name):
        return os.path.join(self.room, name)

    def write(self, name, text, mode=0o644):
        with open(self.path(name), "w") as file:
            file.write(text)
        os.chmod(self.path(name), mode)
        return self.path(name)

    def office(self, *words, text=""):
        """A command of the office to its end: status, what it prints, what it says."""
        done = subprocess.run(
            [OFFICE, *words],
            input=text,
            capture_output=True,
            text=True,
            env=self.environment,
            timeout=PATIENCE,
        )
        return done.returncode, done.stdout, done.stderr

    def start(self, *words, **more):
        """A command of the office that goes on."""
        process = subprocess.Popen(
            [OFFICE, *words],
            stdin=subprocess.PIPE,
            stdout=subprocess.PIPE,
            stderr=subprocess.PIPE,
            text=True,
            env=self.environment,
            start_new_session=True,
            **more,
        )
        self.addCleanup(self.end, process)
        return process

    def end(self, process):
        """Ends a process of the office softly, so that it ends its desk, and then hard."""
        if process.poll() is None:
            process.send_signal(signal.SIGTERM)
            try:
                process.wait(15)
            except subprocess.TimeoutExpired:
                process.kill()
        for stream in (process.stdin, process.stdout, process.stderr):
            stream.close()
        process.wait()

    def open(self, day, *words, **more):
        """An office that is open."""
        process = self.start("open", self.path(day), *words, **more)
        line = process.stderr.readline()
        self.assertIn("open, seats 0 to ", line)
        return process

    def sit(self, day, planner, text, *words):
        """The answers at a seat."""
        status, printed, said = self.office("sit", self.path(day), str(planner), *words, text=text)
        self.assertEqual((status, said), (0, ""))
        return printed.split("\n")[:-1]

    def seat(self, day, planner, name="anna"):
        """A seat of an open office, in this process."""
        from office.day.folder import Day
        from office.seat.seat import Seat

        seat = Seat(Day(self.path(day)), planner, name)
        self.addCleanup(self.leave, seat)
        return seat

    @staticmethod
    def leave(seat):
        """Goes away from a seat, if one sits there still."""
        with contextlib.suppress(OSError):
            seat.go()

    def planning(self, day, planner, name="anna"):
        """A planner who has sat down."""
        from office.work.planning import Planning

        planning = Planning(self.seat(day, planner, name))
        planning.begin()
        return planning

    @staticmethod
    def commit(board, why=""):
        """Commits at a screen: the box, a reason, Enter."""
        for key in ["c", *why, "enter"]:
            board.press(key)

    def listed(self, day):
        """The lectures that the program prints for what a day has left."""
        self.assertEqual(self.office("close", self.path(day), "--wait", "0")[0], 0)
        with open(self.path(f"{day}/end.sol"), "rb") as file:
            return file.read().decode()

    def desk_of(self, day):
        """The number of the desk's process."""
        with open(os.path.join(self.path(day), "office")) as file:
            return int(file.read().split()[1])

    def drafts_in(self, day):
        """How many drafts the minutes of a day hold, as the program reads them."""
        words = ["journal", self.path(f"{day}/instance.ctt"), self.path(f"{day}/minutes")]
        done = subprocess.run([PROGRAM, *words], capture_output=True, text=True, check=True)
        return int(done.stdout.split()[1])

    def left_in(self, day):
        return sorted(os.listdir(self.path(day)))
