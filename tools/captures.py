#!/usr/bin/env python3
"""Plays a day in an office, and puts what its planners see into docs/OFFICE.md and README.md, in
place of what stands there.

With `--check` nothing is written: the pictures that are others now are named, and the status is 1
if there are any. A picture is the block behind a line `<!-- picture: NAME -->`. Times are those of
a day that was made up. TIMEDESK names the program for the desk.
"""
import contextlib
import os
import re
import subprocess
import sys
import tempfile

sys.dont_write_bytecode = True
HERE = os.path.dirname(os.path.dirname(os.path.abspath(__file__)))
sys.path.insert(0, os.path.join(HERE, "tools"))

from terminal import Terminals  # noqa: E402

OFFICE = os.path.join(HERE, "office")
PAGES = ("docs/OFFICE.md", "README.md")
BLOCK = re.compile(r"(<!-- picture: ([a-z ]+) -->\n```\n)(.*?)(```\n)", re.S)
# letters one by one, as they are typed
WHY = [*"r04 is too small"]
TO_LECTURE = ["v", *"c0109", "Enter", "Right", "Right", "Right", "Right", "Up", "Up"]


def without_times(text):
    """A text with made-up times."""
    text = re.sub(r"\d\d\d\d-\d\d-\d\d \d\d:\d\d:\d\d", "2026-11-30 10:15:00", text)
    text = re.sub(r"\d\d\d\d-\d\d-\d\d \d\d:\d\d", "2026-11-30 08:00", text)
    text = re.sub(r"\d\d:\d\d:\d\d", "10:15:00", text)
    text = re.sub(r"(draft \d+, \w+), \d\d:\d\d\b", r"\1, 10:15", text)
    return re.sub(r"(anna|ben)( +)\d\d:\d\d ", r"\g<1>\g<2>08:05 ", text)


def lines_of(text):
    return "".join(line.rstrip() + "\n" for line in text.rstrip("\n").split("\n"))


class Play:
    """A day of two planners in a folder of its own."""

    def __init__(self, folder):
        self.folder = folder
        self.environment = {**os.environ, "NO_COLOR": "1"}
        self.terminals = Terminals(self.environment)
        self.pictures = {}

    def keep(self, name, text):
        self.pictures[name] = lines_of(without_times(text))

    def office(self, *words, text=""):
        done = subprocess.run(
            [OFFICE, *words],
            input=text,
            capture_output=True,
            text=True,
            cwd=self.folder,
            timeout=60,
        )
        return done.stdout

    def sit(self, planner, name, day="monday"):
        return self.terminals.open(
            ["env", "-C", self.folder, OFFICE, "sit", day, planner, "--name", name]
        )

    def take(self, name, terminal, wanted):
        """Keeps what a terminal shows as soon as it shows a text."""
        terminal.wait(wanted)
        self.keep(name, terminal.wait_settled())

    def play(self):
        """The planners' keys, and what is kept of it."""
        anna, ben = self.sit("0", "anna"), self.sit("1", "ben")
        anna.wait("no draft open")
        anna.press(*TO_LECTURE)
        self.take("week", anna, "day 5, period 2: room r01")
        anna.press("Enter", "b")
        self.take("picked up", anna, "> -257 r04")
        anna.press("Enter", "v", *"q022", "Enter", "Enter", "b", "Enter")
        self.take("draft", anna, "2 edits")
        anna.press("n", "two moves", "Enter", "N")
        self.take("variants", anna, "What was put aside")
        anna.press("Enter")
        anna.wait("2 of 2 edits made again")
        ben.wait("no draft open")
        ben.press(*TO_LECTURE, ":", "swap c0109 4 1 c0078 3 1", "Enter", "c", *WHY, "Enter")
        ben.wait("Committed as draft 1")
        anna.wait("stale by now")
        anna.press("c")
        self.take("box", anna, "Why?")
        anna.press("Enter")
        self.take("stale", anna, "Your draft is stale")
        anna.press("r")
        self.take("redone", anna, "edits made again")
        self.keep("status", self.office("status", "monday"))
        anna.press("q", "c", "Enter", "q")
        ben.press("q")
        anna.wait("ended 0")
        ben.wait("ended 0")
        self.keep("log", self.office("log", "monday"))
        self.keep("closed", self.office("close", "monday"))

    def play_closure(self):
        """A room is blocked under an open draft."""
        anna, ben = self.sit("0", "anna", "tuesday"), self.sit("1", "ben", "tuesday")
        anna.wait("no draft open")
        anna.press(":", "move c0109 2 4 r04 4 3", "Enter")
        anna.wait("r04 4 3: done")
        anna.press(":", "reroom c0049 r04 0 0", "Enter")
        anna.wait("2 edits")
        ben.wait("no draft open")
        ben.press("v", "room r04", "Enter", "Right", "Right", "B")
        self.take("to block", ben, "What is to be blocked")
        ben.press("on day 3 (5", "Enter", "heating", "Enter")
        self.take("rules changed", anna, "These were refused")


@contextlib.contextmanager
def opened(folder, day):
    """An office that is open for a while."""
    examples = os.path.join(HERE, "examples")
    words = ["open", day, f"{examples}/spring.ctt", "3", "--start", f"{examples}/spring.sol"]
    office = subprocess.Popen(
        [OFFICE, *words],
        cwd=folder,
        stdout=subprocess.DEVNULL,
        stderr=subprocess.PIPE,
        text=True,
    )
    try:
        yield "open, seats" in office.stderr.readline()
    finally:
        office.terminate()
        office.wait()
        office.stderr.close()


def take_pictures():
    """The pictures of two days, by their names."""
    with tempfile.TemporaryDirectory() as folder:
        play = Play(folder)
        try:
            with opened(folder, "monday") as is_open:
                if is_open:
                    play.play()
            with opened(folder, "tuesday") as is_open:
                if is_open:
                    play.play_closure()
        finally:
            play.terminals.end()
        return play.pictures


def main():
    pictures, wrong = take_pictures(), []
    for page in PAGES:
        with open(os.path.join(HERE, page), encoding="utf-8") as file:
            text = file.read()

        def put(found):
            picture = pictures.get(found[2], "")
            if picture != found[3]:
                wrong.append((page, found[2], picture))
            return found[1] + picture + found[4]

        new = BLOCK.sub(put, text)
        if sys.argv[1:] != ["--check"] and new != text:
            with open(os.path.join(HERE, page), "w", encoding="utf-8") as file:
                file.write(new)
    for page, name, picture in wrong:
        print(f"{page}: the picture '{name}' is another one now")
        if sys.argv[1:] == ["--check"]:
            print(picture, end="")
    sys.exit(bool(wrong) and sys.argv[1:] == ["--check"])


if __name__ == "__main__":
    main()
