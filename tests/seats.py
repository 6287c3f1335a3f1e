#!/usr/bin/env python3
"""Plays the worked desks of the trials at the seats of a desk, and refuses each of its requests for memory.

A script is run on one thread first. Then each of its lines is typed at the seat of its planner, when the line before is
answered; who only looks sits at the last seat. The answers have to be those of the run, and the minutes its journal. Behind
the script a planner who did nothing yet opens a draft, and sees what the desk ends with, in it and beside it, asks for help, and the
first one leaves. What a script cannot do, to make a draft again, to take an edit back, and to hear which word cannot stand, and what
each slot offers, is typed in days of their own, with each answer and the minutes by value.

Then each request for memory is refused alone, by a `malloc` in front of the C library's. A line that is answered 'no memory',
or 'no place', is typed again. The answers and the minutes have to be those with memory. Or the desk ends with status 3 and
'timedesk: no memory', or 'timedesk: no thread' where the system wanted the memory for it, or says which seat it could not
open: then what was answered, and the minutes, are a front of that, and what was told as committed is in the minutes.

One call alone can do without what it asks for, and each request is known by its size. `collect`
asks for room for all elements, and, if that is refused, for one: `owned_words` and `serve` call it
for the words of the command line. The first of the two requests of each, and no other, has to end
as with memory: so nothing of a commit takes memory once it is accepted.

It needs a C compiler. PROGRAM names another program. The last line is 'N passed, M failed'.
"""
import concurrent.futures
import os
import re
import subprocess
import sys
import tempfile

sys.dont_write_bytecode = True
from program import HERE, PROGRAM, build, check, end  # noqa: E402
from seat_days import TYPED, worked_desks  # noqa: E402
from seat_played import IDLE, LAST, Played, held, seat_of  # noqa: E402

# what a run answers `bad line` a seat answers with the word
BAD = {"0 frob it": b"bad line 1 frob\n"}
# what a seat answers to `help`
HELP = b"words abandon cheapest commit cost course coursecost curriculum drop help leave missing move open \
peek place price redo refresh reroom show slot slots status swap teacher undo\n"
# what a desk says that ends for want of memory; a seat whose file could not be opened for it says that
SAID = rb"timedesk: no (memory|thread)\n"
SAID_BEFORE = SAID + rb"|timedesk: cannot (read .*/[0-9]\.in|write)\n"


class Desk:
    """A desk that is played: its words on the command line, its lines by seats, its answers, and how it has to end."""

    def __init__(self, folder, texts, lines, answers, minutes, costs):
        self.folder = folder
        self.words = [os.path.join(HERE, "examples/small.ctt")]
        for word, text in texts:
            if text:
                self.words += [word, self.file(word[2:], text)]
        self.lines, self.answers, self.minutes = lines, answers, minutes
        self.left = (0, b"journal %d\n" % minutes.count(b"entry ") + costs, b"", minutes)

    def file(self, name, text):
        path = os.path.join(self.folder, name)
        with open(path, "w", encoding="utf-8") as file:
            file.write(text)
        return path

    def play(self, number=0, **marks):
        """Plays the script once."""
        room = os.path.join(self.folder, str(number))
        os.mkdir(room)
        return Played(room, self.words, self.lines, {**marks, "REFUSE": str(number)})

    def is_right(self, played):
        """Whether all is as with memory."""
        return played.answers == self.answers and played.left == self.left

    def is_front(self, played):
        """Whether the desk has ended for want of memory, and what was told and written until then is right."""
        status, _, said, minutes = played.left
        told = sum(answer.startswith(b"committed") for answer in played.answers)
        return (
            status == 3
            and re.fullmatch(SAID if played.answers else SAID_BEFORE, said) is not None
            and played.answers == self.answers[: len(played.answers)]
            and self.minutes.startswith(minutes)
            and told <= minutes.count(b"entry ")
        )


def worked(folder, opening, script, side, goes):
    """A worked desk, with the answers of a run."""
    texts = [("--start", opening), *([side] if side else [])]
    desk = Desk(folder, texts, [seat_of(line) for line in script.splitlines()], [], b"", b"")
    journal = os.path.join(folder, "journal")
    words = [PROGRAM, "run", desk.words[0], desk.file("script", script + "show cost\n"), *desk.words[1:]]
    done = subprocess.run([*words, "--journal", journal], capture_output=True, timeout=60, check=True)
    *answers, costs = done.stdout.splitlines(keepends=True)
    pairs = zip(script.splitlines(), answers)
    answers = [BAD[line] if answer == b"bad line\n" else answer for line, answer in pairs]
    lines = desk.lines
    lines += [(IDLE, "open"), (IDLE, "cost"), (IDLE, "show cost"), (IDLE, "help"), (IDLE, "abandon"), (LAST, "show cost")]
    answers += [b"opened\n", costs, costs, HELP, b"abandoned\n", costs]
    at, last, told = len(lines), "leave", b"left\n"
    if goes:
        at, last, told = next(k for k, (seat, _) in enumerate(lines) if seat != "0"), None, b""
    lines.insert(at, ("0", last))
    answers.insert(at, told)
    minutes = held(journal).split(b"\n", 1)[1].removesuffix(b"END.\n")
    return Desk(folder, texts, lines, answers, minutes, costs)


def typed(folder, day, minutes, costs):
    """A day whose answers and minutes are given."""
    rows = [row.split(" -> ") for row in day.splitlines()]
    lines, answers = [seat_of(line) for line, _ in rows], [answer.encode() + b"\n" for _, answer in rows]
    return Desk(folder, (), lines, answers, minutes.encode(), costs.encode() + b"\n")


def desks():
    """Each desk by its name, as a function that makes it in a folder."""
    for name, *rest in worked_desks():
        yield name, lambda folder, rest=rest: worked(folder, *rest)
    for name, day in TYPED.items():
        yield name, lambda folder, day=day: typed(folder, *day)


def refuse(desk, made, first, step):
    """Refuses each request whose number is the first one, or so many more, and answers how each run ended."""
    ended = []
    number = first
    while True:
        played = desk.play(number, LD_PRELOAD=made)
        if not played.met:
            return ended
        ended.append((number, how_ended(desk, played), played.met))
        number += step


def how_ended(desk, played):
    """How a run ended of which a request was refused: by one of the words that are counted, or else
    all that was played."""
    if desk.is_right(played) and played.again == 1:
        return "again"
    if desk.is_right(played) and played.again == 0:
        if played.met in played.collected():
            return "collected"
    if desk.is_front(played):
        return "stopped"
    return f"{played.met.strip()}: {played.again} typed again, {played.answers!r}, {played.left!r}"


with tempfile.TemporaryDirectory() as room:
    shim = build(room, "refuse")
    lanes = os.cpu_count() or 1
    noted = {"again": 0, "stopped": 0, "collected": 0, "wrong": 0}
    for number, (name, make) in enumerate(desks()):
        own = os.path.join(room, f"desk{number}")
        os.mkdir(own)
        desk = make(own)
        played = desk.play()
        check(f"{name}: answers", (played.answers, played.again), (desk.answers, 0))
        check(f"{name}: end", played.left, desk.left)
        with concurrent.futures.ThreadPoolExecutor(lanes) as pool:
            runs = list(pool.map(lambda first: refuse(desk, shim, first, lanes), range(1, lanes + 1)))
        ended = sorted(sum(runs, []))
        collected = [met for _, how, met in ended if how == "collected"]
        check(f"{name}: requests of `collect`", collected, played.collected())
        for request, how, _ in ended:
            check(f"{name}, request {request}", "" if how in noted else how, "")
            noted[how if how in noted else "wrong"] += 1
    print(", ".join(f"{how} {count}" for how, count in noted.items()))
end()
