#!/usr/bin/env python3
"""Breaks drawn files, and compares the second line of a fault, by `--point`, with what a plain reading finds: line, column, code and
sentence. It reads a text word by word as docs/FORMATS.md has it, and has nothing of the program.

PROGRAM names another program. The last line is 'N passed, M failed'.
"""
import collections
import os
import random
import re
import sys
import tempfile

sys.dont_write_bytecode = True
from drawn import draw_blocked, draw_instance, draw_solution  # noqa: E402
from program import call, check, end  # noqa: E402
from rules import Instance  # noqa: E402

DRAWN = 400
# words that are put in the place of others
ODD = ["x", "-1", "+1", "0", "00", "7", "1000", "1001", "2000", "2001", "20001", "2000001", "999999999", "1000000000", "END.", "END", "*", "room",
       "ö" * 60, "a" * 40 + "b", "\x00\x1b[2J\x85", "Min_Max_Daily_Lectures:", "🎓e\u0301"]
# words that no place of a journal takes
NOWHERE = ["§", "ö" * 60, "\x00\x1b[2J\x85"]
WAYS = ("cut", "cut word", "other", "other", "other", "other", "gone", "more", "twice", "before", "before", "again", "many", "bytes", "mark",
        "UTF-16", "empty")
JOURNAL_WAYS = ("cut word", "nowhere", "nowhere", "bytes", "mark", "UTF-16", "empty")
JOURNAL_WORDS = set("journal entry place move swap reroom drop cost missing done refused lectures costs already clash roomtaken END.".split())
CODES = [*(f"I{n}" for n in range(1, 10)), *(f"S{n}" for n in range(1, 9)), *(f"B{n}" for n in range(1, 8)), *(f"L{n}" for n in range(1, 9)),
         "J1", "J2", "J3"]

Fault = collections.namedtuple("Fault", "code number byte sentence")


class Broken(Exception):
    """The first fault of a text."""


class Reader:
    """Reads the words of a text one after another."""

    def __init__(self, text, kind):
        self.text, self.kind, self.at, self.entry = text, kind, 0, ""
        self.words = [(found.start(), found.group()) for found in re.finditer(rb"[^\t-\r ]+", text)]

    def fail(self, code, sentence):
        """The word that was read last is wrong."""
        byte, _ = self.words[self.at - 1]
        if self.at == 1 and self.text[:3] == b"\xef\xbb\xbf":
            raise Broken(Fault(self.kind + code, self.at, byte, "the file begins with a byte order mark"))
        raise Broken(Fault(self.kind + code, self.at, byte, self.entry + sentence))

    def field(self, entry="", field=""):
        """Which entry the next word is in, and which of its fields; nothing if it is in none."""
        self.entry = f"{entry}: {field}: " if entry else ""

    def word(self, end):
        """The next word; `end` says where the words end that lack it."""
        if self.at == len(self.words):
            byte = len(self.text[:self.words[-1][0]] + self.words[-1][1]) if self.words else 0
            raise Broken(Fault(self.kind + "2", self.at + 1, byte, f"{self.entry}the words end {end}"))
        self.at += 1
        return self.words[self.at - 1][1].decode()

    def fixed(self, end, wanted):
        word = self.word(end)
        if word not in wanted:
            if word == "Min_Max_Daily_Lectures:" and self.kind == "I" and self.at == 13:
                self.fail("3", "this is the extended format (.ectt), which is not read")
            self.fail("3", f"expected {wanted[0] if len(wanted) == 1 else 'room, teacher or course'}, found {shown(word)}")
        return word

    def number(self, end, code, limits=(), star=False):
        """A number: its code if it is none, and codes with limits, each with what is said of a number that is too large."""
        word = self.word(end)
        if star and word == "*":
            return 0
        if not re.fullmatch(r"[0-9]+", word) or int(word) > 999999999:
            self.fail(code, f"{'neither * nor' if star else 'not'} a number up to 999,999,999: {shown(word)}")
        for above, limit, said in limits:
            if int(word) > limit:
                self.fail(above, said.replace("WORD", shown(word)))
        return int(word)

    def name(self, end, code, names, said):
        word = self.word(end)
        if word not in names:
            self.fail(code, f"{said} {shown(word)}")
        return word


def shown(word):
    """A word as a sentence has it."""
    return "".join("?" if ord(letter) < 32 or 127 <= ord(letter) < 160 else letter for letter in word[:40])


def day_and_period(days, periods, codes):
    """What is said of a day or a period that there is not."""
    return [[(codes[0], days - 1, "no day WORD: days count from 0")], [(codes[1], periods - 1, "no period WORD: periods count from 0")]]


def read_instance(text):
    reader, header, counts = Reader(text, "I"), "in the header", []
    for label, limit, what in ((b"Name:", None, ""), (b"Courses:", 2000, "2,000 courses"), (b"Rooms:", 1000, "1,000 rooms"),
                               (b"Days:", 2000, "2,000 days"), (b"Periods_per_day:", 2000, "2,000 periods a day, or 2,000 slots"),
                               (b"Curricula:", 20000, "20,000 curricula"), (b"Constraints:", 2000000, "2,000,000 constraints")):
        reader.fixed(header, [label.decode()])
        if limit is None:
            reader.word(header)
            continue
        if label == b"Periods_per_day:" and counts[2]:
            limit = min(limit, 2000 // counts[2])
        counts.append(reader.number(header, "4", [("5", limit, f"more than {what}: WORD")]))
    courses, rooms, days, periods, curricula, constraints = counts
    names = []

    def new_name(end, old):
        word = reader.word(end)
        if word in old:
            reader.fail("6", f"a name that is there already: {shown(word)}")
        old.append(word)

    reader.fixed("before COURSES:", ["COURSES:"])
    for number in range(1, courses + 1):
        entry = f"course {number} of {courses}"
        reader.field(entry, "name")
        new_name("before a course, which has five", names)
        reader.field(entry, "teacher")
        reader.word("in a course, which has five")
        for field in ("lectures", "days", "students"):
            reader.field(entry, field)
            reader.number("in a course, which has five", "4")
    reader.field()
    reader.fixed("before ROOMS:", ["ROOMS:"])
    old = []
    for number in range(1, rooms + 1):
        entry = f"room {number} of {rooms}"
        reader.field(entry, "name")
        new_name("before a room, which has two", old)
        reader.field(entry, "seats")
        reader.number("in a room, which has two", "4")
    reader.field()
    reader.fixed("before CURRICULA:", ["CURRICULA:"])
    read_curricula(reader, curricula, names, new_name)
    reader.field()
    reader.fixed("before UNAVAILABILITY_CONSTRAINTS:", ["UNAVAILABILITY_CONSTRAINTS:"])
    for number in range(1, constraints + 1):
        entry = f"unavailability {number} of {constraints}"
        reader.field(entry, "course")
        reader.name("before an unavailability, which has three", "7", names, "no course")
        for field, limits in zip(("day", "period"), day_and_period(days, periods, "89")):
            reader.field(entry, field)
            reader.number("in an unavailability, which has three", "4", limits)
    reader.field()
    reader.fixed("before END.", ["END."])


def read_curricula(reader, curricula, names, new_name):
    old, end = [], "in the curricula, each a name, a number and so many courses"
    for number in range(1, curricula + 1):
        entry = f"curriculum {number} of {curricula}"
        reader.field(entry, "name")
        new_name(end, old)
        reader.field(entry, "number of courses")
        count = reader.number(end, "4")
        reader.field(entry, "course")
        for _ in range(count):
            reader.name(end, "7", names, "no course")


def read_solution(text, instance):
    reader, seen = Reader(text, "S"), set()
    end = "in an entry, which has four"
    while reader.at < len(reader.words):
        entry = f"lecture {reader.at // 4 + 1}"
        reader.field(entry, "course")
        course = reader.name(end, "3", [it[0] for it in instance.courses], "no course")
        reader.field(entry, "room")
        reader.name(end, "4", [it[0] for it in instance.rooms], "no room")
        slot = []
        for field, limits in zip(("day", "period"), day_and_period(instance.days, instance.periods, "67")):
            reader.field(entry, field)
            slot.append(reader.number(end, "5", limits))
        if (course, *slot) in seen:
            reader.fail("8", f"the course has a lecture in this slot already: period {shown(reader.words[reader.at - 1][1].decode())}")
        seen.add((course, *slot))


def read_pairs(text, instance):
    reader = Reader(text, "B")
    reader.fixed("before Barred:", ["Barred:"])
    count = reader.number("before the number of entries", "4", [("5", 2000000, "more than 2,000,000 pairs: WORD")])
    for number in range(1, count + 1):
        reader.field(f"pair {number} of {count}", "course")
        reader.name("before a pair, which has two", "6", [it[0] for it in instance.courses], "no course")
        reader.field(f"pair {number} of {count}", "room")
        reader.name("in a pair, which has two", "7", [it[0] for it in instance.rooms], "no room")
    reader.field()
    reader.fixed("before END.", ["END."])


def read_closures(text, instance):
    reader = Reader(text, "L")
    names = {"room": [it[0] for it in instance.rooms], "teacher": instance.teachers, "course": [it[0] for it in instance.courses]}
    reader.fixed("before Blocked:", ["Blocked:"])
    count = reader.number("before the number of entries", "4", [("5", 2000000, "more than 2,000,000 entries: WORD")])
    for number in range(1, count + 1):
        entry = f"entry {number} of {count}"
        reader.field(entry, "kind")
        kind = reader.fixed("before an entry, which has four", list(names))
        reader.field(entry, "name")
        reader.name("in an entry, which has four", "6", names[kind], f"no {kind}")
        for field, limits in zip(("day", "period"), day_and_period(instance.days, instance.periods, "78")):
            reader.field(entry, field)
            reader.number("in an entry, which has four", "4", limits, star=True)
    reader.field()
    reader.fixed("before END.", ["END."])


def read_journal(text, instance):
    """Of the journal of a day: a word that has no place in any journal of the instance, or words that end."""
    reader, known = Reader(text, "J"), {it[0] for it in instance.courses + instance.rooms} | JOURNAL_WORDS
    while reader.at < len(reader.words) or reader.at == 0 or reader.words[-1][1] != b"END.":
        word = reader.word("before END.")
        if word not in known and not word.lstrip("-").isdigit():
            reader.fail("3", f"not valid here: {shown(word)}")


READERS = {"instance": lambda text, _: read_instance(text), "solution": read_solution, "barred": read_pairs, "blocked": read_closures,
           "journal": read_journal}


def wide(text):
    """What is said of a text that begins as one of UTF-32 or UTF-16 does."""
    for said, marks in (("UTF-32", (b"\xff\xfe\0\0", b"\0\0\xfe\xff")), ("UTF-16", (b"\xff\xfe", b"\xfe\xff"))):
        if text.startswith(marks):
            return f"the file is {said}, not UTF-8"
    return ""


def fault_of(kind, text, instance):
    """The first fault of a text, or none."""
    try:
        text.decode()
    except UnicodeDecodeError as fault:
        code = {"blocked": "L"}.get(kind, kind[0].upper())
        return Fault(code + "1", fault.start, fault.start, wide(text) or "not UTF-8 from this byte on")
    try:
        READERS[kind](text, instance)
    except Broken as broken:
        return broken.args[0]
    return None


def place(text, byte):
    """The line and the column of a byte, from 1; a column is a character."""
    lines = text[:byte].split(b"\n")
    return f"{len(lines)}:{len(lines[-1].decode()) + 1}"


def break_text(draw, text, ways):
    """A text with something changed, of which it may take no harm."""
    words = [found.span() for found in re.finditer(rb"[^\t-\r ]+", text)]
    way = draw.choice(ways)
    if way == "mark":
        return b"\xef\xbb\xbf" + text
    if way == "UTF-16":
        return draw.choice((b"\xff\xfe", b"\xfe\xff")) + text.decode().encode(draw.choice(("utf-16-le", "utf-16-be")))
    if way == "UTF-32":
        return text.decode().encode("utf-32") if draw.random() < 0.5 else b"\0\0\xfe\xff" + text.decode().encode("utf-32-be")
    if way == "empty" or not words:
        return draw.choice((b"", b" \r\n\t", "ö".encode()))
    number = draw.randrange(len(words))
    begin, after = words[number]
    word, before = text[begin:after], words[max(0, number - draw.choice((2, 5)))]
    at = draw.randint(0, len(text))
    other = draw.choice(ODD).encode() if draw.random() < 0.7 else text[slice(*draw.choice(words))]
    return {
        "cut": text[:at],
        "cut word": text[:after] + draw.choice((b"", b"\n", b" \n ")),
        "other": text[:begin] + other + text[after:],
        "gone": text[:begin] + text[after:],
        "more": text[:begin] + other + b" " + text[begin:],
        "twice": text[:after] + b"\n" + word + text[after:],
        "before": text[:begin] + text[slice(*before)] + text[after:],
        "again": text + b"\n" + b" ".join(text.split()[:4]),
        "many": re.sub(rb"(?<=[\t-\r ])[0-9]+", draw.choice((b"1001", b"2001", b"20001", b"2000001")), text, draw.randint(1, 2)),
        "nowhere": text[:begin] + draw.choice(NOWHERE).encode() + text[after:],
        "bytes": text[:at] + draw.choice((b"\xff", b"\xc3", b"\xed\xa0\x80", b"\xf0\x9f\x8e")) + text[at:],
    }[way]


# the commands that read a file of a kind, with the words for it and for the other ones
COMMANDS = {
    "instance": ["check FILE nowhere", "compare FILE nowhere", "week FILE nowhere", "page FILE nowhere", "run FILE nowhere", "audit FILE nowhere",
                 "crew FILE nowhere", "desk FILE nowhere", "journal FILE nowhere", "list FILE nowhere", "mend FILE nowhere"],
    "solution": ["check CTT FILE", "week CTT FILE", "page CTT FILE", "mend CTT FILE", "run CTT /dev/null --start FILE",
                 "audit CTT EMPTY --start FILE", "list CTT EMPTY --start FILE", "desk CTT nowhere --start FILE"],
    "barred": ["check CTT nowhere --barred FILE", "week CTT nowhere --barred FILE", "run CTT nowhere --barred FILE"],
    "blocked": ["check CTT nowhere --blocked FILE", "page CTT nowhere --blocked FILE", "mend CTT nowhere --blocked FILE"],
    "journal": ["audit CTT FILE", "list CTT FILE"],
}
NAMES = ["broken", "two words", "wide 数学.sol", "a:1:2: S3: b"]


class Places:
    """Files in a folder, and how often each code was seen."""

    def __init__(self, folder, draw):
        self.folder, self.draw, self.seen = folder, draw, collections.Counter()
        self.empty = self.write("empty.journal", b"journal 0\nEND.\n")

    def write(self, name, text):
        path = os.path.join(self.folder, name)
        with open(path, "wb") as opened:
            opened.write(text)
        return path

    def compare(self, name, kind, text, instance):
        """Compares what the program says of a text with what is found in it."""
        fault = fault_of(kind, text, instance)
        if fault is None:
            return
        file = self.write(self.draw.choice(NAMES), text)
        words = {"FILE": file, "CTT": os.path.join(self.folder, "whole.ctt"), "EMPTY": self.empty}
        command = [words.get(word, word) for word in self.draw.choice(COMMANDS[kind]).split()]
        coded = f"timedesk: {kind} {fault.code} {fault.number}\n"
        placed = f"{file}:{place(text, fault.byte)}: {fault.code}: {fault.sentence}\n"
        status, printed, said = call(*command, "--point")
        # a desk has said before that it has no minutes
        said = said.split("\n", 1)[1] if said.startswith("timedesk: no minutes") else said
        check(f"{name}: {' '.join(command)}", said, coded + placed)
        check(f"{name}: status and output", (status, printed), (1, ""))
        self.seen[fault.code] += 1
        if self.draw.random() < 0.1:
            status, printed, said = call(*command)
            said = said.split("\n", 1)[1] if said.startswith("timedesk: no minutes") else said
            check(f"{name}: without --point", (status, printed, said), (1, "", coded))

    def drawn(self, n):
        """Draws files, and breaks each."""
        text, barred = draw_instance(self.draw)
        instance = Instance(text, barred)
        self.write("whole.ctt", text)
        blocked, solution = draw_blocked(self.draw, instance), draw_solution(self.draw, instance)
        texts = {"instance": text, "solution": solution, "barred": barred, "blocked": blocked, "journal": journal_of(solution)}
        for kind, whole in texts.items():
            if whole is None:
                continue
            check(f"drawn {kind} {n} is whole", fault_of(kind, whole, instance), None)
            for _ in range(3):
                broken = break_text(self.draw, whole, JOURNAL_WAYS if kind == "journal" else WAYS)
                self.compare(f"drawn {kind} {n}", kind, broken, instance)


def journal_of(solution):
    """A journal that has the lectures of a solution as edits."""
    words = solution.split()
    calls = [b"place " + b" ".join(words[at:at + 4]) + b"\ndone\n" for at in range(0, len(words), 4)]
    return b"journal 1\nentry 0 " + str(len(calls)).encode() + b"\n" + b"".join(calls) + b"END.\n"


def main():
    with tempfile.TemporaryDirectory() as folder:
        places = Places(folder, random.Random(73))
        for n in range(DRAWN):
            places.drawn(n)
        check("each code in 5 drawn files or more", [code for code in CODES if places.seen[code] < 5], [])
    end()


if __name__ == "__main__":
    main()
