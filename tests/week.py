#!/usr/bin/env python3
"""Compares the tables that `week` prints with a plain drawing of them.

PROGRAM names another program. The last line is 'N passed, M failed'.
"""
import os
import random
import sys
import tempfile
import unicodedata

sys.dont_write_bytecode = True
from drawn import PIECES, draw_blocked, draw_instance, draw_solution  # noqa: E402
from program import EXAMPLES, NAMES, check_full, check_run, end, pair_of, read_files, words_of, write_files  # noqa: E402
from rules import Instance  # noqa: E402

DRAWN = 60
KINDS = ("curriculum", "teacher", "course", "room")
TOO_MANY = "timedesk: at most one of --curriculum, --teacher, --course, --room\n"
# how many columns characters take together where they do not take those of each
JOINED = {"👩‍🔬": 2, "🇨🇭": 2, "❤️": 2, "1️⃣": 2, "👍🏽": 2}


def width(text):
    """How many columns of a terminal a text takes: two for a wide character, none for a mark on the one before."""
    columns = 0
    for joined, wide in JOINED.items():
        columns += wide * text.count(joined)
        text = text.replace(joined, "")
    for character in text:
        if unicodedata.category(character) not in ("Mn", "Me", "Cf"):
            columns += 2 if unicodedata.east_asian_width(character) in "WF" else 1
    return columns


def cell(instance, t, kind, name, day, period):
    """The lectures of a slot with their rooms. A slot is marked in which the course is unavailable, or closures block the room or the
    teacher."""
    told = [f"{instance.courses[c][0]} {instance.rooms[r][0]}" for c, d, p, r in t if (d, p) == (day, period)]
    text = ", ".join(told)
    listed = kind == "course" and (instance.names()[kind].index(name), day, period) in instance.listed
    if not listed and not instance.blocks(kind, name, day, period):
        return text
    return text + " !" if text else "-"


def table(instance, t, kind, name):
    """The week of a curriculum, a teacher, a course or a room, and whose it is above it."""
    own = [lecture for lecture in t if instance.has(kind, name, lecture)]
    lines = [["period", *(f"day {day}" for day in range(instance.days))]]
    for period in range(instance.periods):
        lines.append([str(period), *(cell(instance, own, kind, name, day, period) for day in range(instance.days))])
    widths = [max(map(width, column)) for column in zip(*lines)]
    text = f"{kind} {name}\n"
    for line in lines:
        text += "".join(f"| {field}{' ' * (wide - width(field))} " for field, wide in zip(line, widths)) + "|\n"
    return text


def check_weeks(name, files, every=1):
    """Compares the week of all rooms, and that of every so many of the others: files of an instance, a solution, and perhaps barred
    rooms, which change nothing, and closures."""
    texts = read_files(files)
    instance = Instance(texts[0], *texts[2:])
    t = instance.read_solution(texts[1])
    words = ["week", *words_of(files)]
    rooms = "\n".join(table(instance, t, "room", room) for room in instance.names()["room"])
    check_run(name, *words, wanted=rooms)
    # no word of a command line holds a zero
    told = [(kind, of) for kind in KINDS for of in instance.names()[kind] if "\0" not in of]
    for kind, of in told[::every]:
        check_run(f"{name}: {kind} {of}", *words, f"--{kind}={of}", wanted=table(instance, t, kind, of))


def check_drawn(folder):
    """Draws instances with solutions, and compares their weeks."""
    draw = random.Random(37)
    for n in range(DRAWN):
        text, barred = draw_instance(draw, {**PIECES, "joined": list(JOINED)})
        instance = Instance(text, barred)
        solution, blocked = draw_solution(draw, instance), draw_blocked(draw, instance)
        check_weeks(f"drawn solution {n}", write_files(folder, text, solution, barred, blocked))


SMALL = """\
room A
| period | day 0 | day 1 |
| 0      | alg A |       |
| 1      | geo A |       |
| 2      |       | geo A |

room B
| period | day 0 | day 1 |
| 0      |       | alg B |
| 1      |       |       |
| 2      | top B |       |
"""
GEO = """\
course geo
| period | day 0 | day 1 |
| 0      | -     |       |
| 1      | geo A |       |
| 2      |       | geo A |
"""
# two courses of the teacher in one slot, and one in a slot in which it is unavailable
T1 = """\
teacher t1
| period | day 0        | day 1 |
| 0      | alg A, top B |       |
| 1      |              |       |
| 2      |              |       |
"""
CLOSED = """\
course geo
| period | day 0   | day 1 |
| 0      | geo B ! |       |
| 1      |         |       |
| 2      |         |       |
"""
Q1 = """\
curriculum q1
| period | day 0 | day 1 |
| 0      | alg A | alg B |
| 1      | geo A |       |
| 2      |       | geo A |
"""
# a room that is blocked in two slots of one day, where a lecture stands and where none does, and in one of the other
BLOCKED = "Blocked: 4 room A 0 1 room A 0 2 room A 1 0 room A 0 1 END."
BLOCKED_ROOM = """\
room A
| period | day 0   | day 1 |
| 0      | alg A   | -     |
| 1      | geo A ! |       |
| 2      | -       | geo A |
"""
# a teacher who is away for a day, and at the other day a course of his, and then both
AWAY = "Blocked: 4 teacher t1 1 * course alg 0 0 course alg 0 2 course top 0 2 END."
AWAY_TEACHER = """\
teacher t1
| period | day 0   | day 1   |
| 0      | alg A   | alg B ! |
| 1      |         | -       |
| 2      | top B ! | -       |
"""
AWAY_COURSE = """\
course alg
| period | day 0   | day 1   |
| 0      | alg A ! | alg B ! |
| 1      |         | -       |
| 2      | -       | -       |
"""
AWAY_OTHER = """\
course top
| period | day 0   | day 1 |
| 0      |         | -     |
| 1      |         | -     |
| 2      | top B ! | -     |
"""
# names of several alphabets, each as wide as it stands in a terminal
WIDE = """\
teacher Šimůnek
| period | day 0                            | day 1         |
| 0      | 数学Ⅰ 講堂, Übungsgruppe Hörsaal | 数学Ⅰ Hörsaal |
| 1      |                                  | 👩‍🔬-labor 講堂 |
"""


def check_worked(folder):
    """Compares weeks with texts that stand here."""
    small, solution = (os.path.join(EXAMPLES, name) for name in ("small.ctt", "s.sol"))
    check_run("the week of all rooms", "week", small, solution, wanted=SMALL)
    check_run("the week of a course", "week", small, solution, "--course", "geo", wanted=GEO)
    check_run("the week of a curriculum", "week", small, solution, "--curriculum", "q1", wanted=Q1)
    _, clash = write_files(folder, b"", b"alg A 0 0 top B 0 0")
    check_run("the week of a teacher in two places", "week", small, clash, "--teacher", "t1", wanted=T1)
    _, closed = write_files(folder, b"", b"geo B 0 0")
    check_run("a lecture in a slot that is not available", "week", small, closed, "--course", "geo", wanted=CLOSED)
    *_, blocked = write_files(folder, b"", b"", blocked=BLOCKED.encode())
    check_run("a room that is blocked", "week", small, solution, "--blocked", blocked, "--room", "A", wanted=BLOCKED_ROOM)
    check_run("a room and its teacher", "week", small, solution, "--blocked", blocked, "--course", "geo", wanted=GEO)
    *_, away = write_files(folder, b"", b"", blocked=AWAY.encode())
    check_run("the rooms of a teacher who is away", "week", small, solution, "--blocked", away, wanted=SMALL)
    check_run("a teacher who is away", "week", small, solution, "--blocked", away, "--teacher", "t1", wanted=AWAY_TEACHER)
    check_run("a course of his", "week", small, solution, "--blocked", away, "--course", "alg", wanted=AWAY_COURSE)
    check_run("the other one", "week", small, solution, "--blocked", away, "--course", "top", wanted=AWAY_OTHER)
    check_run("a curriculum of his", "week", small, solution, "--blocked", away, "--curriculum", "q1", wanted=Q1)
    check_run("the week of wide names", "week", *pair_of(NAMES, "wide"), "--teacher", "Šimůnek", wanted=WIDE)


def check_refusals(folder):
    """Compares what is said of names that are not there, and of two options."""
    small, solution = (os.path.join(EXAMPLES, name) for name in ("small.ctt", "s.sol"))
    for kind, name in ("course", "q1"), ("curriculum", "alg"), ("teacher", "T1"), ("room", "Å"), ("room", "A B"), ("course", "--json"):
        words = ["week", small, solution, f"--{kind}={name}"]
        check_run(f"no {kind} {name}", *words, said=f"timedesk: no {kind} {name}\n", status=1)
    nowhere = os.path.join(folder, "nowhere")
    read = f"timedesk: cannot read {nowhere}\n"
    check_run("a name, and no instance", "week", nowhere, solution, "--course", "x", said=read, status=3)
    check_run("a name, and no solution", "week", small, nowhere, "--course", "x", said="timedesk: no course x\n", status=1)
    check_run("no solution", "week", small, nowhere, "--course", "alg", said=read, status=3)
    for one in KINDS:
        for other in KINDS[KINDS.index(one) + 1:]:
            words = ["week", nowhere, nowhere, f"--{other}", "x", f"--{one}", "y"]
            check_run(f"both {one} and {other}", *words, said=TOO_MANY, status=2)
    check_full("a week that cannot be written", "week", small, solution)


def main():
    with tempfile.TemporaryDirectory() as folder:
        check_worked(folder)
        check_refusals(folder)
        for name in "wide", "markup":
            check_weeks(f"the {name} names", pair_of(NAMES, name))
        check_weeks("the shipped solution", pair_of(EXAMPLES, "spring"), every=3)
        check_drawn(folder)
    end()


if __name__ == "__main__":
    main()
