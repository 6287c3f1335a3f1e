#!/usr/bin/env python3
"""Compares what `check --explain` finds in drawn solutions with a plain reading of the rules, as text, JSON, CSV and sentences.

PROGRAM names another program. The last line is 'N passed, M failed'.
"""
import csv
import io
import json
import os
import random
import sys
import tempfile

sys.dont_write_bytecode = True
from drawn import draw_blocked, draw_instance, draw_solution  # noqa: E402
from program import EXAMPLES, NAMES, call, check, check_full, check_run, end, pair_of, read_files, words_of, write_files  # noqa: E402
from plain_page import Page  # noqa: E402
from rules import KINDS, Instance, line  # noqa: E402

DRAWN = 400
# the columns of the table of findings
COLUMNS = ["kind", "curriculum", "teacher", "course", "other", "room", "day", "period", "placed", "stated", "days", "minimum", "rooms",
           "points"]


class Plain(Page):
    """The sentences of a page without its markup."""

    def __init__(self, instance):
        self.instance, self.days = instance, ()

    def named(self, name):
        return name


def json_text(members):
    return json.dumps(members, sort_keys=True, ensure_ascii=False, separators=(",", ":")) + "\n"


def csv_text(rows):
    out = io.StringIO()
    csv.writer(out, lineterminator="\n").writerows(rows)
    return out.getvalue()


def cells_of(finding):
    """The row of what is found. A conflict has what two courses share in the column of its kind."""
    cells = dict(finding)
    if "cause" in cells:
        cells[cells.pop("cause")] = cells.pop("name")
    row = [cells.pop(key, "") for key in COLUMNS]
    assert not cells, cells
    return row


def sentences(instance, findings):
    """What is found as sentences: what breaks a rule, and then what costs most."""
    ranked = sorted(findings, key=lambda finding: ("points" in finding, -finding.get("points", 0)))
    return "".join(Plain(instance).sentence(finding) + "\n" for finding in ranked)


def check_sums(name, findings, members):
    """Of each kind the findings add up to the count of the report."""
    sums = dict.fromkeys(KINDS, 0)
    for count, kind in KINDS.items():
        for finding in findings:
            if finding["kind"] == kind == "lectures":
                sums[count] += abs(finding["placed"] - finding["stated"])
            elif finding["kind"] == kind:
                sums[count] += finding.get("points", 1)
    check(f"{name}: the sums", sums, {"barred": 0, "blocked": 0, **{count: members[count] for count in KINDS if count in members}})


def check_files(name, files):
    """Compares all forms of the report on a solution: files of an instance, a solution, and perhaps barred rooms and closures. Gives
    what is found, whether it is lawful, and whether it is complete."""
    texts = read_files(files)
    instance = Instance(texts[0], *texts[2:])
    t = instance.read_solution(texts[1])
    findings = instance.find(t)
    text, members = instance.report(t)
    words = words_of(files)
    check_run(name, "check", *words, "--explain", wanted=text + "".join(map(line, findings)))
    check_sums(name, findings, members)
    status = 0 if members["complete"] else 5 if members["lawful"] else 4
    found = json_text({**members, "findings": findings})
    check_run(f"{name}: JSON", "check", *words, "--explain", "--json", "--strict", wanted=found, status=status)
    check_run(f"{name}: strict", "check", *words, "--strict", wanted=text, status=status)
    check_run(f"{name}: the file", "check", *words, "--name", "--json", wanted=json_text({**members, "file": words[1]}))
    found = json_text({**members, "findings": findings, "file": words[1]})
    check_run(f"{name}: the file and the findings", "check", *words, "--name", "--json", "--explain", "--csv", wanted=found)
    counted = [one.split(" ", 1) for one in text.split("\n")[:-1]]
    check_run(f"{name}: CSV", "check", *words, "--csv", "--sentences", wanted=csv_text(zip(*counted)))
    table = csv_text([COLUMNS, *map(cells_of, findings)])
    check_run(f"{name}: table", "check", *words, "--explain", "--csv", "--strict", wanted=table, status=status)
    told = sentences(instance, findings)
    check_run(f"{name}: sentences", "check", *words, "--sentences", "--strict", wanted=text + told, status=status)
    check_run(f"{name}: lines and sentences", "check", *words, "--sentences", "--explain", wanted=text + "".join(map(line, findings)) + told)
    return findings, members["lawful"], members["complete"]


def check_drawn(folder):
    """Draws instances with solutions, and compares the reports on them."""
    draw = random.Random(36)
    seen = dict.fromkeys([*KINDS.values(), "unlawful", "incomplete", "complete"], 0)
    for n in range(DRAWN):
        text, barred = draw_instance(draw)
        instance = Instance(text, barred)
        files = write_files(folder, text, draw_solution(draw, instance), barred, draw_blocked(draw, instance))
        findings, lawful, complete = check_files(f"drawn solution {n}", files)
        for kind in {finding["kind"] for finding in findings}:
            seen[kind] += 1
        seen["complete" if complete else "incomplete" if lawful else "unlawful"] += 1
    check("each kind in 30 drawn solutions or more", [kind for kind, times in seen.items() if times < 30], [])


# solutions of the instance `small`, its side files, the counts of the report, and what is found
WORKED = [
    ("the small solution", "alg A 0 0 alg B 1 0 geo A 0 1 geo A 1 2 top B 0 2", [], "0 0 0 0 15 0 4 1 20 yes yes", """\
capacity alg A 0 0 5
capacity top B 0 2 10
compactness q1 alg 1 0 2
compactness q1 geo 1 2 2
stability alg 2 1
"""),
    ("a barred room", "alg A 0 0 alg B 1 0 geo A 0 1 geo A 1 2 top B 0 2", ["Barred: 1 alg A END."], "0 0 0 0 1 15 0 4 1 20 no no", """\
barred alg A 0 0
capacity alg A 0 0 5
capacity top B 0 2 10
compactness q1 alg 1 0 2
compactness q1 geo 1 2 2
stability alg 2 1
"""),
    ("a room that is blocked", "alg A 0 0 alg B 1 0 geo A 0 1 geo A 1 2 top B 0 2", ["Blocked: 1 room A 0 0 END."],
     "0 0 0 0 1 15 0 4 1 20 no no", """\
blocked alg A 0 0
capacity alg A 0 0 5
capacity top B 0 2 10
compactness q1 alg 1 0 2
compactness q1 geo 1 2 2
stability alg 2 1
"""),
    ("a room that is blocked where nobody stands", "alg A 0 0 top B 0 2", ["Blocked: 2 room B 1 1 room A 0 2 END."],
     "3 0 0 0 0 15 10 2 0 27 yes no", """\
lectures alg 1 2
lectures geo 0 2
capacity alg A 0 0 5
capacity top B 0 2 10
days alg 1 2 5
days geo 0 1 5
compactness q1 alg 0 0 2
"""),
    ("barred and blocked", "alg A 0 0 alg B 1 0 geo A 0 1 geo A 1 2 top B 0 2", ["Barred: 1 alg A END.", "Blocked: 1 room A * * END."],
     "0 0 0 0 1 3 15 0 4 1 20 no no", """\
barred alg A 0 0
blocked alg A 0 0
blocked geo A 0 1
blocked geo A 1 2
capacity alg A 0 0 5
capacity top B 0 2 10
compactness q1 alg 1 0 2
compactness q1 geo 1 2 2
stability alg 2 1
"""),
    ("a teacher and a course that are blocked", "alg A 0 0 alg B 1 0 geo A 0 1 geo A 1 2 top B 0 2",
     ["Blocked: 2 teacher t1 0 0 course geo 0 1 END."], "0 0 2 0 15 0 4 1 20 no no", """\
availability alg 0 0
availability geo 0 1
capacity alg A 0 0 5
capacity top B 0 2 10
compactness q1 alg 1 0 2
compactness q1 geo 1 2 2
stability alg 2 1
"""),
    ("two lectures in a room that is blocked by several entries", "geo A 0 1 top A 0 1",
     ["Blocked: 3 room A 0 1 room A 0 1 room A 0 * END."], "3 0 0 1 2 25 10 2 0 37 no no", """\
lectures alg 0 2
lectures geo 1 2
occupancy A 0 1 top
blocked geo A 0 1
blocked top A 0 1
capacity top A 0 1 25
days alg 0 2 10
compactness q1 geo 0 1 2
"""),
    ("no lecture at all", "", [], "5 0 0 0 0 20 0 0 20 yes no", """\
lectures alg 0 2
lectures geo 0 2
lectures top 0 1
days alg 0 2 10
days geo 0 1 5
days top 0 1 5
"""),
    ("the last period is not beside the first of the next day", "alg A 0 2 geo A 1 0", [], "3 0 0 0 5 10 4 0 19 yes no", """\
lectures alg 1 2
lectures geo 1 2
lectures top 0 1
capacity alg A 0 2 5
days alg 1 2 5
days top 0 1 5
compactness q1 alg 0 2 2
compactness q1 geo 1 0 2
"""),
    ("a teacher twice in a slot", "alg A 0 0 top B 0 0", [], "3 1 0 0 15 10 2 0 27 no no", """\
lectures alg 1 2
lectures geo 0 2
conflict alg top 0 0 teacher t1
capacity alg A 0 0 5
capacity top B 0 0 10
days alg 1 2 5
days geo 0 1 5
compactness q1 alg 0 0 2
"""),
    ("a curriculum twice in a slot", "alg A 0 1 geo B 0 1", [], "3 1 0 0 5 10 4 0 19 no no", """\
lectures alg 1 2
lectures geo 1 2
lectures top 0 1
conflict alg geo 0 1 curriculum q1
capacity alg A 0 1 5
days alg 1 2 5
days top 0 1 5
compactness q1 alg 0 1 2
compactness q1 geo 0 1 2
"""),
    ("an unavailable slot, and a room taken", "geo B 0 0 top B 0 0", [], "3 0 1 1 10 10 2 0 22 no no", """\
lectures alg 0 2
lectures geo 1 2
availability geo 0 0
occupancy B 0 0 top
capacity top B 0 0 10
days alg 0 2 10
compactness q1 geo 0 0 2
"""),
    ("three lectures in a room", "alg B 0 1 geo B 0 1 top B 0 1", [], "2 2 0 2 10 5 4 0 19 no no", """\
lectures alg 1 2
lectures geo 1 2
conflict alg geo 0 1 curriculum q1
conflict alg top 0 1 teacher t1
occupancy B 0 1 geo
occupancy B 0 1 top
capacity top B 0 1 10
days alg 1 2 5
compactness q1 alg 0 1 2
compactness q1 geo 0 1 2
"""),
    ("a lecture too many", "top B 0 0 top B 0 1", [], "5 0 0 0 20 15 0 0 35 no no", """\
lectures alg 0 2
lectures geo 0 2
lectures top 2 1
capacity top B 0 0 10
capacity top B 0 1 10
days alg 0 2 10
days geo 0 1 5
"""),
]
SMALL_TABLE = """\
kind,curriculum,teacher,course,other,room,day,period,placed,stated,days,minimum,rooms,points
capacity,,,alg,,A,0,0,,,,,,5
capacity,,,top,,B,0,2,,,,,,10
compactness,q1,,alg,,,1,0,,,,,,2
compactness,q1,,geo,,,1,2,,,,,,2
stability,,,alg,,,,,,,,,2,1
"""
SMALL_CSV = """\
instance,lectures,conflicts,availability,occupancy,capacity,days,compactness,stability,total,lawful,complete
Small,0,0,0,0,15,0,4,1,20,yes,yes
"""
SMALL_SENTENCES = """\
top with 50 students is in room B with 40 seats on day 1, period 3
alg with 30 students is in room A with 25 seats on day 1, period 1
alg on day 2, period 1 is alone in curriculum q1
geo on day 2, period 3 is alone in curriculum q1
alg is in 2 rooms
"""
SMALL_JSON = (
    '{"availability":0,"capacity":15,"compactness":4,"complete":true,"conflicts":0,"days":0,"findings":['
    '{"course":"alg","day":0,"kind":"capacity","period":0,"points":5,"room":"A"},'
    '{"course":"top","day":0,"kind":"capacity","period":2,"points":10,"room":"B"},'
    '{"course":"alg","curriculum":"q1","day":1,"kind":"compactness","period":0,"points":2},'
    '{"course":"geo","curriculum":"q1","day":1,"kind":"compactness","period":2,"points":2},'
    '{"course":"alg","kind":"stability","points":1,"rooms":2}'
    '],"instance":"Small","lawful":true,"lectures":0,"occupancy":0,"stability":1,"total":20}\n')


def check_worked(folder):
    """Compares reports with texts that stand here."""
    small = os.path.join(EXAMPLES, "small.ctt")
    for name, text, given, counts, findings in WORKED:
        sides = {side.split(":")[0].lower(): side for side in ("Barred: 0 END.", "Blocked: 0 END.", *given)}
        files = [small, *write_files(folder, b"", text.encode(), *(side.encode() for side in sides.values()))[1:]]
        untold = {"barred": sides["barred"] == "Barred: 0 END.", "blocked": " room " not in sides["blocked"]}
        keys = [key for key in KINDS if not untold.get(key)] + ["total", "lawful", "complete"]
        report = "instance Small\n" + "".join(f"{key} {count}\n" for key, count in zip(keys, counts.split()))
        check_run(name, "check", *words_of(files), "--explain", wanted=report + findings)
        check_files(f"{name}, counted", files)
    words = ["check", small, os.path.join(EXAMPLES, "s.sol"), "--explain", "--json"]
    check_run("the small solution as JSON", *words, wanted=SMALL_JSON)
    check_run("the small solution as a table", *words[:-1], "--csv", wanted=SMALL_TABLE)
    check_run("the small solution as CSV", *words[:3], "--csv", wanted=SMALL_CSV)
    _, report, _ = call(*words[:3])
    check_run("the small solution in words", *words[:3], "--sentences", wanted=report + SMALL_SENTENCES)
    for options in ["--explain"], ["--strict"], ["--explain", "--json", "--strict"], ["--explain", "--csv"], ["--sentences"]:
        check_full(f"a report that cannot be written, {options}", *words[:3], *options)
    check_files("the shipped solution", pair_of(EXAMPLES, "spring"))
    for name in "wide", "markup":
        check_files(f"the {name} names", pair_of(NAMES, name))


def check_long(folder):
    """Compares the reports on a solution of which more is found than is written at once."""
    names = [f"{'long' * 20}{n}" for n in range(30)]
    head = "Name: long Courses: 30 Rooms: 1 Days: 5 Periods_per_day: 5 Curricula: 0 Constraints: 0 COURSES:"
    courses = " ".join(f"{name} t{n} 25 5 9" for n, name in enumerate(names))
    text = f"{head} {courses} ROOMS: {'room' * 20} 1 CURRICULA: UNAVAILABILITY_CONSTRAINTS: END."
    t = "".join(f"{name} {'room' * 20} {day} {period}\n" for name in names for day in range(5) for period in range(5))
    check_files("many findings", write_files(folder, text.encode(), t.encode()))


def check_gathered(folder):
    """Compares the lines of lectures that stand alone where names are as long as a line is gathered with, and longer."""
    curricula = [f"{'q' * n}{n}" for n in (1, 14, *range(190, 260))]
    courses = ["c" * n for n in (1, 15, 16, 200, 300)]
    head = "Name: gathered Courses: 5 Rooms: 5 Days: 12 Periods_per_day: 12 Curricula: 72 Constraints: 0 COURSES:"
    text = f"{head} {' '.join(f'{name} {name} 2 2 1' for name in courses)} ROOMS: {' '.join(f'r{n} 1' for n in range(5))} CURRICULA:"
    text += "".join(f" {name} 5 {' '.join(courses)}" for name in curricula) + " UNAVAILABILITY_CONSTRAINTS: END."
    t = "".join(f"{name} r{n} {2 * n} {2 * n + 3}\n{name} r{n} {2 * n + 3} {2 * n}\n" for n, name in enumerate(courses))
    check_files("names as long as a line", write_files(folder, text.encode(), t.encode()))


def main():
    with tempfile.TemporaryDirectory() as folder:
        check_worked(folder)
        check_long(folder)
        check_gathered(folder)
        check_drawn(folder)
    end()


if __name__ == "__main__":
    main()
