"""The scripts that are played at the seats of a desk: the worked desks of the trials, and days that a script cannot have."""
import os
import re

from pages import typed_days
from program import HERE, check

TRIALS = os.path.join(HERE, "crates/ctt_trials/src")
# the side files of the tables of the trials that have one
SIDES = {"BARRED": ("--barred", "Barred: 1 top A END.\n"), "BLOCKED": ("--blocked", "Blocked: 2 room B 0 1 course top 1 1 END.\n")}
# a row of a desk in the tables of the trials: its name, its opening, its script
ROW = re.compile(r'case!\(\s*"([^"]+)",\s*(\w+),\s*(\w+),\s*DESK\s*\)')
# a planner who does all that he may
DAY = """0 open
0 place geo A 0 1
0 price place top B 0 2
0 refresh
0 commit
0 open
0 slot 0 1
0 teacher t1
0 drop geo 0 1
0 place alg A 0 0
0 swap alg 0 0 geo 0 1
0 reroom alg B 0 0
0 frob it
0 commit
show cost
0 open
0 abandon
"""


def typed():
    """Days that are typed: their lines with answers, the minutes, and what the timetable costs."""
    for name, day in typed_days().items():
        if "costs" in day:
            texts = ("".join(line + "\n" for line in day.get(kind, ())) for kind in ("day", "minutes"))
            yield name, (*texts, *day["costs"])


TYPED = dict(typed())


def texts_of(name):
    """The texts of a file of the trials, by their names."""
    with open(os.path.join(TRIALS, name), encoding="utf-8") as file:
        found = re.findall(r'const (\w+): &str =\s*"(.*?)";', file.read(), re.S)
    return {name: text.replace("\\n", "\n") for name, text in found}


def worked_desks():
    """Each worked desk: its name, its opening, its script, a side file with its option or none, and whether its first planner goes
    away when another one begins, with the draft that he has open."""
    texts, scripts = texts_of("texts.rt"), {}
    for name in ("worked.rt", "blocked.rt", "offered.rt"):
        scripts.update(texts_of(name))
    with open(os.path.join(TRIALS, "tables.rt"), encoding="utf-8") as file:
        text = file.read()
    # each place that names the ways of a desk, but the one that says what they are
    check("rows of desks", len(ROW.findall(text)), len(re.findall(r"\bDESK\b", text)) - 1)
    for table in re.split(r"\nconst |\npub\(crate\) const ", text):
        side = SIDES.get(table.split(":")[0])
        for name, opening, script in ROW.findall(table):
            yield name, texts[opening], scripts[script], side, False
    yield "left open by a planner who is gone", "", scripts["LEFT_OPEN"], None, True
    yield "a day", "", DAY, None, False
