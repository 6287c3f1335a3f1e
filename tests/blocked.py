#!/usr/bin/env python3
"""Runs the worked cases of closures, tests/blocked/cases.md, and drawn ones, and compares all with a plain desk.

PROGRAM names another program. The last line is 'N passed, M failed'.
"""
import codecs
import json
import os
import re
import sys
import tempfile

sys.dont_write_bytecode = True
import blocked_drawn  # noqa: E402
from blocked_faults import fault_of  # noqa: E402
from plain_audit import audit  # noqa: E402
from plain_desk import Desk, Rules, placed  # noqa: E402
from program import EXAMPLES, HERE, call, check, check_run, end  # noqa: E402
from rules import Instance  # noqa: E402

CASES = os.path.join(HERE, "tests/blocked/cases.md")
SOLUTION = "alg A 0 0 alg B 1 0 geo A 0 1 geo A 1 2 top B 0 2"
TEXTS = {"S": SOLUTION, "S0": SOLUTION.replace(" top B 0 2", "")}
# the words of a command line in the cases, each with the text of its file
FILES = {"i": None, "s": SOLUTION, "k": "Blocked: 1 room A 0 1 END.", "z": "Blocked: 0 END.", "b": "Barred: 1 top A END.", "e": ""}
EMPTY = "Name: n Courses: 1 Rooms: 1 Days: {} Periods_per_day: {} Curricula: 0 Constraints: 0 COURSES: c t 1 0 0 " \
    "ROOMS: A 1 CURRICULA: UNAVAILABILITY_CONSTRAINTS: END."
QUOTED = r"`([^`]*)`"
ARROWS = re.compile(f"{QUOTED} -> {QUOTED}")


def quoted(text):
    """What stands between the marks in a text."""
    return re.findall(QUOTED, text)


class Given:
    """The files that a case names: an instance, side files, an opening or a solution."""

    def __init__(self, folder, line=""):
        self.folder = folder
        with open(os.path.join(EXAMPLES, "small.ctt"), encoding="utf-8") as opened:
            self.instance = opened.read()
        self.texts = {}
        for part in line.split("; "):
            kind, _, rest = part.partition(" ")
            if kind == "instance":
                names = quoted(rest)
                new = dict(zip(names[1::2], names[0::2]))
                words = names[0] if len(names) == 1 else self.instance
                self.instance = " ".join(new.get(word, word) for word in words.split())
            elif kind:
                self.texts[kind] = TEXTS.get(rest) or quoted(rest)[0]

    def with_sides(self, blocked, barred=""):
        """The same with these side files, given in marks, as a table gives them."""
        self.texts = {**self.texts, **{kind: quoted(text)[0] for kind, text in (("blocked", blocked), ("barred", barred)) if text}}
        return self

    def file(self, kind, text):
        """A file with this text, or these bytes."""
        name = os.path.join(self.folder, kind)
        with open(name, "wb") as opened:
            opened.write(text if isinstance(text, bytes) else text.encode())
        return name

    def model(self):
        """The instance as the plain desk has it."""
        return Instance(self.instance.encode(), *(self.texts[kind].encode() for kind in ("barred", "blocked") if kind in self.texts))

    def words(self, command, *files, start=True):
        """The words of a command on these files, with all options that this case names."""
        words = [command, self.file("instance", self.instance), *files]
        for kind, option in (("blocked", "--blocked"), ("barred", "--barred"), ("opening", "--start")):
            if kind in self.texts and (start or kind != "opening"):
                words += [option, self.file(kind, self.texts[kind])]
        return words

    def opening(self):
        """The timetable that the plain desk opens with, and the lectures that cannot be placed."""
        model = self.model()
        return placed(model, model.read_solution(self.texts.get("opening", "").encode()))

    def run(self, name, pairs):
        """Runs lines with their answers, and audits their journal. Gives the journal."""
        script = self.file("script", "".join(line + "\n" for line, _ in pairs))
        answers = "".join(answer + "\n" for _, answer in pairs)
        desk = Desk(self.model(), self.opening()[0])
        check(f"{name}: the plain desk", desk.play([line.split() for line, _ in pairs]), answers)
        journal = os.path.join(self.folder, "journal")
        check_run(name, *self.words("run", script), "--journal", journal, wanted=answers)
        with open(journal, encoding="utf-8") as opened:
            text = opened.read()
        check(f"{name}: the journal", text, desk.journal())
        check_run(f"{name}: the audit", *self.words("audit", journal), wanted="agrees\n")
        check_run(f"{name}: what is left", *self.words("list", journal), wanted=desk.solution())
        return text

    def check(self, name, wanted, *options):
        """Compares the report on the solution."""
        solution = self.file("solution", self.texts["solution"])
        check_run(name, *self.words("check", solution), *options, wanted=wanted)
        model = self.model()
        text, members = model.report(model.read_solution(self.texts["solution"].encode()))
        as_json = json.dumps(members, sort_keys=True, separators=(",", ":")) + "\n"
        check(f"{name}: the plain report", as_json if options else text, wanted)

    def opens(self, name, said):
        """Compares what is said of an opening, by those who open with it."""
        _, others = self.opening()
        fault = f"opening {others[0][0]} {others[0][2]}" if others else ""
        check(f"{name}: the plain desk", f"timedesk: {fault}\n" if fault else "", said)
        status = 1 if said else 0
        check_run(f"{name}: run", *self.words("run", self.file("script", "")), said=said, status=status)
        for command in "audit", "list":
            words = self.words(command, self.file("journal", "journal 0 END."))
            wanted = "" if said else "agrees" if command == "audit" else self.texts["opening"]
            ended, printed, complaint = call(*words)
            check(f"{name}: {command}", (ended, complaint, printed.split()), (status, said, wanted.split()))


def check_tables(folder, name, header, row):
    """Compares a row of a table, whose cells are given by the names of its columns."""
    cells = dict(zip(header, row))
    name = f"{name}: {' '.join(row)}"
    given = Given(folder)
    if "Words" in cells:
        check_words(folder, name, cells)
    elif "Journal" in cells:
        given.with_sides(cells["Blocked file"], cells["Barred file"])
        text, (printed,) = quoted(cells["Journal"])[0], quoted(cells["Printed"])
        said = printed + "\n" if printed.startswith("timedesk:") else ""
        words = given.words("audit", given.file("journal", text))
        check_run(name, *words, wanted="" if said else printed + "\n", said=said, status=0 if printed == "agrees" else 1)
        if not said:
            check(f"{name}: the plain desk", audit(given.model(), {}, text.encode()), printed + "\n")
    elif "Printed" in cells:
        given.texts["opening"] = SOLUTION
        said = "".join(it + "\n" for it in quoted(cells["Printed"]))
        given.with_sides(cells["Blocked file"], cells["Barred file"]).opens(name, said)
    elif "availability" in cells:
        given.with_sides(cells["Blocked file"])
        status, printed, said = call(*given.words("check", given.file("solution", SOLUTION)))
        lines = dict(line.split(" ", 1) for line in printed.splitlines())
        told = (status, said, *(lines.get(key, "-") for key in ("availability", "blocked", "lawful")))
        check(name, told, (0, "", *(cells[key] for key in ("availability", "blocked", "lawful"))))
        check(f"{name}: the plain report", printed, given.model().report(given.model().read_solution(SOLUTION.encode()))[0])
    else:
        check_fault(given, name, cells)


def check_fault(given, name, cells):
    """Compares the fault of a file of closures."""
    text = {"(nothing)": b"", "(blanks alone)": b" \r\n\t\v\f "}.get(cells["Blocked file"])
    if text is None:
        text = codecs.escape_decode(quoted(cells["Blocked file"])[0])[0]
    solution = SOLUTION
    if "D" in cells:
        given.instance, solution = EMPTY.format(cells["D"], cells["P"]), ""
    check_read(given, name, text, solution, "".join(quoted(cells["Fault"])))


def check_read(given, name, text, solution, fault):
    """Compares the fault of these bytes, or that there is none."""
    model = Instance(given.instance.encode())
    check(f"{name}: the plain reading", fault_of(model, text), fault)
    words = [*given.words("check", given.file("solution", solution)), "--blocked", given.file("told", text)]
    if fault:
        check_run(name, *words, said=f"timedesk: blocked {fault}\n", status=1)
        return
    model = Instance(given.instance.encode(), text)
    check_run(name, *words, wanted=model.report(model.read_solution(solution.encode()))[0])


def check_words(folder, name, cells):
    """Compares how the program ends that is given these words."""
    given = Given(folder)
    for file, text in FILES.items():
        given.file(file, given.instance if text is None else text)
    words = re.sub(r"(?<=[ =])([iskzbex])\b", lambda it: os.path.join(folder, it[1]), quoted(cells["Words"])[0])
    ended, printed, said = call(*words.split())
    check(f"{name}: status", ended, int(cells["Status"]))
    if cells["Standard error"] == "(clap)":
        check(f"{name}: standard error", said.startswith("error: "), True)
    else:
        wanted = "".join(it + "\n" for it in quoted(cells["Standard error"]))
        check(f"{name}: standard error", said, wanted.replace("cannot read x", f"cannot read {os.path.join(folder, 'x')}"))
    check(f"{name}: standard output", bool(printed), ended == 0)


def check_crew(given, name, line, wanted):
    """Compares what a crew of one script answers."""
    lines = quoted(line)
    script = given.file("script", "".join(it + "\n" for it in lines))
    check_run(name, *given.words("crew", script), wanted=wanted)
    desk, text = Desk(given.model(), {}), ""
    for words in (it.split() for it in lines):
        is_show = words[0] == "show"
        answer = "already open" if is_show and desk.drafts else desk.answer(words if is_show else ["0", *words])
        text += answer + "\n"
    check(f"{name}: the plain desk", f"planner 0\n{text}journal {len(desk.entries)}\n{desk.costs()}", wanted)


def check_unlawful(given, line):
    """Compares edits on a list that is no lawful timetable, which no run meets, by the plain rules alone."""
    first, *others = ARROWS.split(line)[0::3], *zip(ARROWS.findall(line))
    given.with_sides(f"`{quoted(first[0])[0]}`")
    model = given.model()
    t = {lecture[:3]: lecture[3] for lecture in model.read_solution(given.texts["opening"].encode())}
    for (edit, answer), in others:
        check(f"the plain rules: {edit}", Rules(model).answer(t, edit.split())[0], answer)


class Cases:
    """The cases of the page, one line after another."""

    def __init__(self, folder):
        self.folder, self.given, self.journal = folder, Given(folder), ""
        self.name, self.number, self.header = "", 0, []

    def line(self, line, block):
        """Runs what a line says, with the text that stands in a block below it."""
        kind, _, rest = line.partition(": ")
        self.number += 1
        name = f"{self.name}, line {self.number}"
        if line.startswith("## "):
            self.name, self.number = line[3:], 0
        elif line.startswith("|"):
            self.row(name, [cell.strip() for cell in line.strip("|").split("|")])
        elif kind == "Given":
            self.given = Given(self.folder, rest)
        elif kind == "Run":
            self.journal = self.given.run(name, ARROWS.findall(rest))
        elif kind == "Looks":
            self.given.run(name, [(f"show {look}", answer) for look, answer in ARROWS.findall(rest)])
        elif kind == "Opening":
            self.given.opens(name, quoted(rest)[0] + "\n")
        elif line == "Journal:":
            check(name, self.journal, block)
        elif kind == "Audit of it":
            del self.given.texts["blocked"]
            words = self.given.words("audit", self.given.file("journal", self.journal))
            check_run(name, *words, wanted=quoted(rest)[1] + "\n", status=1)
        elif line in ("Check:", "Check JSON:"):
            self.given.check(name, block, *(["--json"] if "JSON" in line else []))
        elif line.startswith("Crew of"):
            check_crew(self.given, name, line, block)
        elif line.startswith("Edit on"):
            check_unlawful(self.given, line)
        elif "cut after its first k words" in line:
            words = quoted(line)[0].split()
            for k in range(len(words) + 1):
                fault = f"L2 {k + 1}" if k < len(words) else ""
                check_read(Given(self.folder), f"{name}: {k} words", " ".join(words[:k]).encode(), SOLUTION, fault)

    def row(self, name, cells):
        """Takes a row of a table, of which the first has the names of the columns."""
        if not self.header or cells[0][:1] not in "`(0123456789-":
            self.header = cells
        elif not cells[0].startswith("--"):
            check_tables(self.folder, name, self.header, cells)


def check_cases(folder, page=CASES):
    """Runs a page. Each line whose colon ends it has a block."""
    with open(page, encoding="utf-8") as opened:
        lines = opened.read().split("\n")
    cases = Cases(folder)
    while lines:
        line, block = lines.pop(0), ""
        if line.endswith(":") and lines[1:2] == ["```"]:
            close = lines.index("```", 2)
            block = "".join(it + "\n" for it in lines[2:close])
            lines = lines[close + 1:]
        if line:
            cases.line(line, block)


def main():
    with tempfile.TemporaryDirectory() as folder:
        check_cases(folder)
        blocked_drawn.check_drawn(folder)
    end()


if __name__ == "__main__":
    main()
