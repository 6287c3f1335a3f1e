#!/usr/bin/env python3
"""Plays the pages of tests/runs, each a part of a user's day, and compares what the program writes.

A block `console` is typed into a shell: a line with `$ ` is a command, the lines below it are what
it prints, those with `! ` what it says on standard error, `< NAME` what a file holds, and `[N]` is
its status, else 0. A block `console each` is played for each row of the table below it, and a block
`console each NAME` for each `text` below it, or for each number of a range; what a row has is a
variable of the shell, and of what is wanted. A block `day` is a script, each line with its answer,
and the words behind it are options; its journal is compared and audited, and a block `journal` has
it.

PROGRAM names another program. The last line is 'N passed, M failed'.
"""
import os
import pathlib
import re
import shutil
import string
import subprocess
import sys
import tempfile

sys.dont_write_bytecode = True
from pages import blocks_of, lines_of  # noqa: E402
from program import EXAMPLES, HERE, PROGRAM, check, end  # noqa: E402

PAGES = pathlib.Path(HERE, "tests/runs")
RANGE = re.compile(r" each (\w+) (\d+)\.\.(\d+)")
MARKED = re.compile(r"`([^`]*)`")
NUMBER = re.compile(r"\{(\d+)n\+(\d+)\}")


class Room:
    """A folder with the examples, in which commands are run, and `timedesk` is the program."""

    def __init__(self, folder):
        self.folder, tools = folder, os.path.join(folder, "tools")
        for name in os.listdir(EXAMPLES):
            if name.endswith((".ctt", ".sol", ".txt")):
                shutil.copy(os.path.join(EXAMPLES, name), folder)
        os.mkdir(tools)
        os.symlink(os.path.abspath(PROGRAM), os.path.join(tools, "timedesk"))
        path = f"{tools}:{os.environ['PATH']}"
        self.told = {**os.environ, "TOP": HERE, "PATH": path, "LC_ALL": "C.UTF-8"}

    def run(self, command, told):
        """What a command prints and says, and its status."""
        done = subprocess.run(
            ["bash", "-c", f"set -o pipefail; {command}"], cwd=self.folder, timeout=300,
            env={**self.told, **told}, stdin=subprocess.DEVNULL, capture_output=True,
        )
        texts = (it.decode(errors="backslashreplace") for it in (done.stdout, done.stderr))
        return (*texts, done.returncode)

    def text(self, name):
        """What a file holds; nothing where there is none."""
        path = pathlib.Path(self.folder, name)
        return path.read_text() if path.exists() else ""

    def wanted(self, lines):
        """What lines of a page want: a text that is printed, one that is said, and a status."""
        printed, said, status = "", "", 0
        for line in lines:
            if line[:1] == "!":
                said += line[2:] + "\n"
            elif line[:2] == "< ":
                printed += self.text(line[2:])
            elif re.fullmatch(r"\[\d+\]", line):
                status = int(line[1:-1])
            else:
                printed += line + "\n"
        return printed, said, status

    def play(self, name, block, told):
        """Types a block of commands."""
        for part in re.split(r"^\$ ", block, flags=re.MULTILINE)[1:]:
            command, *lines = part.removesuffix("\n").split("\n")
            while command.endswith("\\"):
                command = command[:-1] + lines.pop(0).strip()
            found = self.run(command, told)
            lines = [string.Template(line).safe_substitute(told) for line in lines]
            wanted = self.wanted(lines)
            # (what has no program and wants nothing only makes files)
            if "timedesk" in command or lines or found != wanted:
                row = ", ".join(f"{key} {value}" for key, value in told.items())
                check(f"{name}: {command}: {row}", found, wanted)

    def day(self, name, options, block):
        """Plays a script, compares its answers and its journal, and audits that."""
        pairs = [pair.split(" -> ") for pair in lines_of(block)]
        pathlib.Path(self.folder, "script").write_text("".join(line + "\n" for line, _ in pairs))
        pathlib.Path(self.folder, "journal").unlink(missing_ok=True)
        words = f"timedesk run small.ctt script {options} --journal journal"
        answers = "".join(answer + "\n" for _, answer in pairs)
        check(name, self.run(words, {}), (answers, "", 0))
        check(f"{name}: its journal", self.text("journal"), journal_of(pairs))
        audited = self.run(f"timedesk audit small.ctt journal {options}", {})
        check(f"{name}: its audit", audited, ("agrees\n", "", 0))


def journal_of(pairs):
    """The journal of lines with their answers: what was asked in each draft that was committed."""
    drafts, entries = {}, []
    for line, answer in pairs:
        planner, *call = line.split() or [""]
        if answer == "opened":
            drafts[planner] = []
        elif planner not in drafts or answer == "bad line" or call[0] in ("open", "peek", "status"):
            continue
        elif call[0] not in ("commit", "refresh", "abandon"):
            drafts[planner].append(f"{' '.join(call)}\n{answer}\n")
        elif answer != "refreshed":
            calls = drafts.pop(planner)
            if answer.startswith("committed "):
                entries.append(f"entry {planner} {len(calls)}\n{''.join(calls)}")
    return f"journal {len(entries)}\n{''.join(entries)}END.\n"


def rows_of(info, below):
    """The rows for which a block is played, by the words behind its name, and what is below it."""
    if " each" not in info:
        return [{}]
    counted = RANGE.fullmatch(info)
    if counted:
        name, first, last = counted[1], int(counted[2]), int(counted[3])
        return [{name: str(n), "next": str(n + 1)} for n in range(first, last + 1)]
    if info != " each":
        return [{info.split()[1]: text} for text in MARKED.findall(re.split("\n\n|```", below)[0])]
    table = re.match(r"(?:\|.*\n)*", below)[0]
    cells = [re.split(r"(?<!\\)\|", line.strip("|")) for line in table.splitlines()]
    names = [name.strip() for name in cells[0]]
    return [dict(zip(names, map(value_of, row))) for row in cells[2:]]


def value_of(cell):
    """What a cell of a table has: a text between marks, or one without blanks around it."""
    text = cell.strip().replace("\\|", "|")
    return text[1:-1] if text[:1] == "`" == text[-1:] else text


def play_page(page, room):
    """Plays the blocks of a page, one after another."""
    for block in blocks_of(page):
        name = f"{page.stem}: {block.title}"
        if block.kind == "day":
            room.day(name, block.info, many_of(block.text))
        elif block.kind == "journal":
            check(f"{name}: the journal in full", room.text("journal"), block.text)
        elif block.kind == "text":
            pathlib.Path(room.folder, block.info.strip()).write_text(block.text)
        else:
            for row in rows_of(block.info, block.below):
                room.play(name, block.text, row)


def many_of(lines):
    """Lines of a day. Those below `N times:` stand for so many; `{2n+1}` is a number of each time,
    where n counts from 0."""

    def repeated(found):
        some = re.sub("^  ", "", found[2], flags=re.MULTILINE)
        return "".join(NUMBER.sub(lambda it: number(it, n), some) for n in range(int(found[1])))

    def number(form, n):
        return str(int(form[1]) * n + int(form[2]))

    return re.sub(r"^(\d+) times:\n((?:  .*\n)+)", repeated, lines, flags=re.MULTILINE)


def main():
    for page in sorted(PAGES.glob("*.md")):
        with tempfile.TemporaryDirectory() as folder:
            play_page(page, Room(folder))
    end()


if __name__ == "__main__":
    main()
