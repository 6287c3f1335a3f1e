#!/usr/bin/env python3
"""Makes of the help of `timedesk` and of `office` what the manual and the completions have of it.

    tools/flags.py --write [PROGRAM]
    tools/flags.py --check [PROGRAM]

docs/help.txt and docs/help have what a program of timedesk prints as help; the help of office is
that of its parser. --write takes the help of PROGRAM, if it is given, and writes the options of
each command into docs/timedesk.1, and commands and options into docs/completion.bash. --check
prints the lines that differ there, and ends with status 1 if there are any.
"""
from __future__ import annotations

import argparse
import difflib
import pathlib
import re
import subprocess
import sys
from typing import Dict, Iterator, List, NamedTuple, Optional, Tuple

sys.dont_write_bytecode = True

from office.main import parser as office_parser  # noqa: E402

TOP = pathlib.Path(__file__).resolve().parent.parent
DOCS = TOP / "docs"
MANUAL = DOCS / "timedesk.1"
COMPLETION = DOCS / "completion.bash"

# what no help says: of these options one may be given; these are given together
EITHER = (
    ("--curriculum", "--teacher", "--course", "--room", "--grids"),
    ("--csv", "--json"),
    ("--html", "--csv", "--ics"),
    ("--socket", "--port"),
    ("--links", "--new-key"),
)
TOGETHER = (("--login-header", "--logins"),)


class Option(NamedTuple):
    """An option of a command: its names, what stands behind it, and what its help says."""

    short: Optional[str]
    name: str
    value: Optional[str]
    told: str
    needed: bool = False


class Command(NamedTuple):
    """A command, or the program itself, which has no name."""

    name: str
    options: List[Option]


class Program(NamedTuple):
    name: str
    commands: List[Command]

    def bare(self) -> List[str]:
        """The options that have no value behind them, in no command."""
        options = [option for command in self.commands for option in command.options]
        bare = {option.name for option in options if option.value is None}
        both = sorted(bare & {option.name for option in options if option.value is not None})
        if both:
            sys.exit(f"{self.name}: with a value, and without one: {' '.join(both)}")
        return sorted(bare)


# The help of timedesk, which stands in files.

COMMAND = re.compile(r"^  ([a-z]+)  ", re.MULTILINE)
OPTION = re.compile(r"^  (?:(-\w), |    )(--[a-z-]+)(?: <([A-Z]+)>)?  +(.*)$", re.MULTILINE)


def part(text: str, title: str) -> str:
    """The lines of a help below a title, up to an empty one."""
    return text.partition(f"\n{title}:\n")[2].partition("\n\n")[0]


def command_names(text: str) -> List[str]:
    """The commands that the help of the program names, but for `help`."""
    return [name for name in COMMAND.findall(part(text, "Commands")) if name != "help"]


def read_options(text: str) -> List[Option]:
    found = OPTION.findall(part(text, "Options"))
    return [Option(short or None, name, value or None, told) for short, name, value, told in found]


def help_file(command: str) -> pathlib.Path:
    return DOCS / "help" / f"{command}.txt" if command else DOCS / "help.txt"


def read_timedesk() -> Program:
    texts = {"": help_file("").read_text(encoding="utf-8")}
    for name in command_names(texts[""]):
        texts[name] = help_file(name).read_text(encoding="utf-8")
    return Program("timedesk", [Command(name, read_options(texts[name])) for name in texts])


def printed_helps(program: str) -> Dict[pathlib.Path, str]:
    """The help that a program prints for itself and for each command, by the files that keep it."""

    def ask(*words: str) -> str:
        # the words of usage name the program by its first word
        asked = ["timedesk", *words, "--help"]
        done = subprocess.run(asked, executable=program, stdout=subprocess.PIPE, check=True)
        return done.stdout.decode()

    top = ask()
    return {help_file(""): top, **{help_file(name): ask(name) for name in command_names(top)}}


# The help of office, which its parser has.


def parsed_options(parser: argparse.ArgumentParser) -> List[Option]:
    options = []
    for action in parser._actions:  # argparse tells them nowhere else
        if action.option_strings:
            short = next((name for name in action.option_strings if name[:2] != "--"), None)
            name = next(name for name in action.option_strings if name[:2] == "--")
            value = None if action.nargs == 0 else str(action.metavar or action.dest.upper())
            options.append(Option(short, name, value, action.help or "", action.required))
    return options


def read_office() -> Program:
    top = office_parser()
    commands = [Command("", parsed_options(top))]
    for action in top._actions:
        if isinstance(action, argparse._SubParsersAction):
            for name, parser in action.choices.items():
                commands.append(Command(name, parsed_options(parser)))
    return Program("office", commands)


# The manual.


def escaped(text: str) -> str:
    """A text as words of the manual."""
    text = re.sub(r"(?<!\w)-|(?<=-)-", r"\\-", text.replace("\\", "\\e"))
    return re.sub(r"`([^`]*)`", r"\\fB\1\\fR", text)


def dashed(name: str) -> str:
    return name.replace("-", "\\-")


def groups(options: List[Option]) -> Iterator[Tuple[List[Option], bool]]:
    """Options that stand in one pair of brackets, and whether one of them alone may be given."""
    names = [option.name for option in options]
    told: List[str] = []
    for option in options:
        if option.name in told or option.name == "--help":
            continue
        group, either = [option.name], False
        for kin in EITHER + TOGETHER:
            if option.name in kin and sum(name in kin for name in names) > 1:
                group, either = [name for name in names if name in kin], kin in EITHER
        told += group
        yield [other for other in options if other.name in group], either


def bracketed(group: List[Option], either: bool) -> List[str]:
    """The lines of the synopsis for options in brackets."""
    words: List[Tuple[str, str]] = []
    for option in group:
        if words and either:
            words.append(("", "|"))
        words.append(("B", dashed(option.name)))
        if option.value is not None:
            words.append(("I", option.value))
    lines = []
    for at, (font, text) in enumerate(words):
        first, last = at == 0, at == len(words) - 1
        if first:
            lines.append(f".RB [ {text}{' ]' if last else ''}")
        elif last:
            lines.append(f".{font}R {text} ]")
        else:
            lines.append(f".{font} {text}" if font else text)
    return lines


def synopsis(command: Command) -> List[str]:
    """The lines of the synopsis for the options of a command."""
    lines = []
    for group, either in groups(command.options):
        one = group[0]
        if one.needed:
            names = f"{dashed(one.short)} | {dashed(one.name)}" if one.short else dashed(one.name)
            lines += [f".BR {names}", f".I {one.value}"]
        else:
            lines += bracketed(group, either)
    return lines


def heading(option: Option) -> str:
    names = [dashed(name) for name in (option.short, option.name) if name]
    if option.value is None:
        return ".BR " + ' ", " '.join(names)
    return ".BI " + f' " {option.value}\\fR, " '.join(names) + f' " {option.value}"'


def option_list(program: Program) -> List[str]:
    """What the help says of each option, and for which commands."""
    of: Dict[Option, List[str]] = {}
    for command in program.commands[1:]:
        for option in command.options:
            if option.name != "--help":
                of.setdefault(option, []).append(f"\\fB{command.name}\\fR")
    lines = []
    for option, commands in of.items():
        told = escaped(option.told[0].upper() + option.told[1:])
        lines += [".TP", heading(option), f"{', '.join(commands)}:", f"{told}."]
    return lines


def with_synopses(lines: List[str], program: Program) -> List[str]:
    """The manual with a program's options in its synopsis. What has no dash there is left alone."""
    for command in program.commands[1:]:
        title = f".B {program.name} {command.name}"
        if title not in lines or lines.index(title) > lines.index(".SH DESCRIPTION"):
            sys.exit(f"docs/timedesk.1: its synopsis needs a line {title}")
        begin = lines.index(title) + 1
        end = next(at for at in range(begin, len(lines)) if re.match(r"\.(br|PP|SH)\b", lines[at]))
        dash = next((at for at in range(begin, end) if "\\-" in lines[at]), end)
        lines = [*lines[:dash], *synopsis(command), *lines[end:]]
    return lines


# Both files.


def between(lines: List[str], begin: str, end: str, made: List[str]) -> List[str]:
    """The lines with others between two of them."""
    if lines.count(begin) != 1 or end not in lines[lines.index(begin) :]:
        sys.exit(f"there is to be one line {begin} and after it a line {end}")
    after = lines.index(begin) + 1
    return [*lines[:after], *made, *lines[lines.index(end, after) :]]


def completed(program: Program) -> List[str]:
    """The commands and options of a program, as its completion has them."""
    commands = " ".join(command.name for command in program.commands[1:])
    lines = [
        f"_{program.name}_commands=({commands})",
        f"_{program.name}_bare='{' '.join(program.bare())}'",
        f"_{program.name}_known() {{",
        "    case $1 in",
    ]
    for command in program.commands:
        names = " ".join(sorted(option.name for option in command.options))
        lines.append(f"    {command.name or chr(39) * 2}) options='{names}' ;;")
    return [*lines, "    *) options=--help ;;", "    esac", "}"]


def made_files() -> Dict[pathlib.Path, str]:
    """The manual and the completions, with what the help of both programs says."""
    manual = MANUAL.read_text(encoding="utf-8").splitlines()
    completion = COMPLETION.read_text(encoding="utf-8").splitlines()
    for program in (read_timedesk(), read_office()):
        made = with_synopses(manual, program)
        begin, end = f'.\\" the options of {program.name}, by tools/flags.py', '.\\" end of options'
        manual = between(made, begin, end, option_list(program))
        begin, end = f"# the words of {program.name}, by tools/flags.py", "# end of words"
        completion = between(completion, begin, end, completed(program))
    return {MANUAL: "\n".join(manual) + "\n", COMPLETION: "\n".join(completion) + "\n"}


def differing(file: pathlib.Path, wanted: str) -> List[str]:
    """The lines in which a file differs, below its name."""
    found = file.read_text(encoding="utf-8") if file.exists() else ""
    changes = difflib.unified_diff(found.splitlines(), wanted.splitlines(), n=0, lineterm="")
    lines = [line for line in changes if line[0] in "-+"][2:]
    return [f"{file.relative_to(TOP)}:", *lines] if found != wanted else []


def main(words: List[str]) -> int:
    if not 1 <= len(words) <= 2 or words[0] not in ("--write", "--check"):
        sys.exit(__doc__)
    kept = printed_helps(words[1]) if words[1:] else {}
    if words[0] == "--write":
        for old in DOCS.glob("help/*.txt") if kept else ():
            old.unlink()
        for file, text in kept.items():
            file.parent.mkdir(exist_ok=True)
            file.write_text(text, encoding="utf-8")
        for file, text in made_files().items():
            file.write_text(text, encoding="utf-8")
        return 0
    wanted = [*kept.items(), *made_files().items()]
    lines = [line for file, text in wanted for line in differing(file, text)]
    if kept:
        others = sorted(set(DOCS.glob("help/*.txt")) - set(kept))
        lines += [f"{file.relative_to(TOP)}: it is the help of no command" for file in others]
    print("".join(line + "\n" for line in lines), end="")
    return 1 if lines else 0


if __name__ == "__main__":
    sys.exit(main(sys.argv[1:]))
