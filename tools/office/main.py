"""The commands of the office."""
from __future__ import annotations

import argparse
import os
import sys
from typing import Optional

from office.arguments import Commands, add_command, planner
from office.commands_blocking import add_blocks
from office.commands_data import add_data
from office.commands_past import add_past
from office.day.folder import Day
from office.refused import MACHINE, Refused, sentence
from office.web.launch import add_places, serve, web_of
from office.words.text import shown_lines

EXAMPLES = """a day, and the next one:
  office open monday spring.ctt 8 --start spring.sol
  office sit monday 3 --name anna
  office status monday
  office close monday
  office open tuesday --after monday
a room is closed, and open again:
  office block monday room r04 wed --why "heating"
  office unblock monday room r04
what was done, and taken back:
  office log monday c0109
  office diff monday tuesday --teacher t005
  office revert tuesday monday:9
from spreadsheets, to a teacher, and to a web server:
  office import tables -o plan
  office open monday plan 8
  office show monday --teacher t005 --ics
  office publish monday site

A day is a folder, with all that belongs to it. Close it also after a crash:
what was committed is on the disk. `office COMMAND --help` explains a command,
and docs/OFFICE.md has a whole day."""


def add_open(commands: Commands) -> None:
    does = "open a day, and keep it until it is closed; DAY alone goes on with one that was killed"
    one = add_command(commands, "open", does)
    instance = "the instance, or what an import has made; not if the day follows another one"
    one.add_argument("instance", metavar="INSTANCE", nargs="?", help=instance)
    count = "how many planners, 1 to 64"
    one.add_argument("planners", metavar="PLANNERS", nargs="?", type=int, help=count)
    start = "the timetable to begin with; else it is empty"
    one.add_argument("--start", metavar="SOLUTION", help=start)
    one.add_argument("--barred", metavar="FILE", help="rooms that courses must not have")
    blocked = "when rooms, teachers and courses cannot be used; `office block` changes it later"
    one.add_argument("--blocked", metavar="FILE", help=blocked)
    labels = "a folder with names, times and the term; with --after: other ones"
    one.add_argument("--labels", metavar="FOLDER", help=labels)
    after = "begin with what this day has left, and as many planners"
    one.add_argument("--after", metavar="DAY", help=after)
    changed = "with --after: the instance that holds from now on"
    one.add_argument("--instance", metavar="CHANGED", dest="changed", help=changed)
    other = "with --after: another number of planners"
    one.add_argument("--planners", metavar="N", dest="seats", type=int, help=other)
    web = "serve the seats to browsers, too; the options below say where"
    one.add_argument("--web", action="store_true", help=web)
    add_places(one)


def add_web(commands: Commands) -> None:
    one = add_command(commands, "web", "serve the seats of a day to browsers")
    add_places(one)
    key = "make a new key for a seat, or for `reader`; the old link ends"
    one.add_argument("--new-key", metavar="SEAT", help=key)
    links = "print the links of seats that are served"
    one.add_argument("--links", action="store_true", help=links)


def add_others(commands: Commands) -> None:
    one = add_command(commands, "sit", "sit down as a planner")
    one.add_argument("planner", metavar="PLANNER", type=planner, help="the seat, from 0")
    one.add_argument("--name", help="who sits there, for the others and the log")
    one.add_argument("--plain", action="store_true", help="lines in place of the screen")
    add_web(commands)
    status = "say who sits, how far their drafts are, and what the timetable costs"
    add_command(commands, "status", status)
    close = "close a day, and write its journal, its audit and the timetable that it leaves"
    one = add_command(commands, "close", close)
    wait = "how long those who sit have for it; 60 by default"
    one.add_argument("--wait", metavar="SECONDS", type=float, default=60.0, help=wait)


def parser() -> argparse.ArgumentParser:
    """The words that the office takes."""
    top = argparse.ArgumentParser(
        prog="office",
        description="Keeps a day of planners, and sits down at it.",
        epilog=EXAMPLES,
        formatter_class=argparse.RawDescriptionHelpFormatter,
        allow_abbrev=False,
    )
    unproved = "open with a desk that is built without proof, in about three minutes"
    top.add_argument("--unproved", action="store_true", help=unproved)
    commands = top.add_subparsers(dest="command", metavar="COMMAND", required=True)
    add_open(commands)
    add_others(commands)
    add_blocks(commands)
    add_past(commands)
    add_data(commands)
    return top


def names_day_alone(words: argparse.Namespace) -> bool:
    """Whether nothing is said with which a day would be opened."""
    given = [words.instance, words.planners, words.changed, words.seats, words.start]
    return all(word is None for word in [*given, words.barred, words.blocked, words.labels])


def open_by(words: argparse.Namespace, top: argparse.ArgumentParser) -> int:
    from office.data.imported import take_imported
    from office.day.opening import Plan, open_day, plan_after

    take_imported(words)
    day = Day(words.day)
    if words.after is not None:
        if words.instance is not None or words.start is not None:
            top.error(
                "open: with --after the day begins with what that one has left: "
                "no INSTANCE, no PLANNERS, no --start"
            )
        plan = plan_after(day, Day(words.after), words.seats, words.changed, words.barred)
        plan.blocked, plan.mends = words.blocked, plan.mends or words.blocked is not None
        plan.take_closures(words.closures)
        plan.labels, plan.web = words.labels or plan.labels, web_of(day, words)
        return open_day(plan, words.unproved)
    if day.is_there() and names_day_alone(words):
        from office.day.reopening import reopen_day

        return reopen_day(day, web_of(day, words))
    if (
        words.instance is None
        or words.planners is None
        or words.changed is not None
        or words.seats is not None
    ):
        top.error("open: DAY INSTANCE PLANNERS, or DAY --after DAY, or DAY alone to go on with it")
    plan = Plan(day, words.planners, words.instance, words.start, words.barred)
    plan.blocked, plan.labels, plan.web = words.blocked, words.labels, web_of(day, words)
    plan.take_closures(words.closures)
    return open_day(plan, words.unproved)


def do(words: argparse.Namespace, top: argparse.ArgumentParser) -> int:
    """Does a command. Each takes in what it needs alone."""
    if words.unproved and words.command not in ("open", "import"):
        top.error("--unproved is for open and import alone: a day remembers its program")
    if words.command == "open":
        return open_by(words, top)
    if "do" in words:
        done: int = words.do(words)
        return done
    day = Day(words.day)
    if words.command == "sit":
        from office.terminal.sitting import sit_down

        return sit_down(day, words.planner, words.name, words.plain)
    if words.command == "web":
        return serve(day, words)
    if words.command == "status":
        from office.day.status import print_status

        return print_status(day)
    from office.day.closing import close_day

    return close_day(day, words.wait)


def main(typed: Optional[list[str]] = None) -> int:
    top = parser()
    words = top.parse_args(typed)
    try:
        return do(words, top)
    except Refused as refused:
        if refused.reason:
            print("office:", shown_lines(refused.reason), file=sys.stderr)
        return refused.status
    except BrokenPipeError:
        # who reads has enough
        os.dup2(os.open(os.devnull, os.O_WRONLY), sys.stdout.fileno())
        return MACHINE
    except OSError as fault:
        print("office:", shown_lines(sentence(fault)), file=sys.stderr)
        return MACHINE
    except KeyboardInterrupt:
        return 130
