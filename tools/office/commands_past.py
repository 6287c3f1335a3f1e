"""The commands about what was accepted. Each takes in what it needs alone."""
from __future__ import annotations

import argparse

from office.arguments import Commands, add_at, add_command, planner
from office.commands_data import add_view
from office.day.folder import Day

WHOSE = ("teacher", "room", "course", "curriculum")


def add_past(commands: Commands) -> None:
    log = "say who changed what, when and why, and what it cost before and after"
    one = add_command(commands, "log", log)
    only = "only what concerns this course, teacher, room, curriculum or planner, or this draft"
    one.add_argument("what", metavar="WHAT", nargs="*", help=only)
    one.add_argument("--json", action="store_true", help="as JSON, for other programs")
    one.set_defaults(do=do_log)
    one = add_command(commands, "show", "print the timetable of a day, open or closed")
    add_at(one)
    add_view(one)
    one.set_defaults(do=do_show)
    add_diff(commands)
    back = "take back what a draft did, by edits of an open draft; nothing is committed by it"
    one = add_command(commands, "revert", back)
    which = "the draft's number, or as in monday:9 a draft of another day"
    one.add_argument("draft", metavar="NUMBER", help=which)
    seat = "the seat whose draft gets the edits; else the first one that is free"
    one.add_argument("--seat", metavar="PLANNER", type=planner, help=seat)
    one.add_argument("--name", help="who sits there, for the others and the log")
    one.set_defaults(do=do_revert)


def add_diff(commands: Commands) -> None:
    does = "say in which lectures two timetables differ, of one day or of two"
    one: argparse.ArgumentParser = commands.add_parser(
        "diff", help=does, description=does[0].upper() + does[1:] + ".", allow_abbrev=False
    )
    for name, place in (("one", "first"), ("other", "second")):
        of = f"the {place} day; with a number as it was after this draft, 0 for the start"
        one.add_argument(name, metavar="DAY[:NUMBER]", help=of)
    group = one.add_mutually_exclusive_group()
    for kind in WHOSE:
        only = f"only lectures of this {kind}"
        group.add_argument(f"--{kind}", metavar=kind.upper(), help=only)
    one.set_defaults(do=do_diff)


def do_log(words: argparse.Namespace) -> int:
    from office.past.log import print_log

    return print_log(Day(words.day), words.what, words.json)


def do_show(words: argparse.Namespace) -> int:
    from office.past.show import print_show
    from office.past.show_week import asked, print_one_week

    one = asked(words)
    if one is not None:
        return print_one_week(Day(words.day), words, *one)
    return print_show(Day(words.day), words.at)


def do_diff(words: argparse.Namespace) -> int:
    from office.past.diff import print_diff

    chosen = [(kind, getattr(words, kind)) for kind in WHOSE if getattr(words, kind) is not None]
    return print_diff(words.one, words.other, *chosen)


def do_revert(words: argparse.Namespace) -> int:
    from office.past.revert import print_revert

    return print_revert(Day(words.day), words.draft, words.seat, words.name)
