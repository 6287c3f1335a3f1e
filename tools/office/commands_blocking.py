"""The commands about what is blocked. Each takes in what it needs alone."""
from __future__ import annotations

import argparse

from office.arguments import Commands, add_command
from office.day.folder import Day

WHAT = "room, teacher or course, its name, and perhaps a day (wed, or 3) and a period (from 1)"


def add_blocks(commands: Commands) -> None:
    one = add_command(commands, "block", "say when a room, a teacher or a course cannot be used")
    one.add_argument("what", metavar="WHAT", nargs="+", help=f"{WHAT}; * for each")
    one.add_argument("--why", metavar="TEXT", default="", help="the reason, for all who plan")
    one.set_defaults(do=do_block)
    one = add_command(commands, "unblock", "lift what is blocked: all that is a part of WHAT")
    one.add_argument("what", metavar="WHAT", nargs="+", help=f"{WHAT}; * for each")
    one.add_argument("--why", metavar="TEXT", default="", help="the reason, for all who plan")
    one.set_defaults(do=do_unblock)
    one = add_command(commands, "blocks", "list what is blocked, by whom, when and why")
    one.set_defaults(do=do_blocks)


def do_block(words: argparse.Namespace) -> int:
    from office.day.blocking import print_block

    return print_block(Day(words.day), words.what, words.why)


def do_unblock(words: argparse.Namespace) -> int:
    from office.day.blocking import print_unblock

    return print_unblock(Day(words.day), words.what, words.why)


def do_blocks(words: argparse.Namespace) -> int:
    from office.day.blocking import print_blocks

    return print_blocks(Day(words.day))
