"""Arguments of the commands of the office."""
from __future__ import annotations

import argparse
from typing import Any


def planner(text: str) -> int:
    if not (text.isascii() and text.isdigit() and int(text) < 64):
        raise argparse.ArgumentTypeError("a planner is a number, 0 to 63")
    return int(text)


def draft_number(text: str) -> int:
    if not (text.isascii() and text.isdigit()):
        raise argparse.ArgumentTypeError("a draft is a number, from 1; 0 is the start")
    return int(text)


Commands = Any


def add_command(commands: Commands, name: str, does: str) -> argparse.ArgumentParser:
    """Adds a command about a day."""
    sentence = does[0].upper() + does[1:] + "."
    made: argparse.ArgumentParser = commands.add_parser(
        name, help=does, description=sentence, allow_abbrev=False
    )
    made.add_argument("day", metavar="DAY", help="the folder of the day")
    return made


def add_at(command: argparse.ArgumentParser) -> None:
    at = "as it was after this draft, 0 for the start; else the newest one"
    command.add_argument("--at", metavar="NUMBER", type=draft_number, help=at)
