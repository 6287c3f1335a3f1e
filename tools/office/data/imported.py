"""What an import has made, named by its folder where an instance is asked for."""
from __future__ import annotations

import argparse
import os

INSTANCE, START, BARRED, CLOSURES = "instance.ctt", "start.sol", "barred", "closures"


def take_imported(words: argparse.Namespace) -> None:
    """Puts the instance of an import in place of its folder, and takes its start, its barred rooms,
    what is blocked, and its labels, where no others are named. A day after another one has its own
    start."""
    words.closures = None
    name = "instance" if words.after is None else "changed"
    folder = getattr(words, name)
    if folder is None or not os.path.isfile(os.path.join(folder, INSTANCE)):
        return
    setattr(words, name, os.path.join(folder, INSTANCE))
    words.labels = words.labels or folder
    barred, start = os.path.join(folder, BARRED), os.path.join(folder, START)
    if words.barred is None and os.path.exists(barred):
        words.barred = barred
    if words.blocked is None and os.path.exists(os.path.join(folder, CLOSURES)):
        words.closures = folder
    if words.after is None and words.start is None and os.path.exists(start):
        words.start = start
