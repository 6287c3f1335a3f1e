"""What the office says at its own terminal."""
from __future__ import annotations

import contextlib
import sys

from office.words.text import shown_lines


def announce(*words: str) -> None:
    """Says a line of the office; the terminal may be closed by now."""
    with contextlib.suppress(OSError):
        print("office:", *map(shown_lines, words), file=sys.stderr, flush=True)
