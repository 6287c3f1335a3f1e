"""What has failed when the server has looked for news: it is said once, and looked at again."""
from __future__ import annotations

import contextlib
import traceback
from typing import Iterator

from office.refused import Refused, sentence
from office.words.announce import announce


class LookFaults:
    """The faults that last, by what was looked at."""

    def __init__(self) -> None:
        self._said: dict[str, str] = {}

    @contextlib.contextmanager
    def kept(self, what: str) -> Iterator[None]:
        """A look of which a fault is said, and ends nothing else."""
        try:
            yield
        except Exception as fault:
            self._say(what, fault)
        else:
            self._said.pop(what, None)

    def _say(self, what: str, fault: Exception) -> None:
        is_told = isinstance(fault, (Refused, OSError))
        told = sentence(fault) if isinstance(fault, OSError) else str(fault) or repr(fault)
        if self._said.get(what) == told:
            return
        self._said[what] = told
        announce(f"{what}: {told}")
        if not is_told:
            traceback.print_exception(type(fault), fault, fault.__traceback__)
