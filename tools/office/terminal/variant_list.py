"""The list of variants at the screen."""
from __future__ import annotations

from typing import Callable, Optional

from office.past.variants import Variants
from office.terminal.overlays import Listed
from office.words.notice import Question, say
from office.words.wording import Wording


class VariantList(Listed):
    """Variants, with what each would bring now; two are compared when the second one is chosen."""

    def __init__(
        self, variants: Variants, wording: Wording, ask: Callable[[Optional[Question]], None]
    ) -> None:
        self.variants, self.ask = variants, ask
        self.found = variants.listed()
        # those that are to be compared
        self.marked: list[int] = []
        super().__init__(
            wording.notice(say("variants")),
            wording.lines([one.notice() for one in self.found]),
            {"take up": self.take_up, "compare": self.compare, "throw away": self.throw_away},
        )

    def take_up(self, at: int) -> bool:
        self.ask(self.variants.take_up(self.found[at].name))
        return True

    def compare(self, at: int) -> bool:
        self.marked.append(at)
        if len(self.marked) < 2:
            self.lines[at] += "  (compared with ..)"
            return False
        one, other = self.marked
        self.ask(self.variants.compare(self.found[one], self.found[other]))
        return True

    def throw_away(self, at: int) -> bool:
        self.variants.throw_away(self.found[at].name)
        return True
