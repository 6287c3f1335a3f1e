"""What a person is told: a code with data. `wording` puts it into words, for either face."""
from __future__ import annotations

from dataclasses import dataclass, field
from typing import Any, Callable, NamedTuple, Optional

# what was not done, or is lost if nothing is done about it
BAD = {
    "refused",
    "stale",
    "not written",
    "not written nor kept",
    "not in the minutes",
    "not these edits",
    "other price",
}


@dataclass(frozen=True)
class Notice:
    """What is said. The data are named by what they are: a course, a room, a slot, an edit .."""

    code: str = ""
    data: dict[str, Any] = field(default_factory=dict)

    def __bool__(self) -> bool:
        return bool(self.code)

    @property
    def is_bad(self) -> bool:
        return self.code in BAD


NOTHING = Notice()


def say(code: str, **data: Any) -> Notice:
    return Notice(code, data)


class Reason(NamedTuple):
    """A reason that is typed for a question: what it is called, the answer with which it goes, and
    what is done with it."""

    label: Notice
    answer: str
    take: Callable[[str], Optional["Question"]]


class Question(NamedTuple):
    """What is to be read, or to be answered. The answers are named as actions are; one without any
    is read alone. An answer may lead to the next question. Choices are a list that narrows as one
    types; the one that is chosen leads on, too. A question that cannot wait has to be answered
    before anything else is done. One with a reason is answered by that."""

    title: Notice
    lines: list[Notice] = []
    answers: dict[str, Callable[[], Optional["Question"]]] = {}
    choices: list[tuple[Notice, Callable[[], Optional["Question"]]]] = []
    can_wait: bool = True
    reason: Optional[Reason] = None
