"""What the desk answers. A line is read into one of these where it comes out of the pipe."""
from __future__ import annotations

from dataclasses import dataclass, field
from enum import Enum
from typing import Callable, NamedTuple, Optional, Sequence, Union

from office.day.costs import COSTS, Costs
from office.day.desk_words import words_of
from office.day.edits import Edit, slot_of
from office.day.lecture import Lecture, Slot


class Said(Enum):
    """Answers that say nothing but what they are."""

    DONE = "done"
    OPENED = "opened"
    ALREADY_OPEN = "already open"
    REFRESHED = "refreshed"
    ABANDONED = "abandoned"
    LEFT = "left"
    NO_DRAFT = "no draft"
    NOTHING_TO_UNDO = "nothing to undo"
    NOTHING_TO_REDO = "nothing to redo"
    NOT_WRITTEN = "not written"
    # the desk could not take the line up; asked again it may
    NO_MEMORY = "no memory"
    NO_PLACE = "no place"

    def __str__(self) -> str:
        return self.value


WANTING = (Said.NO_MEMORY, Said.NO_PLACE)


class Fault(NamedTuple):
    """Why an edit is refused; of a clash or a room that is taken by which course."""

    kind: str
    other: str = ""

    @staticmethod
    def take(words: Sequence[str]) -> tuple[Fault, Sequence[str]]:
        """The fault that stands in front, and the words after it."""
        size = 2 if words[0] in ("clash", "roomtaken") else 1
        return Fault(*words[:size]), words[size:]

    @staticmethod
    def parse(text: str) -> Fault:
        return Fault.take(words_of(text))[0]

    def __str__(self) -> str:
        return " ".join(filter(None, self))


class Row(NamedTuple):
    """What a draft may depend on: a course or a slot; or what else has a name."""

    kind: str
    name: str
    slot: Optional[Slot] = None

    @staticmethod
    def read(words: Sequence[str]) -> Row:
        kind, *rest = words
        return Row(kind, "", slot_of(rest[:2])) if kind == "slot" else Row(kind, rest[0])

    def __str__(self) -> str:
        return f"slot {self.slot[0]} {self.slot[1]}" if self.slot else f"{self.kind} {self.name}"


@dataclass(frozen=True)
class Other:
    """Any other answer, with its text."""

    text: str = field(compare=False)

    def __str__(self) -> str:
        return self.text


@dataclass(frozen=True)
class BadLine(Other):
    """The line is none that the desk knows."""


@dataclass(frozen=True)
class Undone(Other):
    """The edit by which the last one was taken back."""

    edit: Edit


@dataclass(frozen=True)
class NotAllowed(Other):
    """An edit is refused."""

    fault: Fault


@dataclass(frozen=True)
class Committed(Other):
    """A draft is accepted, by its number at this desk."""

    number: int


@dataclass(frozen=True)
class Stale(Other):
    """A draft has ended, since a row on which it depends has changed."""

    row: Row


@dataclass(frozen=True)
class Status(Other):
    """An open draft: how many edits it has, how many drafts were accepted since it was opened, and
    the row for which it is stale by now."""

    edits: int
    since: int
    stale: Optional[Row]


class LeftOut(NamedTuple):
    """An edit that could not be made again, by its number from 1, and why."""

    number: int
    edit: Edit
    fault: Fault


@dataclass(frozen=True)
class Redone(Other):
    """A draft is made again: how many of how many edits, and those that were left out."""

    made: int
    of: int
    refused: list[LeftOut]

    def made_of(self, edits: Sequence[Edit]) -> list[Edit]:
        """The edits that were made again, of those that the draft had."""
        left_out = {one.number for one in self.refused}
        return [edit for number, edit in enumerate(edits, 1) if number not in left_out]


@dataclass(frozen=True)
class CostsAre(Other):
    costs: Costs


@dataclass(frozen=True)
class LecturesAre(Other):
    lectures: list[Lecture]


@dataclass(frozen=True)
class MissingAre(Other):
    """The courses of which lectures are missing, and how many."""

    courses: dict[str, int]


@dataclass(frozen=True)
class PriceIs(Other):
    price: int


class Offer(NamedTuple):
    """An edit that would be accepted, and by how much it changes the cost."""

    price: int
    edit: Edit

    @property
    def about(self) -> str:
        return self.edit.about


@dataclass(frozen=True)
class PricesAre(Other):
    """Edits with their prices, cheapest first."""

    offers: list[Offer]


# what a slot offers: the cheapest edit that leads there, or why there is none
SlotOffer = Union[Offer, Fault]


@dataclass(frozen=True)
class SlotsAre(Other):
    """What each slot offers, in the order of slots."""

    slots: list[SlotOffer]


Answer = Union[Said, Other]


# how each is read, by its first word; the words after it are given


def _done(text: str, words: Sequence[str]) -> Other:
    return Undone(text, Edit.take(words)[0])


def _stale(text: str, words: Sequence[str]) -> Other:
    return Stale(text, Row.read(words))


def _status(text: str, words: Sequence[str]) -> Other:
    stale = Row.read(words[3:]) if words[2] == "stale" else None
    return Status(text, int(words[0]), int(words[1]), stale)


def _redone(text: str, words: Sequence[str]) -> Other:
    made, of, rest, refused = int(words[0]), int(words[2]), words[3:], []
    while rest and rest[0] == "refused":
        edit, after = Edit.take(rest[2:])
        fault, after = Fault.take(after)
        refused.append(LeftOut(int(rest[1]), edit, fault))
        rest = after
    return Redone(text, made, of, refused)


def _costs(text: str, words: Sequence[str]) -> Other:
    return CostsAre(text, dict(zip(COSTS, map(int, words))))


def _lectures(text: str, words: Sequence[str]) -> Other:
    rest = words[1:]
    rows = zip(rest[0::4], rest[1::4], rest[2::4], rest[3::4])
    return LecturesAre(text, [Lecture(c, r, int(d), int(p)) for c, r, d, p in rows])


def _missing(text: str, words: Sequence[str]) -> Other:
    pairs = zip(words[1::2], words[2::2])
    return MissingAre(text, {course: int(count) for course, count in pairs})


def _prices(text: str, words: Sequence[str]) -> Other:
    rest, found = words[1:], []
    while rest:
        edit, after = Edit.take(rest[1:])
        found.append(Offer(int(rest[0]), edit))
        rest = after
    return PricesAre(text, found)


def _slots(text: str, words: Sequence[str]) -> Other:
    rest, found = words[1:], []
    while rest:
        offer: SlotOffer
        if rest[0] == "-":
            offer, rest = Fault.take(rest[1:])
        else:
            price = int(rest[0])
            edit, rest = Edit.take(rest[1:])
            offer = Offer(price, edit)
        found.append(offer)
    return SlotsAre(text, found)


READERS: dict[str, Callable[[str, Sequence[str]], Other]] = {
    "bad": lambda text, words: BadLine(text),
    "done": _done,
    "refused": lambda text, words: NotAllowed(text, Fault.take(words)[0]),
    "committed": lambda text, words: Committed(text, int(words[0])),
    "stale": _stale,
    "draft": _status,
    "redone": _redone,
    "costs": _costs,
    "lectures": _lectures,
    "missing": _missing,
    "price": lambda text, words: PriceIs(text, int(words[0])),
    "prices": _prices,
    "slots": _slots,
}
SAID = {one.value: one for one in Said}


def read_answer(text: str) -> Answer:
    """The answer that a line of the desk is."""
    if text in SAID:
        return SAID[text]
    words = words_of(text)
    if words and words[0] in READERS:
        try:
            return READERS[words[0]](text, words[1:])
        except (ValueError, IndexError, TypeError):
            pass
    return Other(text)


def fault_in(answer: Answer) -> Fault:
    """Why an edit is refused; another answer is a fault by its text."""
    return answer.fault if isinstance(answer, NotAllowed) else Fault(str(answer))


def costs_in(answer: Answer) -> Costs:
    """The four costs of an answer; none if it is another answer."""
    return answer.costs if isinstance(answer, CostsAre) else {}


def lectures_in(answer: Answer) -> list[Lecture]:
    """The lectures of an answer; none if it is another answer."""
    return answer.lectures if isinstance(answer, LecturesAre) else []


def missing_in(answer: Answer) -> dict[str, int]:
    """The missing lectures of an answer; none if it is another answer."""
    return answer.courses if isinstance(answer, MissingAre) else {}


def offers_in(answer: Answer) -> list[Offer]:
    """The offers of a `cheapest`, cheapest first; none if it is another answer."""
    return answer.offers if isinstance(answer, PricesAre) else []
