"""Words of tables in other languages than English: names of tables, headings, weekdays and words in
cells. Some German ones are in `words.csv` beside this file; a `words.csv` among the tables of an
office has others, with the same columns."""
from __future__ import annotations

import csv
import os
from enum import Enum
from functools import lru_cache
from typing import Optional

from office.data.labels import WEEKDAYS

HERE = os.path.dirname(os.path.abspath(__file__))
FILE = "words.csv"


class Of(Enum):
    """What a word stands for."""

    TABLE = "table"
    HEADING = "heading"
    WEEKDAY = "weekday"
    WORD = "word"


def plain(heading: str) -> str:
    """A heading without what people write in several ways."""
    return " ".join(heading.lower().replace("_", " ").replace("-", " ").split())


class Vocabulary:
    """What words mean; a word that is not known means itself."""

    def __init__(self) -> None:
        self.meanings: dict[tuple[Of, str], str] = {}

    def add(self, of: Of, word: str, means: str) -> None:
        self.meanings[of, plain(word)] = plain(means)

    def meaning(self, of: Of, word: str) -> str:
        """The English word for a word."""
        found = plain(word)
        return self.meanings.get((of, found), found)

    def copy(self) -> Vocabulary:
        made = Vocabulary()
        made.meanings.update(self.meanings)
        return made

    def weekday(self, text: str) -> Optional[int]:
        """The weekday of a name, or of its first three letters."""
        found = self.meaning(Of.WEEKDAY, text.rstrip("."))
        if found.isdigit() and (Of.WEEKDAY, plain(text.rstrip("."))) in self.meanings:
            return int(found) - 1
        for number, weekday in enumerate(WEEKDAYS):
            if found in (weekday.lower(), weekday[:3].lower()):
                return number
        return None


@lru_cache(maxsize=1)
def own_words() -> Vocabulary:
    """The words that are known everywhere."""
    found = Vocabulary()
    with open(os.path.join(HERE, FILE), encoding="utf-8", newline="") as file:
        for row in csv.DictReader(file):
            found.add(Of(row["what"]), row["word"], row["means"])
    return found
