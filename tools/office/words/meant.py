"""Whether what was typed may have been meant as something else than a reason: a name that was
looked for, or a word, of which the week has taken the first letter as a key."""
from __future__ import annotations

from typing import Callable, Iterable, Optional

from office.data.labels import Labels
from office.day.instance import Instance
from office.words.folding import folded
from office.words.notice import NOTHING, Notice, say

# letters that a word has behind the letter of a key; a reason with another one was no such word
BEHIND: dict[str, str] = {"c": "aehiloruyz", "p": "aefhilnorstuy"}
# a word of fewer letters than that is looked for among names alone
SHORTEST = 3
# so many letters are pressed one after another as keys; more are a word
FEW = 3


def names_of(instance: Instance, labels: Labels) -> list[str]:
    """All codes and names of a day."""
    called = [text for name in labels.names.values() for text in name if text]
    return [*instance.names(), *called]


def is_name(typed: str, names: Iterable[str]) -> bool:
    """Whether a text begins a name, or has words of names alone."""
    typed = " ".join(folded(typed).split())
    known = [folded(name) for name in names]
    words = {word for name in known for word in name.split()}
    is_begun = any(name.startswith(typed) for name in (known if " " in typed else words))
    return is_begun or all(word in words for word in typed.split())


def may_be_word(keys: str, why: str) -> bool:
    """Whether a reason is the rest of one word, of which a key was the first letter; if other
    letters were typed before that key, any word is."""
    text = folded(keys + why)
    if " " in text or len(text) < SHORTEST:
        return False
    return len(keys) > 1 or text[1] in BEHIND.get(keys.lower(), "")


def may_be_meant_otherwise(keys: str, why: str, names: Iterable[str]) -> bool:
    """Whether a reason that was typed behind keys of the week, or behind none, is to be asked
    about."""
    names, why = list(names), why.strip()
    if not why:
        return keys in names or len(keys) > FEW
    if keys and (is_name(keys + why, names) or may_be_word(keys, why)):
        return True
    return folded(why) in map(folded, names)


class Meant:
    """Asks once more about a reason that is typed. The same one is taken then; another one is asked
    about, too: who types a name goes on to type."""

    def __init__(
        self, key: str, names: Callable[[], Iterable[str]], is_needed: bool = False
    ) -> None:
        # `key` is what was pressed in the week before it, letter by letter
        self.key, self.names, self.is_needed = key, names, is_needed
        # what was asked about last
        self.asked: Optional[str] = None

    def asks(self, why: str) -> bool:
        """Whether a reason is asked about, before anything is done with it."""
        if self.is_needed and not why.strip():
            self.asked = why
            return True
        if why == self.asked:
            return False
        if self.asked is None and not may_be_meant_otherwise(self.key, why, self.names()):
            return False
        self.asked = why
        return True

    def notice(self, why: str) -> Notice:
        """What is asked; nothing, if it is not asked about."""
        if why != self.asked:
            return NOTHING
        if self.is_needed and not why.strip():
            return say("reason needed")
        return say("may be meant", name=f"{self.key}{why}")
