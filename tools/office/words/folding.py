"""Text as it is compared where a person types it: without accents, and without capitals."""
from __future__ import annotations

import unicodedata
from functools import lru_cache

# letters of which an accent is a part
PLAIN = str.maketrans(
    {"ß": "ss", "æ": "ae", "œ": "oe", "ø": "o", "đ": "d", "ð": "d", "ł": "l", "þ": "th", "ı": "i"}
)
# how some are written where a keyboard lacks them
SPELT = str.maketrans({"ä": "ae", "ö": "oe", "ü": "ue", "å": "aa", "ø": "oe"})


@lru_cache(maxsize=65536)
def folded(text: str) -> str:
    """A text without accents and capitals."""
    if text.isascii():
        return text.lower()
    parts = unicodedata.normalize("NFKD", text.casefold().translate(PLAIN))
    return "".join(letter for letter in parts if not unicodedata.combining(letter))


@lru_cache(maxsize=65536)
def searched(text: str) -> str:
    """What is searched for what was typed: a text as it is folded, and as it is spelt out."""
    if text.isascii():
        return text.lower()
    spelt = folded(unicodedata.normalize("NFC", text.casefold()).translate(SPELT))
    plain = folded(text)
    return plain if spelt == plain else f"{plain} {spelt}"
