"""Names that differ in how they are typed alone: `Weiß,Björn` and `Weiß, Björn`. Two of a kind
are refused unless `labels.csv` has a row for each, which says that both are meant."""
from __future__ import annotations

import re
import unicodedata
from difflib import get_close_matches
from typing import Iterable, Optional


def key_of(name: str) -> str:
    """A name without case, accents, blanks and points; numbers stay apart from each other."""
    letters = unicodedata.normalize("NFKD", name.casefold())
    bare = "".join(letter for letter in letters if not unicodedata.combining(letter))
    parted = re.sub(r"(?<=\d)[^\w+#]+(?=\d)", ".", bare)
    return re.sub(r"[^\w+#.]|_|\.(?!\d)|(?<!\d)\.", "", parted)


def meant(typed: str, names: Iterable[str]) -> Optional[str]:
    """The name that a person may have meant by one that nothing has: with the same numbers."""
    numbers = re.findall(r"\d+", typed)
    keys = {key_of(name): name for name in names if re.findall(r"\d+", name) == numbers}
    found = get_close_matches(key_of(typed), keys, 1, 0.8)
    return keys[found[0]] if found else None
