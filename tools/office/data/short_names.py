"""Short names for narrow cells, where a table gives none: initials and numbers."""
from __future__ import annotations

import re

# a name of so many letters is short enough, and a made one has no more
SHORT, WORD = 8, 5
NUMBER = re.compile(r"\d[\w.]*|[IVX]+")
SMALL = frozenset("and der die das des für in of the to und von zu zur".split())


def shortened(name: str) -> str:
    """`Linear Algebra I` is `LA-I`, `Hörsaal 2` is `Hörsa-2`, `Weiß, Björn` is `Weiß`."""
    family = name.partition(",")[0] if re.fullmatch(r"[^\W\d]+, [^\W\d]+", name) else name
    words = re.findall(r"\w[\w.]*", family)
    numbers = [word for word in words[1:] if NUMBER.fullmatch(word)]
    letters = [word for word in words if word not in numbers and word.lower() not in SMALL]
    if not letters:
        return "".join(words)[:SHORT]
    initials = "".join(word[0] for word in letters)
    first = letters[0][: SHORT if not numbers else WORD] if len(letters) == 1 else initials
    return "-".join([first[:SHORT], *numbers])[: SHORT + 4]


def short_names(names: dict[str, str]) -> dict[str, str]:
    """A short name for each code with a longer name, none of them twice, and none that is a code or
    a name of another one."""
    taken = {*names, *names.values()}
    found: dict[str, str] = {}
    for code, name in names.items():
        if len(name or code) > SHORT:
            short, number = shortened(name or code), 1
            made = short
            while made in taken:
                number += 1
                made = f"{short}/{number}"
            taken.add(made)
            found[code] = made
    return found
