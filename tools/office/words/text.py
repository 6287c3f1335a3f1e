"""Text as a terminal shows it: a letter takes one column, two, or none."""
from __future__ import annotations

import unicodedata


def shown(text: str) -> str:
    """A text without what a terminal would take as a command."""
    if text.isprintable():
        return text
    return "".join(
        letter if letter.isprintable() else "\N{REPLACEMENT CHARACTER}" for letter in text
    )


def shown_lines(text: str) -> str:
    """Lines of text without what a terminal would take as a command."""
    return "\n".join(map(shown, text.split("\n")))


def letter_width(letter: str) -> int:
    # vowels and ends of Hangul stand in the columns of the letter before them
    if unicodedata.category(letter) in ("Mn", "Me", "Cf") or "\u1160" <= letter <= "\u11ff":
        return 0
    return 2 if unicodedata.east_asian_width(letter) in "WF" else 1


def width(text: str) -> int:
    """How many columns a text takes."""
    return len(text) if text.isascii() else sum(map(letter_width, text))


def cut(text: str, columns: int) -> str:
    """As much of a text as fits; a sign stands in the place of the rest."""
    if width(text) <= columns:
        return text
    taken, kept = 0, []
    for letter in text:
        taken += letter_width(letter)
        if taken > columns - 1:
            break
        kept.append(letter)
    return "".join(kept) + "~" if columns > 0 else ""


def cut_front(text: str, columns: int) -> str:
    """As much of the end of a text as fits."""
    while width(text) > columns:
        text = text[1:]
    return text


def fit(text: str, columns: int) -> str:
    """A text in so many columns exactly."""
    text = cut(text, columns)
    return text + " " * (columns - width(text))


def wrap(text: str, columns: int) -> list[str]:
    """A text in lines of so many columns, parted at blanks; a word that is too long is cut. Each
    line begins as far to the right as the text does."""
    indent = " " * min(len(text) - len(text.lstrip(" ")), columns // 2)
    room = columns - len(indent)
    lines, line = [], ""
    for word in text.strip(" ").split(" "):
        longer = f"{line} {word}" if line else word
        if line and width(longer) > room:
            lines.append(line)
            line = word
        else:
            line = longer
    return [indent + cut(each, room) for each in [*lines, line]]


def counted(number: int, word: str) -> str:
    """A number with its noun."""
    return f"{number} {word}" if number == 1 else f"{number} {word}s"


def signed(price: int) -> str:
    """A price with its sign."""
    return f"{price:+d}" if price else "0"
