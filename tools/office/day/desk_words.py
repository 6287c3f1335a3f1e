"""Words of the desk's files and lines: the bytes 9 to 13 and 32 part them, and no other."""
from __future__ import annotations


def decoded(line: bytes) -> str:
    """A line as text from which its bytes can be had again."""
    return line.decode("utf-8", "surrogateescape")


def encoded(line: str) -> bytes:
    return line.encode("utf-8", "surrogateescape")


def words_of(line: str) -> list[str]:
    """The words of a line."""
    if line.isascii() and line.isprintable():
        # nothing but blanks parts these
        return line.split()
    return [decoded(word) for word in encoded(line).split()]


def has_words(line: bytes) -> bool:
    """Whether the desk answers a line: it skips one without words."""
    return bool(line.split())
