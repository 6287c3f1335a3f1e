"""A plain reading of files of closures: the first word that breaks the rule of its place."""
import re

MOST = 2_000_000
KINDS = ("room", "teacher", "course")


def number(word):
    """The number that a word is, or None."""
    return int(word) if re.fullmatch(rb"[0-9]+", word) and int(word) <= 999_999_999 else None


def fault_of(instance, text):
    """The fault of a file of closures as it is printed, or nothing. The instance is that of rules.py."""
    try:
        text.decode()
    except UnicodeDecodeError as broken:
        return f"L1 {broken.start}"
    words = text.split()
    for at, word in enumerate([*words, None], 1):
        fault = fault_at(instance, words, at, word)
        if fault == "end":
            return ""
        if fault:
            return f"{fault} {at}"
    raise AssertionError


def fault_at(instance, words, at, word):
    """The fault of the word in this place, counted from 1, behind words without a fault; `end` where the file ends, or nothing."""
    if word is None:
        return "L2"
    if at == 1:
        return "" if word == b"Blocked:" else "L3"
    if at == 2:
        return "L4" if number(word) is None else "L5" if number(word) > MOST else ""
    entry, part = divmod(at - 3, 4)
    if entry == number(words[1]):
        return "end" if word == b"END." else "L3"
    if part == 0:
        return "" if word.decode() in KINDS else "L3"
    if part == 1:
        kind = words[at - 2].decode()
        return "" if word.decode() in instance.names()[kind] else "L6"
    if word == b"*":
        return ""
    if number(word) is None:
        return "L4"
    most, fault = ((instance.days, "L7"), (instance.periods, "L8"))[part - 2]
    return "" if number(word) < most else fault
