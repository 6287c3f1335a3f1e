"""Pages with cases, which a script plays: each block of a page with what is said of it."""
import collections
import os
import re

from program import HERE

BLOCK = re.compile(r"```(\w+)(.*)\n((?:.*\n)*?)```\n")
# a block stands below a heading; `kind` and `info` are the words behind its mark
Block = collections.namedtuple("Block", "title kind info text below")


def blocks_of(path):
    """The blocks of a page of tests, one after another, each with the text below it."""
    with open(os.path.join(HERE, "tests", path), encoding="utf-8") as file:
        text = file.read()
    for found in BLOCK.finditer(text):
        title = re.findall(r"^#+ (.*)", text[: found.start()], re.MULTILINE)[-1]
        yield Block(title, *found.groups(), text[found.end() :])


def lines_of(text):
    """The lines of a block in which `; ` parts lines, too."""
    return re.split("; |\n", text.rstrip("\n"))


def typed_days():
    """The days of seats by their titles, each with its blocks by their kinds, as lines."""
    days = collections.defaultdict(dict)
    for block in blocks_of("seats/days.md"):
        # (a byte that is no text)
        text = block.text.replace("\\xff", "\udcff")
        days[block.title][block.kind] = lines_of(text)
    return days
