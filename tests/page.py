#!/usr/bin/env python3
"""Compares the page that `page` prints with a plain writing of it, reads it as a browser does, and opens it in one.

PROGRAM names another program. The last line is 'N passed, M failed'.
"""
import random
import re
import sys
import tempfile

sys.dont_write_bytecode = True
from drawn import draw_blocked, draw_instance, draw_solution  # noqa: E402
from page_opened import check_opened  # noqa: E402
from page_reader import check_read, closed_cells  # noqa: E402
from plain_page import PARTS, TITLES, Page  # noqa: E402
from program import EXAMPLES, NAMES, call, check, check_full, end, pair_of, read_files, words_of, write_files  # noqa: E402
from rules import Instance  # noqa: E402

DRAWN = 60


def part_of(text, tag):
    """The text of the only element with a tag."""
    return text[text.find(f"<{tag}>") + len(tag) + 2:text.find(f"</{tag}>")]


def check_page(name, files, days=None, plain=False, one=None, grids=None):
    """Compares a page with a plain writing of it, and reads it: files of an instance, a solution, and perhaps barred rooms and
    closures; of all that it can have, or of `one`, a kind and a name, or of one kind of `grids`. Gives the style and the script, and
    what the cells say of their slots."""
    texts = read_files(files)
    instance = Instance(texts[0], *texts[2:])
    options = [f"--days={days}"] if days is not None else []
    options += [f"--{one[0]}={one[1]}"] if one else []
    options += ["--plain"] if plain else []
    options += ["--grids", grids] if grids else []
    status, text, said = call("page", *words_of(files), *options)
    check(f"{name}: status and standard error", (status, said), (0, ""))
    style, script = part_of(text, "style"), "" if one else part_of(text, "script")
    page = Page(instance, instance.read_solution(texts[1]), style, script, files[1], (days or "").split(","), plain, one, grids)
    wanted = page.text()
    check(name, text, wanted)
    if text == wanted:
        check_read(name, text, page)
    return (style, script), {(cell[0], said) for cell, said in closed_cells(page)}


def check_style(style, script):
    """The style and the script take nothing from elsewhere; the style minds dark windows, paper, wide windows and narrow ones."""
    check("nothing by the script", re.findall(r"https?:|//|<|fetch|import|eval|innerHTML|cookie|Storage", script), [])
    check("columns of one width", "table-layout: fixed" in style, True)
    check("one sheet a grid", "break-before: page" in style and "break-after: avoid" in style, True)
    check("two columns", "grid-template-columns" in style and "min(100%" in style, True)
    check("nothing from elsewhere", re.findall(r"url\(|@import|https?:|//|<|expression", style), [])
    check("dark windows", "prefers-color-scheme: dark" in style and "color-scheme: light dark" in style, True)
    check("paper", "@media print" in style and "break-inside: avoid" in style, True)
    check("narrow windows", "overflow-x: auto" in style, True)


def one_of(text, draw):
    """The kind and the name of one of an instance whose week a word can ask for, or none where it has none."""
    named = [(kind, name) for kind, names in Instance(text).names().items() for name in names if "\0" not in name]
    return draw.choice(named) if named else None


def main():
    for name, folder in ("wide", NAMES), ("markup", NAMES), ("spring", EXAMPLES):
        looks, _ = check_page(f"the page of {name}", pair_of(folder, name))
    check_style(*looks)
    check_page("the page of spring with days", pair_of(EXAMPLES, "spring"), "mon,tue,wed,thu,fri")
    check_page("the page of markup with days", pair_of(NAMES, "markup"), "<mon>,,'wed' & \"wed\"")
    check_page("a plain page of spring", pair_of(EXAMPLES, "spring"), plain=True)
    check_page("the page of spring with its rooms", pair_of(EXAMPLES, "spring"), grids="rooms")
    check_page("a page of a folder's file", pair_of(NAMES, "wide"), one=one_of(read_files(pair_of(NAMES, "wide"))[0], random.Random(1)), plain=True)
    check_full("a page that cannot be written", "page", *pair_of(NAMES, "wide"))
    draw = random.Random(38)
    marks = set()
    with tempfile.TemporaryDirectory() as folder:
        for n in range(DRAWN):
            text, barred = draw_instance(draw)
            instance = Instance(text, barred)
            solution, blocked = draw_solution(draw, instance), draw_blocked(draw, instance)
            days = draw.choice([None, "", "mon,tue", "a,,c,d,e,f,g,h"])
            files = write_files(folder, text, solution, barred, blocked)
            drawn_looks, said = check_page(f"drawn page {n}", files, days)
            check(f"the style of drawn page {n}", drawn_looks, looks)
            marks |= said
            one, grids = draw.choice([(one_of(text, draw), None), (None, draw.choice([None, *(part[0] for part in PARTS)]))])
            check_page(f"a part of drawn page {n}", files, days, draw.random() < 0.5, one, grids)
    check_opened()
    check("each mark in a drawn page", marks, {(letter, TITLES["blocked"]) for letter in "rtk"} | {("k", "closed")})
    end()


if __name__ == "__main__":
    main()
