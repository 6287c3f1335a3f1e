"""The week of one as a page for a browser and for one sheet of A4."""
from __future__ import annotations

import os
from functools import lru_cache
from html import escape

from office.data.one_week import OneWeek, cost_line
from office.day.lecture import Slot
from office.words.text import shown, width as columns_of

HERE = os.path.dirname(os.path.abspath(__file__))
# A4 across without its margins, in points, and how many lines stand above and below a week
SHEET = 785, 538
HEAD_LINES = 9
# makes the link to a calendar one by which a telephone follows it
FOLLOW = """<script>
for (const link of document.querySelectorAll("a.calendar"))
  if (location.protocol.startsWith("http"))
    link.href = link.href.replace(/^https?:/, "webcal:");
</script>
"""


@lru_cache(maxsize=1)
def style() -> str:
    with open(os.path.join(HERE, "week.css"), encoding="utf-8") as file:
        return file.read()


def page(title: str, body: str, letters: str = "10pt", language: str = "en") -> str:
    """A page that needs nothing else, with letters of this size on paper."""
    return (
        '<!DOCTYPE html>\n'
        f'<html lang="{language}" style="--print: {letters}">\n<head>\n<meta charset="utf-8">\n'
        '<meta name="viewport" content="width=device-width, initial-scale=1">\n'
        f"<title>{escape(title)}</title>\n<style>\n{style()}</style>\n</head>\n<body>\n{body}"
        "</body>\n</html>\n"
    )


def lines_in(texts: list[str], columns: float) -> int:
    """About how many lines texts take in a column of so many letters."""
    return sum(-(-columns_of(text) // max(1, int(columns))) for text in texts if text)


def print_size(week: OneWeek, has_costs: bool) -> str:
    """How large letters are on paper, so that the week is on one sheet: as large as its fullest
    cells allow, in points."""
    days, periods = week.at.instance.days, range(week.at.instance.periods)
    texts: dict[int, list[list[str]]] = {period: [] for period in periods}
    for slot, lectures in week.slots.items():
        found = [words[: 3 if has_costs else 2] for words in map(week.words, lectures)]
        texts[slot[1]].append([text for words in found for text in words])
    for half_points in range(20, 6, -1):
        size = half_points / 2
        letters = (SHEET[0] - 6 * size) / max(1, days) / (0.62 * size) - 1.5
        rows = [max([lines_in(cell, letters) + 2 for cell in texts[p]], default=2) for p in periods]
        if (sum(rows) + HEAD_LINES) * 1.4 * size <= SHEET[1]:
            break
    return f"{size}pt"


def place(slot: Slot) -> str:
    return f'style="grid-area: {slot[1] + 2} / {slot[0] + 2}"'


def lecture_text(week: OneWeek, slot: Slot, has_costs: bool) -> str:
    """What stands in a slot."""
    parts: list[str] = []
    for words in map(week.words, week.slots[slot]):
        rest = f"<p>{escape(words.rest)}</p>" if words.rest else ""
        costs = f"<i>{escape(words.costs)}</i>" if has_costs and words.costs else ""
        parts.append(f"<b>{escape(words.first)}</b>{rest}{costs}")
    when = f"<p><small>{escape(week.when(slot))}</small></p>"
    return f"<article {place(slot)}>{when}{''.join(parts)}</article>\n"


def grid(week: OneWeek, has_costs: bool) -> str:
    """Days beside each other; on a narrow screen below each other, without what is free."""
    instance, labels = week.at.instance, week.labels
    days, periods = range(instance.days), range(instance.periods)
    parts = [
        f'<div class="at" style="grid-area: {period + 2} / 1">{labels.period(period)}</div>\n'
        for period in periods
    ]
    for day in days:
        head = f'<h2 style="grid-area: 1 / {day + 2}">{escape(labels.day(day).capitalize())}</h2>\n'
        cells = [
            lecture_text(week, (day, period), has_costs)
            if (day, period) in week.slots
            else f'<div class="free" {place((day, period))}></div>\n'
            for period in periods
        ]
        used = any(slot[0] == day for slot in week.slots)
        empty = "" if used else ' class="empty"'
        parts.append(f"<section{empty}>\n{head}{''.join(cells)}</section>\n")
    columns = f"grid-template-columns: max-content repeat({len(days)}, minmax(0, 1fr))"
    return f'<div class="week" style="{columns}">\n{"".join(parts)}</div>\n'


def head_lines(week: OneWeek) -> list[str]:
    """What stands below the title: whose week it is, of which timetable, and when."""
    labels = week.labels
    term = labels.term
    lines = [f"{labels.word(week.view.kind.capitalize())}: {week.facts()}"]
    if term is not None:
        name = f"{term.name}, " if term.name else ""
        lines.append(f"{name}{term.first} {labels.word('to')} {term.last}")
    return lines


def week_page(
    week: OneWeek,
    has_costs: bool,
    links: str = "",
    foot: str = "",
    script: str = "",
    below: str = "",
) -> str:
    """The page of a week, with links above it, and what is to be said, a line and a script below
    it."""
    title = f"{week.title()} \N{EN DASH} {shown(week.labels.title or week.at.instance.name)}"
    heads = "".join(f"<p>{escape(line)}</p>\n" for line in head_lines(week))
    missing = "; ".join(week.missing())
    word = week.labels.word("Not placed")
    absent = f'<p class="missing">{word}: {escape(missing)}</p>\n' if missing else ""
    costs = f"<p>Whole timetable: {escape(cost_line(week.at))}</p>\n" if has_costs else ""
    notes = f'<section class="changes">\n{below}</section>\n' if below else ""
    footer = f"<footer><p>{escape(foot)}</p></footer>\n" if foot else ""
    return page(
        title,
        f"{links}<main>\n<header>\n<h1>{escape(week.title())}</h1>\n{heads}{absent}</header>\n"
        f"{grid(week, has_costs)}{costs}{notes}</main>\n{footer}{script}",
        print_size(week, has_costs),
        week.labels.language.value,
    )
