"""The week as rows of text with styles."""
from __future__ import annotations

from typing import NamedTuple, Optional

from office.day.lecture import Slot
from office.words.text import fit, shown, signed, width as columns_of
from office.words.wording import Wording
from office.work.carry import SWAP, Carry
from office.work.week import Cell, View
from office.work.work import Work

# a piece of a row with its style: "", "head", "mine", "others", "points", "good", "bad", "dim",
# "cursor"
Row = list[tuple[str, str]]
NARROWEST = 13


def name_in_cell(wording: Wording, view: View, cell: Cell) -> str:
    """The lectures of a cell without what the title says already."""
    room = [wording.short("room", one.room) for one in cell.lectures]
    course = [wording.short("course", one.course) for one in cell.lectures]
    if view.kind == "course":
        return ", ".join(room)
    if view.kind == "room":
        return ", ".join(course)
    return ", ".join(f"{one} {other}" for one, other in zip(course, room))


def marks_in_cell(cell: Cell) -> list[str]:
    """`@` and the name of who has a draft open here, whether something is pinned, and whether it is
    blocked."""
    names = dict.fromkeys(f"@{shown(work.name)}" for work in cell.at_work)
    pin, blocked = ["pin"] if cell.pins else [], ["blocked"] if cell.blocked else []
    return [*blocked, *names, *pin]


def signs_in_cell(cell: Cell) -> str:
    """`!` students without a seat, `o` points for standing alone, and marks."""
    found = marks_in_cell(cell)
    for short, alone in cell.signs:
        found += ([f"!{short}"] if short else []) + ([f"o{alone}"] if alone else [])
    return " ".join(found)


def price_in_cell(wording: Wording, carry: Carry, slot: Slot) -> str:
    """The cheapest price with its room or partner, or why there is none."""
    offers = carry.cheapest(slot)
    if not offers:
        return wording.notice(carry.short_reason(slot))
    kind = "course" if carry.kind is SWAP else "room"
    return f"{signed(offers[0].price)} {wording.short(kind, offers[0].about)}"


class Visible(NamedTuple):
    """Which days and periods are seen, and how wide their labels and a day are."""

    days: range
    periods: range
    label: int
    column: int


def window_of(work: Work, wording: Wording, cursor: Slot, height: int, width: int) -> Visible:
    """As many days and periods as there is room for, with those of the cursor."""
    instance = work.planning.instance
    label = 1 + max(
        [3] + [columns_of(wording.period(period)) for period in range(instance.periods)]
    )
    days = max(1, min(instance.days, (width - label) // NARROWEST))
    periods = max(1, min(instance.periods, (height - 1) // 2))
    first_day = min(max(0, cursor[0] - days // 2), instance.days - days)
    first = min(max(0, cursor[1] - periods // 2), instance.periods - periods)
    column = min(26, max(4, (width - label) // days))
    return Visible(range(first_day, first_day + days), range(first, first + periods), label, column)


class Grid:
    """The week of a planner's work in a window."""

    def __init__(self, work: Work, wording: Wording, cursor: Slot) -> None:
        self.work, self.wording, self.cursor = work, wording, cursor
        self.cells: dict[Slot, Cell] = work.cells()

    def rows(self, height: int, width: int) -> list[Row]:
        """The grid in so many rows and columns."""
        wording = self.wording
        window = window_of(self.work, wording, self.cursor, height, width)
        rows: list[Row] = [[(self.days_text(window), "head")]]
        for period in window.periods:
            both = [self.cell_lines((day, period), window.column) for day in window.days]
            label = f"{wording.period(period):>{window.label - 1}} "
            rows.append([(label, "head"), *(lines[0] for lines in both)])
            more = self.more_periods(window, period)
            rows.append([(f"{more:>{window.label - 1}} ", "head"), *(lines[1] for lines in both)])
        return rows

    def days_text(self, window: Visible) -> str:
        """The days above their columns; `<` and `>` are for days beyond the window."""
        texts = [f"  {self.wording.day(day)}" for day in window.days]
        if window.days.stop < self.work.planning.instance.days:
            texts[-1] += " >"
        before = "<" if window.days.start > 0 else ""
        return fit(before, window.label) + "".join(fit(text, window.column) for text in texts)

    def more_periods(self, window: Visible, period: int) -> str:
        """The sign for periods beyond the window, at its first and its last one."""
        above = period == window.periods.start > 0
        last = self.work.planning.instance.periods - 1
        below = period == window.periods.stop - 1 < last
        return ("^" if above else "") + ("v" if below else "")

    def cell_lines(self, slot: Slot, column: int) -> list[tuple[str, str]]:
        """The two lines of a cell, each with its style. Each colour has a sign, too."""
        cell, carry = self.cells[slot], self.work.carry
        pointer = ">" if slot == self.cursor else "^" if carry and slot == carry.slot else " "
        mark = {(True, True): "%", (True, False): "*", (False, True): "~"}.get(
            (cell.is_mine, cell.is_others), " "
        )
        name = name_in_cell(self.wording, self.work.view, cell)
        style = "mine" if cell.is_mine else "others" if cell.is_others else ""
        below, below_style = self.below(cell, slot, name, carry)
        if slot == self.cursor:
            style = below_style = "cursor"
        inner = column - 3
        return [
            (f"{pointer}{mark}{fit(name, inner)}|", style),
            (f"{pointer} {fit(shown(below), inner)}|", below_style),
        ]

    def below(self, cell: Cell, slot: Slot, name: str, carry: Optional[Carry]) -> tuple[str, str]:
        """The second line of a cell."""
        if carry is not None:
            offers = carry.cheapest(slot)
            style = "dim" if not offers else "good" if offers[0].price < 0 else "points"
            parts = [price_in_cell(self.wording, carry, slot), *marks_in_cell(cell)]
            # what is blocked is told so once
            return " ".join(dict.fromkeys(parts)), style
        signs = signs_in_cell(cell)
        if signs:
            return signs, "points"
        return ("closed" if cell.is_closed else "" if name else "."), "dim"
