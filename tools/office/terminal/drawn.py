"""What a screen has drawn last: a planner acts on what he has seen."""
from __future__ import annotations

from typing import Optional

from office.day.lecture import Lecture, Slot
from office.seat.answers import Offer
from office.terminal.grid import Grid
from office.work.week import View
from office.work.work import Work


class Drawn:
    """What was drawn last."""

    def __init__(self) -> None:
        self.view: Optional[View] = None
        self.lectures: dict[Slot, Optional[Lecture]] = {}
        self.offer: Optional[tuple[Slot, Optional[Offer]]] = None

    def keep(self, work: Work, grid: Grid) -> None:
        """Keeps what a planner sees now."""
        carry, cursor = work.carry, grid.cursor
        self.view = work.view
        self.lectures = {
            slot: next(iter(cell.lectures), None) for slot, cell in grid.cells.items()
        }
        self.offer = (cursor, carry.chosen(cursor)) if carry else None
