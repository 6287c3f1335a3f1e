"""The four soft costs of a timetable by name."""
from __future__ import annotations

from typing import Mapping, Union

COSTS = ("capacity", "days", "compactness", "stability")
# what each counts
MEANINGS = {
    "capacity": "a point for each student without a seat",
    "days": "five for each day that a course is taught on too few",
    "compactness": "two for each lecture of a curriculum that stands alone on its day",
    "stability": "one for each further room of a course",
}
Costs = dict[str, int]


def costs_in_words(costs: Mapping[str, Union[int, str]]) -> str:
    """What a timetable costs, with its four parts by name."""
    parts = ", ".join(f"{kind} {costs[kind]}" for kind in COSTS)
    return f"{sum(int(costs[kind]) for kind in COSTS)} ({parts})"
