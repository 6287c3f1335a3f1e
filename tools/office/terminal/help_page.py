"""The page of help: a line for each key, and paragraphs of signs."""
from __future__ import annotations

from office.day.costs import MEANINGS
from office.words.actions import ACTIONS, key_of

ARROWS = "arrows  move the cursor over the week; Tab goes to the next lecture."
SIGNS = """\
Signs: > the cursor, ^ the lecture that is picked up, * changed by your draft, ~ changed by others
since it was opened (without a draft: since you sat down, or your last draft ended), % by both; !12
twelve students have no seat, o2 it stands alone on its day (points), closed: the course is
unavailable then; @ben: ben has a draft open that changes it, pin: it is pinned.

Looking costs nothing: no look of the screen becomes part of your draft. A draft is opened by itself
with the first edit. Each edit is in the log before you see it done."""


def cost_line() -> str:
    """What each part of the cost counts."""
    return "Costs: " + "; ".join(f"{part} is {counts}" for part, counts in MEANINGS.items()) + "."


def help_lines() -> list[str]:
    keys = [f"{key_of(one.name):>6}  {one.help}" for one in ACTIONS if one.help]
    signs = [" ".join(part.split("\n")) for part in SIGNS.split("\n\n")]
    return [ARROWS, *keys, "", cost_line(), *signs]
