"""Sentences about what was committed, and what planners tell each other."""
from __future__ import annotations

PAST: dict[str, str] = {
    "drafts of": "Drafts that have changed {row}, newest first",
    "changes of": "What has changed {row}, newest first",
    "never changed": "No draft of today has changed {row}.",
    "draft choice": "{number} {who}, {time}: {reasons}{why}",
    "edit words": "{shifts}",
    "and more": "{count} more",
    "because": " ({why})",
    "draft title": "Draft {number}, {who}, {time}",
    "why": "Why: {why}",
    "no why": "No reason was given.",
    "no change": "  No lecture stands elsewhere after it.",
    "cost part": "{part} {price}",
    "cost parts": "{reasons}",
    "cost change": "Cost before {before}, after {after}: {parts}",
    "cost not known": "What it cost is not known: the program does not play the minutes.",
    "draft taken back": "Draft {number} is taken back by {count:edit}; none is committed yet.",
    "nothing taken back": "Nothing of draft {number} is taken back.",
    "not taken back": "Draft {number} is not taken back: {fault}.",
    "left as it is": "Left as it is:",
    "kept line": "{shifts}: {reason}",
}
KNOWING: dict[str, str] = {
    "who is where": "Who sits where",
    "nobody": "nobody",
    "sits": "{who}, since {time}",
    "at seat": "seat {planner}: {sitter}{work}",
    "no draft known": "; no draft open",
    "draft since": "; a draft of {who} since {time}, {count:edit}: {reasons}",
    "one course": "{course}",
    "at work": "{who} has a draft open on it, since {time}.",
    "pinned": "Pinned by {who}, {time}{why}.",
    "pinned lecture": "{course} on {slot} is pinned: go on all the same?",
    "commit first": "{course} is not committed there: commit it first, then pin it.",
    "take pin off": "{course} on {slot} is pinned: take the pin off?",
    "pinned now": "{course} on {slot} is pinned: others are asked first; the desk does not know "
    "it.",
    "unpinned": "{course} on {slot} is not pinned any more.",
    "no pin": "The pin cannot be written: {fault}.",
}
