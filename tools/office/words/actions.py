"""The actions of a seat by their names, each with its key at the screen. Help, rows of keys, boxes
and sentences are made of this table."""
from __future__ import annotations

from typing import NamedTuple


class Action(NamedTuple):
    """Something that a planner can do: its name, its key, two words for a row of keys (empty if it
    is in none), and a sentence for the help (empty if that is said elsewhere)."""

    name: str
    key: str
    short: str
    help: str


ACTIONS = (
    Action(
        "pick up",
        "enter",
        "pick up",
        "picks up the lecture at the cursor: each slot shows its cheapest price. Enter again puts "
        "it down, Escape leaves it.",
    ),
    Action(
        "cheapest",
        "b",
        "",
        "goes to the slot with the cheapest price; Tab goes through the rooms of a slot by price, "
        "in the slot of the lecture itself, too.",
    ),
    Action(
        "swap",
        "s",
        "swap",
        "picks up the lecture for a swap: each slot shows the cheapest one to change places with.",
    ),
    Action(
        "missing",
        "m",
        "missing",
        "lists the missing lectures: choose one, and put it down as one that was picked up.",
    ),
    Action(
        "take out",
        "x",
        "take out",
        "takes the lecture at the cursor out of the week; it is missing then.",
    ),
    Action(
        "view",
        "v",
        "week of ..",
        "chooses another week: of a curriculum, a teacher, a room or a course. Letters narrow the "
        "list.",
    ),
    Action(
        "weeks",
        "w",
        "weeks",
        "shows the week of the course at the cursor, then of its teacher, its room, its curricula.",
    ),
    Action(
        "history",
        "h",
        "history",
        "lists the drafts that have changed the course at the cursor, or the week if nothing "
        "stands there: Enter shows one, and t takes it back by edits of your draft.",
    ),
    Action(
        "pin",
        "p",
        "",
        "pins the lecture at the cursor, with a reason: others are asked before they pick it up; "
        "or takes the pin off. The desk refuses nothing for it.",
    ),
    Action(
        "block",
        "B",
        "",
        "blocks the room, the teacher or the course at the cursor, in the slot, on its day or on "
        "all days, with a reason; or lifts what is blocked there. The rules change for all.",
    ),
    Action("who", "i", "who", "lists who sits where, on what he works, and since when."),
    Action("undo", "u", "undo", "takes the last edit of the draft back."),
    Action(
        "edits",
        "e",
        "edits",
        "lists the edits of the draft, each to be taken back, those that were taken back, and "
        "those that a redo could not make again.",
    ),
    Action(
        "commit",
        "c",
        "commit",
        "shows what a commit would publish, and asks why: Enter commits, Escape goes back. The "
        "draft is accepted if nothing that it stands on has changed.",
    ),
    Action(
        "refresh",
        "f",
        "refresh",
        "brings the draft up to date with what others have committed.",
    ),
    Action(
        "redo",
        "r",
        "redo",
        "makes the edits of a stale draft again on the newest timetable, and commits nothing.",
    ),
    Action(
        "abandon",
        "a",
        "abandon",
        "gives the draft up, when you have said yes; its edits are put aside.",
    ),
    Action("undo undo", "U", "", "makes an edit again that was taken back."),
    Action(
        "put aside",
        "n",
        "aside",
        "puts the edits of the draft aside under a name, and begins anew.",
    ),
    Action(
        "variants",
        "N",
        "",
        "lists what was put aside, with what each would save now: Enter makes one the draft, d "
        "compares two, x throws one away.",
    ),
    Action(
        "findings",
        "!",
        "to mend",
        "lists what breaks a rule or costs points, the worst first, and gaps. Letters narrow the "
        "list, Enter goes there.",
    ),
    Action(
        "print",
        "P",
        "",
        "writes the week that is seen, with your draft in it, as a page to print, into the folder "
        "in which you sat down.",
    ),
    Action("line", ":", "line", "types a line of the desk by hand, as `course c0109`."),
    Action("help", "?", "help", ""),
    Action(
        "leave",
        "q",
        "go",
        "goes away for a while, and asks before if a draft is open: it stays, and you find it "
        "when you sit down again.",
    ),
    Action("next", "tab", "", ""),
    Action("last", "backtab", "", ""),
    Action("lay down", "escape", "", ""),
)
# what a question may be answered with, and what is done with a line of a list
ANSWERS = (
    Action("make earlier", "y", "makes them again in a draft", ""),
    Action("decline", "n", "never asks again", ""),
    Action("give up", "y", "gives them up", ""),
    Action("leave now", "y", "leaves", ""),
    Action("take edit back", "t", "takes it back", ""),
    Action("make again", "r", "makes them again", ""),
    Action("go on", "y", "goes on all the same", ""),
    Action("take up", "enter", "makes it the draft", ""),
    Action("compare", "d", "compares it", ""),
    Action("throw away", "x", "throws it away", ""),
    Action("unpin", "y", "takes it off", ""),
    Action("take back", "t", "takes it back in your draft", ""),
    Action("lift", "l", "lifts it", ""),
    Action("put back", "y", "puts them back in your draft", ""),
    Action("seen", "enter", "goes on", ""),
    Action("take over", "y", "goes on with them", ""),
    Action("leave to them", "q", "leaves them", ""),
)
BY_NAME: dict[str, Action] = {action.name: action for action in ACTIONS + ANSWERS}
# the keys of the week, by the key
WEEK_KEYS: dict[str, str] = {action.key: action.name for action in ACTIONS}
NAMED = {"enter": "Enter", "tab": "Tab", "backtab": "Shift-Tab", "escape": "Escape"}
# the two rows of keys, free and with a lecture picked up
FREE: tuple[tuple[str, ...], ...] = (
    ("pick up", "swap", "missing", "take out", "view", "weeks", "history"),
    ("undo", "edits", "commit", "refresh", "put aside", "findings", "who", "help", "leave"),
)


def key_of(name: str) -> str:
    """The key of an action, as a person reads it."""
    key = BY_NAME[name].key
    return NAMED.get(key, key)


class KeyNames(dict[str, str]):
    """The keys of actions, for sentences."""

    def __missing__(self, name: str) -> str:
        return key_of(name)


def row_of(names: tuple[str, ...]) -> str:
    """A row of keys."""
    return "  ".join(f"{key_of(name)} {BY_NAME[name].short}" for name in names)
