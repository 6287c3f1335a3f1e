"""What actions are called in a browser: keys in the week, and buttons."""
from __future__ import annotations

from office.web.message_types import KeyData
from office.words.actions import ACTIONS, BY_NAME, NAMED

# keys that a browser has otherwise: Tab leaves the week there, and / is a key of searches
KEYS = {
    "pick up": ["Enter", " "],
    "lay down": ["Escape"],
    "next": ["o"],
    "view": ["v", "/"],
    "take out": ["x", "Delete"],
}
# what has no key there, and what does it
ELSEWHERE = {"last": "the arrows in the list of rooms"}
HELP = {
    "cheapest": "goes to the slot with the cheapest price.",
    "history": "lists the drafts that have changed the course at the cursor, or the week if "
    "nothing stands there; each can be taken back by edits of your draft.",
    "lay down": "leaves a lecture where it was, and goes back from a box.",
    "missing": "goes to the missing lectures: choose one, and put it down as one that was picked "
    "up.",
    "variants": "lists what was put aside, with what each would save now; each can be made the "
    "draft, compared with another, or thrown away.",
    "findings": "lists what breaks a rule or costs points, the worst first, and gaps; each leads "
    "where it is.",
    "next": "lists the rooms of a slot by price, of a swap the lectures to change places with.",
    "print": "makes a page to print or to send of the week that is seen, with your draft in it.",
}
BUTTONS = {
    "redo": "Make my edits again",
    "abandon": "Give up",
    "make earlier": "Make them again",
    "decline": "Never ask again",
    "give up": "Give them up",
    "leave now": "Leave the seat",
    "take edit back": "Take it back",
    "commit": "Commit",
    "make again": "Make my edits again",
    "take back": "Take it back in my draft",
    "take over": "Go on with them",
    "leave to them": "Leave them",
    "pin": "Pin it",
    "put aside": "Put them aside",
    "take up": "Make it my draft",
    "throw away": "Throw it away",
    "lift": "Lift it",
    "put back": "Put them back in my draft",
    "compare": "Compare with…",
    "go on": "Go on all the same",
    "unpin": "Take the pin off",
    "block": "Block it",
    "seen": "Go on",
}


# answers that one has to choose: Enter alone goes back
CAREFUL = ("give up", "leave now", "go on", "unpin")


class BrowserKeyNames(dict[str, str]):
    """What a sentence calls an action."""

    def __missing__(self, name: str) -> str:
        keys = keys_of(name)
        return said_key(keys[0]) if keys else ELSEWHERE[name]


def button(name: str) -> str:
    """What stands on the button of an action."""
    short = BY_NAME[name].short or name
    return BUTTONS.get(name, short[:1].upper() + short[1:])


def letter(name: str) -> str:
    """The letter of an answer, where nothing is typed; not all have one."""
    key = BY_NAME[name].key
    return "" if key in NAMED else key


def keys_of(name: str) -> list[str]:
    if name in ELSEWHERE:
        return []
    return KEYS.get(name, [BY_NAME[name].key])


def said_key(key: str) -> str:
    """A key as it is printed on a keyboard."""
    named = {"Escape": "Esc", " ": "Space"}
    if len(key) == 1 and key.isupper():
        return f"Shift {key}"
    return named.get(key, key.upper() if len(key) == 1 else key)


def key_table() -> list[KeyData]:
    """The keys of the week, each in a sentence."""
    return [
        {
            "name": action.name,
            "keys": keys_of(action.name),
            "said": " or ".join(said_key(key) for key in keys_of(action.name)[:2]),
            "help": HELP.get(action.name, action.help),
        }
        for action in ACTIONS
        if keys_of(action.name) and (action.help or action.name in HELP or action.name == "help")
    ]
