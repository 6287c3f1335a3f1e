"""A must-fail edit: a wrong body of a crate, told by what stands in its place."""
from __future__ import annotations

import os
from dataclasses import dataclass
from typing import Dict, List, Mapping, Tuple

PARTS = ("src/", "specs/", "proofs/")


class BadEdit(Exception):
    """An edit cannot be read or applied; it says why."""


@dataclass(frozen=True)
class Change:
    """A text of one line in a file of the crate, and the one that replaces it."""

    path: str
    old: str
    new: str


@dataclass(frozen=True)
class Edit:
    """The changes that are made together, and the text that says them."""

    crate: str
    name: str
    text: str
    changes: Tuple[Change, ...]

    @property
    def paths(self) -> List[str]:
        """The files that it changes, each once."""
        return list(dict.fromkeys(change.path for change in self.changes))


def parse(crate: str, name: str, text: str) -> Edit:
    """Reads the lines `file:`, `old:` and `new:` as `rt must-fail` does."""
    changes: List[Change] = []
    path, old = "", ""
    for line in text.split("\n"):
        if line.startswith("file: "):
            path = line[len("file: ") :].strip()
            if os.path.normpath(path) != path or not path.startswith(PARTS):
                raise BadEdit(f"{path} is no file below src/, specs/ or proofs/")
        elif line.startswith("old: "):
            old = line[len("old: ") :]
        elif line.startswith("new:"):
            if not path or not old:
                raise BadEdit("a 'new:' line stands before any 'file:' or 'old:' line")
            new = line[len("new:") :]
            changes.append(Change(path, old, new[1:] if new.startswith(" ") else new))
            old = ""
    if not changes:
        raise BadEdit("it has no 'old:' and 'new:' pair")
    return Edit(crate, name, text, tuple(changes))


def apply(edit: Edit, texts: Mapping[str, str]) -> Dict[str, str]:
    """The texts that it changes, by their paths, of the texts as they stand."""
    made: Dict[str, str] = {}
    for change in edit.changes:
        text = made.get(change.path, texts.get(change.path))
        if text is None:
            raise BadEdit(f"there is no file {change.path}")
        found = text.count(change.old)
        if found != 1:
            raise BadEdit(f"an 'old:' text is in {change.path} {found} times, and not once")
        made[change.path] = text.replace(change.old, change.new)
    if all(text == texts[path] for path, text in made.items()):
        raise BadEdit("it changes nothing")
    return made


def read_all(folder: str, crate: str) -> Tuple[List[Edit], Dict[str, str]]:
    """The edits of a crate's folder in the order of their names, and why others cannot be read."""
    edits: List[Edit] = []
    bad: Dict[str, str] = {}
    names = sorted(os.listdir(folder)) if os.path.isdir(folder) else []
    for file in names:
        name, ending = os.path.splitext(file)
        if ending == ".edit":
            with open(os.path.join(folder, file), encoding="utf-8", errors="replace") as it:
                text = it.read()
            try:
                edits.append(parse(crate, name, text))
            except BadEdit as why:
                bad[name] = str(why)
    return edits, bad
