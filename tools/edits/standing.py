"""What the refusal of an edit stands on, as a sum that is the same on every machine."""
from __future__ import annotations

import hashlib
from typing import Dict, Iterable, List, Mapping

from .edit import Edit
from .kit import Crate
from .sources import function_at, functions_in, outside_of_bodies

# the files of a function's own proofs; all others hold lemmas
OF_A_FUNCTION = ("Answers.antt", "Invariants.antt", "Proof.antt")
LENGTH = 16


def _is_of_a_function(path: str) -> bool:
    return path.startswith("proofs/") and path.endswith(OF_A_FUNCTION)


def told(texts: Mapping[str, str]) -> str:
    """A sum of all that a crate tells of itself: definitions, lemmas, and what is outside of
    bodies, without comments.
    """
    parts: List[str] = []
    for path, text in sorted(texts.items()):
        if path.startswith("src/"):
            parts += [path, outside_of_bodies(path, text)]
        elif not _is_of_a_function(path):
            parts += [path, text]
    return sum_of(parts)


def sum_of(parts: Iterable[str]) -> str:
    """A sum of texts in an order."""
    made = hashlib.sha256()
    for part in parts:
        made.update(f"{len(part)}\n{part}\n".encode())
    return made.hexdigest()


class Standing:
    """Sums for the edits of a tree's crates."""

    def __init__(self, kit: str, crates: Mapping[str, Crate]) -> None:
        self._kit, self._crates = kit, crates
        self._told: Dict[str, str] = {}

    def _told_by(self, name: str) -> str:
        if name not in self._told:
            self._told[name] = told(self._crates[name].texts)
        return self._told[name]

    def sum(self, edit: Edit) -> str:
        """The sum of what the edit's refusal stands on: the kit, the edit, the files that it
        turns, the proofs of the functions in which it does, and what the crate and those below
        tell.
        """
        crate = self._crates[edit.crate]
        parts = [self._kit, edit.name, edit.text]
        parts += [self._told_by(it) for it in [*crate.below, crate.name]]
        for path in edit.paths:
            parts += [path, crate.texts.get(path, "")]
        for path in sorted(self._proofs(edit, crate)):
            parts += [path, crate.texts[path]]
        return sum_of(parts)[:LENGTH]

    def _proofs(self, edit: Edit, crate: Crate) -> List[str]:
        """The files of the proofs of each function that the edit turns."""
        found: List[str] = []
        for change in edit.changes:
            text = crate.texts.get(change.path, "")
            line = text[: text.find(change.old)].count("\n") + 1
            if not change.path.startswith("src/"):
                continue
            function = function_at(functions_in(change.path, text), line)
            if function is not None:
                module = "" if function.owner else function.module.replace("::", "/")
                part = "/" + "/".join(it for it in (function.owner, function.name, "") if it) + "/"
                found += [
                    it for it in crate.texts if it.startswith(f"proofs/{module}") and part in it
                ]
        return list(dict.fromkeys(found))
