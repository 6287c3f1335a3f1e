"""The kit's own calls: the crates of a tree, and a check of one with other texts in it."""
from __future__ import annotations

import importlib.machinery
import importlib.util
import os
import shutil
import signal
import sys
from types import ModuleType
from typing import Any, Dict, List, Mapping, Optional, Sequence

from . import said

PARTS = ("src", "specs", "proofs")


def load_rt() -> ModuleType:
    """The kit's command as a module."""
    command = shutil.which("rt")
    if command is None:
        raise SystemExit("edits: the command rt is not on the path")
    loader = importlib.machinery.SourceFileLoader("rt", os.path.realpath(command))
    spec = importlib.util.spec_from_loader("rt", loader)
    assert spec is not None
    made = importlib.util.module_from_spec(spec)
    sys.modules["rt"] = made
    sys.dont_write_bytecode = True
    loader.exec_module(made)
    return made


class Crate:
    """A crate of a tree whose libraries below are built."""

    def __init__(self, kit: Kit, known: Any) -> None:
        self._kit, self._known = kit, known
        self.name: str = known.name
        self.folder: str = known.folder
        self._texts: Optional[Dict[str, str]] = None

    @property
    def below(self) -> List[str]:
        """The repository's crates that it stands on."""
        return [it.name for it in self._known.below()]

    @property
    def lines(self) -> int:
        """How many lines its sources, definitions and proofs have."""
        return sum(it.count("\n") for it in self.texts.values())

    @property
    def texts(self) -> Dict[str, str]:
        """Its files by their paths."""
        if self._texts is None:
            self._texts = dict(sorted(read_texts(self.folder).items()))
        return self._texts

    def lacking(self) -> List[str]:
        """The crates below that are not built in the tree."""
        return [it.name for it in self._known.below() if not os.path.isdir(it.rlib)]

    def check(self, texts: Mapping[str, str], only: Sequence[str], kept: str) -> said.Said:
        """Checks it with these texts in place of its own, over what a folder keeps."""
        flags = ["--jobs", "1"]
        for path in only:
            flags += ["--only", path]
        for _ in range(2):
            ran = self._kit.rt.checked(self._known, texts, flags, kept)
            # one that is killed most likely lacked memory
            if ran.returncode != -signal.SIGKILL:
                break
        return said.read(ran.returncode, ran.stdout)

    def is_unread(self, line: str, texts: Mapping[str, str]) -> bool:
        """Whether a line says that the prover could not read a text, as `rt must-fail` judges."""
        return bool(self._kit.rt.unread(line, texts))


class Kit:
    """The kit over one tree; its calls are made in the tree's folder."""

    def __init__(self, tree: str) -> None:
        self.rt = load_rt()
        os.chdir(tree)
        found = self.rt.rtlib.crates_below(os.getcwd())
        self.crates = {it.name: Crate(self, it) for it in found}
        # it sets signals, which only the main thread may
        self.rt.rtlib.guarded()

    @property
    def identity(self) -> str:
        """What names this kit, the same on every machine."""
        with open(os.path.join(self.rt.rtlib.KIT, "KIT-ID"), encoding="utf-8") as it:
            return it.read().strip()


def read_texts(folder: str) -> Dict[str, str]:
    """The texts of a crate's folder by their paths in it."""
    found: Dict[str, str] = {}
    for part in PARTS:
        for at, _, names in os.walk(os.path.join(folder, part)):
            for name in names:
                path = os.path.join(at, name)
                with open(path, encoding="utf-8") as it:
                    found[os.path.relpath(path, folder)] = it.read()
    return found
