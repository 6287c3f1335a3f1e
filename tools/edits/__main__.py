"""Tries the must-fail edits of crates, many in one check, and keeps what refused each.

An edit whose record still holds is taken; the others are tried. It fails where an edit passes, is
bad, has no verdict, or is refused by another clause than its record says. The last line is
`N passed, M failed`.
"""
from __future__ import annotations

import argparse
import contextlib
import os
import sys
import tempfile
import threading
import time
from concurrent.futures import ThreadPoolExecutor
from dataclasses import dataclass, field
from typing import Dict, Iterator, List, Mapping, Optional, Sequence

from . import records
from .edit import Edit, read_all
from .kit import Crate, Kit
from .page import page_of
from .records import Record
from .standing import Standing
from .trying import Tried, Trying, Verdict

PAGE = "docs/EDITS.md"
# such a refusal says little of a contract: it is told, and has no record
TO_MEND = (Verdict.NAME_GONE, Verdict.UNTOLD, Verdict.LIMIT)


@dataclass
class Outcome:
    """What the edits of a crate came to."""

    taken: int = 0
    tried: int = 0
    failed: int = 0
    kept: Dict[str, Record] = field(default_factory=dict)
    lines: List[str] = field(default_factory=list)


@dataclass(frozen=True)
class Asked:
    """What is asked of a run."""

    edits: str
    every: bool
    write: bool
    verbose: bool
    kept: str


class Run:
    """A run over the crates of a tree."""

    def __init__(self, kit: Kit, asked: Asked) -> None:
        self._kit, self._asked = kit, asked
        self._standing = Standing(kit.identity, kit.crates)
        self._alone = threading.Lock()

    def say(self, *lines: str) -> None:
        """Prints lines, not mixed with those of other crates."""
        with self._alone:
            print(*lines, sep="\n", flush=True)

    def folder(self, name: str) -> str:
        """The folder of a crate's edits."""
        return os.path.join(self._asked.edits, "crates", name, "must-fail")

    def crate(self, name: str) -> Outcome:
        """Takes the records of a crate that hold, and tries its other edits."""
        begun = time.monotonic()
        crate, outcome = self._kit.crates[name], Outcome()
        edits, bad = read_all(self.folder(name), name)
        for unread, why in bad.items():
            outcome.failed += 1
            outcome.lines.append(f"{name}/{unread}: BAD EDIT: {why}")
        known = records.read(self.folder(name))
        sums = {it.name: self._standing.sum(it) for it in edits}
        left: List[Edit] = []
        for edit in edits:
            record = known.get(edit.name)
            if record and record.sum == sums[edit.name] and not self._asked.every:
                outcome.taken += 1
                outcome.kept[edit.name] = record
            else:
                left.append(edit)
        if left:
            self._try(crate, left, known, sums, outcome)
        if self._asked.write:
            records.write(self.folder(name), outcome.kept)
        took = (time.monotonic() - begun) / 60
        counted = f"{outcome.taken} taken from records, {outcome.tried} tried in {took:.1f} min"
        self.say(*outcome.lines, f"{name}: {counted}, {outcome.failed} failed")
        return outcome

    @contextlib.contextmanager
    def _kept(self, name: str) -> Iterator[str]:
        """The folder in which checks of a crate keep what they proved."""
        if self._asked.kept:
            folder = os.path.join(self._asked.kept, name)
            os.makedirs(folder, exist_ok=True)
            yield folder
        else:
            with tempfile.TemporaryDirectory(prefix="edits-") as folder:
                yield folder

    def _say_check(self, line: str) -> None:
        if self._asked.verbose:
            self.say(line)

    def _try(self, crate: Crate, left: Sequence[Edit], known: Mapping[str, Record],
             sums: Mapping[str, str], outcome: Outcome) -> None:
        lacking = crate.lacking()
        if lacking:
            outcome.failed += len(left)
            outcome.lines.append(f"{crate.name}: {', '.join(lacking)} below it are not built")
            return
        with self._kept(crate.name) as kept:
            found = Trying(crate, kept, self._say_check).try_all(left)
        for edit in left:
            self._judge(crate, found[edit.name], known.get(edit.name),
                        Record(edit.name, sums[edit.name], found[edit.name].refusals), outcome)

    def _judge(self, crate: Crate, tried: Tried, was: Optional[Record], now: Record,
               outcome: Outcome) -> None:
        """Counts one edit that was tried."""
        label = f"{crate.name}/{now.edit}"
        outcome.tried += 1
        if tried.verdict in TO_MEND:
            outcome.lines.append(f"{label}: TO MEND: {tried}")
        elif tried.verdict is not Verdict.REFUSED:
            outcome.failed += 1
            outcome.lines.append(f"{label}: {tried}")
        elif was and not set(was.clauses) <= set(now.clauses) and not self._asked.write:
            outcome.failed += 1
            outcome.lines.append(
                f"{label}: refused by {now.clauses}, and its record says {was.clauses}"
            )
        else:
            outcome.kept[now.edit] = now


def words() -> argparse.ArgumentParser:
    """The words of the command."""
    ask = argparse.ArgumentParser(prog="python3 -m edits", description=__doc__)
    ask.add_argument("--tree", default=".", help="a checkout in which rt has built the crates")
    ask.add_argument("--edits", help="the checkout that has the edits, if it is another")
    ask.add_argument("--all", action="store_true", help="try those whose record holds, too")
    ask.add_argument("--write", action="store_true", help="write what refused each, and the page")
    ask.add_argument("--page", action="store_true", help="print the page that records make")
    ask.add_argument("--kept", default="", help="a folder for what checks prove, for a next run")
    ask.add_argument("--verbose", action="store_true", help="print a line for each check")
    ask.add_argument("--lanes", type=int, default=1, help="how many crates are tried at once")
    ask.add_argument("crates", nargs="*", help="these alone")
    return ask


def made_page(kit: Kit, run: Run) -> str:
    """The page that the records make."""
    kept = {it: records.read(run.folder(it)) for it in kit.crates}
    edits = sum(len(read_all(run.folder(it), it)[0]) for it in kit.crates)
    return page_of(kit.crates, kept, edits)


def is_page_kept(path: str, made: str, write: bool) -> bool:
    """Writes the page, or compares it with the one that stands."""
    if write:
        with open(path, "w", encoding="utf-8") as it:
            it.write(made)
    try:
        with open(path, encoding="utf-8") as it:
            return it.read() == made
    except FileNotFoundError:
        return False


def main() -> int:
    """Runs the command."""
    said = words().parse_args()
    edits = os.path.abspath(said.edits or said.tree)
    kept = os.path.abspath(said.kept) if said.kept else ""
    kit = Kit(said.tree)
    run = Run(kit, Asked(edits, said.all, said.write, said.verbose, kept))
    if said.page:
        print(made_page(kit, run), end="")
        return 0
    unknown = [it for it in said.crates if it not in kit.crates]
    if unknown:
        print(f"edits: there is no crate {', '.join(unknown)}", file=sys.stderr)
        return 2
    names = said.crates or sorted(kit.crates, key=lambda it: -kit.crates[it].lines)
    with ThreadPoolExecutor(max(said.lanes, 1)) as pool:
        outcomes = list(pool.map(run.crate, names))
    failed = sum(it.failed for it in outcomes)
    passed = sum(it.taken + it.tried for it in outcomes) - failed
    if not said.crates and not is_page_kept(os.path.join(edits, PAGE), made_page(kit, run),
                                            said.write):
        print(f"{PAGE} is not what the records make: python3 -m edits --write makes it")
        failed += 1
    taken = sum(it.taken for it in outcomes)
    print(f"{taken} edits taken from records, {sum(it.tried for it in outcomes)} tried")
    print(f"{max(passed, 0)} passed, {failed} failed")
    return 1 if failed else 0


if __name__ == "__main__":
    sys.exit(main())
