"""Trying the edits of a crate: many in one check, and what is not clear there again."""
from __future__ import annotations

import enum
import time
from dataclasses import dataclass, field
from typing import Callable, Dict, FrozenSet, List, Mapping, Optional, Sequence, Set, Tuple

from .edit import BadEdit, Edit, apply
from .goals import (
    Refusal, declaration_at, names_of, one_of_each_clause, refusals_by_place, refusals_of,
)
from .kit import Crate
from .said import Said
from .sources import Function, function_at, functions_in


class Verdict(enum.Enum):
    """What a try of an edit comes to."""

    REFUSED = "refused"
    NAME_GONE = "refused only because a proof names what it takes away"
    UNTOLD = "refused, but no goal of its functions is told"
    PASSED = "PASSED: the crate is still proved with it"
    LIMIT = "refused only by a limit of the prover"
    BAD = "BAD EDIT"
    UNSURE = "UNSURE"


@dataclass(frozen=True)
class Tried:
    """What an edit's try came to, by which goals, or why there is no verdict."""

    verdict: Verdict
    refusals: Tuple[Refusal, ...] = ()
    why: str = ""

    def __str__(self) -> str:
        return f"{self.verdict.value}: {self.why}" if self.why else self.verdict.value


@dataclass(frozen=True)
class Trial:
    """An edit with the functions whose bodies it turns; none where it is outside of bodies."""

    edit: Edit
    functions: FrozenSet[Tuple[str, Function]]

    @property
    def keys(self) -> Set[str]:
        """The names of its functions."""
        return {it.path for _, it in self.functions}

    @property
    def places(self) -> Set[Tuple[str, str]]:
        """The texts that it replaces."""
        return {(it.path, it.old) for it in self.edit.changes}

    @property
    def only(self) -> List[str]:
        """What a check has to be asked for: its functions, or the modules of methods of traits."""
        return sorted({it.asked for _, it in self.functions})


def trial_of(edit: Edit, texts: Mapping[str, str]) -> Trial:
    """Finds the functions whose bodies an edit turns."""
    found: Set[Tuple[str, Function]] = set()
    now = dict(texts)
    for change in edit.changes:
        text = now[change.path]
        line = text[: text.find(change.old)].count("\n") + 1
        in_source = change.path.startswith("src/")
        function = function_at(functions_in(change.path, text), line) if in_source else None
        if function is None:
            return Trial(edit, frozenset())
        found.add((change.path, function))
        now[change.path] = text.replace(change.old, change.new, 1)
    return Trial(edit, frozenset(found))


def batches(trials: Sequence[Trial]) -> List[List[Trial]]:
    """Groups of trials such that no function and no text is turned twice in one."""
    groups: List[List[Trial]] = []
    for trial in trials:
        for group in groups:
            if not any(trial.keys & it.keys or trial.places & it.places for it in group):
                group.append(trial)
                break
        else:
            groups.append([trial])
    return groups


@dataclass
class Trying:
    """The edits of one crate, tried one group after another over what earlier checks kept."""

    crate: Crate
    kept: str
    say: Callable[[str], None]
    found: Dict[str, Tried] = field(default_factory=dict)
    checks: int = 0

    def try_all(self, edits: Sequence[Edit]) -> Dict[str, Tried]:
        """What each edit comes to, by its name."""
        within: List[Trial] = []
        outside: List[Trial] = []
        for edit in edits:
            try:
                apply(edit, self.crate.texts)
            except BadEdit as why:
                self.found[edit.name] = Tried(Verdict.BAD, why=str(why))
                continue
            trial = trial_of(edit, self.crate.texts)
            (within if trial.functions else outside).append(trial)
        left = self._try_groups(batches(within))
        left = self._try_groups(batches(left))
        for trial in [*left, *outside]:
            self._try_alone(trial)
        return self.found

    def _try_groups(self, queue: List[List[Trial]]) -> List[Trial]:
        """Tries groups, and gives those of whose edits nothing is known yet."""
        undecided: List[Trial] = []
        while queue:
            group, texts, others = self._together(queue.pop(0))
            if others:
                queue.append(others)
            if len(group) < 2:
                undecided += group
                continue
            said = self._check(texts, sorted({it for one in group for it in one.only}), len(group))
            unknown = {it for one in group for it in one.only if f"`{it}`" in said.last}
            if said.status == 2 and unknown:
                undecided += [it for it in group if unknown & set(it.only)]
                queue.insert(0, [it for it in group if not unknown & set(it.only)])
                continue
            if not said.functions:
                half = len(group) // 2
                queue[:0] = [group[:half], group[half:]]
                continue
            undecided += [it for it in group if not self._is_decided(it, said, texts)]
        return undecided

    def _together(self, group: Sequence[Trial]
                  ) -> Tuple[List[Trial], Dict[str, str], List[Trial]]:
        """Those of a group that can be made together, the texts with them, and the others."""
        texts: Dict[str, str] = {}
        made: List[Trial] = []
        others: List[Trial] = []
        for trial in group:
            try:
                texts.update(apply(trial.edit, {**self.crate.texts, **texts}))
                made.append(trial)
            except BadEdit:
                others.append(trial)
        return made, texts, others

    def _check(self, texts: Mapping[str, str], only: Sequence[str], count: int) -> Said:
        begun = time.monotonic()
        said = self.crate.check(texts, only, self.kept)
        self.checks += 1
        took = time.monotonic() - begun
        self.say(f"{self.crate.name}: a check of {count}: {took:.0f} s, status {said.status}")
        return said

    def _is_decided(self, trial: Trial, said: Said, texts: Mapping[str, str]) -> bool:
        """Notes a trial of a group that was refused for itself, or passed."""
        refusals = self._refusals(trial, said, texts)
        if refusals:
            self.found[trial.edit.name] = Tried(Verdict.REFUSED, refusals)
        return bool(refusals)

    def _refusals(self, trial: Trial, said: Said, texts: Mapping[str, str]
                  ) -> Tuple[Refusal, ...]:
        found: List[Refusal] = []
        for path, function in trial.functions:
            names = names_of(function, self.crate.name, said)
            for name in names:
                found += refusals_of(name, self.crate.name, said, self._text_in(texts))
            found += refusals_by_place(function, names, self.crate.name, said, path)
        return one_of_each_clause(found)

    def _text_in(self, texts: Mapping[str, str]) -> Callable[[str], Optional[str]]:
        return lambda path: texts.get(path, self.crate.texts.get(path))

    def _try_alone(self, trial: Trial) -> None:
        texts = apply(trial.edit, self.crate.texts)
        said = self._check(texts, trial.only, 1)
        if trial.functions and said.status == 2:
            # a function that a check knows by another name: the whole crate tells
            said = self._check(texts, [], 1)
        tried = self._judge(trial, said, texts)
        if tried.verdict is Verdict.PASSED and trial.functions:
            # (it is said to pass only if the whole crate says so)
            tried = self._judge(Trial(trial.edit, frozenset()), self._check(texts, [], 1), texts)
        self.found[trial.edit.name] = tried

    def _judge(self, trial: Trial, said: Said, texts: Mapping[str, str]) -> Tried:
        """What the check of one edit alone says."""
        unread = next((it for it in said.lines if self.crate.is_unread(it, texts)), "")
        if said.status == 1 and unread:
            return Tried(Verdict.BAD, why=f"the prover cannot read it: {unread[:200]}")
        if said.status == 0:
            return Tried(Verdict.PASSED)
        if said.status == 3 and said.limit:
            return Tried(Verdict.LIMIT, why=said.limit[:200])
        if said.status == 1 and not said.reached_the_prover:
            return Tried(Verdict.BAD, why=f"it does not compile: {said.lines[0][:200]}")
        if said.status != 1:
            return Tried(Verdict.UNSURE, why=f"status {said.status}: {said.last[:200]}")
        refusals = self._refusals(trial, said, texts) if trial.functions else self._all(said, texts)
        if refusals:
            return Tried(Verdict.REFUSED, refusals)
        if said.faults and all(it.is_of_a_name for it in said.faults):
            first = said.faults[0]
            return Tried(Verdict.NAME_GONE, why=f"{first.path}:{first.line}: {first.text[:120]}")
        return Tried(Verdict.UNTOLD, why=said.last[:200])

    def _all(self, said: Said, texts: Mapping[str, str]) -> Tuple[Refusal, ...]:
        """What refuses an edit outside of bodies: goals of any function, else lemmas of a file."""
        found: List[Refusal] = []
        for path in [it for it in self.crate.texts if it.startswith("src/")]:
            text = texts.get(path, self.crate.texts[path])
            for function in functions_in(path, text):
                names = names_of(function, self.crate.name, said)
                for name in names:
                    found += refusals_of(name, self.crate.name, said, self._text_in(texts))
                found += refusals_by_place(function, names, self.crate.name, said, path)
        if not found:
            for fault in [it for it in said.faults if not it.is_of_a_name]:
                text = self._text_in(texts)(fault.path) or ""
                found.append(Refusal(fault.path, declaration_at(text, fault.line) or "?"))
        return one_of_each_clause(found)
