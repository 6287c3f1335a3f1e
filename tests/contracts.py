"""The functions of crates with the names of their clauses, as they stand in the sources."""
from __future__ import annotations

import pathlib
import re
from dataclasses import dataclass
from typing import FrozenSet, Iterable, List, Optional, Set, Tuple

CRATES = pathlib.Path(__file__).resolve().parent.parent / "crates"
LAWS = re.compile(r"laws$")
HEAD = re.compile(r"^ *(pub(?:\([a-z]+\))? )?(?:const |extern .C. )?fn ([a-z_0-9]+)")
CLAUSE = re.compile(r"^ *ensures (?:([a-z_0-9]+) )?\{")
TYPE = re.compile(r"^(?:pub(?:\([a-z]+\))? )?(?:struct|enum|trait|type) (\w+)")
TRAIT = re.compile(r"^(?:pub(?:\([a-z]+\))? )?trait (\w+)")
IMPL = re.compile(r"(?:(\w+) for )?(\w+)")
EXPORTED = re.compile(r"(?s)^pub (?:use (\w+)::(\{[^}]*\}|\w+)|mod (\w+));", re.MULTILINE)


@dataclass(frozen=True)
class Function:
    """A function, and what it is a function of: a type, a trait, both, or a module of laws."""

    crate: str
    name: str
    owners: FrozenSet[str]
    is_public: bool
    has_contract: bool
    clauses: FrozenSet[str]

    @property
    def is_law(self) -> bool:
        """Whether it computes nothing, and its contract speaks of definitions alone."""
        return any(LAWS.search(owner) for owner in self.owners)

    def __str__(self) -> str:
        return "::".join([*sorted(self.owners), self.name])


@dataclass(frozen=True)
class Contracts:
    """The functions of some crates, the types there, and the words of their definitions."""

    functions: Tuple[Function, ...]
    types: FrozenSet[str]
    words: FrozenSet[str]


def without_generics(line: str) -> str:
    """The head of an `impl` without what stands in angle brackets."""
    depth, kept = 0, ""
    for letter in line:
        depth += (letter == "<") - (letter == ">")
        kept += "" if depth or letter == ">" else letter
    return kept


def owners_of(line: str) -> Optional[FrozenSet[str]]:
    """What the functions below a line are functions of, where the line begins or ends a block."""
    trait = TRAIT.match(line)
    if trait:
        return frozenset({trait.group(1)})
    if line.startswith("impl"):
        found = IMPL.match(without_generics(line[len("impl"):]).strip())
        return frozenset(filter(None, found.groups())) if found else frozenset()
    return frozenset() if line.startswith("}") else None


def exported_by(crate: pathlib.Path) -> FrozenSet[str]:
    """The names that a crate gives to others of its own, modules among them."""
    names: Set[str] = set()
    for path in (crate / "src").glob("lib.rt"):
        for source, used, module in EXPORTED.findall(path.read_text(encoding="utf-8")):
            if not source.startswith("ctt_"):
                names |= set(re.findall(r"\w+", used)) | {module}
    return frozenset(names)


def functions_of(crate: str, path: pathlib.Path, exported: FrozenSet[str]) -> Iterable[Function]:
    """The functions of a file."""
    module = frozenset({path.stem}) if LAWS.search(path.stem) else frozenset()
    owners: FrozenSet[str] = frozenset()
    heads: List[Tuple[str, FrozenSet[str], bool]] = []
    clauses: List[List[str]] = []
    is_trait = False
    for line in path.read_text(encoding="utf-8").splitlines():
        block = owners_of(line)
        if block is not None:
            owners, is_trait = block, bool(TRAIT.match(line)) or len(block) == 2
        head, clause = HEAD.match(line), CLAUSE.match(line)
        if head:
            of = owners or module
            # a method of a trait is as public as the trait
            is_open = head.group(1) == "pub " or is_trait
            is_given = bool(exported & (of or {head.group(2)})) or " extern " in line
            heads.append((head.group(2), of, is_open and is_given))
            clauses.append([])
        elif clause and clauses:
            clauses[-1].append(clause.group(1) or "")
    for (name, of, is_public), names in zip(heads, clauses):
        yield Function(crate, name, of, is_public, bool(names), frozenset(filter(None, names)))


def read_contracts(crates: Iterable[str]) -> Contracts:
    """What stands in the sources and definitions of crates."""
    functions: List[Function] = []
    types: Set[str] = set()
    words: Set[str] = set()
    for crate in crates:
        exported = exported_by(CRATES / crate)
        for path in sorted((CRATES / crate / "src").glob("**/*.rt")):
            functions += functions_of(crate, path, exported)
            lines = path.read_text(encoding="utf-8").splitlines()
            types |= {found.group(1) for found in map(TYPE.match, lines) if found}
        for path in (CRATES / crate / "specs").glob("**/*.antt"):
            words |= set(re.findall(r"\w+", path.read_text(encoding="utf-8")))
    return Contracts(tuple(functions), frozenset(types), frozenset(words))
