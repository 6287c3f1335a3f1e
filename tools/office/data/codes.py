"""Codes of courses, rooms, teachers and curricula: found by what people write in a table, and made
of names, since a word of the desk has no blanks."""
from __future__ import annotations

from typing import Optional

from office.data.alike import key_of, meant
from office.data.labels import Labels, Name, word_of
from office.data.tables import Faults, Row

NO_NAME = Name("", "")


class Names(dict[str, Name]):
    """What codes are called, with the codes that a name means."""

    def __init__(self, names: Optional[dict[str, Name]] = None) -> None:
        super().__init__(names or {})
        self.codes: dict[str, list[str]] = {}
        for code, name in self.items():
            self.codes.setdefault(name.name, []).append(code)

    def add(self, code: str, name: Name) -> None:
        """A code that is there keeps its name."""
        if code not in self:
            self.codes.setdefault(name.name, []).append(code)
        self[code] = name

    def meant(self, typed: str) -> list[str]:
        """The codes that a code or a name means."""
        return [typed] if typed in self else self.codes.get(typed, [])


class Codes:
    """The codes of a kind in the order of a table. Names of earlier imports keep theirs."""

    def __init__(self, kind: str, labels: Labels) -> None:
        self.kind = kind
        of_kind = {code: name for (of, code), name in labels.names.items() if of == kind}
        self.earlier = Names(of_kind)
        self.names = Names()
        # of which table they are, and in which rows they stand first
        self.file = ""
        self.rows: dict[str, int] = {}
        # codes that stand in the table, so that none is made like them
        self.written: set[str] = set()
        # of a table that cannot be read nobody knows what is missing
        self.is_read = True

    def take(self, row: Row, name: str, code: str = "", short: str = "") -> Optional[str]:
        """The code of what a row has by a code, by a name, or by both; None is a fault."""
        if " " in code:
            row.fault(f"the code has a blank: {code}")
            return None
        if not code:
            is_code = name in self.names or name in self.earlier
            found = [name] if is_code else self.names.meant(name) or self.earlier.meant(name)
            if len(found) > 1:
                row.fault(f"several are called {name}: {', '.join(found)}; the code is needed")
                return None
            code = found[0] if found else self.make(name)
        known = self.names.get(code, self.earlier.get(code, NO_NAME))
        name = known.name if name in ("", code) else name
        if code in self.names and name != self.names[code].name:
            row.fault(f"{code} is called {self.names[code].name or code} in row {self.rows[code]}")
            return None
        self.names.add(code, Name(name, short or known.short))
        self.file = row.file
        self.rows.setdefault(code, row.number)
        return code

    def find_alike(self, faults: Faults) -> None:
        """Refuses what differs from another one in how it is typed alone."""
        first: dict[str, str] = {}
        for code in self.rows:
            name = self.names[code].name or code
            other = first.setdefault(key_of(name), code)
            is_said = {code, other} <= (self.earlier.keys() | self.written)
            if other != code and not is_said:
                known = self.names[other].name or other
                cause = (
                    f"the {self.kind} {name} is typed as {known} in row {self.rows[other]} but for "
                    f"case, signs and blanks: did you mean {known}? If both are meant, "
                    "labels.csv has a row for each"
                )
                faults.add(self.file, self.rows[code], cause)

    def make(self, name: str) -> str:
        """A code that nothing else has: the name itself, if it is a word."""
        made = name if " " not in name else word_of(name, self.kind)
        code, number = made, 1
        while code in self.earlier or code in self.names or code in self.written:
            number += 1
            code = f"{made}-{number}"
        return code

    def find(self, row: Row, column: str) -> Optional[str]:
        """The code that a cell means; None is a fault."""
        typed = row.needed(column)
        found = self.names.meant(typed) if typed else []
        if len(found) > 1:
            row.fault(f"several are called {typed}: {', '.join(found)}; the code is needed")
        elif typed and not found and self.is_read:
            other = meant(typed, [name.name or code for code, name in self.names.items()])
            hint = f": did you mean {other}?" if other else ""
            row.fault(f"there is no {self.kind} {typed}{hint}")
        return found[0] if len(found) == 1 else None
