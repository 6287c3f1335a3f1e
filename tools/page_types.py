#!/usr/bin/env python3
"""Makes the types of the page's modules of those of its messages.

    tools/page_types.py --write
    tools/page_types.py --check

--write makes tools/office/web/messages.d.ts of tools/office/web/message_types.py. --check prints
the lines that differ there, and ends with status 1 if there are any.
"""
from __future__ import annotations

import difflib
import pathlib
import re
import sys
import textwrap
from typing import Any, Literal, Union, get_args, get_origin, get_type_hints

sys.dont_write_bytecode = True

from office.web import message_types  # noqa: E402

MADE = pathlib.Path(message_types.__file__).with_name("messages.d.ts")
PLAIN: dict[Any, str] = {
    int: "number",
    float: "number",
    str: "string",
    bool: "boolean",
    type(None): "null",
}
HEAD = "// Made of message_types.py by tools/page_types.py: the types of all that a page is sent.\n"


def is_object(kind: Any) -> bool:
    return isinstance(kind, type) and issubclass(kind, dict) and hasattr(kind, "__total__")


def type_of(kind: Any, names: dict[Any, str]) -> str:
    """A type as TypeScript has it; some have a name."""
    if kind in names:
        return names[kind]
    origin, args = get_origin(kind), get_args(kind)
    if origin is Literal:
        return " | ".join(literal(one) for one in args)
    inner = [type_of(one, names) for one in args]
    if origin is Union:
        return " | ".join(inner)
    if origin is tuple:
        return f"[{', '.join(inner)}]"
    if origin is list:
        return f"({inner[0]})[]" if "|" in inner[0] else f"{inner[0]}[]"
    if origin is dict:
        return f"Record<{inner[0]}, {inner[1]}>"
    raise TypeError(f"{kind} has no form for the page")


def literal(value: Any) -> str:
    return str(value).lower() if isinstance(value, bool) else f'"{value}"'


def interface(kind: Any, names: dict[Any, str]) -> str:
    """A TypedDict, with all that it has of those from which it grows."""
    lines = [
        f"  {name}{'' if name in kind.__required_keys__ else '?'}: {type_of(part, names)};"
        for name, part in get_type_hints(kind).items()
    ]
    words = re.sub(r"\s+", " ", kind.__doc__ or "").strip()
    told = "/** " + "\n * ".join(textwrap.wrap(words, 93)) + " */\n" if words else ""
    return "\n".join([f"{told}interface {kind.__name__} {{", *lines, "}"])


def made() -> str:
    """The whole text."""
    kinds = vars(message_types)
    names = {**PLAIN, **{one: one.__name__ for one in kinds.values() if is_object(one)}}
    parts = [HEAD]
    for name, kind in kinds.items():
        if get_origin(kind) is tuple:
            parts.append(f"type {name} = {type_of(kind, names)};")
            names[kind] = name
        elif is_object(kind):
            parts.append(interface(kind, names))
    return "\n".join(parts) + "\n"


def main(words: list[str]) -> int:
    if words == ["--write"]:
        MADE.write_text(made(), encoding="utf-8")
        return 0
    if words != ["--check"]:
        print(__doc__, file=sys.stderr)
        return 2
    old = MADE.read_text(encoding="utf-8").splitlines()
    found = list(difflib.unified_diff(old, made().splitlines(), MADE.name, "made", lineterm=""))
    print("\n".join(found), end="\n" if found else "")
    return int(bool(found))


if __name__ == "__main__":
    sys.exit(main(sys.argv[1:]))
