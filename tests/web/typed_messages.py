"""Whether what a page is sent has the types of office.web.message_types."""
import os
import sys
from typing import Any, Literal, Union, get_args, get_origin, get_type_hints

HERE = os.path.dirname(os.path.dirname(os.path.dirname(os.path.abspath(__file__))))
sys.path.insert(0, os.path.join(HERE, "tools"))

from office.web import message_types as types  # noqa: E402

# what each verb is answered at a seat; all that is not named here is an act
ANSWERS = {
    "hello": Union[types.HelloData, types.WantsData],
    "about": Union[types.AboutData, types.TurnData],
    "offers": Union[types.OffersData, types.TurnData],
    "print": Union[types.PrintData, types.TurnData],
}
READ = {"hello": types.ReaderHelloData}
EVENT = Union[types.EventData, types.ReaderEventData]


def answer_of(verb, who, status):
    """The type of an answer."""
    if status != 200:
        return types.FaultData
    if who == "reader":
        return READ.get(verb, types.ReaderTurnData)
    return ANSWERS.get(verb, types.TurnData)


def is_object(kind):
    """Whether a type is a TypedDict."""
    return isinstance(kind, type) and issubclass(kind, dict) and hasattr(kind, "__total__")


def misfits(value: Any, kind: Any, place: str = "it", met: "set | None" = None) -> "list[str]":
    """Where a value of JSON is not of a type. The TypedDicts that it has are added to `met`."""
    if is_object(kind):
        return misfits_of_object(value, kind, place, met)
    origin, args = get_origin(kind), get_args(kind)
    if origin is Union:
        found = [(misfits(value, one, place, meant := set()), meant) for one in args]
        wrong, meant = min(found, key=lambda one: len(one[0]))
        if met is not None and not wrong:
            met |= meant
        return wrong
    if origin is Literal:
        is_one = any(type(one) is type(value) and one == value for one in args)
        return [] if is_one else [f"{place} is {value!r}"]
    if origin is dict and isinstance(value, dict):
        parts = [(f"{place}.{name}", one, args[1]) for name, one in value.items()]
    elif origin is list and isinstance(value, list):
        parts = [(f"{place}[{at}]", one, args[0]) for at, one in enumerate(value)]
    elif origin is tuple and isinstance(value, list) and len(value) == len(args):
        parts = [(f"{place}[{at}]", one, args[at]) for at, one in enumerate(value)]
    else:
        is_one = type(value) is kind or (kind is float and type(value) is int)
        return [] if is_one else [f"{place} is {value!r}, not {kind}"]
    return [one for at, part, inner in parts for one in misfits(part, inner, at, met)]


def misfits_of_object(value, kind, place, met):
    """Where a value has other names than a TypedDict, or something else under them."""
    if not isinstance(value, dict):
        return [f"{place} is {value!r}, not {kind.__name__}"]
    if met is not None:
        met.add(kind)
    hints = get_type_hints(kind)
    found = [f"{place} lacks {name}" for name in sorted(kind.__required_keys__ - set(value))]
    for name, part in value.items():
        if name in hints:
            found += misfits(part, hints[name], f"{place}.{name}", met)
        else:
            found.append(f"{place}.{name} is not of {kind.__name__}")
    return found


def objects():
    """All TypedDicts of the messages that are not only there for others to grow from."""
    found = {one for one in vars(types).values() if is_object(one)}
    tops = [*ANSWERS.values(), *READ.values(), EVENT]
    tops += [types.FaultData, types.TurnData, types.ReaderTurnData]
    met, rest = set(), tops
    while rest:
        one = rest.pop()
        rest += [part for part in get_args(one) if part is not one]
        if is_object(one) and one not in met:
            met.add(one)
            rest += get_type_hints(one).values()
    bases = {name for one in met for name in get_type_hints(one)}
    lost = [one for one in found - met if not set(get_type_hints(one)) <= bases]
    assert not lost, f"no message has {lost}"
    return met
