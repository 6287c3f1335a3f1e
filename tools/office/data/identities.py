"""Which lecture of a new timetable is which of the one before it: so that fewest lectures change
their time, and of these ways that fewest change their room."""
from __future__ import annotations

from collections import Counter
from typing import Callable, Iterable, Optional, Sequence
from urllib.parse import quote

from office.data.plan_book import Book, Known
from office.day.lecture import Lecture

Key = Callable[[Lecture], object]

# what is the same in a pair, the more the earlier: within a course no two lectures have one slot,
# so pairs with the same time are taken in any order, and then those in the same room
SAME: tuple[Key, ...] = (
    lambda one: one.slot,
    lambda one: (one.room, one.day),
    lambda one: one.room,
    lambda one: one.day,
    lambda one: 0,
)


def paired(old: Sequence[Known], new: Sequence[Lecture]) -> list[tuple[Known, Lecture]]:
    """The lectures of a course, each with what it was, as far as there are enough."""
    found: list[tuple[Known, Lecture]] = []
    old_left, new_left = list(old), list(new)
    for key in SAME:
        for lecture in list(new_left):
            same = [one for one in old_left if key(one.lecture) == key(lecture)]
            if same:
                found.append((same[0], lecture))
                old_left.remove(same[0])
                new_left.remove(lecture)
    return found


def by_course(known: Iterable[Known]) -> dict[str, list[Known]]:
    found: dict[str, list[Known]] = {}
    for one in known:
        found.setdefault(one.lecture.course, []).append(one)
    return found


def renamed_courses(
    book: Book, lectures: Iterable[Lecture], called: dict[str, str]
) -> dict[str, str]:
    """Courses that have another code now: the name is the same, or more than half of the lectures
    stand where those of one that is gone stood. `called` has the names of those that are there."""
    old = by_course(one for one in book.lectures if one.is_placed)
    names = {code: name for code, (name, _) in book.views.get("course", {}).items()}
    where = {lecture[1:]: lecture.course for lecture in lectures}
    found: dict[str, str] = {}
    for course in dict.fromkeys([*old, *names]):
        if course in called:
            continue
        of_course = old.get(course, [])
        counts = Counter(where.get(one.lecture[1:], "") for one in of_course)
        alike = [code for code, name in called.items() if name == names.get(course)]
        alike += [code for code, count in counts.items() if 2 * count > len(of_course)]
        free = [c for c in alike if c in called and c not in names and c not in found.values()]
        if free:
            found[course] = free[0]
    return found


def renamed_views(
    old: dict[str, tuple[str, frozenset[str]]], new: dict[str, tuple[str, frozenset[str]]]
) -> dict[str, str]:
    """The same for teachers, rooms and curricula, by the lectures in their weeks."""
    found: dict[str, str] = {}
    for code, (name, lectures) in old.items():
        if code in new:
            continue
        for other, (its_name, its_lectures) in new.items():
            same = 2 * len(lectures & its_lectures) > max(len(lectures), len(its_lectures))
            if other not in old and other not in found.values() and (same or name == its_name):
                found[code] = other
                break
    return found


def new_name(course: str, taken: set[str]) -> str:
    """An identity that no lecture of the plan has, or had."""
    number, word = 1, quote(course, safe="")
    while f"{word}.{number}" in taken:
        number += 1
    return f"{word}.{number}"


def known_again(
    known: Sequence[Known], lectures: Sequence[Lecture], renamed: Optional[dict[str, str]] = None
) -> tuple[Known, ...]:
    """The lectures of a timetable with their identities. One that had been taken out has its own
    again when a lecture of its course is placed."""
    codes = renamed or {}
    old = [
        one._replace(lecture=one.lecture._replace(course=codes[one.lecture.course]))
        if one.lecture.course in codes
        else one
        for one in known
    ]
    found: list[Known] = []
    taken = {one.name for one in old}
    of_old = by_course(old)
    of_new: dict[str, list[Lecture]] = {}
    for lecture in lectures:
        of_new.setdefault(lecture.course, []).append(lecture)
    for course in dict.fromkeys([*of_new, *of_old]):
        before, now = of_old.get(course, []), of_new.get(course, [])
        pairs = paired([one for one in before if one.is_placed], now)
        left = [one for one in now if one not in [lecture for _, lecture in pairs]]
        spare = [one for one in before if one not in [each for each, _ in pairs]]
        pairs += paired([one for one in spare if not one.is_placed], left)
        found += [Known(one.name, lecture, True) for one, lecture in pairs]
        done = [lecture for _, lecture in pairs]
        for lecture in now:
            if lecture not in done:
                found.append(Known(new_name(course, taken), lecture, True))
                taken.add(found[-1].name)
        names = {one.name for one in found}
        found += [one._replace(is_placed=False) for one in before if one.name not in names]
    return tuple(found)
