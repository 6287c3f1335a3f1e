"""What a person asks about: a course, a teacher, a room, a curriculum, a planner or a draft."""
from __future__ import annotations

from typing import Iterable, NamedTuple, Optional

from office.data.labels import Labels
from office.day.instance import Instance
from office.day.shifts import Shift
from office.past.drafts import Draft
from office.refused import CONTENT, WORDS, Refused

SUBJECT_KINDS: tuple[str, ...] = ("course", "teacher", "room", "curriculum", "planner", "draft")


class Subject(NamedTuple):
    kind: str
    name: str

    def is_touched(self, instance: Instance, shift: Shift) -> bool:
        """Whether it concerns a course, a teacher, a room or a curriculum what has become of a
        lecture."""
        if self.kind == "course":
            return shift.course == self.name
        if self.kind == "teacher":
            return instance.courses[shift.course].teacher == self.name
        if self.kind == "curriculum":
            return self.name in instance.curricula_of[shift.course]
        return self.name in [one.room for one in (shift.was, shift.now) if one is not None]

    def touched(self, instance: Instance, draft: Draft) -> Optional[list[Shift]]:
        """What a draft did that concerns it; None if it does not concern it at all."""
        if self.kind == "planner":
            return draft.shifts if self.name in (draft.name, str(draft.planner)) else None
        if self.kind == "draft":
            return draft.shifts if self.name == str(draft.number) else None
        return [one for one in draft.shifts if self.is_touched(instance, one)] or None


def subject_names(instance: Instance, drafts: Iterable[Draft]) -> dict[str, Iterable[str]]:
    """All that can be asked about, by kinds."""
    return {
        "course": instance.courses,
        "teacher": instance.teachers,
        "room": instance.rooms,
        "curriculum": instance.curricula,
        "planner": {draft.name for draft in drafts if draft.name},
        "draft": {str(draft.number) for draft in drafts},
    }


def find_subject(
    words: list[str], instance: Instance, drafts: list[Draft], labels: Labels
) -> Subject:
    """What is meant by a code or a name, which may have its kind in front; a planner may be meant
    by his seat, too, if it has."""
    names = subject_names(instance, drafts)
    kinds = SUBJECT_KINDS
    if len(words) == 2 and words[0] in SUBJECT_KINDS:
        kinds = (words[0],)
        names["planner"] = [*names["planner"], *(str(draft.planner) for draft in drafts)]
    elif len(words) != 1:
        raise Refused(f"a name, or {', '.join(SUBJECT_KINDS)} and a name: {' '.join(words)}", WORDS)
    typed = words[-1]
    found = [
        Subject(kind, code)
        for kind in kinds
        for code in labels.called(kind, typed, list(names[kind]))
    ]
    if not found:
        choices = ", ".join(kinds[:-1]) + " or " if len(kinds) > 1 else ""
        raise Refused(f"there is no {choices}{kinds[-1]} {typed}", CONTENT)
    if len(found) > 1:
        choices = " or ".join(" ".join(what) for what in found)
        raise Refused(f"{typed} is the name of several: say {choices}", CONTENT)
    return found[0]
