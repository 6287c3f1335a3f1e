"""What stands in front of the grid for a while: lists to choose from, pages to read, a question, a
line to type."""
from __future__ import annotations

from typing import Any, Callable, Generic, Mapping, Optional, Sequence, TypeVar

from office.day.edits import Edit
from office.terminal.grid import Row
from office.words.actions import BY_NAME, key_of
from office.words.folding import folded, searched
from office.words.meant import Meant
from office.words.notice import NOTHING, Notice, Question
from office.words.text import counted, cut_front, fit, shown, wrap
from office.words.wording import Wording
from office.work.drafting import Box, Drafting

Choice = TypeVar("Choice")
# so many letters that are no answer are the beginning of a word
WORD = 2


class Overlay:
    """Something in front of the grid. It is done when `press` answers True."""

    def rows(self, height: int, width: int) -> list[Row]:
        raise NotImplementedError

    def press(self, key: str) -> bool:
        raise NotImplementedError


class Worded(Sequence[tuple[str, Choice]]):
    """Choices of which each is put into words when it is looked at: there may be many."""

    def __init__(self, choices: Sequence[tuple[Notice, Choice]], wording: Wording) -> None:
        self.choices, self.wording = choices, wording
        self._texts: dict[int, str] = {}

    def __len__(self) -> int:
        return len(self.choices)

    def __getitem__(self, at: Any) -> Any:
        if isinstance(at, slice):
            return [self[each] for each in range(*at.indices(len(self)))]
        notice, choice = self.choices[at]
        if at not in self._texts:
            self._texts[at] = self.wording.notice(notice)
        return self._texts[at], choice


class Chooser(Overlay, Generic[Choice]):
    """A list that narrows as one types."""

    def __init__(
        self, title: str, choices: Sequence[tuple[str, Choice]], choose: Callable[[Choice], None]
    ) -> None:
        self.title, self.choices, self.choose = title, choices, choose
        self.typed, self.at = "", 0

    def found(self) -> Sequence[tuple[str, Choice]]:
        """The choices that have each word that was typed; those that begin with them come first."""
        words = folded(self.typed).split()
        if not words:
            return self.choices
        texts = ((one, searched(one[0])) for one in self.choices)
        found = [pair for pair in texts if all(word in pair[1] for word in words)]
        found.sort(key=lambda pair: not all(self.begins(pair[1], word) for word in words))
        return [one for one, _ in found]

    @staticmethod
    def begins(text: str, word: str) -> bool:
        return any(part.startswith(word) for part in text.split())

    def press(self, key: str) -> bool:
        found = self.found()
        steps = {"up": -1, "down": 1, "pageup": -10, "pagedown": 10, "backtab": -1, "tab": 1}
        if key == "escape":
            return True
        if key == "enter":
            if found:
                self.choose(found[min(self.at, len(found) - 1)][1])
            return bool(found)
        if key in steps:
            self.at = max(0, min(len(found) - 1, self.at + steps[key]))
        elif key == "backspace":
            self.typed, self.at = self.typed[:-1], 0
        elif len(key) == 1:
            self.typed, self.at = self.typed + key, 0
        return False

    def rows(self, height: int, width: int) -> list[Row]:
        found, room = self.found(), max(1, height - 4)
        first = max(0, min(self.at - room // 2, len(found) - room))
        rows: list[Row] = [
            [(fit(f" {self.title}", width), "head")],
            [(fit(f" > {shown(self.typed)}_", width), "")],
        ]
        for place, (text, _) in enumerate(found[first : first + room], first):
            is_at = place == self.at
            rows.append(
                [(fit(f" {'>' if is_at else ' '} {shown(text)}", width), "cursor" if is_at else "")]
            )
        if not found:
            rows.append([(fit("   nothing has these letters", width), "dim")])
        keys = "letters narrow the list, Enter chooses, Escape goes back"
        last = f" {len(found)} of {len(self.choices)}   {keys}"
        return rows + [[("", "")]] * (height - len(rows) - 1) + [[(fit(last, width), "head")]]


class Listed(Overlay):
    """A list, with keys for what is done with the line that is chosen."""

    def __init__(
        self, title: str, lines: list[str], acts: Mapping[str, Callable[[int], bool]]
    ) -> None:
        self.title, self.lines, self.acts = title, lines, acts
        self.at = 0

    def press(self, key: str) -> bool:
        acts = {BY_NAME[name].key: act for name, act in self.acts.items()}
        if key in ("up", "down"):
            self.at = max(0, min(len(self.lines) - 1, self.at + (1 if key == "down" else -1)))
        elif key in acts:
            return acts[key](self.at)
        return key == "escape"

    def rows(self, height: int, width: int) -> list[Row]:
        room = max(1, height - 3)
        first = max(0, min(self.at - room // 2, len(self.lines) - room))
        rows: list[Row] = [[(fit(f" {self.title}", width), "head")], [("", "")]]
        for place, line in enumerate(self.lines[first : first + room], first):
            is_at = place == self.at
            text = f" {'>' if is_at else ' '} {shown(line)}"
            rows.append([(fit(text, width), "cursor" if is_at else "")])
        keys = [f"{key_of(name)} {BY_NAME[name].short}" for name in self.acts]
        last = ", ".join([*keys, "Escape goes back"])
        return rows + [[("", "")]] * (height - len(rows) - 1) + [[(fit(f" {last}", width), "head")]]


class Page(Overlay):
    """Lines to read. `keys` are what the last line says, and what may follow."""

    def __init__(
        self,
        title: str,
        lines: list[str],
        answers: Optional[dict[str, Callable[[], None]]] = None,
        last: str = "any key goes back",
    ) -> None:
        self.title, self.lines, self.last = title, lines, last
        # what a key does; a page without such keys goes by any key
        self.answers = answers or {}
        self.at = 0

    def press(self, key: str) -> bool:
        if key in ("up", "down", "pageup", "pagedown"):
            self.at = max(0, self.at + {"up": -1, "down": 1, "pageup": -10, "pagedown": 10}[key])
            return False
        if key in self.answers:
            self.answers[key]()
            return True
        return key == "escape" or not self.answers

    def rows(self, height: int, width: int) -> list[Row]:
        lines = [line for text in self.lines for line in wrap(shown(text), max(10, width - 2))]
        room = max(1, height - 3)
        self.at = max(0, min(self.at, len(lines) - room))
        rows: list[Row] = [[(fit(f" {self.title}", width), "head")], [("", "")]]
        rows += [[(fit(f" {line}", width), "")] for line in lines[self.at : self.at + room]]
        more = " (down for more) " if self.at + room < len(lines) else ""
        return (
            rows[: height - 1]
            + [[("", "")]] * (height - len(rows) - 1)
            + [[(fit(f" {self.last}{more}", width), "head")]]
        )


class Asked(Page):
    """A question of the model, with the keys of its answers. A letter behind several others is no
    answer: who types a name that was looked for answers nothing."""

    def __init__(
        self,
        question: Question,
        wording: Wording,
        ask: Callable[[Optional[Question]], None],
    ) -> None:
        self.can_wait = question.can_wait
        # how many letters were typed that are no answer
        self.typed = 0
        keys = [f"{key_of(name)} {BY_NAME[name].short}" for name in question.answers]
        keys += ["Escape goes back"] if keys and question.can_wait else []
        super().__init__(
            wording.notice(question.title),
            wording.lines(question.lines),
            {
                BY_NAME[name].key: lambda answer=answer: ask(answer())  # type: ignore[misc]
                for name, answer in question.answers.items()
            },
            ", ".join(keys) or "any key goes back",
        )

    def press(self, key: str) -> bool:
        if self.answers and len(key) == 1 and (self.typed >= WORD or key not in self.answers):
            self.typed += 1
            return False
        was_typed, self.typed = self.typed > 0, 0
        if key == "enter" and was_typed and key not in self.answers:
            # the end of what was typed
            return self.can_wait
        return False if key == "escape" and not self.can_wait else super().press(key)


class Typed(Overlay):
    """A line that is typed at the bottom; what stands above it stays. A reason is asked about, if
    it may be meant otherwise."""

    def __init__(
        self, prompt: str, send: Callable[[str], None], meant: Optional[Meant] = None
    ) -> None:
        self.prompt, self.send, self.typed, self.meant = prompt, send, "", meant

    def press(self, key: str) -> bool:
        if key == "enter":
            if self.meant is not None and self.meant.asks(self.typed):
                return False
            self.send(self.typed)
            return True
        if key == "backspace":
            self.typed = self.typed[:-1]
        elif len(key) == 1:
            self.typed += key
        return key == "escape"

    def rows(self, height: int, width: int) -> list[Row]:
        prompt = self.prompt
        doubt = self.meant.notice(self.typed) if self.meant is not None else NOTHING
        if doubt:
            prompt = f"{DOUBTS[doubt.code]} {prompt}"
        return [[(fit(f"{prompt}{shown(self.typed)}_", width), "cursor")]]


# a reason that is asked about, where there is one row for all
DOUBTS = {
    "may be meant": "Is that the reason? Enter once more goes on, Escape goes back.",
    "reason needed": "A reason is needed.",
}


class CommitBox(Overlay):
    """What a commit would publish, and a line for the reason."""

    def __init__(
        self,
        box: Box,
        drafting: Drafting,
        wording: Wording,
        commit: Callable[[list[Edit], str], None],
        meant: Meant,
    ) -> None:
        self.box, self.drafting, self.wording, self.commit = box, drafting, wording, commit
        self.meant = meant
        self.why = ""
        # what was begun before is replaced by what is typed
        self.is_begun = False

    def press(self, key: str) -> bool:
        if key == "enter":
            if self.meant.asks(self.why):
                return False
            self.commit(self.box.edits, self.why)
        elif key == "backspace":
            self.why = self.why[:-1]
        elif len(key) == 1:
            self.why = key if self.is_begun else self.why + key
        elif key == "escape" and self.meant.asked is None:
            self.drafting.why = self.why
        self.is_begun = False
        return key in ("enter", "escape")

    def rows(self, height: int, width: int) -> list[Row]:
        box = self.drafting.renewed(self.box)
        lines = self.wording.lines(box.lines())
        lines = [row for line in lines for row in wrap(shown(line), max(10, width - 2))]
        room = max(1, height - 5)
        if len(lines) > room:
            lines = [*lines[: room // 2], "..", *lines[len(lines) - room + room // 2 + 1 :]]
        why = cut_front(shown(self.why), max(1, width - 8))
        title = f"Commit {counted(len(box.edits), 'edit')}?"
        rows: list[Row] = [[(fit(f" {title}", width), "head")], [("", "")]]
        rows += [[(fit(f" {line}", width), "")] for line in lines]
        rows += [[("", "")]] * (height - len(rows) - 2)
        rows.append([(fit(f" Why? {why}_", width), "cursor")])
        keys = "letters say why (it may stay empty)   Enter commits, Escape goes back"
        doubt = self.meant.notice(self.why)
        if doubt:
            keys = f"{self.wording.notice(doubt)} Enter once more commits"
        return rows + [[(fit(f" {keys}", width), "head")]]
