"""A plain desk, by the plain rules: what the lines of a script are answered, and what is left."""
from plain_rules import FAULTS, Rules, as_list

__all__ = ["FAULTS", "Desk", "Draft", "Rules", "as_list", "placed"]


class Draft:
    """A draft: its base, how many drafts were accepted before it, what it has made of it, its calls
    with their answers, and the rows that these read."""

    def __init__(self, base, since):
        self.base, self.since, self.now, self.asked, self.rows = base, since, base, [], set()


class Desk:
    """A desk with an opening, its drafts, and the accepted ones."""

    def __init__(self, instance, opening):
        self.rules, self.t, self.drafts, self.entries = Rules(instance), dict(opening), {}, []

    def stale(self, draft):
        """The words of the least row of a draft that has changed, or None."""
        def row(t, of):
            part = slice(1, None) if isinstance(of, tuple) else 0
            return {place: r for place, r in t.items() if place[part] == of}

        changed = [of for of in draft.rows if row(self.t, of) != row(draft.base, of)]
        for of in sorted(changed, key=lambda of: (1, *of) if isinstance(of, tuple) else (0, of)):
            if isinstance(of, tuple):
                return f"stale slot {of[0]} {of[1]}"
            return f"stale course {self.rules.course_names[of]}"
        return None

    def made_again(self, draft):
        """The present timetable after the edits of a draft."""
        t = self.t
        for words, _ in draft.asked:
            t = self.rules.answer(t, words)[1]
        return t

    def end(self, planner, event):
        """The answer to a commit or a refresh."""
        draft = self.drafts[planner]
        stale = self.stale(draft)
        if stale:
            del self.drafts[planner]
            return stale
        if event == "refresh":
            draft.base, draft.since, draft.now = self.t, len(self.entries), self.made_again(draft)
            return "refreshed"
        self.t = self.made_again(draft)
        self.entries.append((planner, draft.asked))
        del self.drafts[planner]
        return f"committed {len(self.entries)}"

    def status(self, planner):
        """The answer to a status."""
        draft = self.drafts[planner]
        edits = sum(answer == "done" for _, answer in draft.asked)
        return f"draft {edits} {len(self.entries) - draft.since} {self.stale(draft) or 'fresh'}"

    def answer(self, words):
        """What a line of a script is answered."""
        first, *rest = words
        if first == "show":
            return self.rules.answer(self.t, rest)[0]
        planner = int(first)
        if rest == ["open"]:
            if planner in self.drafts:
                return "already open"
            self.drafts[planner] = Draft(self.t, len(self.entries))
            return "opened"
        if planner not in self.drafts:
            return "no draft"
        draft = self.drafts[planner]
        if rest in (["commit"], ["refresh"]):
            return self.end(planner, rest[0])
        if rest == ["abandon"]:
            del self.drafts[planner]
            return "abandoned"
        if rest == ["status"]:
            return self.status(planner)
        if rest[0] == "peek":
            return self.rules.answer(draft.now, rest[1:])[0]
        answer, draft.now = self.rules.answer(draft.now, rest)
        draft.asked.append((rest, answer))
        draft.rows |= self.rules.reads(rest)
        return answer

    def play(self, lines):
        """The answers to lines, each a list of words, as a text."""
        return "".join(self.answer(words) + "\n" for words in lines)

    def journal(self):
        """The text of the journal."""
        entries = "".join(entry_text(*entry) for entry in self.entries)
        return f"journal {len(self.entries)}\n{entries}END.\n"

    def solution(self):
        """The text of the timetable."""
        courses, rooms = self.rules.course_names, self.rules.room_names
        return "".join(f"{courses[c]} {rooms[r]} {d} {p}\n" for c, d, p, r in as_list(self.t))

    def costs(self):
        """The line of what the timetable costs."""
        return " ".join(map(str, ["costs", *self.rules.costs(self.t)])) + "\n"


def entry_text(planner, asked):
    """An entry of a journal, or of minutes: the calls of a draft with their answers."""
    calls = "".join(f"{' '.join(words)}\n{answer}\n" for words, answer in asked)
    return f"entry {planner} {len(asked)}\n{calls}"


def placed(instance, lectures):
    """Lectures placed one after another, in their order: the timetable of those that can be, and
    the others with their number and fault."""
    rules, t, others = Rules(instance), {}, []
    for at, (c, d, p, r) in enumerate(lectures, 1):
        fault, t = rules.put(t, (c, (d, p), r))
        if fault:
            others.append((at, (c, d, p, r), fault))
    return t, others
