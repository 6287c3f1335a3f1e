"""Which drafts have changed what a planner looks at, and how one is taken back."""
from __future__ import annotations

from functools import partial
from typing import Callable, Optional

from office.day.costs import COSTS
from office.day.shifts import Shift
from office.past.drafts import Draft, exchanged, net
from office.past.subjects import Subject
from office.past.taking_back import take_back
from office.past.timetable_at import costs_around
from office.refused import Refused
from office.seat.answers import Row
from office.words.notice import NOTHING, Notice, Question, say
from office.work.closures_past import ClosuresPast
from office.work.planning import Planning

Act = Callable[[], Optional[Question]]
# so many lectures of a draft are said in a list of drafts
FEW = 2


class History:
    """The accepted drafts of a day, as a planner's client knows them."""

    def __init__(self, planning: Planning) -> None:
        self.planning, self.closures = planning, ClosuresPast(planning)
        self._shifts: list[list[Shift]] = []

    def shifts(self) -> list[list[Shift]]:
        """What each draft did, in their order."""
        for one in self.planning.news.accepted[len(self._shifts) :]:
            self._shifts.append(net(one.all()))
        return self._shifts

    def draft(self, place: int) -> Draft:
        """The draft at a place in their order."""
        news = self.planning.news
        accepted = news.accepted[place]
        entry = accepted.entry
        facts, shifts = news.facts(accepted), self.shifts()[place]
        return Draft(entry.number, entry.planner, *facts, entry.edits, shifts)

    def who(self, draft: Draft) -> Notice:
        return say("named", name=draft.name) if draft.name else say("seat", planner=draft.planner)

    def of(self, what: Subject) -> Optional[Question]:
        """The drafts that have changed something, newest first, to be chosen from."""
        instance, row = self.planning.instance, Row(*what)
        found: list[tuple[str, Notice, Act]] = []
        for place, shifts in reversed(list(enumerate(self.shifts()))):
            touched = [one for one in shifts if what.is_touched(instance, one)]
            if touched:
                draft = self.draft(place)
                found.append((draft.time, self.line(draft, touched), partial(self.shown, draft)))
        events = self.closures.of(what)
        for event in reversed(events):
            act = partial(self.closures.shown, event)
            found.append((event.closure.time, event.line(), act))
        if not found:
            self.planning.notice = say("never changed", row=row)
            return None
        found.sort(key=lambda one: one[0], reverse=True)
        choices = [(notice, act) for _, notice, act in found]
        title = say("changes of" if events else "drafts of", row=row)
        return Question(title, choices=choices)

    def of_number(self, number: int) -> Optional[Question]:
        """An accepted draft by its number."""
        places = [
            place
            for place, one in enumerate(self.planning.news.accepted)
            if one.entry.number == number
        ]
        self.shifts()
        return self.shown(self.draft(places[0])) if places else None

    def line(self, draft: Draft, touched: list[Shift]) -> Notice:
        """A draft in a list, with what it did that is asked about, and why."""
        groups = exchanged(touched)
        notices = [say("edit words", shifts=group) for group in groups[:FEW]]
        more = len(groups) - FEW
        return say(
            "draft choice",
            number=draft.number,
            who=self.who(draft),
            time=draft.time,
            reasons=notices + ([say("and more", count=more)] if more > 0 else []),
            why=say("because", why=draft.why) if draft.why else NOTHING,
        )

    def shown(self, draft: Draft) -> Question:
        """A draft, to be read or taken back."""
        lines = [say("edit line", shifts=group) for group in exchanged(draft.shifts)]
        return Question(
            say("draft title", number=draft.number, who=self.who(draft), time=draft.time),
            [
                say("why", why=draft.why) if draft.why else say("no why"),
                *(lines or [say("no change")]),
                self.cost(draft),
            ],
            {"take back": lambda: self.take_back(draft)},
        )

    def cost(self, draft: Draft) -> Notice:
        """What the timetable cost before and after a draft."""
        try:
            before, after = costs_around(self.planning.seat.day, draft.number)
        except Refused:
            return say("cost not known")
        parts = [
            say("cost part", part=part, price=after[part] - before[part])
            for part in COSTS
            if after[part] != before[part]
        ]
        sums = {"before": sum(before.values()), "after": sum(after.values())}
        return say("cost change", **sums, parts=say("cost parts", reasons=parts))

    def take_back(self, draft: Draft) -> Optional[Question]:
        """Makes the inverse of a draft in the planner's own; says what stays as it is."""
        planning = self.planning
        later = map(self.draft, range(draft.number, len(self.shifts())))
        taken = take_back(planning, draft, later)
        if taken is None:
            return None
        code = "draft taken back" if taken.made else "nothing taken back"
        planning.notice = say(code, number=draft.number, count=len(taken.made))
        if not taken.kept:
            return None
        return Question(planning.notice, [say("left as it is"), *taken.kept_lines()])
