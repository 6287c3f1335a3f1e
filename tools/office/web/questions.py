"""What a window is asked: what is to be read, answered, chosen or typed."""
from __future__ import annotations

from functools import partial
from typing import Any, Callable, NamedTuple, Optional

from office.day.lecture import Lecture, Slot
from office.day.shifts import shifts_of
from office.past.variants import Variant, Variants
from office.web.guard import Fault
from office.words.meant import Meant, names_of
from office.words.notice import Notice, Question, Reason, say
from office.words.wording import Wording
from office.work.drafting import Box
from office.work.planning import Planning
from office.work.work import Work

Act = Callable[[], Optional[Question]]
Choice = tuple[Notice, Act]
# letters of a reason, and of a name of what is put aside
WHY = 200


class Line(NamedTuple):
    """A line that is to be typed for a question: what it is called, the answer with which it goes,
    and what is done with it. What is confirmed before a commit is a box."""

    label: str
    answer: str
    take: Callable[[str], Optional[Question]]
    box: Optional[Box] = None
    # whether it is asked once more about what was typed, and what was typed before
    meant: Optional[Meant] = None
    text: str = ""


class Shown:
    """What a window has of a planner's work: a week, what is held, and what is asked."""

    def __init__(self, planning: Planning, variants: Variants, wording: Wording) -> None:
        self.planning, self.wording = planning, wording
        self.work = Work(planning, variants)
        # what is asked, and what is to be typed for it, and the number under which it is
        self.question: Optional[Question] = None
        self.line: Optional[Line] = None
        self.asked = 0
        self.pictures = 0

    def ask(self, question: Optional[Question], line: Optional[Line] = None) -> None:
        """Keeps what is asked now, or that nothing is."""
        if question is not None and question.reason is not None and line is None:
            line = self.line_of(question.reason)
        self.question, self.line = question, line
        self.asked += 1

    def answer(self, number: int, name: Any, choice: Any, typed: str) -> Optional[Question]:
        """The answer to what is asked now; none to what was asked before."""
        question, line = self.question, self.line
        if question is None or number != self.asked:
            raise Fault(409, "this was asked before: look again")
        if line is not None and name == line.answer and line.meant and line.meant.asks(typed):
            self.ask(question, line._replace(text=typed))
            return None
        if line is not None and name == line.answer:
            act: Act = partial(line.take, typed)
        elif isinstance(name, str) and name in question.answers:
            act = question.answers[name]
        elif type(choice) is int and 0 <= choice < len(question.choices):
            act = question.choices[choice][1]
        else:
            raise Fault(400, "no answer to this")
        self.ask(None)
        return act()

    def line_of(self, reason: Reason) -> Line:
        """The line for a reason that is needed."""
        meant = Asking(self).meant(True)
        label = self.wording.notice(reason.label)
        return Line(label, reason.answer, reason.take, meant=meant)

    def close(self, typed: str) -> None:
        """What is asked is not answered. A reason that was begun for a commit is kept."""
        line = self.line
        if line is not None and line.box is not None and line.meant and line.meant.asked is None:
            self.work.drafting.why = typed
        self.ask(None)


class Asking:
    """Questions for which a browser has a box of its own. `key` is what was pressed in the week, if
    it was."""

    def __init__(self, shown: Shown, key: str = "") -> None:
        self.shown, self.work, self.key = shown, shown.work, key

    def meant(self, is_needed: bool = False) -> Meant:
        """Asks about what is typed behind the key."""
        shown = self.shown
        instance, wording = shown.planning.instance, shown.wording
        return Meant(self.key, lambda: names_of(instance, wording.labels), is_needed)

    def show_box(self) -> None:
        """Shows what a commit would publish, if there is anything to commit."""
        drafting = self.work.drafting
        box = drafting.box()
        if box is not None:
            label = "Why? (the others see it; it may stay empty)"
            edits = box.edits

            def take(why: str) -> Optional[Question]:
                return drafting.commit(edits, why)

            line = Line(label, "commit", take, box, self.meant(), drafting.why)
            self.shown.ask(Question(say("blank"), box.lines()), line)

    def pin(self, lecture: Optional[Lecture]) -> Optional[Question]:
        """Pins a lecture that was seen, or takes its pin off."""
        knowing = self.work.knowing
        if lecture is None or not knowing.can_pin(lecture):
            knowing.can_pin(lecture)
            return None
        question = knowing.ask_unpin(lecture)
        if question is None:
            pinned = lecture

            def take(why: str) -> None:
                knowing.pin(pinned, why)

            title = say("one course", course=lecture.course)
            line = Line("Why is it pinned?", "pin", take, meant=self.meant())
            self.shown.ask(Question(title), line)
        return question

    def block(self, lecture: Optional[Lecture], slot: Slot) -> Optional[Question]:
        """Lists what can be blocked or lifted where the cursor is."""
        found = self.work.blocking.choices(self.work.view, lecture, slot)
        if not found:
            self.work.notice = say("nothing to block")
            return None
        blocking = self.work.blocking
        choices: list[Choice] = [(one.notice, partial(blocking.question, one)) for one in found]
        return Question(say("what to block"), choices=choices)

    def put_aside(self) -> None:
        """Puts the edits of the draft aside under a name."""
        planning, variants = self.work.planning, self.work.variants
        edits = planning.edits() or planning.ended()
        if not edits:
            variants.put_aside("")
            return

        def take(name: str) -> None:
            variants.put_aside(name)

        lines = [say("edit line", shifts=shifts_of(edit)) for edit in edits]
        question = Question(say("your edits"), lines)
        self.shown.ask(question, Line("Put aside as", "put aside", take))

    def list_variants(self) -> Optional[Question]:
        """What was put aside, to be chosen from."""
        variants = self.work.variants
        if not variants.kept and not variants.thrown:
            self.work.notice = say("no variants")
            return None
        found = variants.listed()
        choices: list[Choice] = [(one.notice(), partial(self.variant, one, found)) for one in found]
        return Question(say("variants"), choices=choices)

    def variant(self, one: Variant, found: list[Variant]) -> Question:
        """What can be done with something that was put aside."""
        variants = self.work.variants
        lines = [say("edit line", shifts=shifts_of(edit)) for edit in one.edits]
        answers: dict[str, Act] = {
            "take up": partial(variants.take_up, one.name),
            "throw away": partial(self.throw_away, one.name),
        }
        others: list[Choice] = [
            (other.notice(), partial(variants.compare, one, other))
            for other in found
            if other is not one
        ]
        if others:
            answers["compare"] = lambda: Question(say("variants"), choices=others)
        return Question(one.notice(), lines, answers)

    def throw_away(self, name: str) -> None:
        self.work.variants.throw_away(name)
