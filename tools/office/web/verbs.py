"""What a browser can ask of a planner's work. It names a lecture, an offer, a week or a question
that it has seen; edits are made of them here, of known names and ranges alone."""
from __future__ import annotations

from typing import Any, Callable, Optional

from office.day.costs import COSTS
from office.day.edits import Edit
from office.day.instance import Instance
from office.day.lecture import Lecture, Slot
from office.seat.calls import Turn, read_call
from office.web.guard import Fault
from office.web.questions import Asking, Shown
from office.words.notice import Question, say
from office.work.carry import MOVE, PLACE, SWAP
from office.work.week import VIEW_KINDS, View

Data = dict[str, Any]
# what is picked up to be moved or to be swapped, by the word of the page
PICKED = {kind.value: kind for kind in (MOVE, SWAP)}
# letters of a line that is typed by hand
LINE = 500
# letters that are typed one after another in the week
NAME = 40
# actions beside which a lecture may be held
LOOKS = ("edits", "history", "pin", "who", "findings")


class Request:
    """What a request says, of names and ranges that are known."""

    def __init__(self, instance: Instance, data: Data) -> None:
        self.instance, self.data = instance, data

    def text(self, name: str, longest: int) -> str:
        """Some text in one line."""
        found = self.data.get(name, "")
        if not isinstance(found, str):
            raise Fault(400, f"{name} is text")
        return " ".join(found.split())[:longest]

    def number(self, name: str) -> int:
        found = self.data.get(name)
        if not isinstance(found, int) or isinstance(found, bool):
            raise Fault(400, f"{name} is a number")
        return found

    def view(self, name: str = "view") -> View:
        found, instance = self.data.get(name), self.instance
        known: dict[str, Any] = {
            "curriculum": instance.curricula,
            "teacher": instance.teachers,
            "room": instance.rooms,
            "course": instance.courses,
        }
        if not isinstance(found, list) or len(found) != 2 or found[0] not in VIEW_KINDS:
            raise Fault(400, "whose week?")
        if not isinstance(found[1], str) or found[1] not in known[found[0]]:
            raise Fault(400, f"no {found[0]} of this name")
        return View(found[0], found[1])

    def slot(self, name: str) -> Slot:
        return self._slot(self.data.get(name))

    def _slot(self, found: Any) -> Slot:
        is_pair = isinstance(found, list) and len(found) == 2
        if not is_pair or not all(type(number) is int for number in found):
            raise Fault(400, "no slot")
        day, period = found
        if not (0 <= day < self.instance.days and 0 <= period < self.instance.periods):
            raise Fault(400, "no slot of this week")
        return day, period

    def course(self, found: Any) -> str:
        if not isinstance(found, str) or found not in self.instance.courses:
            raise Fault(400, "no course of this name")
        return found

    def lecture(self) -> Optional[Lecture]:
        """The lecture that was seen; none, if a slot without one was."""
        found = self.data.get("lecture")
        if found is None:
            return None
        if not isinstance(found, dict):
            raise Fault(400, "no lecture")
        room = found.get("room")
        if not isinstance(room, str) or room not in self.instance.rooms:
            raise Fault(400, "no room of this name")
        return Lecture(self.course(found.get("course")), room, *self._slot(found.get("at")))


class WindowTurn:
    """A request at the work of one window. Each act answers what is to be asked then, if anything
    is."""

    def __init__(self, shown: Shown, request: Request) -> None:
        self.shown, self.work, self.request = shown, shown.work, request

    def show(self) -> None:
        self.work.show(self.request.view())

    def next_week(self) -> None:
        self.work.show_next_week(self.request.lecture())

    def pick_up(self) -> Optional[Question]:
        kind = PICKED.get(str(self.request.data.get("kind")))
        if kind is None:
            raise Fault(400, "to move or to swap?")
        return self.work.pick_up(self.request.lecture(), kind)

    def pick_up_missing(self) -> Optional[Question]:
        return self.work.pick_up_missing(self.request.course(self.request.data.get("course")))

    def swap_instead(self) -> None:
        self.work.swap_instead()

    def move_instead(self) -> Optional[Question]:
        """What is picked up to be swapped is to be moved."""
        carry = self.work.carry
        return self.work.pick_up(carry.lecture) if carry and carry.lecture else None

    def put_down(self) -> Optional[Question]:
        """Puts down what is held, at the price that was shown; without one it stays."""
        carry, slot = self.work.carry, self.request.slot("to")
        if carry is None:
            self.work.notice = say("pick up first")
            return None
        if self.request.data.get("price") is None and slot == carry.slot:
            self.work.lay_down()
            return None
        if self.request.data.get("price") is None:
            return self.work.put_down(slot, None)
        price, about = self.request.number("price"), self.request.data.get("about")
        seen = [one for one in carry.at(slot) if (one.price, one.about) == (price, about)]
        # one that was never offered is refused as one that is offered no more
        return self.work.put_down(slot, seen[0] if seen else None)

    def lay_down(self) -> None:
        self.work.lay_down()

    def take_out(self) -> Optional[Question]:
        return self.work.take_out(self.request.lecture())

    def best(self) -> None:
        if self.work.carry is None:
            self.work.notice = say("pick up first")

    def missing(self) -> None:
        self.work.missing()

    def edit(self) -> Edit:
        """An edit that was seen, as a line of the desk."""
        found = Edit.parse(self.request.text("edit", LINE))
        if found is None:
            raise Fault(400, "no edit")
        return found

    def take_back(self) -> Optional[Question]:
        """Takes an edit of the draft back, whichever it is."""
        self.work.carry = None
        return self.work.drafting.take_back(self.request.number("place"), self.edit())

    def make_one(self) -> None:
        """Makes an edit again that was taken back."""
        self.work.carry = None
        edit = self.edit()
        if edit not in self.work.planning.state.taken_back:
            raise Fault(400, "this edit was not taken back")
        self.work.drafting.make_one(edit)

    def part(self) -> Optional[Question]:
        """What costs points of a part of the cost."""
        found = self.request.text("part", LINE)
        if found not in COSTS:
            raise Fault(400, "no part of the cost")
        return self.work.findings.of_part(found)

    def draft(self) -> Optional[Question]:
        """An accepted draft by its number."""
        return self.work.history.of_number(self.request.number("number"))

    def line(self) -> Optional[Question]:
        """A line of the desk that was typed by hand."""
        line = self.request.text("line", LINE)
        if not line:
            return None
        self.work.carry = None
        call = read_call(line)
        if call is Turn.LEAVE:
            return self.work.ask_leave()
        if call is Turn.COMMIT:
            Asking(self.shown).show_box()
        else:
            return self.work.drafting.type_line(line)
        return None

    def acts(self) -> dict[str, Callable[[], Optional[Question]]]:
        """The actions that ask nothing but their name, and perhaps a lecture."""
        drafting, asking = self.work.drafting, Asking(self.shown, self.request.text("key", NAME))
        return {
            "undo": drafting.undo,
            "history": lambda: self.work.drafts_of(self.request.lecture()),
            "pin": lambda: asking.pin(self.request.lecture()),
            "block": lambda: asking.block(self.request.lecture(), self.request.slot("at")),
            "who": self.work.knowing.who_is_where,
            "undo undo": drafting.undo_undo,
            "put aside": asking.put_aside,
            "variants": asking.list_variants,
            "findings": self.work.findings.question,
            "edits": drafting.edits,
            "commit": asking.show_box,
            "refresh": drafting.refresh,
            "redo": drafting.redo,
            "abandon": drafting.ask_abandon,
            "leave": self.work.ask_leave,
        }

    def act(self) -> Optional[Question]:
        """An action of the draft, by its name."""
        acts, name = self.acts(), self.request.data.get("name")
        if not isinstance(name, str) or name not in acts:
            raise Fault(400, "nothing of this name is done here")
        if name not in LOOKS:
            self.work.carry = None
        return acts[name]()


def hold_again(shown: Shown, instance: Instance, held: Any) -> None:
    """What was held when the server was another one is held again."""
    if not isinstance(held, dict) or shown.work.carry is not None:
        return
    request = Request(instance, {"lecture": held})
    kind = PICKED.get(str(held.get("kind")))
    if held.get("kind") == PLACE.value:
        shown.work.pick_up_missing(request.course(held.get("course")))
    elif kind is not None:
        shown.work.pick_up(request.lecture(), kind)


VERBS: dict[str, Callable[[WindowTurn], Optional[Question]]] = {
    name: getattr(WindowTurn, name)
    for name in (
        "show next_week pick_up pick_up_missing swap_instead move_instead put_down lay_down "
        "take_out best missing take_back make_one part draft line act"
    ).split()
}
# after these the other windows of the seat may see something else
CHANGES: list[str] = ["put_down", "take_out", "take_back", "make_one", "line", "act", "answer"]
