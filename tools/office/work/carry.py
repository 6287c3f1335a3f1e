"""A lecture that is picked up: what each slot would cost, or why it cannot stand there. All of it
is what the desk says: one answer for the whole grid, and one more for a slot of which all rooms are
wanted."""
from __future__ import annotations

from typing import Optional

from office.day.edits import Edit, Kind
from office.day.lecture import Lecture, Slot
from office.seat.answers import (
    Answer,
    Fault,
    NotAllowed,
    Offer,
    PriceIs,
    SlotOffer,
    SlotsAre,
    offers_in,
)
from office.words.notice import NOTHING, Notice, say
from office.words.reasons import (
    ROOM_FAULTS,
    alone_reason,
    partner_reason,
    reason,
    short_reason,
    short_swap_reason,
    slot_reason,
)
from office.work.planning import Planning, answer_notice

# a `cheapest` tells so many at most
MOST = 1000
# so many rooms are told one by one where none serves
FEW = 2
MOVE, SWAP, PLACE = Kind.MOVE, Kind.SWAP, Kind.PLACE


class Carry:
    """What is offered for a lecture that is placed, or for a missing one."""

    def __init__(
        self, planning: Planning, kind: Kind, course: str, lecture: Optional[Lecture]
    ) -> None:
        self.planning = planning
        self.kind, self.course, self.lecture = kind, course, lecture
        self.slot: Optional[Slot] = lecture.slot if lecture else None
        # how many drafts were accepted by then
        self.seen = len(planning.minutes.entries)
        self.choice = 0
        # the answer if it tells nothing of single slots, else what it tells of each
        self.refusal: Optional[Answer] = None
        self.slots: dict[Slot, SlotOffer] = {}
        # all rooms or partners of a slot by price, where they were asked
        self.offers: dict[Slot, list[Offer]] = {}
        self._read()

    def _edit(self, about: str, slot: Slot) -> Edit:
        """The edit by which it comes to a room or a partner at a slot."""
        if self.lecture is None:
            return Edit.place(self.course, about, slot)
        if self.kind is SWAP:
            return Edit.swap(self.course, self.lecture.slot, about, slot)
        return Edit.move(self.course, self.lecture.slot, about, slot)

    def _pattern(self, end: str) -> str:
        """The pattern of all edits by which it comes somewhere."""
        if self.lecture is None:
            return f"place {self.course} * {end}"
        start = f"{self.kind.value} {self.course} {self.lecture.day} {self.lecture.period}"
        return f"{start} * {end}"

    def _read(self) -> None:
        """One answer for the whole grid; of a move one more, for the rooms of its own slot."""
        answer = self.planning.look(f"slots {self._pattern('* *')}")
        slots = self.planning.instance.slots()
        if not isinstance(answer, SlotsAre) or len(answer.slots) != len(slots):
            self.refusal = answer
            return
        self.slots = dict(zip(slots, answer.slots))
        if self.kind is MOVE and self.lecture is not None:
            end = f"{self.lecture.day} {self.lecture.period}"
            answer = self.planning.look(f"cheapest {MOST} reroom {self.course} * {end}")
            self.offers[self.lecture.slot] = offers_in(answer)

    def _is_home(self, slot: Slot) -> bool:
        """Whether it is moved, and this is its own slot: there another room is all that can be."""
        return self.kind is MOVE and slot == self.slot

    def cheapest(self, slot: Slot) -> list[Offer]:
        """What is known of a slot without a further question: its cheapest offer, if there is one;
        in the own slot of what is moved all rooms."""
        if self._is_home(slot):
            return self.offers.get(slot, [])
        found = self.slots.get(slot)
        return [found] if isinstance(found, Offer) else []

    def at(self, slot: Slot) -> list[Offer]:
        """All that is offered at a slot, cheapest first; this asks the desk."""
        best = self.cheapest(slot)
        if best and slot not in self.offers:
            found = self._ask_swaps(slot) if self.kind is SWAP else self._ask_rooms(slot)
            self.offers[slot] = found or best
        return self.offers.get(slot, [])

    def _ask_rooms(self, slot: Slot) -> list[Offer]:
        """The rooms of a slot by price."""
        pattern = self._pattern(f"{slot[0]} {slot[1]}")
        return offers_in(self.planning.look(f"cheapest {MOST} {pattern}"))

    def _ask_swaps(self, slot: Slot) -> list[Offer]:
        """The lectures of a slot to change places with, by price: each that stands there is
        asked."""
        found = []
        for other in self._partners(slot):
            edit = self._edit(other.course, slot)
            answer = self.planning.look(f"price {edit}")
            found += [Offer(answer.price, edit)] if isinstance(answer, PriceIs) else []
        return sorted(found, key=lambda offer: offer.price)

    def _partners(self, slot: Slot) -> list[Lecture]:
        """The lectures of a slot, as the desk says, without the one that is picked up."""
        there = self.planning.lectures(f"slot {slot[0]} {slot[1]}")
        return [one for one in there if (one.course, one.slot) != (self.course, self.slot)]

    def chosen(self, slot: Slot) -> Optional[Offer]:
        """The offer that the key for rooms has come to."""
        offers = self.at(slot) if self.choice else self.cheapest(slot)
        return offers[self.choice % len(offers)] if offers else None

    def begin_at(self, slot: Slot) -> None:
        """Chooses the cheapest offer of a slot; in its own slot the lecture stays in its room."""
        self.choice = 0
        if self._is_home(slot) and self.lecture:
            rooms = [offer.about for offer in self.cheapest(slot)]
            self.choice = rooms.index(self.lecture.room) if self.lecture.room in rooms else 0

    def best(self) -> Optional[tuple[Slot, Offer]]:
        """The cheapest of all that is offered, in its own slot, too; of several the first one. To
        leave everything as it is is no offer."""
        found = [
            (slot, offers[0])
            for slot in self.slots
            for offers in [[one for one in self.cheapest(slot) if not self.is_idle(slot, one)]]
            if offers
        ]
        return min(found, key=lambda one: one[1].price) if found else None

    def stands_best(self) -> bool:
        """Whether what is moved stands where nothing else that is offered is cheaper."""
        best = self.best()
        return self.kind is MOVE and best is not None and best[1].price >= 0

    def is_idle(self, slot: Slot, offer: Optional[Offer]) -> bool:
        """Whether an offer leaves everything as it is."""
        return bool(
            self._is_home(slot) and self.lecture and offer and offer.about == self.lecture.room
        )

    def is_in_place(self, slot: Slot) -> bool:
        """Whether the chosen offer leaves everything as it is."""
        return self.is_idle(slot, self.chosen(slot))

    def choose(self, slot: Slot, offer: Offer) -> None:
        known = self.cheapest(slot)
        self.choice = (known if offer in known else self.at(slot)).index(offer)

    # why nothing is offered

    def _refused(self) -> Optional[Fault]:
        """The fault for which the desk refuses all at once, if it does."""
        return self.refusal.fault if isinstance(self.refusal, NotAllowed) else None

    def _fault(self, slot: Slot) -> Optional[Fault]:
        """Why nothing is offered at a slot, as the desk says; None if it has not said so."""
        found = self.slots.get(slot, self._refused())
        return found if isinstance(found, Fault) else None

    def short_reason(self, slot: Slot) -> Notice:
        """Why nothing is offered at a slot, in two words."""
        instance, fault = self.planning.instance, self._fault(slot)
        if self.kind is SWAP and self.refusal is None:
            return short_swap_reason(instance, self.course, slot, fault)
        return short_reason(instance, self.course, slot, fault)

    def reason(self, slot: Slot) -> Notice:
        """Why nothing is offered at a slot; of a swap, and where rooms are few, this asks the
        desk."""
        instance, fault = self.planning.instance, self._fault(slot)
        if self.kind is SWAP and self.refusal is None:
            return self._swap_reason(slot, fault)
        if fault is not None and fault.kind in ROOM_FAULTS and len(instance.rooms) <= FEW:
            return say("rooms", reasons=self._room_reasons(slot))
        return slot_reason(instance, self.course, slot, fault)

    def _room_reasons(self, slot: Slot) -> list[Notice]:
        """Why each room does not serve in a slot, as the desk says of each."""
        instance, found = self.planning.instance, []
        for room in instance.rooms:
            edit = self._edit(room, slot)
            answer = self.planning.look(f"price {edit}")
            if isinstance(answer, NotAllowed):
                found.append(reason(instance, edit, answer.fault))
        return found

    def _swap_reason(self, slot: Slot, fault: Optional[Fault]) -> Notice:
        """Why no lecture of a slot can change places with it: the first one that the desk refuses
        as it does the slot."""
        partners = self._partners(slot)
        if fault is None:
            return say("not told")
        if any(other.course == self.course for other in partners):
            return alone_reason(self.course, fault)
        for other in partners:
            edit = self._edit(other.course, slot)
            answer = self.planning.look(f"price {edit}")
            if isinstance(answer, NotAllowed) and answer.fault == fault:
                return partner_reason(self.planning.instance, edit, fault)
        is_alone = fault.kind in ("notplaced", "samecourse")
        return say("no partner" if is_alone else "not told")

    # what is told

    def notice(self, slot: Slot) -> Notice:
        """What the chosen offer of a slot is, or why there is none."""
        offers, offer = self.at(slot), self.chosen(slot)
        if offer is None:
            return say("no offer", reason=self.reason(slot))
        more = NOTHING
        if len(offers) > 1:
            more = say("offer of several", number=self.choice % len(offers) + 1, of=len(offers))
        if self.is_in_place(slot):
            return say("offer stays", more=more)
        return self.offer_notice(offer, more)

    def offer_notice(self, offer: Offer, more: Notice = NOTHING) -> Notice:
        if self.kind is SWAP:
            return say("offer with", price=offer.price, other=offer.about, more=more)
        return say("offer in", price=offer.price, room=offer.about, more=more)

    def best_notice(self) -> Notice:
        """The cheapest of all that is offered."""
        best = self.best()
        if best is None:
            if self.refusal is None or self._refused() is not None:
                return say("nowhere else")
            return answer_notice(self.refusal)
        slot, offer = best
        if self.kind is SWAP:
            return say("cheapest with", price=offer.price, other=offer.about, slot=slot)
        code = "stands best" if self.stands_best() else "cheapest in"
        return say(code, price=offer.price, room=offer.about, slot=slot)
