"""A lecture that is picked up: what is asked of the desk, and how its answers are read."""
import random

from fake_planner import FakePlanner
from support import OfficeTest, said

from office.day.closure import Closure, Scope
from office.day.edits import Edit
from office.day.lecture import Lecture
from office.seat.answers import Fault, Offer, SlotsAre, offers_in, read_answer
from office.work.carry import MOVE, PLACE, SWAP, Carry
from plain_desk import FAULTS

GRID = (
    "slots 6 - sameslot - clash geo - roomtaken top - already -3 move alg 0 0 B 1 1 - unavailable"
)
HOME = "prices 2 -1 reroom alg B 0 0 0 reroom alg A 0 0"
MOVES, HOMES = "slots move alg 0 0 * * *", "cheapest 1000 reroom alg * 0 0"


def offer(price, line):
    return Offer(price, Edit.parse(line))


def slots_in(line):
    """What a `slots` says of each slot; None if it is another answer."""
    answer = read_answer(line)
    return answer.slots if isinstance(answer, SlotsAre) else None


class Read(OfficeTest):
    """Answers as they are read."""

    def test_each_edit_and_fault(self):
        """Edits have 5 or 7 words, two faults have one word more, and all may follow each other."""
        told = [
            "-2 move alg 0 1 A 0 0",
            "- clash bio",
            "0 place - B 1 2",
            "- roomtaken clash",
            "- none",
            "7 swap geo 0 1 alg 1 1",
            *(f"- {fault}" for fault in FAULTS if fault not in ("clash", "roomtaken")),
            "1000000 reroom top A 0 2",
            "- clash -",
        ]
        wanted = [
            offer(-2, "move alg 0 1 A 0 0"),
            Fault("clash", "bio"),
            offer(0, "place - B 1 2"),
            Fault("roomtaken", "clash"),
            Fault("none"),
            offer(7, "swap geo 0 1 alg 1 1"),
            *(Fault(fault) for fault in FAULTS if fault not in ("clash", "roomtaken")),
            offer(1000000, "reroom top A 0 2"),
            Fault("clash", "-"),
        ]
        self.assertEqual(slots_in(" ".join(["slots", str(len(told)), *told])), wanted)
        for seed in range(50):
            order = random.Random(seed).sample(range(len(told)), len(told))
            line = " ".join(["slots", str(len(told)), *(told[at] for at in order)])
            self.assertEqual(slots_in(line), [wanted[at] for at in order])

    def test_other_answers(self):
        for answer in ("refused full", "no memory", "no draft", "bad line 2 slots", "", "prices 0"):
            self.assertIsNone(slots_in(answer))
            self.assertEqual(offers_in(read_answer(answer)), [])
        self.assertEqual(slots_in("slots 0"), [])


class Asked(OfficeTest):
    """What a carry asks, and when."""

    ALG = Lecture("alg", "A", 0, 0)

    def test_move(self):
        """Two questions for a grid; the rooms of a slot are asked when they are wanted."""
        rooms = "prices 2 -3 move alg 0 0 B 1 1 5 move alg 0 0 A 1 1"
        desk = FakePlanner({MOVES: GRID, HOMES: HOME, "cheapest 1000 move alg 0 0 * 1 1": rooms})
        carry = Carry(desk, MOVE, "alg", self.ALG)
        told = "Cheapest: -3 in B, day 2, period 2: b goes there."
        self.assertEqual(said(carry.best_notice()), told)
        for slot in desk.instance.slots():
            carry.begin_at(slot)
            carry.chosen(slot)
        told = {slot: carry.cheapest(slot) for slot in desk.instance.slots()}
        self.assertEqual([len(told[slot]) for slot in told], [2, 0, 0, 0, 1, 0])
        self.assertEqual(desk.asked, [MOVES, HOMES])
        carry.begin_at((0, 0))
        self.assertTrue(carry.is_in_place((0, 0)))
        carry.begin_at((1, 1))
        self.assertEqual(said(carry.notice((1, 1))), "-3 in B (1 of 2; Tab for the next)")
        carry.choice += 1
        self.assertEqual(said(carry.notice((1, 1))), "+5 in A (2 of 2; Tab for the next)")
        self.assertEqual(carry.chosen((1, 1)), offer(5, "move alg 0 0 A 1 1"))
        carry.choice += 1
        self.assertEqual(carry.chosen((1, 1)), offer(-3, "move alg 0 0 B 1 1"))
        self.assertEqual(desk.asked, [MOVES, HOMES, "cheapest 1000 move alg 0 0 * 1 1"])

    def test_own_slot_is_the_cheapest(self):
        desk = FakePlanner({MOVES: GRID.replace("-3", "3"), HOMES: HOME})
        carry = Carry(desk, MOVE, "alg", self.ALG)
        self.assertEqual(carry.best(), ((0, 0), offer(-1, "reroom alg B 0 0")))
        carry.begin_at((0, 0))
        carry.choose(*carry.best())
        self.assertEqual(carry.chosen((0, 0)).about, "B")
        desk = FakePlanner({MOVES: GRID.replace("-3", "0"), HOMES: "prices 1 0 reroom alg A 0 0"})
        carry = Carry(desk, MOVE, "alg", self.ALG)
        # to leave all as it is is no offer
        self.assertEqual(carry.best()[0], (1, 1))

    def test_few_rooms(self):
        """Where no room serves, and there are two at most, the desk says of each why."""
        move = "price move alg 0 0 {} 0 2"
        desk = FakePlanner(
            {
                MOVES: GRID,
                HOMES: HOME,
                move.format("A"): "refused blocked",
                move.format("B"): "refused roomtaken top",
            }
        )
        desk.instance.block([Closure(Scope("room", "A", 0), "ben", 1, "2026-11-30T10:15", "ill")])
        carry = Carry(desk, MOVE, "alg", self.ALG)
        self.assertEqual(said(carry.short_reason((0, 2))), "no room")
        self.assertEqual(desk.asked, [MOVES, HOMES])
        self.assertEqual(
            said(carry.reason((0, 2))),
            "A is blocked then: ill (ben at seat 1); top is in B then",
        )

    def test_swap(self):
        """The lectures that stand in a slot are asked one by one, when they are wanted: what they
        cost, or why none can be."""
        swaps = "slots swap alg 0 0 * * *"
        price = "price swap alg 0 0 {} 0 2"
        refused = "price swap alg 0 0 {} 0 1"
        desk = FakePlanner(
            {
                swaps: "slots 6 - samecourse - clash geo 4 swap alg 0 0 top 0 2 - already "
                "- notplaced - unavailable",
                price.format("geo"): "refused clash geo",
                price.format("top"): "price 4",
                refused.format("geo"): "refused unavailable",
                refused.format("top"): "refused clash geo",
            }
        )
        desk.now.put("geo", (0, 2), "A")
        desk.now.put("top", (0, 1), "B")
        carry = Carry(desk, SWAP, "alg", self.ALG)
        self.assertEqual(said(carry.best_notice())[:26], "Cheapest: +4 with top, day")
        self.assertEqual(desk.asked, [swaps])
        short = [said(carry.short_reason((0, at))) for at in (0, 1)]
        self.assertEqual(short, ["no swap", "clash geo"])
        self.assertEqual(desk.asked, [swaps])
        self.assertEqual(said(carry.reason((1, 1))), "no lecture there to swap with")
        self.assertEqual(desk.asked[1:], ["slot 1 1"])
        desk.asked.clear()
        self.assertEqual(said(carry.reason((0, 1))), "curriculum q1 has geo then")
        asked = ["slot 0 1", refused.format("geo"), refused.format("top")]
        self.assertEqual(desk.asked, asked)
        desk.asked.clear()
        self.assertEqual(carry.at((0, 2)), [offer(4, "swap alg 0 0 top 0 2")])
        self.assertEqual(desk.asked, ["slot 0 2", price.format("geo"), price.format("top")])

    def test_refused(self):
        """What makes every edit fail is said of each slot."""
        desk = FakePlanner({MOVES: "refused notplaced"})
        carry = Carry(desk, MOVE, "alg", self.ALG)
        self.assertEqual(said(carry.best_notice()), "It can stand nowhere else now.")
        for slot in desk.instance.slots():
            self.assertEqual(said(carry.short_reason(slot)), "gone")
            told = "cannot stand there: no lecture of alg stands there any more"
            self.assertEqual(said(carry.notice(slot)), told)
        desk = FakePlanner({"slots swap alg 0 0 * * *": "refused notplaced"})
        self.assertEqual(said(Carry(desk, SWAP, "alg", self.ALG).short_reason((0, 1))), "gone")
        desk = FakePlanner({"slots place alg * * *": "refused full"})
        carry = Carry(desk, PLACE, "alg", None)
        self.assertEqual(said(carry.short_reason((0, 1))), "full")
        self.assertEqual(said(carry.reason((0, 1))), "all lectures of alg are placed")

    def test_no_room_at_all(self):
        desk = FakePlanner({"slots place alg * * *": "slots 6" + 6 * " - none"})
        desk.instance.rooms.clear()
        carry = Carry(desk, PLACE, "alg", None)
        self.assertEqual(said(carry.short_reason((0, 1))), "no room")
        self.assertEqual(said(carry.reason((0, 1))), "there is no room at all")

    def test_not_told(self):
        """A desk without memory for it, or one that says something else: nothing is guessed."""
        for answer, told in (
            ("no memory", "The desk has no memory for it now; try again."),
            ("slots 1 - full", "The desk says: slots 1 - full"),
            ("bad line 2 slots", "The desk says: bad line 2 slots"),
        ):
            carry = Carry(FakePlanner({MOVES: answer}), MOVE, "alg", self.ALG)
            self.assertEqual(said(carry.best_notice()), told)
            self.assertEqual(said(carry.short_reason((0, 1))), "not known")
            self.assertEqual(
                said(carry.notice((0, 1))),
                "cannot stand there: the desk has not said what it would cost",
            )
