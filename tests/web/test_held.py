"""What is held: each slot has its cheapest price, or the reason against it, as the desk says."""
import random

from served import (
    SPRING,
    SPRING_SOL,
    BrowserTest,
    WebTest,
    cell,
    skip_without_browser,
    skip_without_tornado,
)

# a lecture of c0109, where it is cheapest, and where its teacher has another one
FROM, BEST, BUSY = (4, 1), (4, 3), (3, 0)
SEEN = {"course": "c0109", "room": "r01", "at": FROM}
# slots in which nothing is to be read
BARE = (
    "return [...document.querySelectorAll('#week .cell')]"
    ".filter((one) => !one.querySelector('.price, .why')).length"
)
BUTTON = "document.querySelector(arguments[0] + ' .more').click()"
COURSES, ROOMS, DAYS, PERIODS = 2000, 70, 10, 10


@skip_without_tornado
class Offered(WebTest):
    def hold(self, verb, told):
        """What is told when a lecture is picked up: all of it, and slot by slot."""
        status, found = self.ask(verb, told)
        self.assertEqual(status, 200, found)
        held = found["picture"]["held"]
        return held, {tuple(one["at"]): one for one in held["slots"]}

    def test_each_slot(self):
        """A price or a reason, to move, to swap and to place; all that a slot offers when that is
        asked, cheapest first."""
        self.open("day", SPRING, "1", "--start", SPRING_SOL)
        self.serve("day")
        self.ask("hello", {"name": "anna"})
        asked = [("pick_up", {"lecture": SEEN, "kind": kind}) for kind in ("move", "swap")]
        for verb, told in (*asked, ("pick_up_missing", {"course": "c0109"})):
            if verb == "pick_up_missing":
                self.ask("lay_down")
                self.ask("take_out", {"lecture": SEEN})
            held, slots = self.hold(verb, told)
            self.assertEqual(len(slots), 25)
            for slot, one in slots.items():
                offers = self.ask("offers", {"at": slot})[1]["offers"]
                if slot == FROM and held["kind"] == "move":
                    self.assertEqual(one["offers"], offers)
                    self.assertIn([0, "r01", "r01"], offers)
                    continue
                self.assertEqual(one["offers"], offers[:1], slot)
                self.assertEqual(offers, sorted(offers, key=lambda offer: offer[0]))
                self.assertEqual(bool(offers), "why" not in one)
                self.assertTrue(offers or (one["why"] and one["shortly"]))
            self.assertEqual(slots[BUSY]["why"], "its teacher t067 teaches c0120 then")
            self.assertEqual(slots[BUSY]["shortly"], "clash c0120")
            self.assertEqual(slots[0, 0]["shortly"], "closed")
            least = min(one["offers"][0][0] for one in slots.values() if one["offers"])
            best = slots[tuple(held["best"])]["offers"][held["place"]]
            self.assertEqual(best[0], least)

    def test_not_held(self):
        """Where nothing is held nothing is offered; a slot that is none is refused."""
        self.open("day", SPRING, "1", "--start", SPRING_SOL)
        self.serve("day")
        self.assertEqual(self.ask("offers", {"at": BEST})[0], 410)
        self.ask("hello", {"name": "anna"})
        self.assertEqual(self.ask("offers", {"at": BEST}), (200, {"offers": []}))
        for wrong in ({}, {"at": [0, 99]}, {"at": "0,0"}):
            self.assertEqual(self.ask("offers", wrong)[0], 400)

    def test_refused_for_all(self):
        """A course of which nothing is missing: each slot says so."""
        self.open("day", SPRING, "1", "--start", SPRING_SOL)
        self.serve("day")
        self.ask("hello", {"name": "anna"})
        held, slots = self.hold("pick_up_missing", {"course": "c0109"})
        self.assertIsNone(held["best"])
        for one in slots.values():
            self.assertEqual(one["offers"], [])
            self.assertEqual(one["why"], "all lectures of c0109 are placed")

    def test_two_thousand_courses(self):
        """Each of 100 slots has a price or a reason, by one answer."""
        self.open("day", *self.large())
        self.serve("day")
        self.ask("hello", {"name": "anna"})
        lecture = {"course": "c0000", "room": "r00", "at": [0, 0]}
        for kind in ("move", "swap"):
            _, slots = self.hold("pick_up", {"lecture": lecture, "kind": kind})
            self.assertEqual(len(slots), 100)
            priced = [one for one in slots.values() if one["offers"]]
            self.assertGreater(len(priced), 90)
            for one in slots.values():
                self.assertTrue(one["offers"] or (one["why"] and one["shortly"] != "not known"))

    def large(self):
        """The words that open a day of many courses, which fill most rooms."""
        draw = random.Random(5)
        names = [f"c{number:04}" for number in range(COURSES)]
        lines = [
            f"Name: large Courses: {COURSES} Rooms: {ROOMS} Days: {DAYS} "
            f"Periods_per_day: {PERIODS} Curricula: 1 Constraints: 0 COURSES:",
            *(f"{name} t{name} 3 2 {draw.randrange(200)}" for name in names),
            "ROOMS:",
            *(f"r{number:02} {draw.randrange(20, 200)}" for number in range(ROOMS)),
            "CURRICULA: q 2 c0000 c0050 UNAVAILABILITY_CONSTRAINTS: END.",
        ]
        placed = [
            f"{name} r{20 * more + at // 100:02} {(at + more) % 100 // 10} {(at + more) % 10}\n"
            for at, name in enumerate(names)
            for more in range(3)
        ]
        instance = self.write("large.ctt", "\n".join(lines))
        return instance, "1", "--start", self.write("large.sol", "".join(placed))


@skip_without_browser
class Held(BrowserTest):
    def setUp(self):
        super().setUp()
        self.open("day", SPRING, "2", "--start", SPRING_SOL)

    def test_move(self):
        """Prices and reasons, and the rooms of one slot by its button and by the key."""
        self.serve("day")
        anna = self.planner()
        self.show(anna, "c0109")
        self.pick_up(anna, FROM)
        self.assertEqual(anna.run(BARE), 0)
        anna.sees("clash c0120", cell(BUSY))
        anna.sees("−257 r04", cell(BEST))
        anna.press("ArrowLeft", "ArrowUp")
        anna.sees("not possible: its teacher t067 teaches c0120 then", "#tray")
        anna.press("o")
        anna.sees("not possible: its teacher t067 teaches c0120 then", "#toasts")
        anna.run(BUTTON, cell(BEST))
        anna.sees("day 5, period 4: rooms by price", ".menu-box")
        self.assertEqual(anna.run("return document.querySelectorAll('.menu li').length"), 3)
        anna.press("ArrowDown", "Enter")
        anna.sees("−15", "#draft")
        anna.sees("r16", "#draft")
        self.is_clean(anna)

    def test_swap(self):
        """Partners and reasons; the lectures of one slot by price, each of which can be taken."""
        self.serve("day")
        anna = self.planner()
        self.show(anna, "c0109")
        self.pick_up(anna, FROM, "s")
        anna.sees("is held, to swap", "#inspector")
        self.assertEqual(anna.run(BARE), 0)
        anna.sees("with c0128", cell(BEST))
        anna.sees("clash c0120", cell(BUSY))
        anna.run(BUTTON, cell(BEST))
        anna.sees("day 5, period 4: swap with", ".menu-box")
        prices = anna.run(
            "return [...document.querySelectorAll('.menu .delta')].map((one) => one.innerText)"
        )
        self.assertEqual((len(prices), prices[0]), (6, "−37"))
        anna.press("ArrowDown", "Enter")
        anna.sees("your draft: 1 edit", "#costs")
        anna.sees(prices[1], "#draft")
        self.is_clean(anna)

    def test_blocked(self):
        """A slot in which its teacher cannot be says so, who has said it, and why."""
        told = ["teacher", "t067", "1", "5", "--why", "ill"]
        self.assertEqual(self.office("block", self.path("day"), *told)[0], 0)
        self.serve("day")
        anna = self.planner()
        self.show(anna, "c0109")
        self.pick_up(anna, FROM)
        anna.sees("blocked", cell((0, 4)))
        anna.press(*["ArrowLeft"] * 4, *["ArrowDown"] * 3)
        anna.sees("not possible: t067 is blocked then: ill (", "#tray")
        title = "return document.querySelector(arguments[0] + ' .why').title"
        self.assertIn("t067 is blocked then: ill (", anna.run(title, cell((0, 4))))
        self.is_clean(anna)
