"""Why a lecture cannot stand in a slot, in words."""
from fake_planner import FakePlanner
from support import SMALL, SMALL_SOL, SPRING, OfficeTest, said

from office.data.labels import Labels, Name
from office.day.closure import Closure, Scope
from office.day.edits import Edit
from office.day.instance import read_instance, read_solution
from office.day.lecture import Lecture
from office.day.timetable import Timetable
from office.seat.answers import Fault
from office.words.actions import KeyNames
from office.words.reasons import reason, short_reason, slot_reason
from office.words.wording import Wording
from office.work.carry import SWAP, Carry


class Told(OfficeTest):
    """Faults of slots in words, at the small instance."""

    def setUp(self):
        super().setUp()
        self.instance = read_instance(SMALL)
        self.now = Timetable(self.instance, read_solution(SMALL_SOL))

    def block(self, *scopes):
        self.instance.block(
            Closure(scope, "ben", 1, "2026-11-30T10:15:00", "ill") for scope in scopes
        )

    def slot_told(self, fault, course="alg", slot=(0, 0)):
        fault = Fault.parse(fault) if fault else None
        found = slot_reason(self.instance, course, slot, fault)
        return said(found), said(short_reason(self.instance, course, slot, fault))

    def swap_told(self, fault, slot, course="geo", old=(0, 1), **others):
        """What is said where the desk refuses each swap for one fault, but those with others."""
        start, end = f"swap {course} {old[0]} {old[1]}", f"{slot[0]} {slot[1]}"
        prices = {
            f"price {start} {one} {end}": others.get(one, f"refused {fault}")
            for one in self.instance.courses
        }
        desk = FakePlanner({f"slots {start} * * *": "slots 6" + 6 * f" - {fault}", **prices})
        desk.instance, desk.now = self.instance, self.now
        carry = Carry(desk, SWAP, course, Lecture(course, "A", *old))
        return said(carry.reason(slot)), said(carry.short_reason(slot))

    def test_of_a_slot(self):
        no_room = ("each room is taken, barred or blocked then", "no room")
        for fault, *wanted in (
            ("clash geo", "curriculum q1 has geo then", "clash geo"),
            ("unavailable", "alg is unavailable then", "closed"),
            ("roomtaken geo", *no_room),
            ("barred", *no_room),
            ("blocked", *no_room),
            ("none", "there is no room at all", "no room"),
            ("already", "alg has a lecture there already", "has one"),
            ("full", "all lectures of alg are placed", "full"),
            ("notplaced", "no lecture of alg stands there any more", "gone"),
            ("sameslot", "it stands in this slot already", "no room"),
            ("", "the desk has not said what it would cost", "not known"),
            ("strange", "strange", "no room"),
        ):
            self.assertEqual(self.slot_told(fault), tuple(wanted), fault)

    def test_of_a_teacher(self):
        """Who teaches both is told before what both are in."""
        instance = read_instance(SPRING)
        self.assertEqual(
            said(slot_reason(instance, "c0109", (3, 0), Fault("clash", "c0120"))),
            "its teacher t067 teaches c0120 then",
        )

    def test_of_what_is_blocked(self):
        """A closure of the teacher, or of the course itself, is told with who has said so."""
        self.block(Scope("teacher", "t1", 0), Scope("course", "alg", 1, 1))
        wanted = "t1 is blocked then: ill (ben at seat 1)", "blocked"
        self.assertEqual(self.slot_told("unavailable"), wanted)
        wanted = "alg is blocked then: ill (ben at seat 1)", "blocked"
        self.assertEqual(self.slot_told("unavailable", slot=(1, 1)), wanted)
        wanted = "geo is unavailable then", "closed"
        self.assertEqual(self.slot_told("unavailable", "geo"), wanted)

    def test_of_a_swap(self):
        """A fault of its own, or of the lecture there that would come in its place."""
        self.assertEqual(
            self.swap_told("notplaced", (1, 1)), ("no lecture there to swap with", "no swap")
        )
        self.assertEqual(
            self.swap_told("samecourse", (0, 1)), ("no lecture there to swap with", "no swap")
        )
        self.assertEqual(
            self.swap_told("samecourse", (1, 2)), ("both are lectures of geo", "no swap")
        )
        self.assertEqual(
            self.swap_told("already", (1, 2)), ("geo has a lecture there already", "no swap")
        )
        self.assertEqual(
            self.swap_told("unavailable", (0, 0)), ("geo is unavailable then", "closed")
        )
        self.assertEqual(
            self.swap_told("clash alg", (0, 0)), ("curriculum q1 has alg then", "clash alg")
        )

    def test_of_a_partner(self):
        told = "with alg: curriculum q1 has geo then", "clash geo"
        self.assertEqual(self.swap_told("clash geo", (1, 0), "top", (0, 2)), told)
        self.now.put("alg", (0, 2), "A")
        told = "with alg: one has a lecture there already", "no swap"
        self.assertEqual(self.swap_told("already", (1, 0), "top", (0, 2)), told)
        self.block(Scope("teacher", "t1", 0, 1))
        told = "with alg: t1 is blocked then: ill (ben at seat 1)", "no swap"
        self.assertEqual(self.swap_told("unavailable", (1, 0)), told)
        for pair in (("geo", "B"), ("alg", "A")):
            self.instance.barred = {pair}
            told = "with alg: the room of one is barred for the other", "no swap"
            self.assertEqual(self.swap_told("barred", (1, 0)), told)

    def test_of_several_partners(self):
        """The first one that is refused as the slot is; nothing is guessed if none is."""
        self.now.put("top", (1, 0), "A")
        self.block(Scope("teacher", "t1", 0, 1))
        told = "t1 is blocked then: ill (ben at seat 1)"
        for answer, other in (
            ("refused unavailable", "alg"),
            ("refused barred", "top"),
            ("no memory", "top"),
            ("price 3", "top"),
        ):
            found = self.swap_told("unavailable", (1, 0), alg=answer)
            self.assertEqual(found, (f"with {other}: {told}", "no swap"))
        found = self.swap_told("unavailable", (1, 0), alg="no memory", top="refused clash geo")
        self.assertEqual(found, ("the desk has not said what it would cost", "no swap"))

    def test_of_an_edit(self):
        """A swap that is refused tells of which lecture the fault is where the instance says so."""
        self.block(Scope("teacher", "t1", 0, 1))
        for edit, fault, told in (
            ("swap geo 0 1 alg 0 0", "unavailable", "geo is unavailable then"),
            ("swap geo 0 1 alg 1 0", "unavailable", "t1 is blocked then: ill (ben at seat 1)"),
            ("swap top 0 2 alg 1 0", "clash geo", "curriculum q1 has geo then"),
            ("swap alg 0 0 top 0 2", "clash geo", "curriculum q1 has geo then"),
            ("swap geo 0 1 alg 1 0", "barred", "the room of one is barred for the other"),
            ("swap geo 0 1 alg 1 0", "roomtaken top", "top is in its room then"),
            ("swap geo 0 1 alg 1 0", "already", "one has a lecture there already"),
            ("swap geo 0 1 alg 1 0", "notplaced", "one does not stand there any more"),
            ("swap geo 0 1 geo 1 2", "samecourse", "both are lectures of geo"),
            ("swap geo 0 1 alg 1 0", "strange", "strange"),
            ("move alg 0 0 B 1 1", "barred", "B is barred for alg"),
            ("reroom alg B 0 0", "roomtaken top", "top is in B then"),
            ("drop alg 0 1", "notplaced", "no lecture of alg stands there any more"),
        ):
            found = reason(self.instance, Edit.parse(edit), Fault.parse(fault))
            self.assertEqual(said(found), told, (edit, fault))

    def test_names(self):
        """Courses, rooms and teachers by their names."""
        labels = Labels()
        labels.names["course", "geo"] = Name("Geometry", "Geo")
        labels.names["curriculum", "q1"] = Name("First year", "Y1")
        wording = Wording(KeyNames(), labels)
        notice = slot_reason(self.instance, "alg", (0, 1), Fault("clash", "geo"))
        told = "curriculum First year has Geometry then"
        self.assertEqual(wording.notice(notice), told)
