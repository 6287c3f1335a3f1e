"""What a page may ask, without a browser: what was not seen or confirmed is refused, and each thing
that a planner does can be done."""
import contextlib
import http.client
import json
import os
import signal

from served import (
    SMALL,
    SPRING,
    SPRING_SOL,
    WebTest,
    skip_without_tornado,
    wait_until,
)

from office.day.commit_notes import CommitNote, keep_commit_note
from office.day.folder import Day

FROM, BEST = (4, 1), (4, 3)
SEEN = {"course": "c0109", "room": "r01", "at": FROM}


@skip_without_tornado
class Talk(WebTest):
    def setUp(self):
        super().setUp()
        self.opened = self.open("day", SPRING, "3", "--start", SPRING_SOL)
        self.server = self.serve("day")

    def minutes(self):
        with open(self.path("day/minutes")) as file:
            return file.read()

    def answer(self, question, name=None, choice=None, why="", seat="seat 0", *more):
        told = {"question": question["number"], "answer": name, "choice": choice, "why": why}
        status, found = self.ask("answer", told, seat, *more)
        self.assertEqual(status, 200, found)
        return found

    def act(self, name, lecture=None, seat="seat 0"):
        status, found = self.ask("act", {"name": name, "lecture": lecture}, seat)
        self.assertEqual(status, 200, found)
        return found

    def move(self, lecture=None, seat="seat 0"):
        """Moves a lecture to where it is cheapest; answers what was offered there."""
        found = self.ask("pick_up", {"lecture": lecture or SEEN, "kind": "move"}, seat)[1]
        held = found["picture"]["held"]
        slot = next(one for one in held["slots"] if one["at"] == held["best"])
        price, about, _ = slot["offers"][held["place"]]
        found = self.ask("put_down", {"to": held["best"], "price": price, "about": about}, seat)[1]
        self.assertEqual(found["notice"]["code"], "done", found["notice"])
        return found

    def test_price_that_was_not_shown(self):
        """A put-down at another price than the one that was shown is refused, and so is a lecture
        that was not SEEN there."""
        self.ask("hello", {"name": "anna"})
        found = self.ask("pick_up", {"lecture": SEEN, "kind": "move"})[1]
        best = next(one for one in found["picture"]["held"]["slots"] if one["at"] == list(BEST))
        price, about, _ = best["offers"][0]
        for forged in ({"price": price - 1, "about": about}, {"price": price, "about": "r00"}):
            self.ask("pick_up", {"lecture": SEEN, "kind": "move"})
            found = self.ask("put_down", {"to": BEST, **forged})[1]
            self.assertTrue(found["notice"]["isBad"], found["notice"])
            self.assertIsNone(found["picture"]["state"]["draft"])
        self.ask("lay_down")
        wrong = {**SEEN, "room": "r02"}
        found = self.ask("pick_up", {"lecture": wrong, "kind": "move"})[1]
        self.assertIsNone(found["picture"]["held"])
        found = self.ask("take_out", {"lecture": wrong})[1]
        self.assertIsNone(found["picture"]["state"]["draft"])
        self.ask("pick_up", {"lecture": SEEN, "kind": "move"})
        found = self.ask("put_down", {"to": BEST, "price": price, "about": about})[1]
        self.assertEqual(len(found["picture"]["state"]["draft"]["edits"]), 1)

    def test_price_has_changed(self):
        """Others change the price between its showing and the put-down: it is not made."""
        self.ask("hello", {"name": "anna"})
        found = self.ask("pick_up", {"lecture": SEEN, "kind": "move"})[1]
        best = next(one for one in found["picture"]["held"]["slots"] if one["at"] == list(BEST))
        price, about, _ = best["offers"][0]
        # the server does not look for news meanwhile, so that the put-down comes first
        self.server.send_signal(signal.SIGSTOP)
        self.sit("day", 1, "open\nreroom c0109 r00 4 1\ncommit\n", "--name", "ben")
        self.server.send_signal(signal.SIGCONT)
        found = self.ask("put_down", {"to": BEST, "price": price, "about": about})[1]
        self.assertIsNone(found["picture"]["state"]["draft"])
        self.assertNotEqual(found["notice"]["text"], "")

    def test_answer_to_an_old_box(self):
        """An answer to what is asked no more is refused."""
        self.ask("hello", {"name": "anna"})
        self.ask("take_out", {"lecture": SEEN})
        question = self.ask("act", {"name": "commit"})[1]["question"]
        told = {"question": question["number"], "answer": question["answers"][0]["name"]}
        self.ask("close", {})
        self.assertEqual(self.ask("answer", told)[0], 409)
        with open(self.path("day/minutes")) as file:
            self.assertEqual(file.read(), "")

    def test_other_edits_than_confirmed(self):
        """A commit of other edits than its box has shown is refused."""
        one, two = ("X-Window", "w1"), ("X-Window", "w2")
        for window in (one, two):
            self.ask("hello", {"name": "anna"}, "seat 0", window)
        self.move()
        question = self.act("commit")["question"]
        self.assertEqual(len(question["lines"]) > 1 and len(question["costs"]), 5)
        found = self.ask(
            "take_out", {"lecture": {**SEEN, "room": "r06", "at": [0, 3]}}, "seat 0", two
        )
        self.assertEqual(len(found[1]["picture"]["state"]["draft"]["edits"]), 2)
        found = self.answer(question, "commit")
        self.assertEqual(found["notice"]["code"], "not these edits")
        self.assertEqual(self.minutes(), "")

    def test_reason(self):
        """Who changed what and why: for the others at once, and in the log."""
        self.ask("hello", {"name": "anna"})
        self.ask("hello", {"name": "ben"}, "seat 1")
        self.move()
        found = self.answer(self.act("commit")["question"], "commit", why="hall\n<b>4</b> is free")
        self.assertEqual(found["notice"]["code"], "committed")
        news = self.ask("hello", {}, "seat 1")[1]["news"]
        self.assertEqual(
            [(one["who"], one["why"]) for one in news], [("anna", "hall <b>4</b> is free")]
        )
        self.assertIn("hall <b>4</b> is free", self.office("log", self.path("day"), "c0109")[1])
        # a line of text cannot become another line of a file of the day
        with open(self.path("day/reasons")) as file:
            self.assertEqual(file.read().count("\n"), 1)

    def test_stale(self):
        """A stale draft: who, what, and the edits made again by one answer."""
        self.ask("hello", {"name": "anna"})
        self.move()
        self.sit("day", 1, "open\nmove c0109 3 2 r09 3 3\ncommit\n", "--name", "ben")
        found = self.answer(self.act("commit")["question"], "commit")
        question = found["question"]
        self.assertEqual(question["title"], "Your draft is stale: nothing is lost")
        self.assertIn("ben", " ".join(line["text"] for line in question["lines"]))
        found = self.answer(question, "make again")
        self.assertEqual(found["notice"]["code"], "made again")
        self.assertEqual(len(found["picture"]["state"]["draft"]["edits"]), 1)

    def test_what_else_is_done(self):
        """Swap, undo and its undoing, history, variants, findings, pins, who sits."""
        self.ask("hello", {"name": "anna"})
        found = self.ask("pick_up", {"lecture": SEEN, "kind": "swap"})[1]
        self.assertEqual(found["picture"]["held"]["kind"], "swap")
        self.assertEqual(self.ask("move_instead")[1]["picture"]["held"]["kind"], "move")
        self.ask("lay_down")
        self.move()
        self.assertEqual(self.act("undo")["picture"]["state"]["draft"]["edits"], [])
        edits = self.act("undo undo")["picture"]["state"]["draft"]["edits"]
        self.assertEqual(len(edits), 1)
        found = self.answer(self.act("put aside")["question"], "put aside", why="plan B")
        self.assertIsNone(found["picture"]["state"]["draft"])
        question = self.act("variants")["question"]
        self.assertIn("plan B", question["choices"][0])
        question = self.answer(question, choice=0)["question"]
        found = self.answer(question, "take up")
        self.assertEqual(len(found["picture"]["state"]["draft"]["edits"]), 1)
        self.answer(self.act("commit")["question"], "commit")
        question = self.act("history", {**SEEN, "room": "r04", "at": BEST})["question"]
        question = self.answer(question, choice=0)["question"]
        self.assertEqual(self.answer(question, "take back")["notice"]["code"], "draft taken back")
        self.answer(self.act("abandon")["question"], "give up")
        question = self.act("findings")["question"]
        found = self.answer(question, choice=0)
        self.assertIsNotNone(found["picture"]["goal"])
        there = {**SEEN, "room": "r04", "at": BEST}
        self.answer(self.act("pin", there)["question"], "pin", why="exam")
        question = self.ask("take_out", {"lecture": there})[1]["question"]
        self.assertEqual(question["answers"][0]["name"], "go on")
        self.assertIn("anna", str(self.act("who")["question"]["lines"]))
        about = self.ask("about", {"lecture": there})[1]["about"]
        self.assertIn("exam", " ".join(about["notices"]))

    def test_draft_of_another(self):
        """A draft that somebody else has left is asked about first; who leaves it has left it."""
        self.ask("hello", {"name": "anna"})
        self.move()
        self.end(self.server)
        self.serve("day")
        question = self.ask("hello", {"name": "ben"})[1]["question"]
        self.assertEqual(
            [one["name"] for one in question["answers"]], ["take over", "leave to them"]
        )
        self.assertFalse(question["canWait"])
        self.assertEqual(self.ask("act", {"name": "commit"})[0], 409)
        self.assertTrue(self.answer(question, "leave to them")["left"])
        question = self.ask("hello", {"name": "ben"})[1]["question"]
        self.assertIsNone(self.answer(question, "take over")["question"])
        self.answer(self.act("commit")["question"], "commit")
        self.assertIn("ben", self.office("log", self.path("day"))[1])

    def test_news(self):
        """Another's commit, the closing and the end come by themselves."""
        self.ask("hello", {"name": "anna", "view": ["course", "c0109"]})
        connection = http.client.HTTPConnection(self.address(), timeout=30)
        with contextlib.closing(connection):
            connection.request("GET", "/api/news", headers=dict(self.asking(self.key())))
            answer = connection.getresponse()
            self.assertEqual(answer.getheader("X-Accel-Buffering"), "no")
            self.sit("day", 1, "open\nmove c0109 3 2 r09 3 3\ncommit\n", "--name", "ben")
            event = self.next_event(answer, "news")
            self.assertEqual([one["who"] for one in event["news"]], ["ben"])
            self.assertIn("picture", event)
            closing = self.start("close", self.path("day"), "--wait", "2")
            self.assertGreater(self.next_event(answer, "closes")["closes"], 0)
            self.assertTrue(self.next_event(answer, "over")["over"])
            self.assertEqual(closing.wait(60), 0)
        self.assertTrue(wait_until(lambda: self.server.poll() is not None))

    def test_reason_that_comes_later(self):
        """A reason is written behind its commit, perhaps after the news of it; it is told then."""
        self.ask("hello", {"name": "anna"})
        connection = http.client.HTTPConnection(self.address(), timeout=30)
        with contextlib.closing(connection):
            connection.request("GET", "/api/news", headers=dict(self.asking(self.key())))
            answer = connection.getresponse()
            self.sit("day", 1, "open\nmove c0109 3 2 r09 3 3\ncommit\n", "--name", "ben")
            self.assertEqual(self.next_event(answer, "news")["news"][0]["why"], "")
            note = CommitNote(1, "2026-11-30T10:15:00.000+0100", 1, "ben", "exam")
            keep_commit_note(Day(self.path("day")), note)
            # what he does meanwhile reads it, too
            self.ask("act", {"name": "who"})
            found = self.next_event(answer, "news")["news"]
            self.assertEqual([(one["number"], one["why"]) for one in found], [(1, "exam")])

    def test_desk_dies(self):
        """Each window hears that the desk has died, also if a request was the first to find out."""
        two = ("X-Window", "w2")
        self.ask("hello", {"name": "anna"})
        self.ask("hello", {"name": "anna"}, "seat 0", two)
        connection = http.client.HTTPConnection(self.address(), timeout=30)
        with contextlib.closing(connection):
            connection.request("GET", "/api/news", headers=dict(self.asking(self.key())))
            answer = connection.getresponse()
            desk = self.desk_of("day")
            # the office, which would close the day, waits
            self.opened.send_signal(signal.SIGSTOP)
            self.addCleanup(self.opened.send_signal, signal.SIGCONT)
            os.kill(desk, signal.SIGKILL)
            self.assertIn(self.ask("about", {"lecture": SEEN}, "seat 0", two)[0], (410, 503))
            told = "committed drafts are on the disk"
            self.assertIn(told, self.next_event(answer, "fault")["fault"])


@skip_without_tornado
class Small(WebTest):
    def test_not_written(self):
        """A draft that was not written is said not to be, and is in nobody's news."""
        program = self.write("limited", LIMITED.format(program=self.program), 0o755)
        self.environment["TIMEDESK"] = program
        self.open("day", SMALL, "3")
        self.serve("day")
        self.sit("day", 2, "open\nplace alg A 1 0\ncommit\n" + "open\ncost\ncommit\n" * 30)
        # the last one may be torn
        written = self.drafts_in("day")
        self.ask("hello", {"name": "anna"})
        held = self.ask("pick_up_missing", {"course": "geo"})[1]["picture"]["held"]
        slot = next(one for one in held["slots"] if one["at"] == held["best"])
        price, about, _ = slot["offers"][held["place"]]
        self.ask("put_down", {"to": held["best"], "price": price, "about": about})
        question = self.ask("act", {"name": "commit"})[1]["question"]
        told = {"question": question["number"], "answer": "commit"}
        found = self.ask("answer", told)[1]
        self.assertEqual(found["notice"]["code"], "not written")
        for seat, who in (("seat 0", "anna"), ("seat 1", "ben")):
            found = self.ask("hello", {"name": who}, seat)[1]
            alarm = found["picture"]["state"]["alarm"]
            self.assertIn("Nothing can be committed any more", alarm)
            self.assertEqual(len(found["news"]), written)


# a desk that can write files of 600 bytes
LIMITED = """#!/usr/bin/env python3
import os, resource, signal, sys
if sys.argv[1] == "desk":
    signal.signal(signal.SIGXFSZ, signal.SIG_IGN)
    resource.setrlimit(resource.RLIMIT_FSIZE, (600, 600))
os.execv("{program}", ["timedesk", *sys.argv[1:]])
"""
