"""What a page is sent over a drawn day: each message has its type."""
import http.client
import json
import os
import random
import threading
import unittest
from typing import Optional

from served import SPRING, SPRING_SOL, WebTest, skip_without_tornado, wait_until
from typed_messages import EVENT, misfits, objects, types

# so many acts of each drawn day
ACTS = 600 if os.environ.get("FULL") else 120
SEEN = {"course": "c0109", "room": "r01", "at": (4, 1)}
WINDOWS = (("seat 0", "w1"), ("seat 0", "w2"), ("seat 1", "w3"), ("reader", "w4"))
NAMES = (
    "undo,undo undo,history,pin,who,put aside,variants,findings,edits,commit,refresh,redo,"
    "abandon,block"
).split(",")
LINES = ("show cost", "peek course c0109", "open", "nothing that is known", "check")


class Checked(unittest.TestCase):
    def test_misfits(self):
        """What is lacking, too much or of another kind is found, and where."""
        line = {"code": "a", "text": "b"}
        self.assertEqual(misfits(line, types.LineData), [])
        for value, kind, told in (
            ({"code": "a"}, types.LineData, "it lacks text"),
            ({**line, "more": 1}, types.LineData, "it.more is not of LineData"),
            ({**line, "text": 1}, types.LineData, "it.text is 1, not <class 'str'>"),
            ([], types.LineData, "it is [], not LineData"),
            ([1, 2, 3], types.SlotData, "it is [1, 2, 3], not tuple[int, int]"),
            ([1, True], types.SlotData, "it[1] is True, not <class 'int'>"),
            ({"left": False}, types.TurnData, "it.left is False"),
            ({"edits": {}}, dict[str, Optional[int]], "it.edits is {}, not <class 'int'>"),
        ):
            self.assertEqual(misfits(value, kind), [told])
        self.assertEqual(misfits({"closes": 1}, EVENT), [])
        self.assertEqual(misfits({"code": "a", "text": "b", "isBad": True}, types.NoticeData), [])


class Ear:
    """Reads the news of a window as they come."""

    def __init__(self, address, headers, events):
        self.events = events
        self.connection = http.client.HTTPConnection(address, timeout=120)
        self.connection.request("GET", "/api/news", headers=dict(headers))
        self.answer = self.connection.getresponse()
        # the first line says that the window is heard
        self.answer.readline()
        self.thread = threading.Thread(target=self.read, daemon=True)
        self.thread.start()

    def read(self):
        for line in self.answer:
            if line.strip():
                self.events.append(json.loads(line))

    def end(self):
        self.thread.join(60)
        self.connection.close()


@skip_without_tornado
class Drawn(WebTest):
    def setUp(self):
        super().setUp()
        self.open("day", SPRING, "2", "--start", SPRING_SOL)
        self.serve("day")
        self.met, self.kept, self.ears = set(), {}, {}

    def say(self, place, verb, told=None):
        """Asks something by a window, and keeps what it sees then."""
        who, window = place
        _, found = self.ask(verb, told or {}, who, ("X-Window", window))
        kept = self.kept.setdefault(place, {})
        kept.update({name: found[name] for name in ("picture", "question") if name in found})
        return found

    def sit_at(self, place):
        who, window = place
        found = self.say(place, "hello", {} if who == "reader" else {"name": f"who sits at {who}"})
        self.named = found["named"]
        old = self.ears.get(place)
        if old is not None:
            # a window that begins anew listens anew
            old.end()
        headers = self.asking(self.key(who), ("X-Window", window))
        self.ears[place] = Ear(self.address(), headers, old.events if old else [])

    def drawn_lecture(self, draw, place):
        """A lecture of the week that a window shows."""
        cells = [one for one in self.kept[place]["picture"]["week"]["cells"] if one["lectures"]]
        if not cells:
            return SEEN
        cell = draw.choice(cells)
        one = draw.choice(cell["lectures"])
        return {"course": one["course"], "room": one["room"], "at": cell["at"]}

    def drawn_answer(self, draw, question):
        """An answer to what is asked."""
        told = {"question": question["number"], "why": draw.choice(["", "a reason"])}
        names = [one["name"] for one in question["answers"]]
        if question["choices"] and (not names or draw.random() < 0.7):
            return {**told, "choice": draw.randrange(len(question["choices"]))}
        return {**told, "answer": draw.choice(names)} if names else None

    def drawn_act(self, draw, place):
        """What a planner does next: a verb, and what it says."""
        kept = self.kept[place]
        held, question = kept["picture"]["held"], kept.get("question")
        if question and draw.random() < 0.9:
            told = self.drawn_answer(draw, question)
            return ("answer", told) if told else ("close", {"question": question["number"]})
        if held and draw.random() < 0.6:
            one = draw.choice([one for one in held["slots"] if one["offers"]] or held["slots"])
            price, about, _ = draw.choice(one["offers"] or [(None, None, None)])
            return "put_down", {"to": one["at"], "price": price, "about": about}
        lecture, missing = self.drawn_lecture(draw, place), kept["picture"]["state"]["missing"]
        course = draw.choice(missing)["course"] if missing else "c0109"
        slot = lecture["at"]
        kind = draw.choice(["move", "swap"])
        acts = {
            "show": {"view": self.drawn_view(draw)},
            "next_week": {"lecture": lecture},
            "pick_up": {"lecture": lecture, "kind": kind},
            "pick_up_missing": {"course": course},
            "offers": {"at": slot},
            "about": {"lecture": draw.choice([lecture, None])},
            "take_out": {"lecture": lecture},
            "line": {"line": draw.choice(LINES)},
            "act": {"name": draw.choice(NAMES), "lecture": lecture, "at": slot},
            **{one: {} for one in ("swap_instead", "move_instead", "best", "missing", "print")},
        }
        return draw.choice([*acts.items(), *[("act", acts["act"])] * 4])

    def drawn_view(self, draw):
        kind = draw.choice(sorted(self.named))
        return [kind, draw.choice(self.named[kind])[0]]

    def first_acts(self, draw):
        """What is done on each day, so that each kind of message is there."""
        anna, other, ben, reader = WINDOWS
        self.assertEqual(self.say(anna, "hello")["wants"], "name")
        for place in WINDOWS:
            self.sit_at(place)
        for place in (anna, other, ben, reader):
            self.say(place, "show", {"view": ["course", "c0109"]})
        self.assertEqual(set(self.say(reader, "act", {"name": "undo"})), {"fault"})
        self.assertTrue(self.say(anna, "about", {"lecture": SEEN})["about"]["weeks"])
        held = self.say(anna, "pick_up", {"lecture": SEEN, "kind": "move"})["picture"]["held"]
        best = next(one for one in held["slots"] if one["at"] == held["best"])
        self.assertTrue(self.say(anna, "offers", {"at": best["at"]})["offers"])
        price, about, _ = best["offers"][held["place"]]
        told = {"to": held["best"], "price": price, "about": about}
        self.assertIn("price", self.say(anna, "put_down", told)["notice"])
        self.say(anna, "print")
        taken = {**SEEN, "room": "r06", "at": [0, 3]}
        picture = self.say(anna, "take_out", {"lecture": taken})["picture"]
        self.assertEqual(len(picture["state"]["missing"]), 1)
        question = self.say(anna, "act", {"name": "commit"})["question"]
        told = {"question": question["number"], "answer": "commit", "why": "a reason"}
        self.assertEqual(self.say(anna, "answer", told)["notice"]["code"], "committed")
        question = self.say(ben, "act", {"name": "findings", "lecture": None})["question"]
        self.say(ben, "answer", {"question": question["number"], "choice": 0})

    def test_drawn_day(self):
        """Two planners, one of them by two windows, and one who reads: an act after another, and
        the names and the rules change meanwhile."""
        draw = random.Random(86)
        self.first_acts(draw)
        for done in range(ACTS):
            place = draw.choice(WINDOWS[:3])
            verb, told = self.drawn_act(draw, place)
            found = self.say(place, verb, told)
            if "fault" in found and "begins anew" in found["fault"]:
                self.sit_at(place)
            if done == ACTS // 3:
                words = ["room", "r04", "5", "--why", "heating"]
                self.assertEqual(self.office("block", self.path("day"), *words)[0], 0)
                self.say(WINDOWS[3], "show", {"view": ["room", "r04"]})
                for one in WINDOWS[:3]:
                    self.sit_at(one)
                    cells = self.say(one, "show", {"view": ["room", "r04"]})["picture"]["week"]
                    self.assertTrue(any(cell["blocked"] for cell in cells["cells"]))
            if done == ACTS // 2:
                head = "kind,code,name,short name\n"
                self.write("day/labels.csv", f"{head}course,c0109,Linear Algebra,LinAlg\n")
        self.end_day()

    def end_day(self):
        """One leaves, the office closes, and all that was said by itself has its type, too."""
        heard = [ear.events for ear in self.ears.values()]
        self.assertTrue(wait_until(lambda: all(any("names" in one for one in it) for it in heard)))
        self.say(WINDOWS[0], "act", {"name": "leave"})
        self.assertEqual(self.office("close", self.path("day"), "--wait", "2")[0], 0)
        for ear in self.ears.values():
            ear.end()
            for event in ear.events:
                self.fits(event, EVENT)
        names = {name for it in heard for event in it for name in event}
        wanted = {"names", "accepted", "people", "news", "picture", "notice", "closes", "over"}
        self.assertLessEqual(wanted, names)
        self.assertEqual({one.__name__ for one in objects() - self.met}, set())
