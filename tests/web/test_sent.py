"""What the windows are sent as the day goes on: as little as they need, and nothing is lost."""
import contextlib
import http.client
import json
import time
import zlib

from served import SPRING, SPRING_SOL, WebTest, skip_without_tornado

MOVE = "open\nmove c0109 3 2 r09 3 3\ncommit\n"
ANOTHER = "open\nmove c0109 3 3 r01 3 2\ncommit\n"


@skip_without_tornado
class Sent(WebTest):
    def setUp(self):
        super().setUp()
        self.open("day", SPRING, "3", "--start", SPRING_SOL)
        self.serve("day")

    @contextlib.contextmanager
    def listening(self, window="w1", name="seat 0", *more):
        connection = http.client.HTTPConnection(self.address(), timeout=30)
        with contextlib.closing(connection):
            headers = dict(self.asking(self.key(name), ("X-Window", window), *more))
            connection.request("GET", "/api/news", headers=headers)
            yield connection.getresponse()

    def test_costs_alone(self):
        """Who sees another week than the one that was changed is sent the costs, and no week."""
        far, near = ("X-Window", "far"), ("X-Window", "near")
        for window, course in ((far, "c0001"), (near, "c0109")):
            view = ["course", course]
            status, found = self.ask("hello", {"name": "anna", "view": view}, "seat 0", window)
            self.assertEqual((status, found["picture"]["week"]["view"]), (200, view))
        with self.listening("far") as seen, self.listening("near") as changed:
            self.sit("day", 1, MOVE, "--name", "ben")
            event = self.next_event(seen, "news")
            self.assertNotIn("picture", event)
            self.assertIsNone(event["state"]["draft"])
            self.assertIn("picture", self.next_event(changed, "news"))

    def test_state_is_that_of_a_picture(self):
        """The costs that come without a week are those that a new window is told."""
        self.ask("hello", {"name": "anna", "view": ["course", "c0001"]})
        with self.listening() as answer:
            self.sit("day", 1, MOVE, "--name", "ben")
            state = self.next_event(answer, "news")["state"]
        _, found = self.ask("hello", {"name": "anna"}, "seat 0", ("X-Window", "w2"))
        self.assertEqual(state, found["picture"]["state"])

    def test_draft_is_not_asked_anew(self):
        """What others commit changes nothing of an open draft: its cost is not asked again."""
        self.ask("hello", {"name": "anna", "view": ["course", "c0001"]})
        self.ask("line", {"line": "move c0109 4 1 r09 4 2"})
        before = self.asked("peek cost")
        with self.listening() as answer:
            self.sit("day", 1, MOVE, "--name", "ben")
            state = self.next_event(answer, "news")["state"]
        self.assertEqual((len(state["draft"]["edits"]), state["draft"]["since"]), (1, 1))
        self.assertEqual(self.asked("peek cost"), before)

    def asked(self, line):
        """How often the desk was asked a line at the first seat."""
        with open(self.path("day/0.log")) as file:
            return sum(one.endswith(f"> {line}\n") for one in file)

    def test_packed(self):
        """Who can unpack news is sent them packed, line by line; who reads is, too."""
        self.ask("hello", {"name": "anna", "view": ["course", "c0109"]})
        self.ask("hello", {"view": ["course", "c0109"]}, "reader", ("X-Window", "r1"))
        packed = "Accept-Encoding", "gzip"
        with self.listening("w1", "seat 0", packed) as seat:
            with self.listening("r1", "reader", packed) as reader:
                self.sit("day", 1, MOVE, "--name", "ben")
                self.assertEqual(self.unpacked(seat, "news")["news"][0]["who"], "ben")
                self.assertIn("picture", self.unpacked(reader, "picture"))

    def unpacked(self, answer, name):
        """The first event of a kind in a packed answer."""
        self.assertEqual(answer.getheader("Content-Encoding"), "gzip")
        pack, text = zlib.decompressobj(31), b""
        while True:
            text += pack.decompress(answer.read1())
            *lines, text = text.split(b"\n")
            for event in map(json.loads, filter(None, lines)):
                if name in event:
                    return event

    def test_heartbeat(self):
        """A window at which nothing happens is told every two seconds that it is heard."""
        self.ask("hello", {"name": "anna"})
        with self.listening() as answer:
            begun, count = time.monotonic(), 0
            while count < 4:
                count += answer.readline() == b"\n"
            self.assertLess(time.monotonic() - begun, 12)

    def test_told_while_it_begins_anew(self):
        """What a window is told between its beginning anew and its listening is not lost, though
        the connection on which it listened before is not known to be broken."""
        self.ask("hello", {"name": "anna"})
        with self.listening() as broken:
            broken.readline()
            self.ask("hello", {"name": "anna"})
            self.ask("hello", {"name": "ben"}, "seat 1", ("X-Window", "w2"))
            time.sleep(1.5)
            with self.listening() as answer:
                people = self.next_event(answer, "people")["people"]
                self.assertEqual([one["who"] for one in people], ["anna", "ben"])
