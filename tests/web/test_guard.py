"""Who may ask: keys, names of the host, pages of other origins, and the form of a request."""
import contextlib
import json
import os
import socket
import threading
import time

from served import SMALL, Shared, WebTest, skip_without_tornado, wait_until


@skip_without_tornado
class Guarded(Shared):
    def setUp(self):
        super().setUp()
        self.good = self.asking(self.key())

    def refused(self, status, method="POST", path="/api/hello", body=None, headers=None, **more):
        """A request is refused with a reason, and tells nothing of the day."""
        body = {"name": "anna"} if body is None and method == "POST" else body
        found, fields, text = self.request(
            method, path, body, self.good if headers is None else headers, **more
        )
        self.assertEqual(found, status, text)
        self.assertEqual(list(json.loads(text)), ["fault"])
        self.assertIn("default-src 'none'", fields["Content-Security-Policy"])
        self.assertNotIn(self.key().encode(), text)

    def test_key(self):
        key = self.key()
        self.assertGreaterEqual(len(key), 32)
        with_key = dict(self.good)
        for wrong in ("", key[:-1], key + "x", key.swapcase(), "\xe4" * 32, self.key("reader")[1:]):
            self.refused(401, headers=self.asking(key, ("X-Seat-Key", wrong)))
        self.refused(401, headers=self.asking(key, ("X-Seat-Key", None)))
        self.refused(400, headers=[*self.good, ("X-Seat-Key", key)])
        # a key in the address is refused, also beside a good one in its header
        for path in (f"/?key={key}", f"/api/hello?key={key}", f"/api/news?{key}"):
            self.refused(400, path=path, headers=list(with_key.items()))
        self.refused(404, path=f"/{key}", method="GET", headers=[])
        self.assertEqual(self.ask("hello", {"name": "anna"})[0], 200)

    def test_host(self):
        """A name that somebody has led here, or none, is none of this office."""
        for host in ("evil.example", "127.0.0.1.evil.example", "localhost.evil", "127.0.0.1:x", ""):
            self.refused(421, host=host)
            self.refused(421, method="GET", path="/", headers=[], host=host)
        port = self.address().split(":")[1]
        self.assertEqual(self.request("GET", "/", host=f"localhost:{port}")[0], 200)
        self.assertIn(b"421", self.raw(b"GET / HTTP/1.1\r\n\r\n").split(b"\r\n")[0])

    def test_origin(self):
        for origin in ("http://evil.example", "null", f"http://{self.address()}.evil", "http://"):
            self.refused(403, headers=[*self.good, ("Origin", origin)])
        for site in ("cross-site", "same-site", "none"):
            self.refused(403, headers=[*self.good, ("Sec-Fetch-Site", site)])
            self.refused(403, "GET", "/api/news", headers=[*self.good, ("Sec-Fetch-Site", site)])
        own = [("Origin", f"http://{self.address()}"), ("Sec-Fetch-Site", "same-origin")]
        self.assertEqual(self.ask("hello", {"name": "anna"}, "seat 0", *own)[0], 200)

    def test_form(self):
        """What no page of ours sends."""
        for kind in ("text/plain", "application/x-www-form-urlencoded", "multipart/form-data", ""):
            self.refused(415, headers=self.asking(self.key(), ("Content-Type", kind)))
        for body in (b"", b"{", b"[]", b"1", b"\xff", b"[" * 8000, b'"name"'):
            self.refused(400, body=body)
        self.refused(413, body=b" " * 16385)
        self.refused(400, headers=[*self.good, ("Content-Length", "-1")])
        self.refused(400, headers=[*self.good, ("Content-Length", "+2")])
        self.refused(411, body=b"", headers=[*self.good, ("Transfer-Encoding", "chunked")])
        self.refused(411, headers=[*self.good, ("Expect", "100-continue")])
        two = [*self.good, ("Content-Length", "2"), ("Content-Length", "3")]
        self.refused(400, body=b"{}", headers=two)
        self.refused(405, method="GET")
        self.refused(405, path="/api/news")
        for path in (
            "/../day.json",
            "/..%2fday.json",
            "/static/seat.js",
            "/web.keys",
            "/api/hello/",
        ):
            self.refused(404, method="GET", path=path)

    def test_head(self):
        """A head that is too long, or no head, is not answered with anything of ours."""
        start = f"GET / HTTP/1.1\r\nHost: {self.address()}\r\n".encode()
        self.assertNotIn(b"200 OK", self.raw(start + b"X: " + b"y" * 20000 + b"\r\n\r\n"))
        self.assertNotIn(b"200 OK", self.raw(b"\x16\x03\x01\x02\x00\x01\r\n\r\n"))
        self.assertIn(b"200 OK", self.raw(start + b"Connection: close\r\n\r\n"))

    def test_names_and_ranges(self):
        """What a browser names has to be known; nothing that it says becomes a line of the desk."""
        self.ask("hello", {"name": "anna\n> open\r\n"}, "seat 2")
        self.assertEqual(self.ask("hello", {"name": "anna"})[0], 200)
        lecture = {"course": "geo", "room": "A", "at": [0, 1]}
        for verb, told in [
            ("show", {"view": ["course", "geo\nopen"]}),
            ("show", {"view": ["planet", "geo"]}),
            ("show", {"view": ["course", ["geo"]]}),
            ("show", {}),
            ("pick_up", {"lecture": {**lecture, "course": "geo 0 0\ncommit"}, "kind": "move"}),
            ("pick_up", {"lecture": {**lecture, "room": "A\nopen"}, "kind": "move"}),
            ("pick_up", {"lecture": {**lecture, "at": [0, 99]}, "kind": "move"}),
            ("pick_up", {"lecture": {**lecture, "at": [True, False]}, "kind": "move"}),
            ("pick_up", {"lecture": {**lecture, "at": [0, 1e400]}, "kind": "move"}),
            ("pick_up", {"lecture": lecture, "kind": "drop"}),
            ("pick_up", {"lecture": [lecture], "kind": "move"}),
            ("pick_up_missing", {"course": "no such"}),
            ("put_down", {"to": "0 0"}),
            ("act", {"name": "__init__"}),
            ("act", {"name": ["undo"]}),
            ("line", {"line": 7}),
            ("answer", {"question": 1, "answer": "commit"}),
            ("answer", {"question": "1", "answer": "commit"}),
        ]:
            status, found = self.ask(verb, told)
            self.assertIn(status, (400, 409), (verb, told, found))
        self.assertEqual(self.ask("no_such_verb")[0], 404)
        with open(self.path("day/2.log")) as file:
            log = file.read()
        self.assertIn("= sits anna > open\n", log)
        with open(self.path("day/0.log")) as file:
            log += file.read()
        self.assertNotIn("> open", log.replace("anna > open", ""))

    def test_slow(self):
        """A head and a body that do not come in time end the connection."""
        host, port = self.address().split(":")
        length = b"Content-Length: 50\r\n\r\n{"
        head = f"POST /api/hello HTTP/1.1\r\nHost: {self.address()}\r\n".encode()
        head += "".join(f"{name}: {value}\r\n" for name, value in self.good).encode()
        ends = []
        for text in (b"GET / HT", head + length):
            # one that is never ended is waited for in vain
            ends.append(socket.create_connection((host, int(port)), timeout=60))
            ends[-1].sendall(text)
        for end in ends:
            self.assertNotIn(b"200 OK", end.recv(1000))
            end.close()

    def test_stalled(self):
        """A thousand connections that say nothing keep nobody out."""
        host, port = self.address().split(":")
        ends = []
        usual = self.time_of_hello()
        try:
            for _ in range(1000):
                ends.append(socket.create_connection((host, int(port)), timeout=60))
                ends[-1].send(b"G")
            self.assertLess(self.time_of_hello(), 5 + 10 * usual)
        finally:
            for end in ends:
                end.close()

    def time_of_hello(self):
        begun = time.monotonic()
        self.assertEqual(self.ask("hello", {"name": "anna"})[0], 200)
        return time.monotonic() - begun

    def test_listeners(self):
        """So many windows of a seat, and no more; one that goes makes room."""
        host, port = self.address().split(":")
        ends = []
        for number in range(5):
            named = ("X-Window", f"w{number}")
            status = self.ask("hello", {"name": "anna"}, "seat 0", named)[0]
            self.assertEqual(status, 429 if number == 4 else 200)
            if number == 4:
                break
            head = f"GET /api/news HTTP/1.1\r\nHost: {self.address()}\r\n"
            head += "".join(f"{n}: {v}\r\n" for n, v in self.asking(self.key(), named))
            ends.append(socket.create_connection((host, int(port)), timeout=60))
            ends[-1].sendall(head.encode() + b"\r\n")
            self.assertIn(b"200 OK", ends[-1].recv(1000))
        # one that has not listened yet makes room for the next
        for number in range(5):
            named = ("X-Window", f"v{number}")
            self.assertEqual(self.ask("hello", {"name": "cleo"}, "seat 3", named)[0], 200)
        self.assertEqual(self.ask("show", {}, "seat 3", ("X-Window", "v0"))[0], 410)
        # another seat is not concerned
        self.assertEqual(self.ask("hello", {"name": "ben"}, "seat 1")[0], 200)
        for end in ends:
            end.close()
        named = ("X-Window", "w9")
        again = lambda: self.ask("hello", {"name": "anna"}, "seat 0", named)[0] == 200  # noqa: E731
        self.assertTrue(wait_until(again))
        self.refused(410, path="/api/act", headers=self.asking(self.key(), ("X-Window", "w77")))
        self.refused(400, path="/api/act", headers=self.asking(self.key(), ("X-Window", "a b")))

    def test_reader(self):
        """Who reads has weeks, and nothing of seats, logs or reasons."""
        status, found = self.ask("hello", {}, "reader")
        self.assertEqual(status, 200)
        told = {"days", "periods", "slots", "named", "picture", "day", "closes", "now", "again"}
        self.assertEqual(set(found), told)
        self.assertIs(found["again"], False)
        status, found = self.ask("show", {"view": ["room", "A"]}, "reader")
        self.assertEqual((status, found["picture"]["week"]["title"]), (200, "A"))
        for verb in ("act", "pick_up", "put_down", "line", "about", "answer", "take_out"):
            self.assertEqual(self.ask(verb, {"name": "commit"}, "reader")[0], 403)


def forward(end, path):
    """Hands on each connection, its request first, until none comes any more."""
    with contextlib.suppress(OSError):
        while True:
            near, _ = end.accept()
            far = socket.socket(socket.AF_UNIX)
            far.connect(path)
            for one, other in ((near, far), (far, near)):
                threading.Thread(target=hand_on, args=(one, other), daemon=True).start()


def hand_on(one, other):
    with contextlib.suppress(OSError):
        while True:
            found = one.recv(65536)
            if not found:
                break
            other.sendall(found)
        other.shutdown(socket.SHUT_WR)


@skip_without_tornado
class Nights(WebTest):
    def test_new_key(self):
        """A new key ends the old link at once, and no other one; no log has either."""
        self.open("day", SMALL, "2")
        server = self.serve("day")
        self.ask("hello", {"name": "anna"})
        old = self.key()
        status, printed, _ = self.office("web", self.path("day"), "--new-key", "0")
        self.assertEqual(status, 0)
        new = printed.split("#")[1].strip()
        self.assertNotEqual(new, old)

        def hello(key):
            return self.request("POST", "/api/hello", {}, self.asking(key))[0]

        self.assertTrue(wait_until(lambda: hello(new) == 200))
        self.assertEqual(hello(old), 401)
        self.assertEqual(hello(self.key("seat 1")), 200)
        status, printed, _ = self.office("web", self.path("day"), "--links")
        self.assertIn(new, printed)
        self.assertEqual(self.office("web", self.path("day"), "--new-key", "7")[0], 3)
        self.check_kept(server, new)

    def check_kept(self, server, key):
        """The keys are in one file for its owner alone, and hold for the next server."""
        path = self.path("day/web.keys")
        self.assertEqual(os.stat(path).st_mode & 0o777, 0o600)
        good = self.asking(key)
        self.request("GET", f"/?{key}")
        self.request("GET", f"/{key}")
        self.request("POST", "/api/hello", b"{", good)
        self.raw(f"GET /{key} HTTP/9\r\nX-Seat-Key: {key}\r\n\r\n".encode())
        self.raw(f"GET / HTTP/1.1\r\nHost: {key}\r\nX-Seat-Key {key}\r\n\r\n".encode())
        server.terminate()
        printed, said = server.communicate(timeout=60)
        self.assertEqual((printed, said), ("", ""))
        for name in set(os.listdir(self.path("day"))) - {"web.keys"}:
            if os.path.isfile(self.path(f"day/{name}")):
                with open(self.path(f"day/{name}"), "rb") as file:
                    self.assertNotIn(key.encode(), file.read(), name)
        self.serve("day")
        self.assertEqual(self.key(), key)

    def test_keys_last(self):
        """The links of a day hold on the day after it."""
        office = self.open("monday", SMALL, "2")
        server = self.serve("monday")
        links = {name: link.split("#")[1] for name, link in self.links.items()}
        self.assertEqual(self.office("close", self.path("monday"), "--wait", "0")[0], 0)
        self.assertTrue(wait_until(lambda: server.poll() is not None))
        self.assertEqual(server.returncode, 0)
        office.wait(60)
        self.open("tuesday", "--after", self.path("monday"), "--planners", "3")
        self.serve("tuesday")
        found = {name: link.split("#")[1] for name, link in self.links.items()}
        self.assertEqual({name: found[name] for name in links}, links)
        self.assertEqual(len(set(found.values())), 4)

    def test_one_server(self):
        self.assertEqual(self.office("web", self.path("nowhere"))[0], 3)
        self.open("day", SMALL, "1")
        self.serve("day")
        status, _, said = self.office("web", self.path("day"), "--port", "0")
        self.assertEqual(status, 3)
        self.assertIn("served already", said)

    def test_forwarded(self):
        """A port that leads to the socket, as `ssh -L` makes one, has the page and the seats."""
        self.open("day", SMALL, "1")
        self.serve("day", "--socket", self.path("s"))
        with socket.create_server(("127.0.0.1", 0)) as end:
            end.settimeout(20)
            threading.Thread(target=forward, args=(end, self.path("s")), daemon=True).start()
            port = end.getsockname()[1]
            self.assertEqual(self.links["seat 0"].split("#")[0], "http://localhost:8470/")
            self.links = {
                name: f"http://localhost:{port}/#{link.split('#')[1]}"
                for name, link in self.links.items()
            }
            self.assertEqual(self.request("GET", "/")[0], 200)
            self.assertEqual(self.ask("hello", {"name": "anna"})[0], 200)

    def test_socket(self):
        """A socket by default, which goes with the server; no header of a login at a port."""
        self.open("day", SMALL, "1")
        server = self.serve("day", "--socket", self.path("s"))
        self.assertEqual(os.stat(self.path("s")).st_mode & 0o777, 0o660)
        self.end(server)
        self.assertFalse(os.path.exists(self.path("s")))
        server = self.serve("day", "--url", "https://desk.example.org/seats/")
        self.assertTrue(self.links["seat 0"].startswith("https://desk.example.org/seats/#"))
        self.assertTrue(os.path.exists(self.path("day/web.socket")))
        self.end(server)
        self.write("logins", "anna 0\n")
        words = ["--login-header", "X-User", "--logins", self.path("logins")]
        status, _, said = self.office("web", self.path("day"), "--port", "0", *words)
        self.assertEqual(status, 2)
        self.assertIn("at a socket alone", said)
        for text in ("anna 7\n", "anna\n", "anna 0\nanna 0\n"):
            self.write("logins", text)
            self.assertEqual(self.office("web", self.path("day"), *words)[0], 3)
        long = self.path("x" * 120)
        self.assertIn("too long", self.office("web", self.path("day"), "--socket", long)[2])


class Lacking(WebTest):
    def test_no_tornado(self):
        """Without tornado the command says how to get it."""
        self.open("day", SMALL, "1")
        fake = self.write("python3", "#!/bin/sh\nexit 1\n", 0o755)
        self.environment.update(OFFICE_WEB_PYTHON=fake)
        status, _, said = self.office("web", self.path("day"), "--port", "0")
        self.assertEqual(status, 3)
        self.assertIn("apt-get install python3-tornado", said)
        status, _, said = self.office("open", self.path("other"), SMALL, "1", "--web")
        self.assertEqual(status, 3)
        self.assertIn("apt-get install python3-tornado", said)
        self.assertFalse(os.path.exists(self.path("other")))
        self.assertEqual(self.sit("day", 0, "show cost\n")[0], "costs 0 20 0 0")
