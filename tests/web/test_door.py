"""What one who reads, a damaged file or a full table of files does to a server: nothing to the
others."""
import contextlib
import os
import signal
import socket
import subprocess
import sys
import time

from served import SMALL, WebTest, skip_without_tornado, wait_until

# files that a server may have open
FEW = 256


@skip_without_tornado
class Stands(WebTest):
    """The server stands, whatever its looks meet."""

    def serve_three(self):
        self.open("day", SMALL, "3")
        server = self.serve("day")
        self.assertEqual(self.ask("hello", {"name": "ben"}, "seat 1")[0], 200)
        self.assertEqual(self.ask("hello", {}, "reader")[0], 200)
        return server

    def stands(self, server):
        """A server goes on, and another seat plans at it."""
        time.sleep(1.0)
        self.assertIsNone(server.poll())
        self.assertEqual(self.ask("hello", {"name": "ben"}, "seat 1")[0], 200)
        self.assertEqual(self.ask("hello", {}, "reader")[0], 200)

    def test_damaged_minutes(self):
        for number, line in enumerate(("entry 0 x", "entry 0 -1", "entry 9 " + 5000 * "9", "x")):
            with self.subTest(line[:10]):
                server = self.serve_three() if not number else server
                with open(self.path("day/minutes"), "w") as file:
                    file.write(f"{line}\n")
                self.stands(server)

    def test_closing(self):
        server = self.serve_three()
        os.mkdir(self.path("day/closing"))
        self.stands(server)
        os.rmdir(self.path("day/closing"))
        for text in ("nan", "inf", "-inf", "x", "\xff"):
            self.write("day/closing", text)
            status, found = self.ask("hello", {}, "reader")
            self.assertEqual((status, found["closes"]), (200, None))
        self.stands(server)

    def test_sitter(self):
        server = self.serve_three()
        os.mkdir(self.path("day/2.sitter"))
        self.stands(server)
        self.assertEqual(self.ask("hello", {"name": "eve"}, "seat 2")[0], 409)

    def test_part(self):
        """A part of the day that is damaged is refused by name."""
        server = self.serve_three()
        os.mkdir(self.path("day/part2"))
        self.write("day/part2/part.json", "null")
        time.sleep(1.0)
        self.assertIsNone(server.poll())
        self.assertEqual(self.ask("hello", {}, "reader")[0], 200)
        status, _, said = self.office("status", self.path("day"))
        path = self.path("day/part2/part.json")
        self.assertEqual(said, f"office: cannot read {path}: it has no facts of a part\n")
        self.assertEqual(status, 3)
        os.remove(self.path("day/part2/part.json"))
        self.stands(server)


@skip_without_tornado
class Files(WebTest):
    """A server of which one key wants all files."""

    def serve_few(self):
        """A server that can open few files."""
        self.open("day", SMALL, "2")
        limit = f"resource.setrlimit(resource.RLIMIT_NOFILE, ({FEW}, {FEW}))"
        words = f"import os, resource, sys; {limit}"
        limited = [sys.executable, "-c", f"{words}; os.execv(sys.argv[1], sys.argv[1:])"]
        before, self.start = self.start, None
        try:
            self.start = lambda *more: self.start_limited(limited, *more)
            return self.serve("day")
        finally:
            self.start = before

    def start_limited(self, limited, *words):
        process = subprocess.Popen(
            [*limited, os.path.join(os.path.dirname(__file__), "../../office"), *words],
            stdin=subprocess.PIPE,
            stdout=subprocess.PIPE,
            stderr=subprocess.PIPE,
            text=True,
            env=self.environment,
            start_new_session=True,
        )
        self.addCleanup(self.end, process)
        return process

    def connections(self, count, text):
        """So many connections, each of which has asked this."""
        host, port = self.address().split(":")
        ends = []
        for _ in range(count):
            with contextlib.suppress(OSError):
                ends.append(socket.create_connection((host, int(port)), timeout=5))
                self.addCleanup(ends[-1].close)
                ends[-1].sendall(text)
        return ends

    def asked(self, name):
        head = f"POST /api/hello HTTP/1.1\r\nHost: {self.address()}\r\nContent-Length: 2\r\n"
        head += "".join(f"{name}: {value}\r\n" for name, value in self.asking(self.key(name)))
        return head.encode() + b"\r\n{}"

    def test_one_key(self):
        """Who reads opens more connections than there are files; all seats are served."""
        server = self.serve_few()
        self.connections(FEW + 100, self.asked("reader"))
        time.sleep(1.0)
        self.assertIsNone(server.poll())
        self.assertEqual(self.ask("hello", {"name": "anna"})[0], 200)
        self.assertEqual(self.ask("hello", {"name": "ben"}, "seat 1")[0], 200)

    def test_no_file_is_left(self):
        """So do strangers who say nothing: they are there while somebody sits down."""
        server = self.serve_few()
        self.connections(FEW + 100, b"G")
        time.sleep(1.0)
        self.assertIsNone(server.poll())
        begun = time.monotonic()
        self.assertEqual(self.ask("hello", {"name": "anna"})[0], 200)
        # none of them is let go by its time alone
        self.assertLess(time.monotonic() - begun, 8)

    def test_unread(self):
        """Who does not take his answers is let go."""
        self.open("day", SMALL, "1")
        self.serve("day")
        host, port = self.address().split(":")
        with socket.create_connection((host, int(port)), timeout=60) as end:
            end.setsockopt(socket.SOL_SOCKET, socket.SO_RCVBUF, 4096)
            page = f"GET /seat.js HTTP/1.1\r\nHost: {self.address()}\r\n\r\n".encode()
            end.settimeout(1)
            with contextlib.suppress(OSError):
                end.sendall(5000 * page)
            end.settimeout(60)
            gone = lambda: self.is_gone(end, page)  # noqa: E731
            self.assertTrue(wait_until(gone, 60))

    @staticmethod
    def is_gone(end, text):
        time.sleep(1.0)
        try:
            end.settimeout(0.2)
            end.sendall(text)
        except socket.timeout:
            return False
        except OSError:
            return True
        return False


@skip_without_tornado
class Halves(WebTest):
    """Halves of letters in what is typed: no answer is a fault of the server."""

    def test_texts(self):
        self.open("day", SMALL, "2")
        self.serve("day")
        half = "x\ud800y\udfff"
        self.assertEqual(self.ask("hello", {"name": half})[0], 200)
        for verb, told in (
            ("line", {"line": f"place {half} A 0 1"}),
            ("act", {"name": half}),
            ("show", {"view": ["course", half]}),
            ("put_aside", {"name": half}),
            ("pick_up", {"lecture": {"course": half, "room": half, "at": [0, 0]}, "kind": half}),
            ("answer", {"question": 1, "answer": "commit", "why": half}),
            (f"{half[:1]}_y", {half: half}),
        ):
            status, found = self.ask(verb, told)
            self.assertLess(status, 500, (verb, found))
        self.assertEqual(self.ask("hello", {"name": "ben"})[0], 200)
        self.assertEqual(self.ask("line", {"line": f"place {half} A 0 1"})[0], 200)


@skip_without_tornado
class Many(WebTest):
    """More readers than there may be at once."""

    def test_newest(self):
        """The one that has been there longest makes room, and nobody is kept out."""
        from office.web.windows import Windows

        windows = Windows(3, makes_room=True)
        for number in range(5):
            windows.begin(f"w{number}")
            windows.listen(f"w{number}")
        self.assertEqual(list(windows.by_name), ["w2", "w3", "w4"])

    def test_thousand(self):
        from office.web import readers

        self.assertGreaterEqual(readers.MOST, 1000)


@skip_without_tornado
class Again(WebTest):
    """A server beside an office that dies is started again."""

    def test_killed(self):
        office = self.open("day", SMALL, "1", "--web", "--port", "0")
        self.read_links(office)
        old = self.links
        (server,) = self.children_of(office, " web ")
        os.kill(server, signal.SIGKILL)
        said = office.stderr.readline()
        self.assertIn("the server of the seats has ended by SIGKILL", said)
        self.read_links(office)
        self.assertEqual(self.key(), old["seat 0"].split("#")[1])
        self.assertEqual(self.ask("hello", {"name": "anna"})[0], 200)

    def read_links(self, office):
        self.links = {}
        while "reader" not in self.links:
            words = office.stdout.readline().split()
            if words[:1] == ["seat"]:
                self.links[f"seat {words[1]}"] = words[2]
            elif words[:1] == ["reader"]:
                self.links["reader"] = words[1]

    @staticmethod
    def children_of(office, word):
        with open(f"/proc/{office.pid}/task/{office.pid}/children") as file:
            numbers = [int(number) for number in file.read().split()]
        found = []
        for number in numbers:
            with open(f"/proc/{number}/cmdline") as file:
                if word in file.read().replace("\0", " "):
                    found.append(number)
        return found
