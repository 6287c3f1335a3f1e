#!/usr/bin/env python3
"""Not a test: how long planners wait at many seats beside many readers, by the browser's protocol.

    tests/web/load.py INSTANCE SOLUTION [SEATS [READERS [SECONDS]]]    PROGRAM names another program

Milliseconds of all requests, of the answers to commits, and until each other seat has heard of a
commit; the processor and the memory of the server. Each planner shows a week, picks up, puts down,
and now and then commits; readers listen, each at one of eight weeks.
"""
import asyncio
import json
import os
import random
import re
import sys
import time
import unittest
import zlib

sys.dont_write_bytecode = True
HERE = os.path.dirname(os.path.abspath(__file__))
sys.path[:0] = [HERE, os.path.join(os.path.dirname(HERE), "client")]

from served import WebTest  # noqa: E402

TICKS = os.sysconf("SC_CLK_TCK")
# seconds between two acts of a planner; of so many that were put down one commit is made
PAUSE, EACH = 0.8, 5


def percentiles(name, found):
    found = sorted(1000 * one for one in found)
    if not found:
        return
    last = len(found) - 1
    print(
        f"{name:24}{len(found):7}{found[last // 2]:9.1f}{found[last * 99 // 100]:9.1f}"
        f"{found[-1]:9.1f}",
        flush=True,
    )


def memory(number):
    with open(f"/proc/{number}/status") as file:
        return next(int(line.split()[1]) / 1024 for line in file if line.startswith("VmRSS"))


def processor(number):
    with open(f"/proc/{number}/stat") as file:
        words = file.read().rsplit(")", 1)[1].split()
    return (int(words[11]) + int(words[12])) / TICKS


class Client:
    """A window: a connection for what it asks, and one for its news."""

    def __init__(self, load, name, window):
        self.load, self.key, self.window = load, load.test.key(name), window
        self.ends = None

    def head(self, method, path, more=""):
        return (
            f"{method} /api/{path} HTTP/1.1\r\nHost: {self.load.address}\r\n"
            f"X-Seat-Key: {self.key}\r\nX-Window: {self.window}\r\n"
            f"Accept-Encoding: gzip\r\n{more}\r\n"
        ).encode()

    async def connect(self):
        host, port = self.load.address.split(":")
        return await asyncio.open_connection(host, int(port), limit=1 << 22)

    async def ask(self, verb, told):
        if self.ends is None or self.ends[1].is_closing():
            self.ends = await self.connect()
        reader, writer = self.ends
        body = json.dumps(told).encode()
        more = f"Content-Type: application/json\r\nContent-Length: {len(body)}\r\n"
        writer.write(self.head("POST", verb, more) + body)
        head = (await reader.readuntil(b"\r\n\r\n")).decode().lower()
        length = int(head.split("content-length: ")[1].split("\r\n")[0])
        found = await reader.readexactly(length)
        if "content-encoding: gzip" in head:
            found = zlib.decompress(found, 31)
        return int(head.split()[1]), json.loads(found)

    async def listen(self, hear):
        """Reads the news, packed or not, and gives each to `hear`."""
        reader, writer = await self.connect()
        writer.write(self.head("GET", "news"))
        head = (await reader.readuntil(b"\r\n\r\n")).lower()
        pack = zlib.decompressobj(31) if b"content-encoding: gzip" in head else None
        text = b""
        while True:
            size = int((await reader.readline()).strip() or b"0", 16)
            if not size:
                return
            part = (await reader.readexactly(size + 2))[:-2]
            self.load.bytes += len(part)
            text += pack.decompress(part) if pack else part
            *lines, text = text.split(b"\n")
            for line in filter(None, lines):
                hear(json.loads(line))


class Planner:
    def __init__(self, load, seat):
        self.load, self.seat, self.draw = load, seat, random.Random(seat)
        self.client = Client(load, f"seat {seat}", f"p{seat}")
        self.picture, self.downs = None, 0

    async def turn(self, verb, told, is_commit=False):
        begun = time.perf_counter()
        status, found = await self.client.ask(verb, told)
        took = time.perf_counter() - begun
        if self.load.is_counted:
            self.load.times.append(took)
            self.load.statuses[status] = self.load.statuses.get(status, 0) + 1
            if is_commit:
                self.load.commits.append(took)
        self.picture = found.get("picture") or self.picture
        return found

    def hear(self, event):
        for one in event.get("news", []):
            if one["seat"] != self.seat:
                heard = self.load.heard.setdefault(one["number"], {})
                heard.setdefault(self.seat, time.perf_counter())

    async def begin(self):
        await self.turn("hello", {"name": f"planner {self.seat}"})
        self.listening = asyncio.ensure_future(self.client.listen(self.hear))

    async def work(self):
        await asyncio.sleep(self.draw.random() * PAUSE)
        while True:
            await self.act()
            await asyncio.sleep(PAUSE * (0.5 + self.draw.random()))

    async def act(self):
        held = self.picture.get("held") if self.picture else None
        if held:
            spots = [one for one in held["slots"] if one["offers"]]
            if not spots:
                return await self.turn("lay_down", {})
            slot = self.draw.choice(spots)
            price, about = slot["offers"][0][:2] if isinstance(slot["offers"][0], list) else (0, "")
            await self.turn("put_down", {"to": slot["at"], "price": price, "about": about})
            self.downs += 1
            if self.downs % EACH == 0:
                await self.commit()
            return None
        if self.draw.random() < 0.4:
            return await self.turn("show", {"view": self.draw.choice(self.load.views)})
        lecture = self.draw.choice(self.load.lectures)
        return await self.turn("pick_up", {"lecture": lecture, "kind": "move"})

    async def commit(self):
        found = await self.turn("act", {"name": "commit"})
        question = found.get("question")
        if not question:
            return
        names = [one["name"] for one in question["answers"]]
        if "commit" not in names:
            await self.turn("close", {"question": question["number"]})
            return
        told = {"question": question["number"], "answer": "commit", "why": "measured"}
        found = await self.turn("answer", told, is_commit=True)
        notice = found.get("notice") or {}
        code = notice.get("code", "question" if found.get("question") else "nothing")
        self.load.ends[code] = self.load.ends.get(code, 0) + 1
        if notice.get("code") == "committed":
            number = int(re.search(r"draft ([0-9]+)", notice["text"]).group(1))
            self.load.answered[number] = time.perf_counter()
        elif "stale" in notice.get("code", ""):
            await self.turn("act", {"name": "abandon"})


class Load:
    def __init__(self, test, seats, readers, seconds):
        self.test, self.address = test, test.address()
        self.seats, self.readers, self.seconds = seats, readers, seconds
        self.times, self.commits, self.statuses, self.ends = [], [], {}, {}
        self.answered, self.heard, self.bytes, self.is_counted = {}, {}, 0, False
        with open(WORDS[1]) as file:
            rows = [line.split() for line in file if line.strip()]
        self.lectures = [
            {"course": one[0], "room": one[1], "at": [int(one[2]), int(one[3])]} for one in rows
        ]
        self.views = [["course", one["course"]] for one in self.lectures]

    async def read(self, number):
        client = Client(self, "reader", f"r{number}")
        status, _ = await client.ask("hello", {})
        if status == 200:
            await client.ask("show", {"view": self.views[number % 8]})
            await client.listen(lambda event: None)

    async def run(self, server):
        planners = [Planner(self, seat) for seat in range(self.seats)]
        for planner in planners:
            await planner.begin()
        readers = [asyncio.ensure_future(self.read(number)) for number in range(self.readers)]
        await asyncio.sleep(3)
        self.is_counted, self.bytes, before = True, 0, processor(server)
        works = [asyncio.ensure_future(planner.work()) for planner in planners]
        await asyncio.sleep(self.seconds)
        self.is_counted = False
        self.tell(server, before, sum(not one.done() for one in readers))
        for one in works + readers + [planner.listening for planner in planners]:
            one.cancel()

    def tell(self, server, before, reading):
        print(f"load {', '.join(f'{one:.0f}' for one in os.getloadavg())}; readers {reading}")
        print(f"{'':24}{'count':>7}{'middle':>9}{'99/100':>9}{'longest':>9}")
        percentiles("all requests", self.times)
        percentiles("answers to commits", self.commits)
        told = [
            (self.answered[number], list(heard.values()))
            for number, heard in self.heard.items()
            if number in self.answered and len(heard) >= self.seats - 2
        ]
        percentiles("others hear", [at - begun for begun, all_ in told for at in all_])
        percentiles("the last other hears", [max(all_) - begun for begun, all_ in told])
        office = self.test.opened.pid, self.test.desk_of("day")
        count = len(self.answered)
        print(f"{count} drafts accepted, {len(told)} of them heard by all; ", end="")
        print(f"office {memory(office[0]):.0f} MiB, desk {memory(office[1]):.0f} MiB")
        share = 100 * (processor(server) - before) / self.seconds
        rate, sent = len(self.times) / self.seconds, self.bytes / self.seconds / 1024
        print(
            f"{rate:.0f} requests a second, {sent:.0f} KiB of news a second; server {share:.0f} % "
            f"of a processor, {memory(server):.0f} MiB; statuses {self.statuses}, "
            f"commits {self.ends}",
            flush=True,
        )


class Run(WebTest):
    def runTest(self):
        given = [int(word) for word in WORDS[2:]]
        seats, readers, seconds = given + [64, 200, 20][len(given) :]
        self.opened = self.open("day", WORDS[0], str(seats), "--start", WORDS[1])
        server = self.serve("day").pid
        asyncio.run(Load(self, seats, readers, seconds).run(server))


if __name__ == "__main__":
    WORDS = [os.path.abspath(word) for word in sys.argv[1:3]] + sys.argv[3:]
    unittest.TextTestRunner(verbosity=0).run(Run())
