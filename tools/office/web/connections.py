"""The connections of a server: how many there may be at once, of all and of each key, and which of
them make room."""
from __future__ import annotations

import asyncio
import errno
import resource
import socket as sockets
from collections import OrderedDict
from typing import Any, Awaitable

import tornado.httpserver
from tornado import httputil
from tornado.iostream import IOStream

from office.web.seat_keys import READER

# files that the process may have open, those of them that are no connections, and those of a seat
FILES, OWN, SEATED = 16_384, 400, 8
# connections of strangers at once, and of a seat's key; the readers' key has what is left
STRANGERS, OF_SEAT = 500, 24
# seconds in which an answer has to be taken, and for which nobody is let in if no file is left
TAKES, LATER = 20.0, 0.2
# what ends with the next file that is closed
FULL = (errno.EMFILE, errno.ENFILE, errno.ENOBUFS, errno.ENOMEM)


def allow_files() -> int:
    """As many open files as connections may need, or as there may be; answers how many."""
    soft, hard = resource.getrlimit(resource.RLIMIT_NOFILE)
    wanted = FILES if hard == resource.RLIM_INFINITY else min(FILES, hard)
    if soft != resource.RLIM_INFINITY and soft < wanted:
        resource.setrlimit(resource.RLIMIT_NOFILE, (wanted, hard))
        soft = wanted
    return FILES if soft == resource.RLIM_INFINITY else soft


def most_of_readers(files: int, planners: int) -> int:
    """How many connections the readers' key may have, of so many files of a process."""
    return max(OF_SEAT, files - OWN - STRANGERS - planners * (OF_SEAT + SEATED))


class Few:
    """So many connections at most: one more lets the oldest go of those that only wait for another
    request, and the oldest of all if each of them listens."""

    def __init__(self, most: int) -> None:
        self.most = most
        self._idle: OrderedDict[IOStream, None] = OrderedDict()
        self._listening: OrderedDict[IOStream, None] = OrderedDict()

    def take(self, stream: IOStream, listens: bool = False) -> None:
        self.drop(stream)
        (self._listening if listens else self._idle)[stream] = None
        if len(self) > self.most:
            self._forget_closed()
        if len(self) > self.most:
            old = next(one for one in (*self._idle, *self._listening) if one is not stream)
            self.drop(old)
            old.close()

    def drop(self, stream: IOStream) -> None:
        self._idle.pop(stream, None)
        self._listening.pop(stream, None)

    def _forget_closed(self) -> None:
        for stream in [one for one in (*self._idle, *self._listening) if one.closed()]:
            self.drop(stream)

    def __len__(self) -> int:
        return len(self._idle) + len(self._listening)


class Connections:
    """The connections of strangers, of which no request has had a key, and those of each key. So
    stalled ones keep nobody out, and whoever has one key takes no place of another."""

    def __init__(self, files: int, planners: int) -> None:
        self.readers = most_of_readers(files, planners)
        self._strangers = Few(min(STRANGERS, files // 4))
        self._of: dict[str, Few] = {}
        self._whose: dict[IOStream, Few] = {}

    def begin(self, stream: IOStream) -> None:
        self._put(stream, self._strangers, False)

    def is_known(self, request: httputil.HTTPServerRequest, who: str, listens: bool) -> None:
        few = self._of.setdefault(who, Few(self.readers if who == READER else OF_SEAT))
        self._put(stream_of(request), few, listens)

    def _put(self, stream: IOStream, few: Few, listens: bool) -> None:
        before = self._whose.get(stream)
        if before is not None and before is not few:
            before.drop(stream)
        self._whose[stream] = few
        few.take(stream, listens)

    def end(self, stream: IOStream) -> None:
        few = self._whose.pop(stream, None)
        if few is not None:
            few.drop(stream)


def stream_of(request: httputil.HTTPServerRequest) -> IOStream:
    return request.connection.stream  # type: ignore[union-attr,no-any-return]


def must_take(request: httputil.HTTPServerRequest, sent: Awaitable[None]) -> None:
    """Ends the connection of who does not take an answer in time."""
    stream, future = stream_of(request), asyncio.ensure_future(sent)

    def look() -> None:
        if not future.done():
            stream.close()

    asyncio.get_running_loop().call_later(TAKES, look)


class Listener(tornado.httpserver.HTTPServer):
    """A server that knows its connections, and that goes on when no file is left for one more."""

    connections: Connections

    def listen_at(self, end: sockets.socket) -> None:
        self.end = end
        end.setblocking(False)
        self._let_in()

    def _let_in(self) -> None:
        if self.end.fileno() >= 0:
            asyncio.get_running_loop().add_reader(self.end, self._accept)

    def _accept(self) -> None:
        try:
            found, address = self.end.accept()
        except OSError as fault:
            if fault.errno in FULL:
                loop = asyncio.get_running_loop()
                loop.remove_reader(self.end)
                loop.call_later(LATER, self._let_in)
            return
        found.setblocking(False)
        self.handle_stream(IOStream(found), address)

    def handle_stream(self, stream: IOStream, address: Any) -> None:
        self.connections.begin(stream)
        super().handle_stream(stream, address)

    def on_close(self, server_conn: Any) -> None:
        super().on_close(server_conn)
        self.connections.end(server_conn.stream)

    def stop_listening(self) -> None:
        asyncio.get_running_loop().remove_reader(self.end)
        self.end.close()
