"""What is answered to a request: a file of the page, an answer of a seat, or its news."""
from __future__ import annotations

import asyncio
import json
import re
import sys
import traceback
from asyncio import Future
from typing import Any, Optional, TYPE_CHECKING

import tornado.iostream
import tornado.web
from tornado import httputil

from office.web.connections import TAKES, must_take, stream_of
from office.web.guard import ALWAYS, Fault, Head, media_type
from office.web.lines import STILL, Line, Stream
from office.web.seat_faults import fault_of

if TYPE_CHECKING:
    from office.web.server import Office
    from office.web.windows import Window

# seconds between two signs of life; a page that has none for some time says so
ALIVE = 2.0
WINDOW, ACT = "X-Window", "X-Act"
# half a letter; those that stand for the bytes of a name are none
HALF = re.compile("[\ud800-\udc7f\udd00-\udfff]")
Data = dict[str, Any]


def head_of(request: httputil.HTTPServerRequest) -> Head:
    fields: dict[str, list[str]] = {}
    for name, value in request.headers.get_all():
        fields.setdefault(name.lower(), []).append(value)
    return Head(request.method or "", request.path, request.query, fields)


def whole(found: Any) -> Any:
    """Data without halves of letters, which nothing can be written with."""
    if isinstance(found, str):
        return HALF.sub("\N{REPLACEMENT CHARACTER}", found)
    if isinstance(found, list):
        return [whole(one) for one in found]
    if isinstance(found, dict):
        return {whole(name): whole(one) for name, one in found.items()}
    return found


def json_of(data: Any) -> bytes:
    return json.dumps(data, separators=(",", ":")).encode()


@tornado.web.stream_request_body
class Handler(tornado.web.RequestHandler):
    """A request. It is looked at before its body is read."""

    def initialize(self, office: Office) -> None:
        self.office = office
        self.said = b""

    def set_default_headers(self) -> None:
        self.clear_header("Server")
        for name, value in ALWAYS.items():
            self.set_header(name, value)

    def prepare(self) -> None:
        self.asked = head_of(self.request)
        try:
            self.office.guard.check_form(self.asked)
            self.office.guard.check_host(self.asked)
            self.check()
        except Fault as fault:
            self.refuse(fault)
            raise tornado.web.Finish() from None

    def check(self) -> None:
        """Refuses what is no request of this kind."""

    def data_received(self, chunk: bytes) -> None:
        self.said += chunk

    def refuse(self, fault: Fault) -> None:
        self.set_status(fault.status)
        self.answer({"fault": fault.why})

    def answer(self, data: Data) -> None:
        self.set_header("Content-Type", "application/json")
        self.write(json_of(data))

    def finish(self, chunk: Any = None) -> Future[None]:
        sent = super().finish(chunk)
        must_take(self.request, sent)
        return sent

    def write_error(self, status_code: int, **more: Any) -> None:
        self.finish(json_of({"fault": f"status {status_code}"}))

    def log_exception(self, kind: Any, value: Any, trace: Any) -> None:
        """A fault of ours, without what was asked: that has a key."""
        if not isinstance(value, tornado.web.HTTPError):
            traceback.print_exception(kind, value, trace, file=sys.stderr)


class Missing(Handler):
    """A path at which nothing is."""

    def check(self) -> None:
        raise Fault(404, "nothing is here")


class PageFile(Handler):
    """A file of the page. It has nothing of the day."""

    def get(self, path: str) -> None:
        file = self.office.pages[path]
        self.set_header("Content-Type", file.kind)
        self.set_header("Cache-Control", "no-cache")
        self.write(file.body)

    head = get


class Keyed(Handler):
    """A request of somebody who has a key."""

    listens = False

    def check(self) -> None:
        self.office.guard.check_origin(self.asked)
        self.who = self.office.guard.who(self.asked)
        self.office.connections.is_known(self.request, self.who, self.listens)

    @property
    def window(self) -> str:
        """The window that asks, by the name that it has given itself."""
        name = self.asked.get(WINDOW) or ""
        if not (name.isascii() and name.isalnum() and len(name) <= 40):
            raise Fault(400, "a window has a name")
        return name


class Verb(Keyed):
    """Something is asked, or done."""

    def check(self) -> None:
        super().check()
        if self.request.method != "POST":
            raise Fault(405, "this is asked by POST")
        if media_type(self.asked) != "application/json":
            raise Fault(415, "a request is JSON")

    async def post(self, verb: str) -> None:
        try:
            data = self.read_body()
            if verb == "hello":
                data["login"] = self.office.guard.login(self.asked)
                self.answer(await self.office.hello(self.who, self.window, data))
            else:
                number = (self.asked.get(ACT) or "")[:9]
                found = await self.office.answer(self.who, self.window, verb, data, number)
                self.answer(found)
        except Fault as fault:
            self.refuse(fault)
        except Exception as thrown:
            self.refuse(fault_of(thrown))

    def read_body(self) -> Data:
        """What the request says."""
        try:
            found = whole(json.loads(self.said.decode("utf-8")))
        except (ValueError, RecursionError):
            raise Fault(400, "no JSON") from None
        if not isinstance(found, dict):
            raise Fault(400, "no JSON object")
        return found


class NewsStream(Keyed):
    """What changes, a line of JSON each, as long as the window listens."""

    listens = True
    listened: Optional[Window] = None

    def check(self) -> None:
        super().check()
        if self.request.method != "GET":
            raise Fault(405, "news are read by GET")

    async def get(self) -> None:
        try:
            listened = self.office.listen(self.who, self.window)
        except Fault as fault:
            self.refuse(fault)
            return
        self.listened = listened
        self.set_header("Content-Type", "application/x-ndjson")
        self.stream = Stream("gzip" in (self.asked.get("Accept-Encoding") or ""))
        if self.stream.is_packed:
            self.set_header("Content-Encoding", "gzip")
        # a proxy shall hand on each line at once
        self.set_header("X-Accel-Buffering", "no")
        try:
            # the first line says that the window is heard, an empty one that it is still
            line: Optional[Line] = STILL
            while line is not None:
                await self.tell(line)
                line = await listened.next_line(ALIVE)
            self.write(self.stream.end())
        except tornado.iostream.StreamClosedError:
            pass
        except asyncio.TimeoutError:
            stream_of(self.request).close()
        finally:
            listened.lose()

    async def tell(self, line: Line) -> None:
        self.write(self.stream.bytes_of(line))
        await asyncio.wait_for(self.flush(), TAKES)

    def on_connection_close(self) -> None:
        if self.listened is not None:
            self.listened.lose()


def routes(office: Office) -> list[Any]:
    """Which handler has which path."""
    own = {"office": office}
    pages = "|".join(sorted(map(_escaped, office.pages), reverse=True))
    return [
        (r"/api/news", NewsStream, own),
        (r"/api/([a-z_]{1,20})", Verb, own),
        (f"({pages})", PageFile, own),
    ]


def _escaped(path: str) -> str:
    return path.replace(".", r"\.")


def application(office: Office) -> tornado.web.Application:
    return tornado.web.Application(
        routes(office),
        default_handler_class=Missing,
        default_handler_args={"office": office},
        compress_response=True,
        # no line of a log has what was asked
        log_function=lambda handler: None,
    )
