"""Who may ask: names of the host, the page that asks, keys and logins, and the form of a
request."""
from __future__ import annotations

import hmac
import re
from typing import NamedTuple, Optional

from office.refused import Refused
from office.web.seat_keys import READER, Keys

# scripts, styles and pictures come from here alone, nothing is inline, nothing frames the page
POLICY = (
    "default-src 'none'; script-src 'self'; style-src 'self'; img-src 'self'; "
    "connect-src 'self'; base-uri 'none'; form-action 'none'; frame-ancestors 'none'; "
    "require-trusted-types-for 'script'; trusted-types 'none'"
)
ALWAYS = {
    "Content-Security-Policy": POLICY,
    "X-Content-Type-Options": "nosniff",
    "Referrer-Policy": "no-referrer",
    "Cross-Origin-Opener-Policy": "same-origin",
    "Cross-Origin-Resource-Policy": "same-origin",
    "Permissions-Policy": "camera=(), microphone=(), geolocation=()",
    "Cache-Control": "no-store",
}
LOOPBACK = re.compile(r"(127\.0\.0\.1|localhost|\[::1\])(:[0-9]{1,5})?\Z")
KEY = "X-Seat-Key"
# of these a request has one at most
ONCE = ("Host", "Content-Length", "Content-Type", "Origin", KEY)
# bytes of a head, and of a body
HEAD, BODY = 16_384, 16_384


class Fault(Exception):
    """A request that is refused, with a status and a reason for who reads it."""

    def __init__(self, status: int, why: str) -> None:
        super().__init__(why)
        self.status, self.why = status, why


class Head(NamedTuple):
    """What a request says before its body: each field with all its values."""

    method: str
    path: str
    query: str
    fields: dict[str, list[str]]

    def get(self, name: str) -> Optional[str]:
        values = self.fields.get(name.lower())
        return values[0] if values else None


def read_logins(path: str, known: set[str]) -> dict[str, str]:
    """Whose login is which seat."""
    try:
        with open(path, encoding="utf-8") as file:
            lines = [line.split() for line in file]
    except (OSError, ValueError) as fault:
        raise Refused(f"cannot read {path}: {fault}") from None
    found = {}
    for number, words in enumerate(lines, 1):
        if not words or words[0].startswith("#"):
            continue
        if len(words) != 2 or words[1] not in known:
            raise Refused(f"{path}, line {number}: a login, and a seat of the day or `{READER}`")
        if words[0] in found:
            raise Refused(f"{path}, line {number}: the login {words[0]} stands twice")
        found[words[0]] = words[1]
    return found


class Guard:
    """Refuses who has neither key nor login, and whoever was led here by another page."""

    def __init__(self, keys: Keys, hosts: set[str]) -> None:
        self.keys, self.hosts = keys, {host.lower() for host in hosts}
        # where the proxy says who has logged in, and whose login is which seat
        self.login_header: Optional[str] = None
        self.logins: dict[str, str] = {}

    def check_form(self, head: Head) -> None:
        """What is not plainly a request of the page is refused."""
        for name in ONCE:
            if len(head.fields.get(name.lower(), [])) > 1:
                raise Fault(400, f"{name} twice")
        if head.get("Transfer-Encoding") is not None or head.get("Expect") is not None:
            raise Fault(411, "a request says its length")
        length = head.get("Content-Length")
        if length is not None and not re.fullmatch("[0-9]{1,9}", length):
            raise Fault(400, "no length that is known here")
        if length is not None and int(length) > BODY:
            raise Fault(413, f"a request has at most {BODY} bytes")
        if head.query:
            raise Fault(400, "an address has no query here; a key stands behind the # of its link")

    def check_host(self, head: Head) -> None:
        """A name that somebody else has led to this address is none of ours."""
        host = (head.get("Host") or "").lower()
        if not LOOPBACK.match(host) and host not in self.hosts:
            raise Fault(421, "unknown host name")

    def check_origin(self, head: Head) -> None:
        """A browser says which page asks: it has to be ours. That the key has a header of its own,
        be it empty, keeps forms and pictures of other pages out, too."""
        origin, host = head.get("Origin"), head.get("Host")
        if origin is not None and origin not in (f"http://{host}", f"https://{host}"):
            raise Fault(403, "another page asks")
        if (head.get("Sec-Fetch-Site") or "same-origin") != "same-origin":
            raise Fault(403, "another page asks")
        if head.get(KEY) is None:
            raise Fault(401, "a request has its key in a header of its own")

    def who(self, head: Head) -> str:
        """Whose request it is: a seat's number, or a reader's. A key decides, else the login; but
        nobody sits by a key where his login has another place."""
        key, found = (head.get(KEY) or "").encode("latin-1", "replace"), None
        for name, own in self.keys.by_name.items():
            if hmac.compare_digest(own.encode(), key):
                found = name
        if found is None and not key and self.login_header:
            found = self.logins.get(self.login(head))
        if found is None and not key:
            raise Fault(401, "this page needs the link that the office has given you")
        if found is None:
            raise Fault(401, "the link is not right: ask the office for a new one")
        place = self.logins.get(self.login(head), found)
        if place != found and found != READER:
            why = f"this link is of seat {found}, and your login is of {place_of(place)}"
            raise Fault(403, why)
        return found

    def login(self, head: Head) -> str:
        """Who has logged in at the proxy, as it says."""
        values = head.fields.get(self.login_header.lower(), []) if self.login_header else []
        return values[0] if len(values) == 1 else ""


def place_of(name: str) -> str:
    """A place in words."""
    return "those who read" if name == READER else f"seat {name}"


def media_type(head: Head) -> str:
    return (head.get("Content-Type") or "").split(";")[0].strip().lower()
