"""The files of the page, read once."""
from __future__ import annotations

import os
from typing import NamedTuple

STATIC = os.path.join(os.path.dirname(os.path.abspath(__file__)), "static")
MEDIA_TYPES = {
    ".html": "text/html; charset=utf-8",
    ".css": "text/css; charset=utf-8",
    ".js": "text/javascript; charset=utf-8",
    ".svg": "image/svg+xml",
}


class File(NamedTuple):
    kind: str
    body: bytes


def read_pages() -> dict[str, File]:
    """The files of the page by their paths."""
    pages = {}
    for name in sorted(os.listdir(STATIC)):
        with open(os.path.join(STATIC, name), "rb") as file:
            pages["/" + name] = File(MEDIA_TYPES[os.path.splitext(name)[1]], file.read())
    pages["/"], pages["/read"] = pages.pop("/index.html"), pages.pop("/reader.html")
    return pages
