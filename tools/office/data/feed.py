"""What has changed in a week as a feed by RFC 4287, for a reader of news or a chat."""
from __future__ import annotations

from typing import NamedTuple, Sequence
from xml.sax.saxutils import escape, quoteattr


class Entry(NamedTuple):
    """A publishing with changes: what it is called, when in UTC it was, and the changes."""

    name: str
    when: str
    title: str
    lines: Sequence[str]


def feed(name: str, title: str, page: str, entries: Sequence[Entry]) -> bytes:
    """A feed, the newest entry first. `name` is what it is known by; without entries it is old."""
    newest = entries[0].when if entries else "1970-01-01T00:00:00Z"
    parts = [
        '<?xml version="1.0" encoding="utf-8"?>\n<feed xmlns="http://www.w3.org/2005/Atom">\n',
        f"<id>{escape(name)}</id>\n<title>{escape(title)}</title>\n",
        f"<link href={quoteattr(page)}/>\n<updated>{newest}</updated>\n",
        f"<author><name>{escape(title)}</name></author>\n",
    ]
    for entry in entries:
        parts.append(
            f"<entry><id>{escape(f'{name}:{entry.name}')}</id>\n"
            f"<title>{escape(entry.title)}</title>\n<updated>{entry.when}</updated>\n"
            f"<link href={quoteattr(page)}/>\n"
            f'<content type="text">{escape(chr(10).join(entry.lines))}</content></entry>\n'
        )
    return "".join([*parts, "</feed>\n"]).encode("utf-8", "replace")
