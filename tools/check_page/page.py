"""Makes the page of its parts: one file that needs no other."""
from __future__ import annotations

import base64
import gzip
import os
import re

from check_page.module import Modules
from office.refused import Refused

STATIC = os.path.join(os.path.dirname(os.path.abspath(__file__)), "static")
# what the page may do: run what stands in it, and ask nobody for anything
POLICY = (
    "default-src 'none'; script-src 'unsafe-inline' 'wasm-unsafe-eval'; worker-src blob:; "
    "style-src 'unsafe-inline'; img-src data:; form-action 'none'; base-uri 'none'"
)
IMPORT = re.compile(r'^import (?:\{[^}]*\} from )?"\./([a-z]+)\.js";\n', re.M)
EXPORT = re.compile(r"^export (?=(?:async )?function |class |const |let )", re.M)
NOTHING = '{"told":[],"files":[],"days":""}'


def read(name: str) -> str:
    with open(os.path.join(STATIC, name), encoding="utf-8") as file:
        return file.read()


def bundled(first: str) -> str:
    """A module after those that it takes in, as one script."""
    done: list[str] = []
    parts: list[str] = []

    def add(name: str) -> None:
        if name in done:
            return
        done.append(name)
        text = read(f"{name}.js")
        for other in IMPORT.findall(text):
            add(other)
        parts.append(EXPORT.sub("", IMPORT.sub("", text)))

    add(first)
    script = "".join(parts)
    if "</script" in script or re.search(r"^(import|export) ", script, re.M):
        raise Refused(f"{first}.js cannot stand in a page")
    return script


def packed(module: bytes) -> str:
    """Bytes as a page has them: the same each time."""
    return base64.b64encode(gzip.compress(module, 9, mtime=0)).decode()


def make_page(modules: Modules, commit: str) -> str:
    """The page, without files in it."""
    parts = {
        "POLICY": POLICY,
        "STYLE": read("check.css"),
        "COMMIT": commit,
        "WIDE": packed(modules.wide),
        "NARROW": packed(modules.narrow),
        "GIVEN": NOTHING,
        "WORKER": bundled("worker"),
        "SCRIPT": bundled("start"),
    }
    return re.sub(r"@([A-Z]+)@", lambda found: parts[found[1]], read("check.html"))
