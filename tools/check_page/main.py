"""`./check-page`: makes the page in which anybody checks a timetable, of the sources here."""
from __future__ import annotations

import argparse
import hashlib
import os
import subprocess
import sys
from collections.abc import Sequence
from typing import Optional

from check_page.kit import find_kit, run
from check_page.module import CRATE, Modules, make_modules
from check_page.page import make_page
from office.data.own_check import Given, Kind, with_files
from office.refused import Refused

TOP = os.path.abspath(os.path.join(os.path.dirname(os.path.abspath(__file__)), "../.."))
# the page as it was made last, where `office publish --with-check` looks for it
KEPT = os.path.join(TOP, "out/check-page/check.html")


def words() -> argparse.ArgumentParser:
    parser = argparse.ArgumentParser(
        prog="./check-page",
        allow_abbrev=False,
        description="Make a page for browsers in which anybody checks timetables: one file that "
        "needs no other, of the sources that stand here, to the same bytes each time.",
    )
    parser.add_argument("out", metavar="OUT.html", nargs="?", default=KEPT, help="the page")
    parser.add_argument(
        "--with",
        dest="pair",
        nargs=2,
        metavar=("INSTANCE", "SOLUTION"),
        help="put these files into it, which it checks as it opens",
    )
    does = "a copy of these sources in which `rt ci` has built the libraries"
    parser.add_argument("--tree", metavar="FOLDER", help=does)
    parser.add_argument("--module", metavar="FILE", help="write the module alone to this file, too")
    return parser


def commit() -> str:
    """The commit of the sources, and whether they differ from it."""
    git = ["git", "-C", TOP]
    head = subprocess.run([*git, "rev-parse", "HEAD"], capture_output=True, text=True, check=False)
    if head.returncode != 0:
        return "not known"
    those = ["status", "--porcelain", "--", "crates", "tools/check_page"]
    other = subprocess.run([*git, *those], capture_output=True, text=True, check=False)
    return head.stdout.strip() + (", with changes" if other.stdout else "")


def tree_of(asked: argparse.Namespace) -> str:
    """The sources whose libraries are built: a copy that is named, or these, whose libraries `rt`
    proves and builds now if it has not yet."""
    if asked.tree:
        return str(os.path.abspath(asked.tree))
    run(["rt", "lib"], os.path.join(TOP, "crates", CRATE))
    return TOP


def read(path: str) -> bytes:
    try:
        with open(path, "rb") as file:
            return file.read()
    except OSError as fault:
        raise Refused(f"{path} cannot be read: {fault.strerror}") from None


def write(path: str, text: bytes) -> None:
    try:
        os.makedirs(os.path.dirname(os.path.abspath(path)), exist_ok=True)
        with open(f"{path}.new", "wb") as file:
            file.write(text)
        os.replace(f"{path}.new", path)
    except OSError as fault:
        raise Refused(f"{path} cannot be written: {fault.strerror}") from None


def given(pair: Sequence[str]) -> list[Given]:
    """The files of a pair; what is wrong with them the page says."""
    kinds = (Kind.INSTANCE, Kind.SOLUTION)
    return [Given(os.path.basename(one), kind, read(one)) for one, kind in zip(pair, kinds)]


def tell(path: str, page: bytes, modules: Modules) -> None:
    print(f"check-page: {path} has {len(page)} bytes")
    for name, module in (("module", modules.wide), ("module, lowered", modules.narrow)):
        digest = hashlib.sha256(module).hexdigest()
        print(f"check-page: {name}: {len(module)} bytes, SHA-256 {digest}")


def make(asked: argparse.Namespace) -> None:
    files = given(asked.pair) if asked.pair else []
    modules = make_modules(find_kit(), tree_of(asked))
    page = make_page(modules, commit())
    write(KEPT, page.encode())
    if files:
        page = with_files(page, files, [], "")
    write(asked.out, page.encode())
    if asked.module:
        write(asked.module, modules.wide)
        write(f"{asked.module}.narrow", modules.narrow)
    tell(asked.out, page.encode(), modules)


def main(given_words: Optional[Sequence[str]] = None) -> int:
    try:
        make(words().parse_args(given_words))
    except Refused as refused:
        print(f"check-page: {refused.reason}", file=sys.stderr)
        return refused.status
    return 0
