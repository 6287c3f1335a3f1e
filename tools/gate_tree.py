"""The copy of the repository that is proved, and the programs that are fetched from it.

The copy has no must-fail edits, so `rt ci` proves and runs there, and tries none. It stands outside
of the repository, since `rt` takes no second one within.
"""
from __future__ import annotations

import os
import pathlib
import re
import shutil
import subprocess
import tempfile

TOP = pathlib.Path(__file__).resolve().parent.parent
# a folder of the temporary files, with the process that made it
PREFIX = "timedesk-gate-"
OURS = re.compile(PREFIX + r"(\d+)-")
NOT_WALKED = {".git", "out", "__pycache__"}


def call_build(tree: pathlib.Path, words: str, given: str = "") -> str:
    """What a function of tools/build.sh prints of a tree."""
    script = f'here=$1; . "$0"; {words}'
    done = subprocess.run(
        ["bash", "-c", script, str(TOP / "tools/build.sh"), str(tree)],
        input=given,
        stdout=subprocess.PIPE,
        text=True,
        errors="surrogateescape",
        check=True,
    )
    return done.stdout


def count_lanes() -> int:
    """How many checks fit beside each other."""
    return int(call_build(TOP, "count_lanes"))


def walk(top: pathlib.Path) -> list[str]:
    """The files of a tree that git does not know."""
    found = []
    for at, folders, names in os.walk(top):
        folders[:] = [name for name in folders if name not in NOT_WALKED]
        found += [os.path.relpath(os.path.join(at, name), top) for name in names]
    return found


def files_of(top: pathlib.Path) -> list[str]:
    """The files of a tree, but what git ignores."""
    if not (top / ".git").exists():
        return walk(top)
    words = ["git", "-C", str(top), "ls-files", "-z", "--cached", "--others", "--exclude-standard"]
    done = subprocess.run(words, stdout=subprocess.PIPE)
    if done.returncode:
        return walk(top)
    return [os.fsdecode(name) for name in done.stdout.split(b"\0") if name]


def is_proved(name: str) -> bool:
    """Whether a file is copied: edits and what was built are not."""
    parts = name.split("/")
    return not (parts[0] == "crates" and len(parts) > 3 and parts[2] in ("must-fail", "out"))


def copy_tree(top: pathlib.Path, to: pathlib.Path) -> None:
    """Copies a tree as `rt ci` is to prove it."""
    # it is the top of a repository
    (to / ".git").mkdir(parents=True)
    for name in filter(is_proved, files_of(top)):
        source, target = top / name, to / name
        if source.is_symlink() or source.is_file():
            target.parent.mkdir(parents=True, exist_ok=True)
            shutil.copy2(source, target, follow_symlinks=False)


def make_room() -> pathlib.Path:
    """A folder for a copy; those that killed runs have left are removed."""
    for found in pathlib.Path(tempfile.gettempdir()).glob(f"{PREFIX}*"):
        made = OURS.match(found.name)
        if made and not os.path.exists(f"/proc/{made[1]}"):
            shutil.rmtree(found, ignore_errors=True)
    return pathlib.Path(tempfile.mkdtemp(prefix=f"{PREFIX}{os.getpid()}-"))


def program_of(tree: pathlib.Path, crate: str) -> pathlib.Path:
    return tree / "crates" / crate / "out" / crate


def fetch(tree: pathlib.Path, crate: str) -> bool:
    """Takes a crate's program over from a copy, if it is there."""
    source, target = program_of(tree, crate), program_of(TOP, crate)
    if not os.access(source, os.X_OK):
        return False
    target.parent.mkdir(parents=True, exist_ok=True)
    # a run of the old one goes on
    part = target.with_name(f"{crate}.fetched")
    shutil.copy2(source, part)
    os.replace(part, target)
    return True


def note_build(tree: pathlib.Path) -> bool:
    """Notes that the program was built from a copy's sources; not where others stand here now."""
    try:
        call_build(TOP, 'note_build "$(cat)" 2>/dev/null', call_build(tree, "sums"))
    except subprocess.CalledProcessError:
        return False
    return True
