"""Files of a day, opened so that nothing is taken for them that somebody of the group has laid in
their place: no link is followed, what is new is made exclusively, and a name that is new is on the
disk before anything is told of it."""
from __future__ import annotations

import contextlib
import errno
import fcntl
import os
import stat
import time
from typing import Callable, Optional

from office.refused import Refused

# a pipe or a device that stands in the place of a file is waited for by nobody
GUARDED = os.O_NOFOLLOW | os.O_NONBLOCK | os.O_CLOEXEC
# who may not write a file that its owner alone writes
OTHERS = stat.S_IWGRP | stat.S_IWOTH
# what refuses a file by its owner and its mode
Check = Callable[[int, str], None]
# how often a file is tried that comes and goes
TRIES = 5


def unsafe(path: str, why: str, number: int = errno.EINVAL) -> OSError:
    """The fault of a file that is not what it seems."""
    return OSError(number, why, path)


def _open(path: str, flags: int, mode: int = 0) -> int:
    try:
        return os.open(path, flags | GUARDED, mode)
    except OSError as fault:
        if fault.errno == errno.ELOOP:
            raise unsafe(path, "it is a link, and no file of a day is one", errno.ELOOP) from None
        raise


def _check(end: int, path: str, is_pipe: bool, is_written: bool) -> None:
    """Refuses what is no file, or no pipe, and one that would be written under another name."""
    found = os.fstat(end)
    if is_pipe and not stat.S_ISFIFO(found.st_mode):
        raise unsafe(path, "it is no pipe")
    if not is_pipe and stat.S_ISDIR(found.st_mode):
        raise unsafe(path, "it is a folder", errno.EISDIR)
    if not is_pipe and not stat.S_ISREG(found.st_mode):
        raise unsafe(path, "it is no plain file")
    if is_written and not is_pipe and found.st_nlink > 1:
        raise unsafe(path, "it has a second name")


def _checked(end: int, path: str, flags: int, is_pipe: bool = False) -> int:
    try:
        _check(end, path, is_pipe, flags & os.O_ACCMODE != os.O_RDONLY)
    except OSError:
        os.close(end)
        raise
    return end


def open_there(path: str, flags: int) -> int:
    """Opens a file that is there."""
    return _checked(_open(path, flags), path, flags)


def open_pipe(path: str, flags: int) -> int:
    """Opens a pipe that is there, and waits for nobody."""
    return _checked(_open(path, flags), path, flags, is_pipe=True)


def make(path: str, flags: int, mode: int) -> int:
    """Makes a file where none is; its name is on the disk then."""
    end = _open(path, flags | os.O_CREAT | os.O_EXCL, mode)
    try:
        sync(os.path.dirname(path) or ".")
    except OSError:
        os.close(end)
        raise
    return end


def open_or_make(path: str, flags: int, mode: int) -> int:
    """Opens a file, which is made if it is not there. It is not asked for in one step: in a group's
    folder the machine may refuse that for a file which another one has made."""
    for _ in range(TRIES):
        with contextlib.suppress(FileNotFoundError):
            return open_there(path, flags)
        with contextlib.suppress(FileExistsError):
            return make(path, flags, mode)
    raise unsafe(path, "it comes and goes")


def make_anew(path: str, mode: int, flags: int = os.O_WRONLY) -> int:
    """Makes a file to be written; what stood there, by whomever, is gone."""
    with contextlib.suppress(FileNotFoundError):
        os.remove(path)
    return _open(path, flags | os.O_CREAT | os.O_EXCL, mode)


def share(end: int, mode: int = 0o660) -> None:
    """Opens a file to those of the folder's group, as far as it is one's own."""
    with contextlib.suppress(OSError):
        os.fchmod(end, mode)


def sync(path: str) -> None:
    """Has a file, or the names in a folder, on the disk."""
    end = os.open(path, os.O_RDONLY | os.O_CLOEXEC)
    try:
        os.fsync(end)
    finally:
        os.close(end)


def anyone(end: int, path: str) -> None:
    """A file may be anybody's."""


def must_be_own(end: int, path: str) -> None:
    """Refuses a file that neither who asks nor the owner of its folder has made, or that others can
    write, in a folder into which they can."""
    found, folder = os.fstat(end), os.stat(os.path.dirname(path) or ".")
    if found.st_uid not in (os.geteuid(), folder.st_uid):
        raise unsafe(path, "it is another user's")
    if found.st_mode & OTHERS and folder.st_mode & OTHERS:
        raise unsafe(path, "others can write it: chmod go-w takes that away")


def has_loose_names(folder: str) -> bool:
    """Whether others can take away, or rename, what is in a folder and is not theirs."""
    mode = os.stat(folder).st_mode
    return bool(mode & OTHERS) and not mode & stat.S_ISVTX


def must_be_secret(end: int, path: str) -> None:
    """Refuses a file that others can read."""
    must_be_own(end, path)
    mode = stat.S_IMODE(os.fstat(end).st_mode)
    if mode & (stat.S_IRWXG | stat.S_IRWXO):
        raise unsafe(path, f"others can read it (mode {mode:04o}): chmod 600 takes that away")


def lock(path: str, mode: int = 0o660, shared: bool = False) -> Optional[int]:
    """Takes the lock of a file, which is made if it is not there; None if somebody has it."""
    end = open_there(path, os.O_RDONLY) if shared else open_or_make(path, os.O_RDWR, mode)
    # a status that looks whether somebody has the lock has it for a moment
    for _ in range(1 if shared else 5):
        with contextlib.suppress(OSError):
            fcntl.flock(end, (fcntl.LOCK_SH if shared else fcntl.LOCK_EX) | fcntl.LOCK_NB)
            return end
        time.sleep(0.0 if shared else 0.02)
    os.close(end)
    return None


def is_locked(path: str) -> bool:
    """Whether somebody has the lock of a file; not if the file is not there."""
    try:
        end = lock(path, shared=True)
    except FileNotFoundError:
        return False
    if end is None:
        return True
    os.close(end)
    return False


def write_whole(path: str, text: bytes, mode: int = 0o640) -> None:
    """Writes a file so that it is there whole or not at all, and under its name on the disk."""
    new = path + ".new"
    try:
        with open(make_anew(new, mode), "wb") as file:
            file.write(text)
            file.flush()
            os.fsync(file.fileno())
        os.replace(new, path)
        sync(os.path.dirname(path) or ".")
    except OSError as fault:
        with contextlib.suppress(OSError):
            os.remove(new)
        raise Refused(f"cannot write {path}: {fault.strerror}") from None


def read_whole(path: str, check: Check = anyone) -> bytes:
    """The bytes of a file that is what it has to be."""
    with open(open_there(path, os.O_RDONLY), "rb") as file:
        check(file.fileno(), path)
        return file.read()


def read_text(path: str, check: Check = anyone) -> str:
    """The text of a file, empty if it is not there."""
    try:
        return read_whole(path, check).decode("utf-8", "surrogateescape")
    except FileNotFoundError:
        return ""


def file_size(path: str) -> int:
    """How long a file is, 0 if it cannot be seen."""
    try:
        return os.stat(path).st_size
    except OSError:
        return 0
