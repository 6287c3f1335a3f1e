"""Folders that are there whole or not at all."""
from __future__ import annotations

import contextlib
import os
import shutil
import tempfile
from typing import Iterator

from office.refused import Refused


def current_mask() -> int:
    mask = os.umask(0)
    os.umask(mask)
    return mask


@contextlib.contextmanager
def new_folder(folder: str) -> Iterator[str]:
    """A folder beside the one that it becomes at the end; that one must not have anything yet."""
    if os.path.exists(folder) and (not os.path.isdir(folder) or os.listdir(folder)):
        raise Refused(f"{folder} is there already, and is not written over")
    whole = os.path.abspath(folder)
    try:
        made = tempfile.mkdtemp(prefix=f".{os.path.basename(whole)}.", dir=os.path.dirname(whole))
    except OSError as fault:
        raise Refused(f"cannot write beside {folder}: {fault.strerror}") from None
    try:
        yield made
        os.chmod(made, 0o777 & ~current_mask())
        os.rename(made, folder)
    except BaseException:
        shutil.rmtree(made, ignore_errors=True)
        raise


def write_files(folder: str, files: dict[str, bytes]) -> None:
    for name, text in files.items():
        with open(os.path.join(folder, name), "wb") as file:
            file.write(text)
