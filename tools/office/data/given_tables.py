"""The tables as an office gave them: kept with the plan and the day, so that an export gives them
back with their rows, columns and order, and what the day has changed in them."""
from __future__ import annotations

import io
import os
import zipfile

from office.data.sources import Source
from office.data.tables import LONGEST, read_bytes

FILE = "tables.zip"
# a packed file has no time of its own, so that the same tables are the same bytes
ALWAYS = (1980, 1, 1, 0, 0, 0)


def packed(source: Source) -> bytes:
    """The files of a source in one."""
    text = io.BytesIO()
    with zipfile.ZipFile(text, "w", zipfile.ZIP_DEFLATED) as archive:
        for path in [*source.texts, *source.books]:
            data = read_bytes(path)
            if data is not None:
                part = zipfile.ZipInfo(os.path.basename(path), ALWAYS)
                part.compress_type = zipfile.ZIP_DEFLATED
                archive.writestr(part, data)
    return text.getvalue()


def unpack(data: bytes, folder: str) -> bool:
    """Lays the files out in a folder; not if they are damaged."""
    try:
        with zipfile.ZipFile(io.BytesIO(data)) as archive:
            for part in archive.infolist():
                if os.path.basename(part.filename) != part.filename or part.file_size > LONGEST:
                    return False
                with open(os.path.join(folder, part.filename), "wb") as file:
                    file.write(archive.read(part))
    except (zipfile.BadZipFile, OSError, EOFError, NotImplementedError):
        return False
    return True
