"""Writes workbooks, by this Python or by Debian's."""
from __future__ import annotations

import json
import os
import tempfile

from office.data.packages import run_with_packages
from office.data.tables import read_bytes
from office.data.workbook_cells import Sheets, lacking
from office.data.workbook_writing import write
from office.refused import Refused


def write_workbook(path: str, source: str, sheets: Sheets) -> None:
    """Writes sheets into a new workbook, or into a copy of one that there is."""
    try:
        write(path, source, sheets)
    except ImportError as fault:
        wanted = json.dumps({"path": os.path.abspath(path), "source": source, "sheets": sheets})
        done = run_with_packages("workbook_writing.py", [], wanted)
        if done is None:
            package = lacking(fault) or fault.name
            raise Refused(f"cannot write {path}: the package {package} is not installed") from None
        if done.returncode != 0:
            raise Refused(f"cannot write {path}: {done.stderr.strip()}") from None


def workbook_with(path: str, sheets: Sheets) -> bytes:
    """A workbook with other sheets in the places of those of the same names."""
    with tempfile.TemporaryDirectory() as folder:
        made = os.path.join(folder, os.path.basename(path))
        write_workbook(made, path, sheets)
        return read_bytes(made) or b""
