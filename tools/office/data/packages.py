"""Work that needs a Debian package which this Python may not have: then Debian's own Python does
it."""
from __future__ import annotations

import os
import subprocess
import sys
from typing import Optional

# Debian's Python, which has Debian's packages
PYTHON = "/usr/bin/python3"
HERE = os.path.dirname(os.path.abspath(__file__))
# the status of a script that lacks a package
LACKS = 4


def run_with_packages(
    script: str, words: list[str], given: str = ""
) -> Optional[subprocess.CompletedProcess[str]]:
    """What a module of this folder prints, run by itself; None if there is no other Python, or if
    that one lacks the package, too."""
    if not os.path.exists(PYTHON) or os.path.realpath(sys.executable) == os.path.realpath(PYTHON):
        return None
    command = [PYTHON, os.path.join(HERE, script), *words]
    done = subprocess.run(command, input=given, capture_output=True, text=True, check=False)
    return None if done.returncode == LACKS else done
