#!/usr/bin/env python3
"""Runs the tests of the seats in browsers, tests/web; tests/part.py tells which words may follow.
Tests that lack tornado, Chromium or nginx are skipped, and it is said.

PROGRAM names another program than the one that was built. FULL=1 draws as many days as are promised
in place of a few. The last line is 'N passed, M failed'.
"""
from part import run_part

if __name__ == "__main__":
    run_part("web")
