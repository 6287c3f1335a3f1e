#!/usr/bin/env python3
"""Runs the tests of the office's package, tests/client; tests/part.py tells which words may follow.

PROGRAM names another program than the one that was built. The last line is 'N passed, M failed'.
"""
from part import run_part

if __name__ == "__main__":
    run_part("client")
