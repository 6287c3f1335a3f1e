#!/usr/bin/env python3
"""Runs the tests of what goes in and out of an office, tests/data; tests/part.py tells which words may follow.

PROGRAM names another program than the one that was built. The last line is 'N passed, M failed'.
"""
from part import run_part

if __name__ == "__main__":
    run_part("data")
