#!/usr/bin/env python3
"""Runs a program with a terminal as its standard error, and prints what it says there, without carriage returns.

    checks/examples/explained_on_a_terminal.py PROGRAM WORDS..
"""
from __future__ import annotations

import sys
from pathlib import Path

sys.dont_write_bytecode = True
sys.path.insert(0, str(Path(__file__).resolve().parent.parent))
from terminal import on_a_terminal  # noqa: E402

if __name__ == "__main__":
    sys.stdout.write(on_a_terminal(sys.argv[1:])[1])
