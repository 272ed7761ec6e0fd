#!/usr/bin/env python3
"""Prints what a page of standard input holds between the parts that each page has: the history, its counts and the names.

    checks/explore/held.py <PAGE
"""
import sys
from pathlib import Path

sys.path.insert(0, str(Path(__file__).resolve().parents[2] / "tools"))
sys.dont_write_bytecode = True
from page import parts  # noqa: E402

head, names, end = (f"{part}\n" for part in parts())
text = sys.stdin.read()
if not text.startswith(head) or not text.endswith(end) or text.count(names) != 1:
    sys.exit("standard input is no page as the sources have it")
print(text[len(head) : -len(end)].replace(names, ""), end="")
