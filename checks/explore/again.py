#!/usr/bin/env python3
"""Plays each schedule of moves again that the cases print, and compares the outcome.

    checks/explore/again.py PT_EXPLORE PT_AUDIT

For each NAME.stdout of a case with `--order table` or `--order erlang` the shortest schedule of each outcome is run by `--schedule`. It must have the
text that stands below it, and a history that the auditor accepts.
"""
from __future__ import annotations

import re
import subprocess
import sys
from pathlib import Path

HERE = Path(__file__).resolve().parent
TOP = HERE.parent.parent
OUTCOME = re.compile(r"^outcome \d+ schedules .* shortest (\S+) first \S+\n  (.*)$", re.M)


def ran(*words: str, given: str = "") -> tuple[int, str]:
    """The status of a program and what it prints."""
    done = subprocess.run(words, input=given, capture_output=True, text=True, cwd=TOP, check=False)
    return done.returncode, done.stdout


def faults(explore: str, audit: str, case: Path) -> list[str]:
    """What is wrong with the schedules of a case."""
    words = case.with_suffix(".args").read_text().splitlines()
    order = next((word for word in ("table", "erlang") if word in words), None)
    if order is None or "--schedule" in words:
        return []
    found = []
    for schedule, text in OUTCOME.findall(case.read_text()):
        asked = (explore, "--order", order, "--schedule", schedule, words[-1])
        told = f"schedules 1 outcomes 1\noutcome 1 schedules 1 shortest {schedule} first {schedule}\n  {text}\n"
        if ran(*asked) != (0, told):
            found.append(f"{case.stem}: {schedule} ends otherwise")
        status, history = ran(*asked, "--print", "history")
        if status or ran(audit, given=history)[0]:
            found.append(f"{case.stem}: the history of {schedule} is refused")
    return found


def main(words: list[str]) -> int:
    """Prints what is wrong. Returns the status."""
    explore, audit = words
    wrong = [one for case in sorted(HERE.glob("*.stdout")) for one in faults(explore, audit, case)]
    for line in wrong:
        print(line)
    return 1 if wrong else 0


if __name__ == "__main__":
    sys.exit(main(sys.argv[1:]))
