#!/usr/bin/env python3
"""Runs pt_explore with a terminal as its standard error, and waits until it tells how far it is.

    checks/explore/watched.py PROGRAM        the status is 1 if it tells nothing within ten minutes

It is asked for schedules by chance, for all on one thread and on two, and for all of moves. Of the first three it has to tell
how long the rest takes, too.
"""
from __future__ import annotations

import json
import os
import pty
import re
import select
import subprocess
import sys
import tempfile
import time
from pathlib import Path

TIMED = re.compile(rb"^[1-9][0-9]* schedules so far: [0-9]+ %, about [0-9]+ seconds left\r?$", re.M)
STATES = re.compile(rb"^[1-9][0-9]* states so far, the last after [0-9]+ moves\r?$", re.M)
# No line says more or less than this.
ALL = re.compile(rb"(?:[0-9]+ schedules so far(?:: [0-9]+ %, about [0-9]+ seconds left)?\r?\n|[0-9]+ states so far, the last after [0-9]+ moves\r?\n)*")
MOST_SECONDS = 600.0


def script(desks: int, passes: int) -> str:
    """A process on each desk, which passes so often. No schedule of these is left out by another."""
    processes = [{"name": f"p{desk}", "desk": desk, "ops": [{"op": "pass"}] * passes} for desk in range(desks)]
    return json.dumps({"format": 1, "desks": desks, "slots": 1, "processes": processes})


def told(terminal: int, form: re.Pattern[bytes]) -> str | None:
    """Why not, if the program does not tell how far it is before it ends or the time is over."""
    end, heard = time.monotonic() + MOST_SECONDS, b""
    while time.monotonic() < end:
        if not select.select([terminal], [], [], 1.0)[0]:
            continue
        try:
            heard += os.read(terminal, 4096)
        except OSError:
            break
        whole = heard[: heard.rfind(b"\n") + 1]
        if ALL.fullmatch(whole) is None:
            break
        if form.search(heard):
            return None
    return f"it says {heard!r}"


def main(words: list[str]) -> int:
    (program,) = words
    faults = []
    with tempfile.TemporaryDirectory() as folder:
        two, six = Path(folder) / "two.json", Path(folder) / "six.json"
        two.write_text(script(2, 12))
        six.write_text(script(6, 12))
        turns, most = ["--order", "turns"], ["--limit", str(10**9)]
        for words, form in (
            ([str(two), *turns, "--random", str(10**12)], TIMED),
            ([str(two), *turns, *most], TIMED),
            ([str(two), *turns, *most, "--jobs", "2"], TIMED),
            ([str(six), *most], STATES),
        ):
            terminal, other = pty.openpty()
            command = [program, *words]
            with subprocess.Popen(command, stdin=subprocess.DEVNULL, stdout=subprocess.DEVNULL, stderr=other) as started:
                os.close(other)
                fault = told(terminal, form)
                started.kill()
            os.close(terminal)
            if fault is not None:
                faults.append(f"{' '.join(words[1:])}: {fault}")
    print("\n".join(faults))
    return 1 if faults else 0


if __name__ == "__main__":
    sys.exit(main(sys.argv[1:]))
