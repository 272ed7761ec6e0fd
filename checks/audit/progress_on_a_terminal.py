#!/usr/bin/env python3
"""Audits a history that takes some seconds, with a terminal as standard error, and compares what is told there meanwhile.

    checks/audit/progress_on_a_terminal.py PT_AUDIT

The parts that were read, and then those of a chart that were drawn, only grow, and standard output is as ever. Without a terminal
nothing is told.
"""
from __future__ import annotations

import os
import pty
import re
import select
import subprocess
import sys
import tempfile
from pathlib import Path

ROOT = Path(__file__).resolve().parent.parent.parent
sys.dont_write_bytecode = True
sys.path.insert(0, str(ROOT / "checks"))
from terminal import on_a_terminal  # noqa: E402

PART = re.compile(r"(\d+) % read, about (\d+) seconds left")
DRAWN = re.compile(r"(\d+) % drawn, about (\d+) seconds left")
# A history is made longer until something is told. It has to be if the audit takes so many seconds.
LONG = 1.8
MOST_EVENTS = 4_000_000
# The same of a chart, of which a part is drawn.
LONG_CHART = 12.0
# How many pieces of standard input come at most until something is told of them, how many bytes each has, and how many seconds are
# between two.
MOST_PIECES, PIECE, PAUSE = 400, 1_000, 0.25


class Wrong(Exception):
    """What is wrong."""


def made(path: Path, events: int) -> None:
    """A history of so many events and a few more."""
    with path.open("w") as to:
        subprocess.run([sys.executable, str(ROOT / "bench" / "history.py"), str(events), "100", "100"], stdout=to, check=True)


def parts_of(said: str, form: re.Pattern[str] = PART) -> list[int]:
    """The parts that were told, in percent."""
    parts = []
    for line in said.splitlines():
        found = form.fullmatch(line)
        if found is None:
            raise Wrong(f"it says: {line}")
        parts.append(int(found[1]))
    return parts


def draw(program: str, history: Path) -> None:
    """Has charts drawn, of more and more events, until it is told how much of one is drawn."""
    events, drawn, seconds = 15_000, "", 0.0
    while not drawn and seconds < LONG_CHART:
        events *= 2
        made(history, events)
        command = [program, "--judge", "--print", "chart", str(history)]
        printed, said, seconds = on_a_terminal(command)
        read = "".join(line for line in said.splitlines(keepends=True) if "read" in line)
        drawn = said.removeprefix(read)
        for parts in (parts_of(read), parts_of(drawn, DRAWN)):
            if parts != sorted(parts) or any(part > 100 for part in parts):
                raise Wrong(f"it says {said!r}")
    silent = subprocess.run(command, capture_output=True, text=True, check=False)
    if not drawn or silent.stderr or silent.stdout != printed:
        raise Wrong(f"of a chart it says {said!r}, and without a terminal {silent.stderr!r}")


def told_of_input(program: str, text: bytes) -> str:
    """What is told first of standard input, which comes slowly until then."""
    terminal, other = pty.openpty()
    with subprocess.Popen([program, "--judge"], stdin=subprocess.PIPE, stdout=subprocess.DEVNULL, stderr=other) as started:
        assert started.stdin is not None
        os.close(other)
        try:
            for at in range(0, len(text), PIECE):
                started.stdin.write(text[at : at + PIECE])
                started.stdin.flush()
                if select.select([terminal], [], [], PAUSE)[0]:
                    return os.read(terminal, 4096).decode().replace("\r\n", "\n")
            return ""
        except OSError as fault:  # it has ended
            return str(fault)
        finally:
            started.kill()
            os.close(terminal)


def main(program: str) -> None:
    with tempfile.TemporaryDirectory() as folder:
        draw(program, Path(folder) / "history")
        history, events = Path(folder) / "history", 800_000
        while True:
            made(history, events)
            printed, said, seconds = on_a_terminal([program, "--judge", str(history)])
            if said or events >= MOST_EVENTS:
                break
            events *= 2
        parts = parts_of(said)
        if not printed.startswith("legal: ") or parts != sorted(parts) or any(part > 100 for part in parts):
            raise Wrong(f"it prints {printed!r} and says {said!r}")
        if seconds > LONG and not parts:
            raise Wrong(f"in {seconds:.1f} seconds it says nothing")
        silent = subprocess.run([program, "--judge", str(history)], capture_output=True, text=True, check=False)
        if silent.stderr or silent.stdout != printed:
            raise Wrong(f"without a terminal it says {silent.stderr!r}")
        said = told_of_input(program, history.read_bytes()[: MOST_PIECES * PIECE])
        if not re.match(r"0 MB read so far\n", said):
            raise Wrong(f"of standard input it says {said!r}")


if __name__ == "__main__":
    try:
        main(sys.argv[1])
    except Wrong as wrong:
        print(wrong)
        sys.exit(1)
