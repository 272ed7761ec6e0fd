#!/usr/bin/env python3
"""Runs scripts that take some seconds, with a terminal as standard error, and compares what is told there meanwhile.

    checks/examples/progress_on_a_terminal.py PT_RUN

The parts that were run only grow, and so do those that are printed, judged or drawn behind it. The output is as ever. Without a
terminal nothing is told.
"""
from __future__ import annotations

import json
import re
import subprocess
import sys
import tempfile
from pathlib import Path

sys.dont_write_bytecode = True
sys.path.insert(0, str(Path(__file__).resolve().parent.parent))
from terminal import on_a_terminal  # noqa: E402

PART = re.compile(r"(\d+) % run, about \d+ seconds left")
COUNT = re.compile(r"(\d+) turns so far")
BEHIND = {"history": "printed", "json": "printed", "chart": "drawn", "steps": "judged", "page": "judged"}
# A run is made longer until something is told. It has to be if the run takes so many seconds.
LONG = 6.0
MOST_TURNS = 1_000_000
MOST_PASSES = 65_536
# (a script has 1,048,576 bytes at most)
MOST_SENDS = 16_384
DESKS = 64


class Wrong(Exception):
    """What is wrong."""


def script(passes: int) -> str:
    """A process that passes so often, on the first of the desks."""
    process = {"name": "a", "desk": 0, "ops": [{"op": "pass"}] * passes}
    return json.dumps({"format": 1, "desks": DESKS, "slots": 1, "processes": [process]}, separators=(",", ":"))


def parts_of(said: str, form: re.Pattern[str]) -> list[int]:
    """The numbers of the lines that were told."""
    parts = []
    for line in said.splitlines():
        found = form.fullmatch(line)
        if found is None:
            raise Wrong(f"it says: {line}")
        parts.append(int(found[1]))
    return parts


def is_told(command: list[str], form: re.Pattern[str]) -> bool:
    """Runs the command with a terminal, and, if something is told there, without one."""
    printed, said, seconds = on_a_terminal(command)
    parts = parts_of(said, form)
    # (of two threads the later one may be the first to write)
    if ("many" not in command and parts != sorted(parts)) or (form is PART and any(part > 100 for part in parts)):
        raise Wrong(f"it says {said!r}")
    if not parts and seconds > LONG:
        raise Wrong(f"in {seconds:.1f} seconds it says nothing: {' '.join(command)}")
    if parts:
        silent = subprocess.run(command, capture_output=True, text=True, check=False)
        if silent.stderr or silent.stdout != printed:
            raise Wrong(f"without a terminal it says {silent.stderr!r}")
    return bool(parts)


def talk(sends: int) -> str:
    """Two processes, of which one sends so often to the other."""
    ops = [{"op": "send", "to": "b", "kind": 1, "num": 1}] * sends
    takes = [{"op": "receive"}] * sends
    processes = [{"name": "a", "desk": 0, "ops": ops}, {"name": "b", "desk": 1, "ops": takes}]
    return json.dumps({"format": 1, "desks": 2, "slots": 1, "processes": processes}, separators=(",", ":"))


def is_told_behind(program: str, script: Path, turns: int, form: str, word: str) -> tuple[bool, float]:
    """Runs a script that has much to print, and says whether it is told how much of that is done behind the run, and how many
    seconds all took."""
    command = [program, str(script), "--turns", str(turns), "--print", form]
    printed, said, seconds = on_a_terminal(command)
    ran = "".join(line for line in said.splitlines(keepends=True) if " % run, " in line)
    parts_of(ran, PART)
    parts = parts_of(said.removeprefix(ran), re.compile(rf"(\d+) % {word}, about \d+ seconds left"))
    if parts != sorted(parts) or any(part > 100 for part in parts):
        raise Wrong(f"it says {said!r}")
    if parts and subprocess.run(command, capture_output=True, text=True, check=False).stdout != printed:
        raise Wrong(f"without a terminal it prints something else: {' '.join(command)}")
    return bool(parts), seconds


def main(program: str) -> None:
    with tempfile.TemporaryDirectory() as folder:
        much = Path(folder) / "much.json"
        for form, word in BEHIND.items():
            sends, told, seconds = 1_024, False, 0.0
            while sends < MOST_SENDS and not told:
                sends *= 2
                much.write_text(talk(sends))
                told, seconds = is_told_behind(program, much, sends + 2, form, word)
            # (the run itself takes a part of it)
            if not told and seconds > 3 * LONG:
                raise Wrong(f"in {seconds:.1f} seconds it says nothing of what is {word}")
        short, path = Path(folder) / "short.json", Path(folder) / "long.json"
        short.write_text(script(1))
        for epochs, threads in ((1, "single"), (1, "many"), (4, "single")):
            turns, words = 8_000, ["--threads", threads, "--epochs", str(epochs), "--turns"]
            while not is_told([program, str(short), *words, str(turns // epochs)], PART) and turns < MOST_TURNS:
                turns = min(2 * turns, MOST_TURNS)
        passes = 8_192
        path.write_text(script(passes))
        while not is_told([program, str(path), "--until", "quiet"], COUNT) and passes < MOST_PASSES:
            passes *= 2
            path.write_text(script(passes))


if __name__ == "__main__":
    try:
        main(sys.argv[1])
    except Wrong as wrong:
        print(wrong)
        sys.exit(1)
