#!/usr/bin/env python3
"""How many runs a second a trial of Rust makes on one thread, and how many schedules the reduction saves.

    bench/trials.py [SECONDS] [--explore PROGRAM] [--write]

It runs `bindings/rust/examples/trial_speed.rs`, each row for so many seconds of a processor (2), over the library that
PUNDEWO_LIB names, and prints a section of RESULTS.md, or writes it there. The last rows are scenarios that a script of
`pt_explore` says as well: PROGRAM (bin/pt_explore) counts the schedules of the script.
"""
from __future__ import annotations

import argparse
import json
import os
import re
import subprocess
import sys
import tempfile
from datetime import date
from pathlib import Path

ROOT = Path(__file__).resolve().parent.parent
HEADING = "## Trials of Rust\n"


def script(*ops: list[dict[str, object]]) -> dict[str, object]:
    """A script of processes that each have a desk and do this."""
    processes = [{"name": f"p{desk}", "desk": desk, "ops": of} for desk, of in enumerate(ops)]
    return {"format": 1, "desks": len(ops), "processes": processes}


def scripts() -> dict[str, dict[str, object]]:
    """The scenarios of the last rows, by what the rows begin with."""
    send: dict[str, object] = {"op": "send", "to": "p0", "kind": 1, "num": 1}
    take: dict[str, object] = {"op": "receive"}
    passes: list[dict[str, object]] = [{"op": "pass"}] * 4
    return {
        "two desks that never meet, five turns each": script(passes, passes),
        "one that sends to another": script([take], [send]),
        "two that send to a third": script([take, take], [send], [send]),
    }


def explored(program: Path, of: dict[str, object]) -> str:
    """How many schedules of whole turns a script has."""
    with tempfile.TemporaryDirectory() as folder:
        file = Path(folder, "script.json")
        file.write_text(json.dumps(of))
        done = subprocess.run([program, "--order", "turns", file], check=True, capture_output=True, text=True)
    found = re.match(r"schedules (\d+) ", done.stdout)
    if found is None:
        raise SystemExit(f"{program} prints: {done.stdout}")
    return found[1]


def printed(seconds: float, program: Path) -> list[str]:
    """What the program prints, a line a row."""
    command = ["cargo", "run", "-q", "--release", "--offline", "--example", "trial_speed", "--", str(seconds)]
    done = subprocess.run(command, cwd=ROOT / "bindings" / "rust", check=True, capture_output=True, text=True)
    lines, counts = [], scripts()
    for line in done.stdout.splitlines():
        what, _, rest = line.partition(": ")
        lines.append(f"{what}: {explored(program, counts.pop(what))} by pt_explore, {rest}" if what in counts else line)
    if counts:
        raise SystemExit(f"trial_speed has no row of: {', '.join(counts)}")
    return lines


# Why the counts differ.
WHY = """\
`pt_explore --order turns` counts orders of whole turns: the operations of a desk's processes, its post, and all letters that came. A round here is
the post, the letters, and then a handler for each process that has something to do, so what a handler sends is posted in the next round.
A process that has exited also takes a round, in which all that it had goes. A move is a part of a round.
"""


def section(seconds: float, program: Path) -> str:
    """The section, from its heading on."""
    proved = "that is not proved" if b"pt_c_is_not_proved" in archive().read_bytes() else "that was proved"
    load = os.getloadavg()[0]
    lines = "".join(f"{line}\n" for line in printed(seconds, program))
    return (f"{HEADING}\n{date.today():%-d %B %Y}, beside other work (load {load:.0f}). `bench/trials.py` wrote this section: each row "
            f"for {seconds:g} seconds of a processor, on one thread, over a library {proved}. A run opens a node and spawns all that "
            f"the scenario has.\n\n```text\n{lines}```\n\n{WHY}\n")


def archive() -> Path:
    return Path(os.environ["PUNDEWO_LIB"]) / "libpundewo.a"


def main(words: list[str]) -> None:
    asked = argparse.ArgumentParser()
    asked.add_argument("seconds", type=float, nargs="?", default=2.0)
    asked.add_argument("--explore", type=Path, default=ROOT / "bin" / "pt_explore")
    asked.add_argument("--write", action="store_true")
    found = asked.parse_args(words)
    written = section(found.seconds, found.explore.absolute())
    if not found.write:
        print(written, end="")
        return
    page = ROOT / "bench" / "RESULTS.md"
    before, heading, rest = page.read_text().partition(HEADING)
    behind = rest.find("\n## ") if heading else 0
    # (without the section it comes last)
    page.write_text(before + ("" if heading else "\n") + written.rstrip() + "\n" + (rest[behind:] if heading and behind >= 0 else ""))


if __name__ == "__main__":
    main(sys.argv[1:])
