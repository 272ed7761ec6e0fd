#!/usr/bin/env python3
"""Measures how long `pt_explore --order table` takes on one thread and on several.

    bench/moves.py PROGRAM [--jobs N] [--most STATES] [--write]

PROGRAM is a built pt_explore (`.ci/build --as-proved pt_explore`). Each script is explored once on one thread and once on N
threads (4), and both have to print the same. It prints the section of RESULTS.md, or writes it. `--most` leaves out scripts that
are known to have more states. The scripts: in a ring each process sends to the next one, and else each sends to the others in
turn. Then each receives all that was sent to it. Each process has a desk.
"""
from __future__ import annotations

import argparse
import json
import os
import re
import resource
import subprocess
import sys
import tempfile
import time
from pathlib import Path

HEAD = re.compile(r"schedules (?:at least )?(\d+) outcomes \d+ states (\d+)")
ROOT = Path(__file__).resolve().parent.parent
HEADING = "## Every move of a script, on threads"
# how many processes, how many messages each, whether to the next one alone, and how many states there are about
SCRIPTS = ((4, 1, True, 433), (2, 4, False, 556), (3, 2, False, 2_156), (3, 3, False, 23_725), (3, 4, False, 297_716))


def script(many: int, messages: int, ring: bool) -> dict[str, object]:
    """Processes that send each other so many messages."""
    names = [f"p{number}" for number in range(many)]
    sent = {name: [names[(at + 1 + (0 if ring else turn % (many - 1))) % many] for turn in range(messages)]
            for at, name in enumerate(names)}
    received = {name: sum(to.count(name) for to in sent.values()) for name in names}
    return {"format": 1, "desks": many, "slots": 8, "processes": [
        {"name": name, "desk": desk, "ops": [
            *({"op": "send", "to": to, "kind": 1, "num": 1} for to in sent[name]),
            *[{"op": "receive", "pick": {"kind": 1}}] * received[name]]}
        for desk, name in enumerate(names)]}


def explored(program: str, file: Path, jobs: int) -> tuple[str, float, float, int]:
    """What the program prints, the processor's seconds of all threads and of its first one, and the most kilobytes that it had."""
    first, most, before = 0.0, 0, resource.getrusage(resource.RUSAGE_CHILDREN)
    words = [program, "--order", "table", "--jobs", str(jobs), str(file)]
    with tempfile.TemporaryFile("w+") as told, subprocess.Popen(words, stdout=told) as ran:
        while ran.poll() is None:
            try:
                first = int(Path(f"/proc/{ran.pid}/task/{ran.pid}/schedstat").read_text().split()[0]) / 1e9
                peak = re.search(r"VmHWM:\s+(\d+)", Path(f"/proc/{ran.pid}/status").read_text())
                most = int(peak[1]) if peak else most
            except (OSError, IndexError):
                pass
            time.sleep(0.005)
        told.seek(0)
        text = told.read()
    if ran.returncode != 0:
        raise SystemExit(f"{file}: status {ran.returncode}")
    after = resource.getrusage(resource.RUSAGE_CHILDREN)
    return text, after.ru_utime + after.ru_stime - before.ru_utime - before.ru_stime, first, most


def rows(program: str, jobs: int, most: int, folder: Path) -> list[str]:
    """The table."""
    lines = [f"| Script | States | Schedules | 1 thread | {jobs} threads | Of the first of them | Kilobytes |", "|---" * 7 + "|"]
    for many, messages, ring, states in SCRIPTS:
        if states > most:
            continue
        file = folder / "script.json"
        file.write_text(json.dumps(script(many, messages, ring)))
        one, several = explored(program, file, 1), explored(program, file, jobs)
        head = HEAD.match(one[0])
        if one[0] != several[0] or head is None:
            raise SystemExit(f"{many} processes, {messages} messages: {one[0][:80]} and {several[0][:80]}")
        count = int(head[1])
        told = f"{count:,}" if count < 10**14 else f"{count / 10 ** (len(head[1]) - 1):.1f} * 10^{len(head[1]) - 1}"
        name = f"a ring of {many}, one message each" if ring else f"{many} processes, {messages} messages each"
        lines.append(f"| {name} | {int(head[2]):,} | {told} | {one[1]:.2f} | {several[1]:.2f} | {several[2]:.2f} "
                     f"| {max(one[3], several[3]):,} |")
    return lines


def section(program: str, jobs: int, most: int) -> str:
    """The section of RESULTS.md."""
    with tempfile.TemporaryDirectory() as folder:
        before = os.getloadavg()[0]
        table = rows(program, jobs, most, Path(folder))
    today = time.strftime("%-d %B %Y")
    return "\n".join([
        HEADING, f"{today}, beside other work (load {before:.0f} before and {os.getloadavg()[0]:.0f} after it), with "
        f"{len(os.sched_getaffinity(0))} processors: `pt_explore --order table --jobs N`, built without proofs, one run each. "
        "`bench/moves.py` wrote this section, in seconds of the processor. The first thread asks for its share and joins what all found, so "
        "its seconds are what the clock shows where as many processors are free. The last column has the most memory of the two runs.",
        "", *table, "", "",
    ])


def main(words: list[str]) -> None:
    asked = argparse.ArgumentParser(description=(__doc__ or "").splitlines()[0])
    asked.add_argument("program")
    asked.add_argument("--jobs", type=int, default=4)
    asked.add_argument("--most", type=int, default=1_000_000)
    asked.add_argument("--write", action="store_true")
    found = asked.parse_args(words)
    written = section(found.program, found.jobs, found.most)
    if not found.write:
        print(written, end="")
        return
    page = ROOT / "bench" / "RESULTS.md"
    text = page.read_text()
    before, heading, rest = text.partition(HEADING + "\n")
    if heading:
        page.write_text(before + written + rest[rest.find("\n## ") + 1 :])
        return
    before, heading, rest = text.partition("## Runs on threads beside moves\n")
    if not heading:
        raise SystemExit(f"{page} has no section to stand before")
    page.write_text(before + written + heading + rest)


if __name__ == "__main__":
    main(sys.argv[1:])
