#!/usr/bin/env python3
"""Measures how many schedules a second `pt_explore` runs.

    bench/explore.py PROGRAM [TIMES] [--before PROGRAM] [--proved] [--write]

It prints the tables of RESULTS.md, or writes that section of it. PROGRAM is a built pt_explore: that of
`bench/build_unproved.py`, or with `--proved` the one that the gate builds. `--before` names one to compare it with; both have
to print the same. Each script is explored TIMES times (5), on one thread, the programs in turn. A row has the best of the
processor's seconds, the start of the program and the reading of the script among them. The second table has all stored
scripts. The third has the processor's seconds of each thread: that of the longest is what the clock would show where as
many processors are free.
"""
from __future__ import annotations

import argparse
import json
import os
import re
import resource
import subprocess
import sys
import tempfile
import time
from pathlib import Path

HEAD = re.compile(r"schedules (\d+) outcomes (\d+)\noutcome \d+ schedules \d+ shortest ([\d,]*) first ([\d,]*)")
ROOT = Path(__file__).resolve().parent.parent
HEADING = "## Every schedule of a script"
SPEED = ("Seconds", "Schedules a second")
JOBS = (1, 2, 4, 8)
PASSES, SLOTS = 9, (8, 1024)


def passes(slots: int) -> dict[str, object]:
    """Two desks, whose processes take ten turns each and never meet."""
    ops = [{"op": "pass"}] * PASSES
    names = ["a", "b"]
    processes = [{"name": name, "desk": desk, "ops": ops} for desk, name in enumerate(names)]
    return {"format": 1, "desks": 2, "slots": slots, "processes": processes}


def messages(slots: int) -> dict[str, object]:
    """Two desks: two processes send each other messages in turn, and one sends another three."""
    def send(to: str, kind: int) -> dict[str, object]:
        return {"op": "send", "to": to, "kind": kind, "num": 1}

    def receive(kind: int) -> dict[str, object]:
        return {"op": "receive", "pick": {"kind": kind}}

    ops = {
        "a": (0, [send("b", 1), receive(2)] * 3),
        "b": (1, [receive(1), send("a", 2)] * 3),
        "c": (0, [send("d", 1)] * 3),
        "d": (1, [receive(1)] * 3 + [send("c", 4)]),
    }
    processes = [{"name": name, "desk": desk, "ops": list(list_of)} for name, (desk, list_of) in ops.items()]
    return {"format": 1, "desks": 2, "slots": slots, "processes": processes}


def explored(program: str, script: Path) -> tuple[str, float]:
    """What the program prints of a script, and the processor's seconds that it took."""
    before = resource.getrusage(resource.RUSAGE_CHILDREN)
    ran = subprocess.run([program, "--order", "turns", str(script)], stdout=subprocess.PIPE, text=True, check=True)
    after = resource.getrusage(resource.RUSAGE_CHILDREN)
    return ran.stdout, after.ru_utime + after.ru_stime - before.ru_utime - before.ru_stime


def row(programs: list[str], script: Path, name: str, times: int) -> str:
    """What the programs took of a script, each with the schedules a second."""
    runs = [[explored(program, script) for program in programs] for _ in range(times)]
    if len({text for run in runs for text, _ in run}) != 1:
        raise SystemExit(f"{script}: not each run prints the same")
    head = HEAD.match(runs[0][0][0])
    if head is None:
        raise SystemExit(f"{script}: {runs[0][0][0]}")
    turns = [len(found.split(",")) for found in head.groups()[2:]]
    count = int(head[1])
    best = [min(run[at][1] for run in runs) for at in range(len(programs))]
    cells = [cell for seconds in best for cell in (f"{seconds:.3f}", f"{count / seconds:,.0f}")]
    return f"| {name} | {turns[0]} to {turns[1]} | {count:,} | {' | '.join(cells)} |"


def seconds_of_threads(program: str, script: Path, jobs: int) -> list[float]:
    """The processor's seconds of each thread, the longest first. They are read until the program ends."""
    seconds: dict[str, float] = {}
    with subprocess.Popen([program, "--order", "turns", str(script), "--jobs", str(jobs)], stdout=subprocess.DEVNULL) as ran:
        while ran.poll() is None:
            for thread in Path(f"/proc/{ran.pid}/task").glob("*"):
                try:
                    seconds[thread.name] = int((thread / "schedstat").read_text().split()[0]) / 1e9
                except (OSError, IndexError):
                    pass
            time.sleep(0.005)
    return sorted(seconds.values(), reverse=True)


def speeds(programs: list[str], folder: Path, times: int) -> list[str]:
    """The table of schedules a second: of the program before, if there is one, and of the one now."""
    of = ["", ""] if len(programs) == 1 else [" before", " now"]
    heads = ["Script", "Turns", "Schedules", *(f"{what}{it}" for it in of[: len(programs)] for what in SPEED)]
    lines = [f"| {' | '.join(heads)} |", "|---" * len(heads) + "|"]
    for what, make in (("two desks that never meet", passes), ("messages between two desks", messages)):
        for slots in SLOTS:
            script = folder / f"{make.__name__}-{slots}.json"
            script.write_text(json.dumps(make(slots)))
            lines.append(row(programs, script, f"{what}, {slots:,} slots", times))
    for name in ("explained", "threads"):
        lines.append(row(programs, ROOT / "checks/examples" / f"{name}.json", f"`{name}.json`", times))
    return lines


def stored(program: str, times: int) -> list[str]:
    """The table of the stored scripts, each with all of its schedules."""
    found = []
    for script in sorted((ROOT / "checks/examples").glob("*.json")):
        runs = [explored(program, script) for _ in range(times)]
        head = HEAD.match(runs[0][0])
        if head is None:
            raise SystemExit(f"{script}: {runs[0][0]}")
        found.append((int(head[1]), int(head[2]), min(seconds for _, seconds in runs), f"`{script.name}`"))
    found.sort(key=lambda it: (-it[0], it[3]))
    lines = ["| Script | Schedules | Outcomes | Seconds |", "|---|---|---|---|"]
    lines += [f"| {name} | {count} | {ends} | {seconds:.3f} |" for count, ends, seconds, name in found if count > 1]
    single = [seconds for count, _, seconds, _ in found if count == 1]
    lines.append(f"| {len(single)} others, each | 1 | 1 | {max(single):.3f} at most |")
    return lines


def threads(program: str, folder: Path) -> list[str]:
    """The table of threads, of the first script."""
    lines, alone = ["| Threads | Seconds of all | Of the longest | Faster by |", "|---|---|---|---|"], 0.0
    for jobs in JOBS:
        found = seconds_of_threads(program, folder / f"passes-{SLOTS[0]}.json", jobs)
        alone = alone or found[0]
        lines.append(f"| {jobs} | {sum(found):.2f} | {found[0]:.2f} | {alone / found[0]:.2f} |")
    return lines


def section(programs: list[str], times: int, proved: bool) -> str:
    """The section of RESULTS.md."""
    with tempfile.TemporaryDirectory() as room:
        folder, load = Path(room), os.getloadavg()[0]
        first, whole, second = speeds(programs, folder, times), stored(programs[-1], times), threads(programs[-1], folder)
    today = time.strftime("%-d %B %Y")
    built = "The programs are those that the gate proves and builds." if proved else (
        "The programs were compiled without proofs, by `bench/build_unproved.py`.")
    return "\n".join([
        HEADING, f"{today}, beside other work (load {load:.0f}), pinned to {len(os.sched_getaffinity(0))} processors. "
        f"`bench/explore.py` wrote this section: the best of {times} runs each, in seconds of the processor, the start of the "
        f"program among them. {built}", "", *first, "",
        "50,000 schedules of 20 turns a second were wanted on one processor.", "",
        "The stored scripts (`checks/examples`), all schedules of each:", "", *whole, "",
        "The first script again, by threads: the processor's seconds of all, and of the thread that had most to do, which is "
        "what the clock shows where as many processors are free.", "", *second, "", "",
    ])


def main(words: list[str]) -> None:
    asked = argparse.ArgumentParser(description=(__doc__ or "").splitlines()[0])
    asked.add_argument("program")
    asked.add_argument("times", type=int, nargs="?", default=5)
    asked.add_argument("--before", metavar="PROGRAM")
    asked.add_argument("--write", action="store_true")
    asked.add_argument("--proved", action="store_true")
    found = asked.parse_args(words)
    written = section([*([found.before] if found.before else []), found.program], found.times, found.proved)
    if not found.write:
        print(written, end="")
        return
    page = ROOT / "bench" / "RESULTS.md"
    before, heading, rest = page.read_text().partition(HEADING)
    behind = rest.find("\n## ")
    if not heading or behind < 0:
        raise SystemExit(f"{page} has no section '{HEADING}' with another behind it")
    page.write_text(before + written + rest[behind + 1 :])


if __name__ == "__main__":
    main(sys.argv[1:])
