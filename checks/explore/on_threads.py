#!/usr/bin/env python3
"""Runs scripts on threads, and says of each whether all of its ends are ends that the model of model.py has.

    checks/explore/on_threads.py PROGRAM SCRIPT.. [--runs N]
    checks/explore/on_threads.py --repeated PROGRAM SCRIPT.. [--runs N] [--random N] [--late N]

PROGRAM is pt_run, or with --repeated the program of repeats/, which makes all runs of a script itself (repeats.sh builds it).
Of a process that exited the reason and the number of items that it left are compared, and of one that waits its operation and
the number of items in its mailbox. With --random come so many scripts by chance that have several ends.

A script's runs are over before the next thread has begun, so most of them end alike. With --late N each process that the script
begins with passes up to N times first, another number each hundredth of the runs. That changes no end, but when each begins.
"""
from __future__ import annotations

import argparse
import itertools
import json
import random
import re
import subprocess
import sys
import tempfile
from collections import Counter
from collections.abc import Iterator
from pathlib import Path

sys.dont_write_bytecode = True
sys.path.insert(0, str(Path(__file__).resolve().parent))
from model import Alive, Ended, Model, Process, Script, explored  # noqa: E402
from moves import writer  # noqa: E402

MOST_STATES = 1_000_000
WORDS = "--threads many --until quiet --print summary --explain".split()


def told(script: Script, processes: tuple[Process, ...]) -> str:
    """An end of the model, as `ended` has those of a run."""
    parts = []
    for plan, it in zip(script.plans, processes, strict=True):
        if isinstance(it, Ended):
            parts.append(f"{plan.name} ended {it.reason} with {it.left}")
        elif isinstance(it, Alive):
            parts.append(f"{plan.name} at {it.done} with {len(it.box)}")
    return "; ".join(sorted(parts))


def ended(summary: str, late: dict[str, int]) -> str:
    """How a run with this summary ended. Of these processes so many operations are left out, which they begin with."""
    lines = [line for line in summary.splitlines() if not line.startswith("events ")]
    parts = []
    for counts, said in zip(lines[0::2], lines[1::2], strict=True):
        name = said.split()[0]
        left = re.search(r"waiting (\d+)", counts)
        reason = re.search(r"> ended (\S+) arrived", counts)
        place = re.search(r" at op (\d+)", said)
        at = int(place[1]) - late.get(name, 0) if place else "?"
        what = f"ended {reason[1]}" if reason else f"at {at}"
        parts.append(f"{name} {what} with {left[1] if left else '?'}")
    return "; ".join(sorted(parts))


def one_by_one(program: str, file: Path, runs: int) -> Counter[str]:
    """How often each end comes in so many runs of pt_run."""
    words = [program, str(file), *WORDS]
    return Counter(ended(subprocess.run(words, capture_output=True, text=True, check=True).stdout, {}) for _ in range(runs))


def at_once(program: str, script: str, runs: int, late: dict[str, int]) -> Counter[str]:
    """The same of one run of the program that makes them all."""
    ran = subprocess.run([program], input=f"{runs}\n{script}", capture_output=True, text=True, check=True)
    counts: Counter[str] = Counter()
    for part in re.split(r"^runs (?=\d+$)", ran.stdout, flags=re.M)[1:]:
        count, summary = part.split("\n", 1)
        counts[ended(summary, late)] += int(count)
    return counts


def repeated(program: str, file: Path, runs: int, most: int) -> Counter[str]:
    """So many runs, of which each process begins up to so many operations later: another number each hundredth of them."""
    if most == 0:
        return at_once(program, file.read_text(), runs, {})
    chance = random.Random(1)
    counts: Counter[str] = Counter()
    for _ in range(100):
        script = json.loads(file.read_text())
        late = {it["name"]: chance.randint(0, most) for it in script["processes"]}
        for it in script["processes"]:
            it["ops"] = [{"op": "pass"}] * late[it["name"]] + it["ops"]
        counts += at_once(program, json.dumps(script), runs // 100, late)
    return counts


def ends_of(file: Path) -> set[str] | None:
    """The ends of a script by the model, if it has not too many states."""
    script = Script(file)
    found = explored(Model(script), MOST_STATES)
    return None if found is None else {told(script, processes) for processes in found[1]}


def is_within(file: Path, has: Counter[str], wanted: set[str] | None) -> bool:
    """Whether each run of a script ended as the model can."""
    if wanted is None:
        print(f"{file.name}: more than {MOST_STATES} states")
        return False
    outside = {end: count for end, count in has.items() if end not in wanted}
    print(f"{file.name}: {has.total()} runs, {len(has)} of {len(wanted)} ends, {len(outside)} others {outside or ''}", flush=True)
    return not outside


def by_chance(folder: Path, most: int) -> Iterator[Path]:
    """So many scripts by chance that have several ends and more than one desk."""
    found = 0
    for seed in itertools.count(1):
        if found == most:
            return
        text = writer(seed).script()
        file = folder / f"random-{seed}.json"
        file.write_text(json.dumps(text))
        ends = ends_of(file)
        if text["desks"] > 1 and ends is not None and len(ends) > 1:
            found += 1
            yield file


def main() -> int:
    """Runs each script."""
    words = argparse.ArgumentParser(description="Compares runs on threads with a model of moves.")
    words.add_argument("program")
    words.add_argument("scripts", nargs="+", type=Path)
    words.add_argument("--runs", type=int, default=100)
    words.add_argument("--random", type=int, default=0)
    words.add_argument("--repeated", action="store_true")
    words.add_argument("--late", type=int, default=0)
    asked = words.parse_args()
    verdicts = []
    with tempfile.TemporaryDirectory() as folder:
        for file in itertools.chain(asked.scripts, by_chance(Path(folder), asked.random)):
            if asked.repeated:
                has = repeated(asked.program, file, asked.runs, asked.late)
            else:
                has = one_by_one(asked.program, file, asked.runs)
            verdicts.append(is_within(file, has, ends_of(file)))
    print(f"on threads: {verdicts.count(True)} passed, {verdicts.count(False)} failed")
    return 0 if all(verdicts) else 1


if __name__ == "__main__":
    sys.exit(main())
