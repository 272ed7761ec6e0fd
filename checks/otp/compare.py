#!/usr/bin/env python3
"""Compares what was seen of the proved supervisor with what is seen of OTP's, step by step.

    compare.py SCENARIOS [SLOWNESS..]

SCENARIOS is a file with the text that the driver printed (run.sh has the form). OTP's side takes real time. So a scenario
that differs is played again, more slowly, and counts as differing if it does so at each slowness. The shortest of these are
printed up to the first step that differs. The last line is 'N passed, M failed', and the status is 0 if no scenario differs.
"""
from __future__ import annotations

import os
import subprocess
import sys
import tempfile
from dataclasses import dataclass, field
from pathlib import Path

HERE = Path(__file__).resolve().parent
# Milliseconds of a unit of a scenario's time, and how many scenarios are played side by side.
SLOWNESS = ("3", "8", "20")
SIDE_BY_SIDE = "100"
# How many scenarios that differ are printed.
SHOWN = 5


@dataclass
class Step:
    """A step of a scenario: its time, and what was seen until the next one."""

    time: str
    seen: list[str] = field(default_factory=list)


@dataclass
class Scenario:
    """A scenario by its number: all its lines, and its steps."""

    number: str
    lines: list[str] = field(default_factory=list)
    steps: list[Step] = field(default_factory=list)


def scenarios(text: str) -> list[Scenario]:
    """The scenarios of a text."""
    found: list[Scenario] = []
    for line in text.splitlines():
        word, _, rest = line.partition(" ")
        if word == "scenario":
            found.append(Scenario(rest.split(" ")[0]))
        elif word == "step":
            found[-1].steps.append(Step(rest))
        elif word == "saw":
            found[-1].steps[-1].seen.append(rest)
        found[-1].lines.append(line)
    for scenario in found:
        sort_orphans(scenario)
    return found


def sort_orphans(scenario: Scenario) -> None:
    """Puts what is seen behind the exit of the supervisor in order, step by step: which orphan exits first is chance."""
    has_ended = False
    for step in scenario.steps:
        ends = [place + 1 for place, line in enumerate(step.seen) if line.startswith("boss ")]
        first = 0 if has_ended else next(iter(ends), len(step.seen))
        step.seen[first:] = sorted(step.seen[first:])
        has_ended = has_ended or bool(ends)


def played(chosen: list[Scenario], slowness: str) -> dict[str, Scenario]:
    """What OTP's supervisor does in these scenarios, by their numbers."""
    with tempfile.NamedTemporaryFile("w", suffix=".txt") as file:
        file.writelines(f"{line}\n" for scenario in chosen for line in scenario.lines)
        file.flush()
        words = ["escript", str(HERE / "supervisors.escript"), file.name, slowness, SIDE_BY_SIDE]
        environment = {**os.environ, "ERL_CRASH_DUMP": "/dev/null"}
        ran = subprocess.run(words, env=environment, stdout=subprocess.PIPE, text=True, check=True)
    return {scenario.number: scenario for scenario in scenarios(ran.stdout)}


def first_difference(ours: Scenario, theirs: Scenario) -> int | None:
    """The place of the first step in which not the same was seen; None if there is none."""
    for place, step in enumerate(ours.steps):
        if place >= len(theirs.steps) or step != theirs.steps[place]:
            return place
    return None


def until_difference(ours: Scenario, theirs: Scenario) -> list[str]:
    """The lines of a scenario up to the end of the first step that differs."""
    place = first_difference(ours, theirs) or 0
    steps = [at for at, line in enumerate(ours.lines) if line.startswith("step ")]
    return ours.lines[: steps[place + 1] if place + 1 < len(steps) else len(ours.lines)]


def tell(ours: Scenario, theirs: Scenario) -> None:
    """Prints a scenario up to the first step that differs, and both sides of that step."""
    place = first_difference(ours, theirs) or 0
    print(f"WRONG: scenario {ours.number} differs in step {ours.steps[place].time}")
    print("".join(f"    {line}\n" for line in until_difference(ours, theirs)), end="")
    print("  OTP's supervisor in this step:")
    seen = theirs.steps[place].seen if place < len(theirs.steps) else []
    print("".join(f"    saw {line}\n" for line in seen), end="")


def differing(chosen: list[Scenario], slowness: str) -> list[tuple[Scenario, Scenario]]:
    """Those of the scenarios that differ at this slowness, each with what OTP's supervisor does."""
    theirs = played(chosen, slowness)
    pairs = [(ours, theirs.get(ours.number, Scenario(ours.number))) for ours in chosen]
    return [(ours, other) for ours, other in pairs if first_difference(ours, other) is not None]


def main(words: list[str]) -> int:
    if not words:
        print(__doc__, file=sys.stderr)
        return 2
    ours = scenarios(Path(words[0]).read_text(encoding="utf-8"))
    left = [(scenario, scenario) for scenario in ours]
    for slowness in words[1:] or SLOWNESS:
        if left:
            left = differing([scenario for scenario, _ in left], slowness)
            print(f"{len(left)} scenarios differ at {slowness} milliseconds a unit", flush=True)
    left.sort(key=lambda pair: len(until_difference(*pair)))
    for scenario, theirs in left[:SHOWN]:
        tell(scenario, theirs)
    if left[SHOWN:]:
        print(f"WRONG, too: {' '.join(scenario.number for scenario, _ in left[SHOWN:])}")
    print(f"otp: {len(ours) - len(left)} passed, {len(left)} failed")
    return 0 if ours and not left else 1


if __name__ == "__main__":
    sys.exit(main(sys.argv[1:]))
