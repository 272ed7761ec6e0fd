#!/usr/bin/env python3
"""Runs pt_explore --switches over random scripts, and compares what it counts with the model of model.py.

    checks/explore/switches.py PROGRAM [--seed S] [--scripts N]

A switch is a move that leaves the one before it, which could be made again. Of each script schedules with 0, 1 and 2 switches at most are
counted. States, schedules and outcomes have to be those of the model. The outcomes have to be among those of one switch more, and of
all schedules. With as many switches as moves all schedules are there. Every other script has no spawns, and is run by Erlang's rules.
"""
from __future__ import annotations

import argparse
import json
import re
import subprocess
import sys
import tempfile
from collections import Counter
from collections.abc import Iterator
from pathlib import Path

sys.dont_write_bytecode = True
sys.path.insert(0, str(Path(__file__).resolve().parent))
from model import Erlang, Model, Script, State  # noqa: E402
from moves import APART, OPS, told, without_mailboxes, writer  # noqa: E402

MOST_STATES = 3_000
LINE = re.compile(r"schedules (\d+)(?: with switches up to \d+)? outcomes \d+ states (\d+)")
# A state with how many switches there were, and the latest move.
Behind = tuple[int, int | None, State]
Counts = tuple[int, int, Counter[str]]


def numbered(model: Model, state: State) -> Iterator[tuple[int, State]]:
    """The moves of a state by their numbers, and where they lead."""
    for number in range(len(state.processes)):
        after = model.operate(state, number)
        if after is not None:
            yield number, after
    for lane, letters in enumerate(state.lanes):
        if letters:
            lanes = state.lanes[:lane] + (letters[1:],) + state.lanes[lane + 1:]
            yield len(state.processes) + lane, model.handle(State(state.processes, lanes), *letters[0])


def bounded(model: Model, script: Script, most: int) -> Counts | None:
    """How many schedules and states there are with so many switches at most, and how many end in which way. None above the limit."""
    layer: dict[Behind, int] = {(0, None, model.start()): 1}
    states, schedules, ends = 0, 0, Counter[str]()
    while layer:
        states += len(layer)
        if states > MOST_STATES:
            return None
        later: dict[Behind, int] = {}
        for (switches, latest, state), count in layer.items():
            moves = list(numbered(model, state))
            again = latest in [number for number, _ in moves]
            for number, after in moves:
                made = switches + int(again and number != latest)
                if made <= most:
                    one = (made, number, after)
                    later[one] = later.get(one, 0) + count
            if not moves:
                schedules += count
                ends[told(script, state.processes)] += count
        layer = later
    return schedules, states, ends


def printed(words: list[str]) -> Counts | str:
    """What the program counts."""
    ran = subprocess.run(words, capture_output=True, text=True, check=False)
    counts = LINE.match(ran.stdout)
    if counts is None or ran.returncode:
        return f"status {ran.returncode}: {ran.stdout}{ran.stderr}"
    lines, outcomes = ran.stdout.splitlines(), Counter[str]()
    for leads, text in zip(lines[1::2], lines[2::2], strict=True):
        number = re.search(r"schedules (\d+)", leads)
        outcomes[text.strip()] += int(number[1]) if number else 0
    return int(counts[1]), int(counts[2]), outcomes


def ends_of(outcomes: Counter[str]) -> set[str]:
    return set(without_mailboxes(outcomes))


def compared(program: str, seed: int, file: Path) -> bool | None:
    """Whether the program agrees with the model; None if the script has too many states."""
    erlang = seed % 2 == 0
    file.write_text(json.dumps(writer(seed, ops=APART if erlang else OPS).script()))
    script = Script(file)
    model = (Erlang if erlang else Model)(script)
    plain = [program, "--order", "erlang" if erlang else "table", str(file)]
    whole = printed(plain)
    before: set[str] = set()
    for most in (0, 1, 2, 1_000):
        wanted = bounded(model, script, most)
        if wanted is None:
            return None
        has = printed([*plain, "--switches", str(most)])
        agrees = not isinstance(has, str) and (has[0], has[1], without_mailboxes(has[2])) == wanted
        if not agrees or isinstance(has, str) or isinstance(whole, str) or not before <= ends_of(has[2]) <= ends_of(whole[2]):
            print(f"script {seed}, {most} switches: wanted {wanted}\n  has {has}\n  {file.read_text()}")
            return False
        before = ends_of(has[2])
    if isinstance(whole, str) or isinstance(has, str) or (has[0], has[2]) != (whole[0], whole[2]):
        print(f"script {seed}: all schedules are {whole}\n  and with any switches {has}\n  {file.read_text()}")
        return False
    return True


def main() -> int:
    """Compares so many scripts."""
    words = argparse.ArgumentParser(description="Compares pt_explore --switches with a model, over random scripts.")
    words.add_argument("program")
    words.add_argument("--seed", type=int, default=1)
    words.add_argument("--scripts", type=int, default=40)
    asked = words.parse_args()
    with tempfile.TemporaryDirectory() as folder:
        file = Path(folder) / "script.json"
        verdicts = [compared(asked.program, seed, file) for seed in range(asked.seed, asked.seed + asked.scripts)]
    print(f"switches: {verdicts.count(True)} passed, {verdicts.count(False)} failed, {verdicts.count(None)} passed over")
    return 0 if True in verdicts and False not in verdicts else 1


if __name__ == "__main__":
    sys.exit(main())
