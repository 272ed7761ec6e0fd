#!/usr/bin/env python3
"""Runs pt_explore --first by moves over random scripts, and compares where it stops with all outcomes of the same script.

    checks/explore/first_moves.py PROGRAM [--seed S] [--scripts N]

Of each script all outcomes are told first, each with its shortest schedule. Some of them are expected then, drawn by chance, or that
no process waits, or one outcome alone: that of the schedule which is drawn by chance. It has to stop at the shortest schedule of all
that are not as expected; of those of one length, at the first in the order of moves. If all are as expected, the same is printed as
without --first. Every other script has no spawns, and is run by Erlang's rules.

Then it tells at which move that schedule parts from one that ends as expected. That one is run again, and has to end as is told. By
the model no schedule that shares more moves ends so.
"""
from __future__ import annotations

import argparse
import json
import random
import re
import subprocess
import sys
import tempfile
from pathlib import Path
from typing import NamedTuple

sys.dont_write_bytecode = True
sys.path.insert(0, str(Path(__file__).resolve().parent))
from model import Erlang, Model, Script, State  # noqa: E402
from moves import APART, OPS, told, writer  # noqa: E402
from never import word  # noqa: E402
from switches import numbered  # noqa: E402

MOST_STATES = 3_000


class Outcome(NamedTuple):
    """An outcome as it is printed: its shortest schedule, and its text."""

    schedule: str
    text: str


def ran(words: list[str]) -> tuple[int, str]:
    """The status and the output of a run."""
    has = subprocess.run(words, capture_output=True, text=True, check=False)
    return has.returncode, has.stdout + has.stderr


def outcomes_in(printed: str) -> list[Outcome]:
    """The outcomes that are printed."""
    lines = printed.splitlines()[1:]
    found = []
    for leads, text in zip(lines[::2], lines[1::2], strict=True):
        schedule = re.search(r" shortest (\S*) first", leads)
        found.append(Outcome(schedule[1] if schedule else "", text.strip()))
    return found


def by_moves(script: Script, ends: int, schedule: str) -> tuple[int, list[int]]:
    """What schedules are compared by: how many moves they have, and then the numbers of these."""
    numbers = {word(script, number): number for number in range(len(script.plans))}
    moves = []
    for move in schedule.split(",") if schedule else []:
        sender, letter, receiver = move.partition(">")
        moves.append(len(script.plans) + int(sender) * ends + int(receiver) if letter else numbers[move])
    return len(moves), moves


def asked_of(chance: random.Random, plain: list[str], outcomes: list[Outcome]) -> tuple[list[str], list[Outcome]]:
    """What is expected, in the words of the command, and the outcomes that are not so."""
    kind = chance.randrange(4)
    if kind == 0:
        return ["--no-waiting"], [it for it in outcomes if " waits at op " in it.text]
    if kind == 1:
        alone = outcomes_in(ran([*plain, "--random", "1"])[1])[0]
        return ["--expect", "one"], [it for it in outcomes if it.text != alone.text]
    expected = [it for it in outcomes if chance.random() < 0.7] or outcomes[:1]
    return [it for one in expected for it in ("--expect", one.text)], [it for it in outcomes if it not in expected]


def without_mailboxes(text: str) -> str:
    """The same outcome, without the mailboxes of those that wait."""
    return "; ".join(re.sub(r"(waits at op \d+):.*", r"\1", part) for part in text.split("; "))


def reaches(model: Model, script: Script, state: State, wanted: set[str]) -> bool:
    """Whether moves lead from a state to an end that is one of these."""
    seen, left = {state}, [state]
    while left:
        one = left.pop()
        after = list(model.moves(one))
        if not after and told(script, one.processes) in wanted:
            return True
        left += [it for it in after if it not in seen]
        seen.update(after)
    return False


def most_shared(model: Model, script: Script, moves: list[int], wanted: set[str]) -> int | None:
    """How many of these first moves a schedule shares at most that ends in one of these ways; None if none does."""
    states = [model.start()]
    for move in moves:
        states.append(dict(numbered(model, states[-1]))[move])
    for shared in range(len(moves), -1, -1):
        if reaches(model, script, states[shared], wanted):
            return shared
    return None


def parts(plain: list[str], printed: str, model: Model, script: Script, first: Outcome, met: list[Outcome], unmet: list[Outcome]) -> bool:
    """Whether it is told rightly where a schedule parts from one that ends as expected."""
    wanted = {without_mailboxes(it.text) for it in met}
    moves = by_moves(script, model.ends(), first.schedule)[1]
    clear = wanted.isdisjoint(without_mailboxes(it.text) for it in unmet)
    shared = most_shared(model, script, moves, wanted) if clear else 0
    if not met:
        return printed == "no schedule ends as expected\n"
    found = re.fullmatch(r"parts at move (\d+) from (\S*)\n  (.*)\n", printed)
    if found is None:
        return False
    other = by_moves(script, model.ends(), found[2])[1]
    common = next((at for at, (one, two) in enumerate(zip(moves, other)) if one != two), min(len(moves), len(other)))
    again = outcomes_in(ran([*plain, "--schedule", found[2]])[1])[0].text
    return common + 1 == int(found[1]) and again == found[3] and again in [it.text for it in met] and (not clear or common == shared)


def compared(program: str, seed: int, file: Path) -> str:
    """How the program agrees with what it tells of all outcomes, if it does."""
    erlang = seed % 2 == 0
    file.write_text(json.dumps(writer(seed, ops=APART if erlang else OPS).script()))
    script = Script(file)
    plain = [program, "--order", "erlang" if erlang else "table", str(file)]
    status, whole = ran([*plain, "--limit", str(MOST_STATES)])
    if status:
        return "passed over"
    words, unmet = asked_of(random.Random(seed), plain, outcomes_in(whole))
    has = ran([*plain, "--first", *words])
    if not unmet:
        agrees = has == ran([*plain, *words])
    else:
        model = (Erlang if erlang else Model)(script)
        first = min(unmet, key=lambda it: by_moves(script, model.ends(), it.schedule))
        history = ran([*plain, "--schedule", first.schedule, "--print", "history"])[1] if first.schedule else ""
        head, all_ends = f"not as expected by {first.schedule}\n  {first.text}\n{history}", outcomes_in(whole)
        met = [it for it in all_ends if it not in unmet]
        agrees = has[0] == 1 and has[1].startswith(head) and (
            not first.schedule or parts(plain, has[1].removeprefix(head), model, script, first, met, unmet))
    if agrees:
        return "stopped" if unmet else "all as expected"
    print(f"script {seed}: {plain} --first {words}\n  not as expected: {unmet}\n  has status {has[0]}: {has[1]}\n  {file.read_text()}")
    return "failed"


def main() -> int:
    """Compares so many scripts."""
    words = argparse.ArgumentParser(description="Compares where pt_explore --first stops by moves with all outcomes, over random scripts.")
    words.add_argument("program")
    words.add_argument("--seed", type=int, default=1)
    words.add_argument("--scripts", type=int, default=60)
    asked = words.parse_args()
    with tempfile.TemporaryDirectory() as folder:
        file = Path(folder) / "script.json"
        verdicts = [compared(asked.program, seed, file) for seed in range(asked.seed, asked.seed + asked.scripts)]
    print("first by moves:", ", ".join(f"{verdicts.count(it)} {it}" for it in ("stopped", "all as expected", "failed", "passed over")))
    return 0 if {"stopped", "all as expected"} <= set(verdicts) and "failed" not in verdicts else 1


if __name__ == "__main__":
    sys.exit(main())
