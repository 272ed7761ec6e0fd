#!/usr/bin/env python3
"""Draws schedules of moves by chance as docs/EXPLORE.md says, on a model apart from pt_explore, and compares what that draws.

    checks/explore/drawn_moves.py PROGRAM [--seed N] [--scripts N]

Of each random script the program has to draw as many schedules to each end as the model does. Each schedule that it tells is one of
those. Of some scripts with few outcomes no other outcome is drawn than all schedules have. By chance alone and with depth 3 each one
is drawn, over some seeds. The same seed draws the same.
"""
from __future__ import annotations

import argparse
import json
import re
import subprocess
import sys
import tempfile
from collections import Counter
from pathlib import Path

sys.dont_write_bytecode = True
sys.path.insert(0, str(Path(__file__).resolve().parent))
from model import Model, Script, State  # noqa: E402
from moves import told, without_mailboxes, writer  # noqa: E402

HERE = Path(__file__).resolve().parent
BITS = 2**64 - 1
COUNT = 20
WAYS: list[list[str]] = [[], ["--depth", "1"], ["--depth", "2"], ["--depth", "3"]]
SMALL = ["moves_causal.json", "moves_cross.json", "moves_glare.json", "moves_same_desk.json", "race.json"]
OUTCOME = re.compile(r"^outcome \d+ schedules (\d+) shortest (\S+) first (\S+)\n  (.*)$", re.M)


class Chance:
    """Numbers by chance: splitmix64."""

    def __init__(self, seed: int) -> None:
        self.state = seed

    def below(self, bound: int) -> int:
        """A number below this one, if it is not 0."""
        self.state = (self.state + 0x9E3779B97F4A7C15) & BITS
        mixed = self.state
        mixed = ((mixed ^ (mixed >> 30)) * 0xBF58476D1CE4E5B9) & BITS
        mixed = ((mixed ^ (mixed >> 27)) * 0x94D049BB133111EB) & BITS
        return (mixed ^ (mixed >> 31)) % max(bound, 1)


class Drawer:
    """Draws schedules of a script, with a depth or without."""

    def __init__(self, script: Script, depth: int | None, seed: int) -> None:
        self.model, self.script, self.depth, self.chance = Model(script), script, depth, Chance(seed)
        self.count = len(script.plans) + script.desks**2

    def after(self, state: State, number: int) -> State | None:
        """The state to which a move leads, if it does something."""
        lane = number - len(state.processes)
        if lane < 0:
            return self.model.operate(state, number)
        if not state.lanes[lane]:
            return None
        letter, *rest = state.lanes[lane]
        lanes = (*state.lanes[:lane], tuple(rest), *state.lanes[lane + 1:])
        return self.model.handle(State(state.processes, lanes), *letter)

    def next(self, state: State, order: list[int] | None) -> tuple[int, State] | None:
        """The next move and the state behind it, by this order or by chance."""
        left = list(range(self.count))
        for place in range(self.count):
            number = left.pop(self.chance.below(len(left))) if order is None else order[place]
            after = self.after(state, number)
            if after is not None:
                return number, after
        return None

    def run(self, begun: list[int], order: list[int] | None) -> tuple[list[int], State]:
        """A schedule that begins so, and how it ends."""
        state, schedule = self.model.start(), list(begun)
        for number in begun:
            later = self.after(state, number)
            assert later is not None
            state = later
        while (found := self.next(state, order)) is not None:
            schedule.append(found[0])
            state = found[1]
        return schedule, state

    def draw(self) -> tuple[list[int], State]:
        """One schedule, and how it ends."""
        if self.depth is None:
            return self.run([], None)
        order: list[int] = []
        for number in range(self.count):
            order.insert(self.chance.below(len(order) + 1), number)
        schedule, state = self.run([], order)
        place = 0
        for _change in range(1, self.depth):
            place += self.chance.below(max(len(schedule) - place, 0))
            if place < len(schedule):
                order.remove(schedule[place])
                order.append(schedule[place])
                schedule, state = self.run(schedule[:place], order)
        return schedule, state

    def written(self, schedule: list[int]) -> str:
        """A schedule as the program writes it. No two processes of these scripts have one name."""
        many, desks = len(self.script.plans), self.script.desks
        return ",".join(self.script.plans[it].name if it < many else f"{(it - many) // desks}>{(it - many) % desks}" for it in schedule)


def printed(program: str, file: Path, *words: str) -> str:
    """What the program prints of moves."""
    said = [program, "--order", "table", *words, str(file)]
    return subprocess.run(said, capture_output=True, text=True, check=True).stdout


def compared(program: str, seed: int, file: Path, way: list[str]) -> bool:
    """Whether the program draws as the model does."""
    script = Script(file)
    drawer = Drawer(script, int(way[1]) if way else None, seed)
    drawn = [drawer.draw() for _ in range(COUNT)]
    wanted = Counter(told(script, state.processes) for _, state in drawn)
    schedules = {drawer.written(schedule) for schedule, _ in drawn}
    text = printed(program, file, "--random", str(COUNT), "--seed", str(seed), *way)
    has: Counter[str] = Counter()
    for count, shortest, first, end in OUTCOME.findall(text):
        has[end] += int(count)
        if {shortest, first} - schedules:
            print(f"script {seed} {way}: {shortest} or {first} is not drawn")
            return False
    if without_mailboxes(has) != wanted:
        print(f"script {seed} {way}: wanted {dict(wanted)}\n  has {text}\n  {file.read_text()}")
        return False
    return True


def outcomes(text: str) -> set[str]:
    """The outcomes that are printed."""
    return {end for _, _, _, end in OUTCOME.findall(text)}


def meets_all(program: str, name: str, way: list[str]) -> bool:
    """Whether no other outcome is drawn than all schedules have. By chance alone and with the greatest depth each one is, over these seeds."""
    file = HERE / name
    wanted = outcomes(printed(program, file))
    found = set[str]()
    for seed in range(1, 21):
        words = ["--random", "20", "--seed", str(seed), *way]
        text = printed(program, file, *words)
        found |= outcomes(text)
        if text != printed(program, file, *words):
            print(f"{name} {words}: the same seed draws another")
            return False
    if found and (found == wanted if way in (WAYS[0], WAYS[-1]) else found <= wanted):
        return True
    print(f"{name} {way}: wanted {wanted}, has {found}")
    return False


def main() -> int:
    """Compares so many scripts."""
    words = argparse.ArgumentParser(description="Compares what pt_explore draws with a model, over random scripts.")
    words.add_argument("program")
    words.add_argument("--seed", type=int, default=1)
    words.add_argument("--scripts", type=int, default=50)
    asked = words.parse_args()
    verdicts = [meets_all(asked.program, name, way) for name in SMALL for way in WAYS]
    with tempfile.TemporaryDirectory() as folder:
        file = Path(folder) / "script.json"
        for seed in range(asked.seed, asked.seed + asked.scripts):
            file.write_text(json.dumps(writer(seed).script()))
            verdicts += [compared(asked.program, seed, file, way) for way in WAYS]
    print(f"drawn moves: {verdicts.count(True)} passed, {verdicts.count(False)} failed")
    return 0 if False not in verdicts else 1


if __name__ == "__main__":
    sys.exit(main())
