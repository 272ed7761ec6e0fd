#!/usr/bin/env python3
"""Runs pt_explore over random scripts, and compares what it counts with the model of model.py.

    checks/explore/moves.py PROGRAM [--seed S] [--scripts N] [--reduced N] [--erlang N] [--threads N]

Each script has two to four processes on one to three desks, with spawns, links, monitors, asks and exit signals. Two of three have
format 3: branches, repeats of two and three rounds, and receives that wait for some tries. The number of states, the number of
schedules, and how many schedules end in which way have to be the same. Scripts of more than 30,000 states are passed over.

With `--reduced` moves are left out, and the outcomes have to be the same. That is tried with so many more scripts, of 3,000 states
at most. In most of these each process has a desk. In one of five no process links, spawns, asks or sends an exit. In two of five
few do: there some processes are spared, and others are not.

With `--order erlang` the model goes by Erlang's rules, and has no desks. So many more scripts, without spawns, are compared with it.
Each outcome of `--order table` has to be one of these, and with `--reduced` they have to be the same.

On two and on four threads the same has to be printed, byte for byte. That is tried with so many more scripts, in both orders, with and
without `--reduced`. Scripts of fewer than 300 states, and those of more than 3,000, are passed over.
"""
from __future__ import annotations

import argparse
import json
import random
import re
import subprocess
import sys
import tempfile
from collections import Counter
from dataclasses import dataclass
from pathlib import Path
from typing import Any

sys.dont_write_bytecode = True
sys.path.insert(0, str(Path(__file__).resolve().parent))
from model import Ended, Erlang, Model, Process, Script, explored  # noqa: E402

MOST_STATES = 30_000
MOST_WHOLE = 3_000
LEAST_SHARED = 300
OPS = "send send send receive receive check link unlink monitor demonitor trap exit signal spawn pass alive".split()
SPARING = "send send send send receive receive receive check check monitor demonitor trap pass exit link signal alive spawn".split()
PLAIN = "send send send send receive receive receive check check monitor demonitor trap pass exit".split()
APART = [op for op in OPS if op != "spawn"]
REASONS = ("normal", "kill", "killed", "other:3", "shutdown")
# What is written more often if there are branches, so that items come and are taken.
OFTEN = "send send send receive receive check".split()
# How often an operation is done at most, and how many are done in all, but for those of spawned processes.
MOST_ROUNDS = 4
MOST_DONE = 6


class Writer:
    """Writes a script by chance."""

    def __init__(self, seed: int, apart: bool = False, ops: list[str] = OPS) -> None:
        self.chance, self.apart, self.ops = random.Random(seed), apart, ops
        self.left = self.chance.randint(5, 9)
        self.tops = [f"p{n}" for n in range(self.chance.randint(2, 4))]

    def script(self) -> dict[str, Any]:
        """The whole script."""
        desks = len(self.tops) if self.apart else self.chance.randint(1, 3)
        processes = [{"name": name, "desk": number if self.apart else self.chance.randrange(desks),
                      "trap": self.chance.random() < .25, "ops": self.operations(name, [*self.tops, "self"])}
                     for number, name in enumerate(self.tops)]
        return {"format": 2, "desks": desks, "processes": processes}

    def operations(self, me: str, scope: list[str]) -> list[dict[str, Any]]:
        """The list of a process that may name those in scope."""
        made: list[dict[str, Any]] = []
        names, tags, asks = list(scope), list[str](), list[str]()
        for _ in range(self.chance.randint(0, 4)):
            if self.left <= 0:
                break
            self.left -= 1
            one = self.operation(self.chance.choice(self.ops), f"c{len(made)}{me}", names, tags, asks)
            if one is None:
                continue
            made.append(one)
            if one["op"] == "exit":
                break
        return made

    def operation(self, op: str, new: str, names: list[str], tags: list[str], asks: list[str]) -> dict[str, Any] | None:
        """An operation of this kind, if it has all that it names."""
        to = self.chance.choice(names)
        if op in ("receive", "check"):
            wanted = self.pick(names, tags, asks)
            return {"op": op} if wanted is None else {"op": op, "pick": wanted}
        if op in ("monitor", "alive"):
            known = tags if op == "monitor" else asks
            known.append(f"{op[0]}{len(known)}")
            return {"op": op, "to": to, "tag": known[-1]}
        if op == "demonitor":
            return {"op": op, "tag": self.chance.choice(tags), "flush": self.chance.random() < .5} if tags else None
        if op == "spawn":
            return self.spawn(new, names)
        return self.plain(op, to, names)

    def plain(self, op: str, to: str, names: list[str]) -> dict[str, Any]:
        """An operation that makes no name and uses no tag."""
        if op == "send":
            one: dict[str, Any] = {"op": op, "to": to, "kind": self.chance.randint(1, 2), "num": self.chance.randint(-1, 1)}
            return one if self.chance.random() < .8 else {**one, "who": self.chance.choice(names)}
        if op == "trap":
            return {"op": op, "on": self.chance.random() < .7}
        if op == "exit":
            return {"op": op, "reason": self.chance.choice(REASONS)}
        if op == "signal":
            return {"op": op, "to": to, "reason": self.chance.choice(REASONS)}
        return {"op": op} if op == "pass" else {"op": op, "to": to}

    def spawn(self, new: str, names: list[str]) -> dict[str, Any] | None:
        """A spawn, of one level."""
        if "parent" in names:
            return None
        one = {"op": "spawn", "name": new, "linked": self.chance.random() < .5, "trap": self.chance.random() < .3,
               "ops": self.operations(new, [*self.tops, "self", "parent"])}
        names.append(new)
        return one

    def pick(self, names: list[str], tags: list[str], asks: list[str]) -> dict[str, Any] | None:
        """What a receive takes."""
        kind = self.chance.choice(["any", "any", "kind", "kind", "from", "exit", "down", "alive"])
        if kind == "kind":
            return {kind: self.chance.randint(1, 2)}
        if kind in ("from", "exit"):
            return {kind: self.chance.choice(names)}
        known = tags if kind == "down" else asks
        return {kind: self.chance.choice(known)} if kind in ("down", "alive") and known else None


@dataclass
class Begun:
    """A list that is written: its operations, how many more are done in it, and what these may name."""
    me: str
    made: list[dict[str, Any]]
    left: int
    names: list[str]
    tags: list[str]
    asks: list[str]


class Brancher(Writer):
    """Writes a script of format 3 by chance: with branches, repeats, and receives that wait for some tries."""

    def __init__(self, seed: int, apart: bool = False, ops: list[str] = OPS) -> None:
        super().__init__(seed, apart, ops)
        # processes that take something, to each of which another one sends something
        self.awaiting: list[str] = []

    def script(self) -> dict[str, Any]:
        """The whole script."""
        return {**super().script(), "format": 3}

    def operations(self, me: str, scope: list[str]) -> list[dict[str, Any]]:
        """The list of a process that may name those in scope."""
        begun = Begun(me, [], self.chance.randint(1, MOST_DONE // len(self.tops)), list(scope), [], [])
        if self.awaiting:
            begun.made.append(self.plain("send", self.awaiting.pop(), begun.names))
        self.fill(begun, 1)
        return begun.made

    def fill(self, it: Begun, rounds: int) -> None:
        """Operations that are done so often, up to an exit."""
        for _ in range(self.chance.randint(1, 4)):
            if it.left < rounds:
                return
            times = self.chance.randint(2, 3)
            if rounds * times <= MOST_ROUNDS and self.chance.random() < .15:
                it.made.append({"op": "repeat", "times": times})
                self.fill(it, rounds * times)
                it.made.append({"op": "again"})
            elif self.one(it, rounds) == "exit":
                return

    def one(self, it: Begun, rounds: int) -> str | None:
        """An operation by chance, if it has all that it names, and perhaps the branches behind it."""
        op = self.chance.choice([*self.ops, *OFTEN])
        one = self.operation(op, f"c{len(it.made)}{it.me}", it.names, it.tags, it.asks)
        if one is None:
            return None
        it.left -= rounds
        if op == "receive" and self.chance.random() < .3:
            one["after"] = self.chance.randint(0, 2)
        it.made.append(one)
        if op in ("receive", "check") and it.me in self.tops:
            self.awaiting.append(it.me)
        if op in ("receive", "check") and self.chance.random() < .6:
            self.branch(it, rounds)
        return op

    def pick(self, names: list[str], tags: list[str], asks: list[str]) -> dict[str, Any] | None:
        """What a receive takes, or an `if` tests: more often any item, or any of a kind."""
        chance = self.chance.random()
        return None if chance < .4 else {"kind": 1} if chance < .6 else super().pick(names, tags, asks)

    def branch(self, it: Begun, rounds: int) -> None:
        """An `if` with what is done in each case, where the next one may stand directly behind it."""
        wanted = self.pick(it.names, it.tags, it.asks)
        it.made.append({"op": "if"} if wanted is None else {"op": "if", "pick": wanted})
        self.inside(it, rounds)
        if self.chance.random() < .5:
            it.made.append({"op": "else"})
            self.inside(it, rounds)
        it.made.append({"op": "end"})

    def inside(self, it: Begun, rounds: int) -> None:
        """What is done in one case."""
        if self.chance.random() < .2:
            self.branch(it, rounds)
        self.fill(it, rounds)


def writer(seed: int, apart: bool = False, ops: list[str] = OPS) -> Writer:
    """Of three scripts two have format 3."""
    return (Brancher if seed % 3 else Writer)(seed, apart, ops)


def told(script: Script, processes: tuple[Process, ...]) -> str:
    """An end, as the program tells it, without the mailboxes of those that wait."""
    parts = []
    for plan, it in zip(script.plans, processes, strict=True):
        if it is None:
            parts.append(f"{plan.name} was not born")
        elif isinstance(it, Ended):
            parts.append(f"{plan.name} ended {it.reason}" + (f" with {it.left} untaken" if it.left else ""))
        else:
            parts.append(f"{plan.name} waits at op {it.done}")
    return "; ".join(parts)


def printed(program: str, file: Path, *words: str) -> tuple[tuple[int, int], Counter[str]] | str:
    """How many schedules and states the program counts, and how many schedules lead to which outcome."""
    ran = subprocess.run([program, "--order", *words, str(file)], capture_output=True, text=True, check=False)
    lines = ran.stdout.splitlines()
    counts = re.match(r"schedules (\d+)(?: as representatives)? outcomes \d+ states (\d+)", ran.stdout)
    if counts is None:
        return f"status {ran.returncode}: {ran.stdout}{ran.stderr}"
    outcomes: Counter[str] = Counter()
    for leads, text in zip(lines[1::2], lines[2::2], strict=True):
        number = re.search(r"schedules (\d+)", leads)
        outcomes[text.strip()] += int(number[1]) if number else 0
    return (int(counts[1]), int(counts[2])), outcomes


def without_mailboxes(outcomes: Counter[str]) -> Counter[str]:
    """The same, without the mailboxes of those that wait."""
    ends: Counter[str] = Counter()
    for text, number in outcomes.items():
        ends["; ".join(re.sub(r"(waits at op \d+):.*", r"\1", part) for part in text.split("; "))] += number
    return ends


def reduced(program: str, seed: int, file: Path) -> bool | None:
    """Whether moves are left out and no outcome is lost; None if the script has too many states, or none is left out."""
    file.write_text(json.dumps(writer(seed, seed % 4 > 0, (OPS, SPARING, PLAIN)[seed % 5 % 3]).script()))
    whole = printed(program, file, "table", "--limit", str(MOST_WHOLE))
    if isinstance(whole, str) and whole.startswith("status 4"):
        return None
    left = printed(program, file, "table", "--reduced")
    if isinstance(whole, str) or isinstance(left, str) or set(whole[1]) != set(left[1]) or left[0] > whole[0]:
        print(f"script {seed}: wanted {whole}\n  has {left}\n  {file.read_text()}")
        return False
    return True if left[0][1] < whole[0][1] else None


def compared(program: str, seed: int, file: Path, order: str = "table") -> bool | None:
    """Whether the program agrees with the model; None if the script has too many states."""
    by_table = order == "table"
    file.write_text(json.dumps(writer(seed, ops=OPS if by_table else APART).script()))
    script = Script(file)
    found = explored(Model(script) if by_table else Erlang(script), MOST_STATES)
    if found is None:
        return None
    states, ends = found
    wanted: Counter[str] = Counter()
    for processes, count in ends.items():
        wanted[told(script, processes)] += count
    has = printed(program, file, order)
    if not isinstance(has, str) and (has[0], without_mailboxes(has[1])) == ((sum(ends.values()), states), wanted):
        return True
    print(f"script {seed}: wanted {sum(ends.values())} schedules, {states} states, {dict(wanted)}")
    print(f"  has {has}\n  {file.read_text()}")
    return False


def erlang(program: str, seed: int, file: Path) -> bool | None:
    """Whether it agrees with the model by Erlang's rules, and has each outcome of the table's order; also if moves are left out."""
    verdict = compared(program, seed, file, "erlang")
    if not verdict:
        return verdict
    table, whole, left = (printed(program, file, *words) for words in (("table",), ("erlang",), ("erlang", "--reduced")))
    if not isinstance(table, str) and not isinstance(whole, str) and not isinstance(left, str):
        if set(table[1]) <= set(whole[1]) == set(left[1]) and left[0] <= whole[0]:
            return True
    print(f"script {seed}: the table's order has {table}\n  Erlang's has {whole}\n  and has {left}\n  {file.read_text()}")
    return False


def shared(program: str, seed: int, file: Path) -> bool | None:
    """Whether several threads print what one prints; None if the script has too few states, or too many."""
    file.write_text(json.dumps(writer(seed, ops=OPS if seed % 2 else APART).script()))
    whole = printed(program, file, "table", "--limit", str(MOST_WHOLE))
    if isinstance(whole, str) or whole[0][1] < LEAST_SHARED:
        return None
    for words in (["table"], ["table", "--reduced"], ["erlang"], ["table", "--limit", str(LEAST_SHARED)]):
        asked = [program, str(file), "--order", *words, "--jobs"]
        ran = [subprocess.run([*asked, jobs], capture_output=True, text=True, check=False) for jobs in ("1", "2", "4")]
        told = [(it.returncode, it.stdout, it.stderr) for it in ran]
        if told[1:] != told[:1] * 2:
            print(f"script {seed}, {words}: on one thread {told[0]}\n  on several {told[1:]}\n  {file.read_text()}")
            return False
    return True


def main() -> int:
    """Compares so many scripts."""
    words = argparse.ArgumentParser(description="Compares pt_explore with a model, over random scripts.")
    words.add_argument("program")
    words.add_argument("--seed", type=int, default=1)
    words.add_argument("--scripts", type=int, default=50)
    words.add_argument("--reduced", type=int, default=100)
    words.add_argument("--erlang", type=int, default=40)
    words.add_argument("--threads", type=int, default=40)
    asked = words.parse_args()
    with tempfile.TemporaryDirectory() as folder:
        file = Path(folder) / "script.json"
        verdicts = [compared(asked.program, seed, file) for seed in range(asked.seed, asked.seed + asked.scripts)]
        fewer = [reduced(asked.program, seed, file) for seed in range(asked.seed, asked.seed + asked.reduced)]
        apart = [erlang(asked.program, seed, file) for seed in range(asked.seed, asked.seed + asked.erlang)]
        threads = [shared(asked.program, seed, file) for seed in range(asked.seed, asked.seed + asked.threads)]
    tried = (("moves", verdicts), ("reduced", fewer), ("erlang", apart), ("threads", threads))
    for name, them in tried:
        print(f"{name}: {them.count(True)} passed, {them.count(False)} failed, {them.count(None)} passed over")
    return 0 if all((not them or True in them) and False not in them for _, them in tried) else 1


if __name__ == "__main__":
    sys.exit(main())
