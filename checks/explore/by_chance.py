#!/usr/bin/env python3
"""Counts for how many seeds pt_explore finds a fault in schedules that are drawn by chance, by each way of drawing them.

    checks/explore/by_chance.py PROGRAM            compares the table of docs/EXPLORE.md; the status is 1 if it differs
    checks/explore/by_chance.py PROGRAM --write    writes it there

In stale.json the server has to take all its turns between two of the client. In race.json a few turns in another order are enough.
It also looks at the schedules that are drawn: they are exactly those that orders of the desks give, which change at few places.
"""
from __future__ import annotations

import itertools
import subprocess
import sys
from concurrent.futures import ThreadPoolExecutor
from pathlib import Path

HERE = Path(__file__).resolve().parent
PAGE = HERE.parent.parent / "docs" / "EXPLORE.md"
HEAD = "| Script | Schedules | by chance alone | `--depth 1` | `--depth 2` | `--depth 3` | `--depth 4` |\n|---|---|---|---|---|---|---|\n"
NO_FAULT = {"race.json": ["--no-waiting"], "stale.json": ["--expect", "client ended normal; server ended shutdown"]}
TURNS = ["--order", "turns"]
MOVES = ["--order", "table"]
ROWS = [("race.json", TURNS, 10), ("stale.json", TURNS, 10), ("stale.json", TURNS, 100),
        ("race.json", MOVES, 10), ("stale.json", MOVES, 10), ("stale.json", MOVES, 100)]
WAYS: list[list[str]] = [[], *(["--depth", str(depth)] for depth in (1, 2, 3, 4))]
SEEDS = range(1, 101)


def finds(program: str, script: str, words: list[str]) -> bool:
    """Whether a schedule with the fault is drawn."""
    said = [program, str(HERE / script), *NO_FAULT[script], *words]
    status = subprocess.run(said, stdout=subprocess.DEVNULL, check=False).returncode
    if status not in (0, 1):
        raise SystemExit(f"{said}: status {status}")
    return status == 1


def row(program: str, script: str, order: list[str], schedules: int) -> str:
    """The line of a script and a number of schedules, of whole turns or of moves."""
    words = [[[*order, "--random", str(schedules), "--seed", str(seed), *way] for seed in SEEDS] for way in WAYS]
    with ThreadPoolExecutor(2) as pool:
        counts = [sum(pool.map(lambda said: finds(program, script, said), ways)) for ways in words]
    of_moves = ", by moves" if order == MOVES else ""
    return f"| `{script}`{of_moves} | {schedules} | " + " | ".join(map(str, counts)) + " |\n"


def listed(program: str, script: str, words: list[str]) -> set[tuple[str, ...]]:
    """The schedules that are run with these words."""
    said = [program, str(HERE / script), *TURNS, "--print", "schedules", *words]
    lines = subprocess.run(said, capture_output=True, check=True, text=True).stdout.splitlines()
    return {tuple(line.split(" ")[1].split(",")) for line in lines if line[0].isdigit()}


def given(tree: set[tuple[str, ...]], order: tuple[str, ...], begun: tuple[str, ...], changes: int) -> set[tuple[str, ...]]:
    """The schedules of a tree that an order of the desks gives behind these turns, if it changes at so many places."""
    begins = {schedule[:turns] for schedule in tree for turns in range(len(schedule) + 1)}
    schedule = begun
    while schedule not in tree:
        schedule = next((*schedule, desk) for desk in order if (*schedule, desk) in begins)
    if changes == 0:
        return {schedule}
    found = set()
    for place in range(len(begun), len(schedule)):
        desk = schedule[place]
        later = (*(other for other in order if other != desk), desk)
        found |= given(tree, later, schedule[:place], changes - 1)
    return found


def strays(program: str) -> bool:
    """Whether other schedules of the race are drawn than those that orders of its two desks give."""
    tree = listed(program, "race.json", [])
    for depth in (1, 2, 3):
        orders = itertools.permutations(("0", "1"))
        wanted = set().union(*(given(tree, order, (), depth - 1) for order in orders))
        drawn = listed(program, "race.json", ["--random", "5000", "--depth", str(depth)])
        if drawn != wanted:
            print(f"depth {depth}: drawn {sorted(drawn - wanted)}, not drawn {sorted(wanted - drawn)}")
            return True
    return False


def main() -> int:
    """Compares or writes the table."""
    program, *rest = sys.argv[1:]
    if strays(program):
        return 1
    table = HEAD + "".join(row(program, *it) for it in ROWS)
    page = PAGE.read_text()
    begin = page.index(HEAD)
    end = page.index("\n\n", begin) + 1
    if rest == ["--write"]:
        PAGE.write_text(page[:begin] + table + page[end:])
    elif page[begin:end] != table:
        print(f"docs/EXPLORE.md has another table than:\n{table}", end="")
        return 1
    return 0


if __name__ == "__main__":
    sys.exit(main())
