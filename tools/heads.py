#!/usr/bin/env python3
"""Whether each proof file says in its first line which clauses it carries.

    tools/heads.py            prints the files that do not; status 1 if there is one
    tools/heads.py --write    writes a first line into these files, by the names of the goals that they answer

A file proofs/MODULES/FUNCTION/Answers.antt answers goals of one function, and Invariants.antt says what holds in its
loops. A file that begins with a comment of its own keeps it.
"""
from __future__ import annotations

import argparse
import re
import sys
from pathlib import Path

ROOT = Path(__file__).resolve().parent.parent
GOAL = re.compile(r"^(?:abbrev )?pub (\S+) : goal\.", re.M)
# goals of a checked operation, by the beginnings of their names
CHECKED = ("overflow", "index", "unwrap", "unreachable", "div", "rem", "shift")


def listed(names: list[str]) -> str:
    """`a`, `b` and `c`."""
    quoted = [f"`{it}`" for it in names]
    return quoted[0] if len(quoted) == 1 else ", ".join(quoted[:-1]) + " and " + quoted[-1]


def once(names: list[str]) -> list[str]:
    """The names in their order, each once."""
    return list(dict.fromkeys(names))


def function_of(path: Path) -> str:
    """The function that a file's folder is named after, with its type."""
    parts = path.relative_to(ROOT).parts[3:-1]
    return "::".join(it for it in parts[-2:] if it == parts[-1] or it[:1].isupper())


def said(goals: list[str]) -> list[str]:
    """What these goals are about, in words."""
    clauses = once([it for goal in goals for it in re.findall(r"-clause-(\w+)", goal)])
    loops = once([goal.split("-")[1] for goal in goals if goal.startswith("loop-")])
    types = once([goal.split("-")[1] for goal in goals if goal.startswith("invariant_of-")])
    calls = once([goal.split("-")[0] for goal in goals if "-requires" in goal])
    words = []
    if clauses:
        words.append(("its clause " if len(clauses) == 1 else "its clauses ") + listed(clauses))
    elif any(goal.startswith("returns") for goal in goals):
        words.append("its contract")
    if loops:
        words.append("its loop over " + listed(loops))
    if types:
        words.append("the invariant of " + listed(types))
    if calls:
        words.append("what its " + ("call of " if len(calls) == 1 else "calls of ") + listed(calls) + (" asks" if len(calls) == 1 else " ask"))
    if any(goal.startswith(CHECKED) for goal in goals):
        words.append("its checked operations")
    return words


def head_of(path: Path) -> str:
    """The first line for a file."""
    if path.stem == "Lib":
        return "-- The lemmas that more than one function of the crate uses."
    goals = GOAL.findall(path.read_text())
    if path.stem == "Invariants":
        loops = once([goal.split("-", 1)[1].removeprefix("loop-") for goal in goals if goal.startswith(("invariant-", "decreases-"))])
        return f"-- `{function_of(path)}`: what holds in its loop" + (f" over {listed(loops)}." if loops else ".")
    return f"-- `{function_of(path)}`: {', and '.join(said(goals)) or 'its contract'}."


def main() -> int:
    reader = argparse.ArgumentParser(description="Finds proof files without a first line that says what they carry.")
    reader.add_argument("--write", action="store_true", help="write the lines that are missing")
    write = reader.parse_args().write
    bare = [it for it in sorted(ROOT.glob("crates/*/proofs/**/*.antt")) if not it.read_text().startswith("--")]
    for path in bare:
        if write:
            path.write_text(head_of(path) + "\n" + path.read_text())
        else:
            print(f"{path.relative_to(ROOT)}: its first line does not say what it carries: tools/heads.py --write adds one")
    return 1 if bare and not write else 0


if __name__ == "__main__":
    sys.exit(main())
