#!/usr/bin/env python3
"""Prints the worked rows of checks/rows, and those of crews (crew_rows.txt), as one table, which C, Rust and Python play.

    bindings/rows.py > TABLE

A row begins with a line `row NAME`; a row that is cut off after N turns has the name NAME@N. Each of its steps is a
line `CALL WORDS.. = ANSWER`, or `CALL WORDS..` if the row does not compare the answer. All names of pids and references
are replaced by what they stand for, and `open` has all five settings as numbers. The lines of an answer are joined by
`; `. Steps that the C library has no call for are left out:

- `judge`, since the judge of histories is not part of it;
- `watching` and `kept` of a running node, and `waiting` of a settled one;
- calls on a desk that the node does not have, since a program has no handle of it.
"""
from __future__ import annotations

import re
import sys
from collections.abc import Iterator
from dataclasses import dataclass, field
from pathlib import Path

sys.path.insert(0, str(Path(__file__).resolve().parent.parent / "checks/rows"))
sys.dont_write_bytecode = True

from play import Line, Play, Wrong, is_call, is_expect, plays_of, read_rows, row_files  # noqa: E402

FEWEST_ROWS = 115
CREW_ROWS = Path(__file__).with_name("crew_rows.txt")
DEFAULTS = {"desks": 1, "slots": 1024, "top_version": 2**32 - 1, "lane": 64, "start": 0}
BY_DESK = {"spawn", "turn", "clock", "pending", "journal", "event", "vacant", "knows"}
WITHOUT_ACTOR = {"turn_all", "turn_until_still", "events", "gather"}
NAMED = re.compile(r"<\d+\.\d+\.\d+>|#\d+\.\d+")


@dataclass
class Step:
    """A call and the lines of its answer; none if they are not compared."""

    name: str
    words: list[str]
    answer: list[str] = field(default_factory=list)

    def text(self) -> str:
        """The step as a line of the table."""
        call = " ".join([self.name, *self.words])
        return f"{call} = {'; '.join(self.answer)}" if self.answer else call


@dataclass
class State:
    """What is known of the node between two steps."""

    desks: int = 0
    phase: str = "closed"
    names: dict[str, str] = field(default_factory=dict)

    def follow(self, step: Step) -> None:
        """What the node is after a step."""
        if step.name == "open" and step.answer == ["ok"]:
            self.desks, self.phase = int(step.words[0]), "running"
        elif step.name in ("gather", "settle", "resume"):
            self.phase = {"gather": "gathered", "settle": "settled", "resume": "running"}[step.name]

    def can_play(self, step: Step) -> bool:
        """Whether the C library has a call for the step."""
        if step.name == "judge":
            return False
        if self.phase == "settled" and step.name == "waiting":
            return False
        if step.name in BY_DESK and int(step.words[0]) >= self.desks:
            return False
        if self.phase != "running" or step.name in WITHOUT_ACTOR or step.name == "open" or step.name in BY_DESK:
            return True
        if step.name in ("watching", "kept"):
            return False
        return int(step.words[0][1:].split(".")[0]) < self.desks


def settings(words: list[str]) -> list[str]:
    """The settings of `open` as numbers, in order."""
    given = dict(word.split("=", 1) for word in words)
    unknown = given.keys() - DEFAULTS.keys()
    if unknown:
        raise Wrong(f"no setting: {min(unknown)}")
    return [str(given.get(name, default)) for name, default in DEFAULTS.items()]


def steps_of(lines: list[Line]) -> Iterator[tuple[str, Step]]:
    """The steps of a row, each with the name that its answer gets, or an empty one."""
    name, step = "", None
    for line in lines:
        words = line.text.split()
        if is_expect(line) and step is not None:
            step.answer.append(" ".join(words[1:]))
        elif is_call(line):
            if step is not None:
                yield name, step
            name, words = (words[0], words[2:]) if words[1:2] == ["="] else ("", words)
            step = Step(words[0], words[1:])
    if step is not None:
        yield name, step


def lines_of(play: Play) -> Iterator[str]:
    """The lines of the table for a row."""
    yield f"row {play.row.name}" + ("" if play.turns is None else f"@{play.turns}")
    state = State()
    for name, step in steps_of(play.lines):
        step.words = settings(step.words) if step.name == "open" else [state.names.get(w, w) for w in step.words]
        if state.can_play(step):
            yield step.text()
        state.follow(step)
        if name and not step.answer:
            raise Wrong(f"{play.row.name}: {name} is compared with nothing")
        if name and NAMED.fullmatch(step.answer[0]):
            state.names[name] = step.answer[0]


def crew_lines() -> Iterator[str]:
    """The lines of the table for the rows of crews, which are written as they stand in it."""
    for line in CREW_ROWS.read_text().splitlines():
        if line and not line.startswith("#"):
            yield line


def main() -> int:
    """Prints the table, and returns the status."""
    try:
        rows = read_rows(row_files())
        for row in rows:
            for play in plays_of(row):
                print("\n".join(lines_of(play)))
        print("\n".join(crew_lines()))
    except (Wrong, OSError, ValueError) as fault:
        print(f"rows.py: {fault}", file=sys.stderr)
        return 1
    if len(rows) < FEWEST_ROWS:
        print(f"rows.py: only {len(rows)} rows were found", file=sys.stderr)
        return 1
    return 0


if __name__ == "__main__":
    sys.exit(main())
