#!/usr/bin/env python3
"""Plays the worked rows through the program pt_shell, and compares each answer.

    checks/rows/play.py PT_SHELL [FILE..]

PT_SHELL is the built program. Without files it plays all rows, `*.txt` beside this script except names.txt, and fails
if a name that names.txt lists is neither that of a row nor that of a Rattle test. Each row runs by itself, once for
each number of turns between `# cut` and `# uncut`. README.md says how to read and write a row.
"""
from __future__ import annotations

import re
import signal
import subprocess
import sys
from concurrent.futures import ThreadPoolExecutor
from dataclasses import dataclass
from pathlib import Path
from typing import Iterator, Optional

HERE = Path(__file__).resolve().parent
ROOT = HERE.parent.parent
CRATES = ROOT / "crates"
# The seconds of a processor that a play may take.
SECONDS = 60


class Wrong(Exception):
    """A row file that is not written as it has to be."""


@dataclass(frozen=True)
class Line:
    """A line of a row file, with its place there."""

    number: int
    text: str


@dataclass(frozen=True)
class Row:
    """A row: its file, its name, and its lines."""

    file: Path
    name: str
    lines: list[Line]


@dataclass(frozen=True)
class Play:
    """A row that is cut off after so many turns, or is not cut off at all."""

    row: Row
    turns: Optional[int]
    lines: list[Line]


def is_mark(line: Line, mark: str) -> bool:
    """Whether the line is the comment `# cut`, or `# uncut`."""
    return line.text.split() == ["#", mark]


def is_call(line: Line) -> bool:
    """Whether the line makes a call."""
    return line.text.strip() != "" and not line.text.lstrip().startswith("#") and not is_expect(line)


def is_expect(line: Line) -> bool:
    """Whether the line compares an answer."""
    return line.text.split()[:1] == ["expect"]


def rows_of(file: Path) -> list[Row]:
    """The rows of a file, in order. Fails if there is none, or if a call comes before the first."""
    rows: list[Row] = []
    for number, text in enumerate(file.read_text(encoding="utf-8").splitlines(), 1):
        words = text.split()
        if words[:2] == ["#", "row"]:
            if len(words) != 3:
                raise Wrong(f"{file.name}, line {number}: a row has one word as its name")
            rows.append(Row(file, words[2], []))
        elif rows:
            rows[-1].lines.append(Line(number, text))
        elif words and words[0] != "#":
            raise Wrong(f"{file.name}, line {number}: no row has begun")
    if not rows:
        raise Wrong(f"{file.name} has no row")
    return rows


def check_row(row: Row) -> None:
    """Fails if the row does not begin with `open`, or compares nothing."""
    calls = [line for line in row.lines if is_call(line)]
    if not calls or calls[0].text.split()[0] != "open":
        raise Wrong(f"{row.file.name}: {row.name} does not begin with open")
    if not any(is_expect(line) for line in row.lines):
        raise Wrong(f"{row.file.name}: {row.name} has no expect")


def turns_of(lines: list[Line]) -> list[list[Line]]:
    """The calls between the marks, each with the lines that compare its answer."""
    turns: list[list[Line]] = []
    for line in lines:
        if is_call(line):
            turns.append([line])
        elif turns:
            turns[-1].append(line)
    return turns


def plays_of(row: Row) -> Iterator[Play]:
    """The row, or, if it has turns that are cut off, the row for each number of them."""
    cuts = [k for k, line in enumerate(row.lines) if is_mark(line, "cut")]
    uncuts = [k for k, line in enumerate(row.lines) if is_mark(line, "uncut")]
    if not cuts and not uncuts:
        yield Play(row, None, row.lines)
        return
    if len(cuts) != 1 or len(uncuts) != 1 or cuts[0] > uncuts[0]:
        raise Wrong(f"{row.file.name}: {row.name}: # cut and # uncut do not belong together")
    before, after = row.lines[: cuts[0]], row.lines[uncuts[0] + 1:]
    turns = turns_of(row.lines[cuts[0] + 1: uncuts[0]])
    for count in range(len(turns) + 1):
        yield Play(row, count, [*before, *(line for turn in turns[:count] for line in turn), *after])


def told(play: Play, said: str) -> str:
    """What the program said of a play, with the line of the file in place of the line that it read."""

    def place(match: re.Match[str]) -> str:
        at = int(match.group(1))
        return f"line {play.lines[at - 1].number}" if 0 < at <= len(play.lines) else match.group()

    cut = "" if play.turns is None else f", cut off after {play.turns} turns"
    return f"{play.row.file.name}: {play.row.name}{cut}: " + re.sub(r"\bline (\d+)", place, said.strip(), count=1)


def run(program: Path, play: Play) -> Optional[str]:
    """Plays a row: what is wrong with it, or nothing."""
    text = "".join(line.text + "\n" for line in play.lines)
    words = [str(ROOT / ".ci" / "bounded"), str(SECONDS), str(program)]
    done = subprocess.run(words, input=text, capture_output=True, text=True, check=False)
    if done.returncode == -signal.SIGXCPU:
        return told(play, f"no end after {SECONDS} seconds of a processor")
    if done.returncode != 0:
        return told(play, done.stderr or f"status {done.returncode}")
    return None


def rattle_tests() -> set[str]:
    """The names of the Rattle tests, proved or run alone."""
    files = [*CRATES.glob("*/src/**/*.rt"), *HERE.parent.glob("tried/*/*.rt.txt")]
    return {test for file in files for test in re.findall(r"#\[test\]\nfn (\w+)", file.read_text(encoding="utf-8"))}


def check_names(rows: list[Row]) -> str:
    """Compares the tests that there were with the rows and tests that there are: a line about it."""
    names = [name for name in (HERE / "names.txt").read_text(encoding="utf-8").split("\n") if name]
    if len(set(names)) != len(names):
        raise Wrong("names.txt has a name twice")
    played, left = {row.name.split("/")[0] for row in rows}, rattle_tests()
    lost = [name for name in names if name not in played and name.split(".")[1] not in left]
    if lost:
        raise Wrong("no row and no test: " + " ".join(lost))
    new = sorted(played - set(names))
    own = [name for name in names if name not in played]
    return (f"names: {len(names)} before: {len(names) - len(own)} by rows, {len(own)} by Rattle tests alone"
            + (f"; new: {len(new)}" if new else ""))


def read_rows(files: list[Path]) -> list[Row]:
    """The rows of all files. Fails if two rows have one name, or a row is not written as it has to be."""
    rows = [row for file in files for row in rows_of(file)]
    seen: set[str] = set()
    for row in rows:
        check_row(row)
        if row.name in seen:
            raise Wrong(f"{row.file.name}: another row has the name {row.name} too")
        seen.add(row.name)
    return rows


def row_files() -> list[Path]:
    """The files of rows, in order."""
    return sorted(file for file in HERE.glob("*.txt") if file.name != "names.txt")


def main(words: list[str]) -> int:
    """Plays the files, and returns the status."""
    if not words:
        print("rows: which program? checks/rows/play.py PT_SHELL [FILE..]", file=sys.stderr)
        return 2
    try:
        rows = read_rows([Path(word) for word in words[1:]] or row_files())
        if len(words) == 1:
            print(check_names(rows))
        plays = [play for row in rows for play in plays_of(row)]
        program = Path(words[0]).resolve()
        with ThreadPoolExecutor() as pool:
            said = list(pool.map(lambda play: run(program, play), plays))
    except (Wrong, OSError) as fault:
        print(f"rows: {fault}", file=sys.stderr)
        return 1
    wrong = [line for line in said if line]
    answers = sum(is_expect(line) for play, fault in zip(plays, said) if not fault for line in play.lines)
    for line in wrong:
        print(f"WRONG: {line}")
    print(f"rows: {len(rows)} rows, {answers} answers compared, {len(wrong)} wrong")
    return 1 if wrong or not answers else 0


if __name__ == "__main__":
    sys.exit(main(sys.argv[1:]))
