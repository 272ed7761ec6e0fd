#!/usr/bin/env python3
"""Counts what makes the sources and pages hard to read, and fails if a count is above its bound.

    tools/form.py            prints each count beside its bound; status 1 if one is above it
    tools/form.py --list     prints what was counted, too

- words: names that the definitions (crates/*/specs) of two crates or more have
- functions: functions of crates/*/src of more than 30 lines
- prose: lines of the pages, outside of tables and code, of more than 300 letters
- sentences: sentences of the pages, outside of tables and code, of more than 30 words
- copies: lines of the proofs that are second copies: six lines or more that are elsewhere in the proofs, too. Empty lines,
  comments and imports are left out, and spaces do not matter. The list has a line for each such run.
- crates: crates of crates.txt
"""
from __future__ import annotations

import argparse
import re
import sys
from collections import defaultdict
from collections.abc import Callable, Iterator
from dataclasses import dataclass
from pathlib import Path

ROOT = Path(__file__).resolve().parent.parent
BOUNDS = {"words": 0, "functions": 0, "prose": 0, "sentences": 0, "copies": 354, "crates": 57}
MOST_LINES = 30
MOST_LETTERS = 300
MOST_WORDS = 30
# so many lines that are elsewhere, too, are a second copy
LINES_OF_A_COPY = 6
# pages that tools write
WRITTEN = {"API.md", "PROMISES.md"}

DEFINITION = re.compile(r"(?:(?:abbrev|opaque|unfold|unfoldable|private|rec|mutual) )*(?:pub )?(?:(?:record|data|inductive) )?([A-Za-z_][\w'-]*)")
NONE = ("use ", "pub use ", "mod ", "pub mod ", "module ", "--", " ")


def words() -> list[str]:
    """The names that two crates define."""
    crates: dict[str, set[str]] = defaultdict(set)
    for path in ROOT.glob("crates/*/specs/**/*.antt"):
        for line in path.read_text().split("\n"):
            found = None if line.startswith(NONE) else DEFINITION.match(line)
            if found and found[1] != "pub" and ("pub " in line.split(":")[0] or "record " in line):
                crates[found[1]].add(path.relative_to(ROOT).parts[1])
    return [f"{word}: {', '.join(sorted(it))}" for word, it in sorted(crates.items()) if len(it) > 1]


def functions() -> list[str]:
    """The functions whose bodies have more than 30 lines."""
    found = []
    for path in sorted(ROOT.glob("crates/*/src/**/*.rt")):
        lines = path.read_text().split("\n")
        for at, line in enumerate(lines):
            start = re.match(r"( *)(?:pub(?:\(\w+\))? )?(?:const )?(?:unsafe )?(?:extern \"C\" )?fn (\w+)", line)
            if not start:
                continue
            # a body begins at the first line below that is a lone brace, or that ends with one
            body = next((n for n in range(at, len(lines)) if lines[n] == start[1] + "{" or (n == at and line.endswith("{"))), None)
            if body is None or any(lines[n] == "" or lines[n].startswith(start[1] + "}") for n in range(at, body)):
                continue
            end = next((n for n in range(body + 1, len(lines)) if lines[n] == start[1] + "}"), body)
            if end - body - 1 > MOST_LINES:
                found.append(f"{path.relative_to(ROOT)}:{at + 1}: {start[2]}: {end - body - 1} lines")
    return found


def pages() -> Iterator[tuple[str, list[str]]]:
    """The pages, each with its lines outside of tables and code."""
    for path in [ROOT / "README.md", *sorted(ROOT.glob("docs/*.md"))]:
        if path.name in WRITTEN:
            continue
        lines, code, indented = [], False, True
        for line in path.read_text().split("\n"):
            code = not code if line.startswith("```") else code
            # after a line of prose, one that is indented as much continues a bullet
            indented = line == "" or indented and line.startswith("    ")
            lines.append("" if code or indented or line.startswith(("```", "|")) else line)
        yield path.name, lines


def prose() -> list[str]:
    """The lines of more than 300 letters."""
    return [f"{name}:{at + 1}: {len(line)} letters" for name, lines in pages() for at, line in enumerate(lines) if len(line) > MOST_LETTERS]


def sentences() -> list[str]:
    """The sentences of more than 30 words; a bullet, a heading and an empty line end one, and so does a colon."""
    found = []
    for name, lines in pages():
        text = "\n".join("" if line.startswith("#") else re.sub(r"^(\s*)([-*]|\d+\.) ", "\n\n", line) for line in lines)
        for paragraph in re.split(r"\n\s*\n", text):
            plain = re.sub(r"`[^`]*`", "x", re.sub(r"\s+", " ", paragraph)).strip()
            for sentence in re.split(r"(?<=[.!?:;])[)*]* ", plain):
                if len(sentence.split()) > MOST_WORDS:
                    found.append(f"{name}: {sentence[:100]}")
    return found


def proofs() -> Iterator[tuple[str, list[tuple[int, str]]]]:
    """The proof files, each with its numbered lines, without empty lines, comments and imports."""
    for path in sorted(ROOT.glob("crates/*/proofs/**/*.antt")):
        lines = [(at, " ".join(line.split())) for at, line in enumerate(path.read_text().split("\n"), 1)]
        kept = [(at, line) for at, line in lines if line and not line.startswith(("--", "use ", "pub use "))]
        yield str(path.relative_to(ROOT)), kept


@dataclass
class Copy:
    """A run of lines that is a second copy, by its places among the lines of its file and of the first one."""

    name: str
    begin: int
    first: str
    first_begin: int
    lines: int

    def goes_on_with(self, name: str, begin: int, first: tuple[str, int]) -> bool:
        """Whether the lines from `begin` are a second copy of those that follow in the first run."""
        ahead = self.lines - LINES_OF_A_COPY + 1
        return (name, begin) == (self.name, self.begin + ahead) and first == (self.first, self.first_begin + ahead)


def runs(files: dict[str, list[tuple[int, str]]]) -> list[Copy]:
    """The runs that are second copies, each as long as it is one."""
    firsts: dict[tuple[str, ...], tuple[str, int]] = {}
    found: list[Copy] = []
    for name, lines in files.items():
        for begin in range(len(lines) - LINES_OF_A_COPY + 1):
            here = (name, begin)
            first = firsts.setdefault(tuple(line for _, line in lines[begin : begin + LINES_OF_A_COPY]), here)
            if first == here:
                continue
            if found and found[-1].goes_on_with(name, begin, first):
                found[-1].lines += 1
            else:
                found.append(Copy(name, begin, *first, LINES_OF_A_COPY))
    return found


def copies() -> tuple[int, list[str]]:
    """How many lines of the proofs are second copies, and the runs of them."""
    files = dict(proofs())
    copied: set[tuple[str, int]] = set()
    said = []
    for run in runs(files):
        copied.update((run.name, at) for at in range(run.begin, run.begin + run.lines))
        here, there = files[run.name][run.begin :][: run.lines], files[run.first][run.first_begin :][: run.lines]
        said.append(f"{run.name}:{here[0][0]}-{here[-1][0]}: {run.lines} lines, as {run.first}:{there[0][0]}-{there[-1][0]}")
    return len(copied), said


def crates() -> list[str]:
    """The crates of crates.txt."""
    return re.findall(r"^(\w+)[^:#\n]*:", (ROOT / "crates.txt").read_text(), re.M)


def counted(names: Callable[[], list[str]]) -> Callable[[], tuple[int, list[str]]]:
    """The count of what has one name each."""

    def count() -> tuple[int, list[str]]:
        found = names()
        return len(found), found

    return count


COUNTS: dict[str, Callable[[], tuple[int, list[str]]]] = {
    "words": counted(words),
    "functions": counted(functions),
    "prose": counted(prose),
    "sentences": counted(sentences),
    "copies": copies,
    "crates": counted(crates),
}


def main() -> int:
    reader = argparse.ArgumentParser(description="Counts what makes the sources and pages hard to read.")
    reader.add_argument("--list", action="store_true", help="print what was counted, too")
    words_given = reader.parse_args()
    status = 0
    for name, count in COUNTS.items():
        number, found = count()
        above = number > BOUNDS[name]
        print(f"{name}: {number}, at most {BOUNDS[name]}{': too many' if above else ''}")
        status = status or int(above)
        if words_given.list or above:
            print("".join(f"    {it}\n" for it in found), end="")
    return status


if __name__ == "__main__":
    sys.exit(main())
