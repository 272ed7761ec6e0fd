#!/usr/bin/env python3
"""Whether the reading list of docs/WORKING.md is what the files of definitions are.

    tools/reading.py            prints what differs; its status is then 1
    tools/reading.py --write    puts the files' numbers of lines, and their sums, into the list

Each file of a crate's specs/ stands in the list once, with its number of lines, or says in its first line that no
public clause cites it. The last column of a row is the sum of the row.
"""
from __future__ import annotations

import argparse
import re
import sys
from pathlib import Path

ROOT = Path(__file__).resolve().parent.parent
PAGE = ROOT / "docs" / "WORKING.md"
HEADING = "## What to believe, in reading order\n"
UNCITED = "No public clause cites this module."

# The crate of a file of definitions, and its name in the list.
Name = tuple[str, str]


def lines_of(path: Path) -> int:
    """How many lines a file has."""
    return path.read_text().count("\n")


def files_to_read() -> dict[Name, Path]:
    """The files of definitions that public clauses cite, by the crate and the name in the list."""
    paths = (ROOT / "crates").glob("*/specs/**/*.antt")
    cited: dict[Name, Path] = {}
    for path in sorted(paths):
        specs = next(parent for parent in path.parents if parent.name == "specs")
        name = str(path.relative_to(specs).with_suffix(""))
        if name != "Lib" and UNCITED not in path.read_text().split("\n", 1)[0]:
            cited[specs.parent.name, name] = path
    return cited


def corrected(row: str, files: dict[Name, Path], seen: list[Name]) -> str:
    """The row with the files' numbers of lines; what it names is added to `seen`."""
    total = 0
    crate = ""

    def count(match: re.Match[str]) -> str:
        """The words with the right number of lines."""
        nonlocal total, crate
        if match["crate"]:
            crate = match["crate"]
            return match[0]
        seen.append((crate, match["name"]))
        if (crate, match["name"]) not in files:
            return match[0]
        lines = lines_of(files[crate, match["name"]])
        total += lines
        return f"{match['name']} {lines}"

    *before, read, _, _ = row.split("|")
    read = re.sub(r"`(?P<crate>\w+)/specs`|(?P<name>[A-Z]\w*) \d+", count, read)
    return "|".join([*before, read, f" {total:,} ", "\n"])


def main() -> int:
    reader = argparse.ArgumentParser(description="Compares the reading list of docs/WORKING.md with the files, or writes it.")
    reader.add_argument("--write", action="store_true", help="put the files' numbers of lines, and their sums, into the list")
    write = reader.parse_args().write
    page = PAGE.read_text()
    start = page.index(HEADING)
    end = page.index("\n## ", start + 1)
    files = files_to_read()
    seen: list[Name] = []
    faults: list[str] = []
    section = page[start:end].splitlines(keepends=True)
    for at, row in enumerate(section):
        if row.startswith("|") and "/specs`" in row:
            section[at] = corrected(row, files, seen)
            if section[at] != row:
                faults.append(f"the list has: {row}the files are: {section[at]}")
    if write:
        PAGE.write_text(page[:start] + "".join(section) + page[end:])
        faults = []
    for name in sorted(set(seen)):
        if seen.count(name) > 1:
            faults.append(f"stands more than once in the list: {'/'.join(name)}\n")
        if name not in files:
            faults.append(f"stands in the list, but says that nothing cites it, or is no file: {'/'.join(name)}\n")
    for name in sorted(set(files) - set(seen)):
        faults.append(f"stands not in the list: {'/'.join(name)}\n")
    sys.stdout.write("".join(faults))
    return 1 if faults else 0


if __name__ == "__main__":
    sys.exit(main())
