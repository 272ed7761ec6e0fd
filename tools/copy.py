#!/usr/bin/env python3
"""Copies crates of this repository, and each crate that they stand on, into another repository.

    tools/copy.py FOLDER [CRATE..]

FOLDER is the root of that repository. Without a name the crate is pt_node. The crates go into its crates/ with their
sources, definitions and proofs, and their lines go to the end of its crates.txt. A crate that is there already and is
equal is passed over. If one of that name is there and differs, nothing is copied, and the status is 1. HANDLES and
.gitignore are written if they are missing.
"""
from __future__ import annotations

import argparse
import filecmp
import shutil
import sys
from pathlib import Path

ROOT = Path(__file__).resolve().parent.parent
PARTS = ("src", "specs", "proofs")


def lines_of(file: Path) -> dict[str, str]:
    """The line of each crate in a crates.txt, by name, in its order."""
    lines = file.read_text().splitlines() if file.exists() else []
    return {line.split(":")[0].split()[0]: line for line in lines if ":" in line and not line.startswith("#")}


def below(wanted: list[str], lines: dict[str, str]) -> list[str]:
    """The crates and those of this repository that they stand on, in the order of crates.txt."""
    reached: set[str] = set()
    todo = list(wanted)
    while todo:
        name = todo.pop()
        if name not in reached:
            reached.add(name)
            todo += [other for other in lines[name].split(":")[1].split() if other in lines]
    return [name for name in lines if name in reached]


def files_of(crate: Path) -> dict[str, Path]:
    """The files of a crate that are copied, by their paths in it."""
    return {str(it.relative_to(crate)): it for part in PARTS for it in sorted((crate / part).rglob("*")) if it.is_file()}


def is_equal(one: Path, other: Path) -> bool:
    """Whether two crates have the same files with the same bytes."""
    ours, theirs = files_of(one), files_of(other)
    return ours.keys() == theirs.keys() and all(filecmp.cmp(ours[it], theirs[it], shallow=False) for it in ours)


def copy(names: list[str], lines: dict[str, str], target: Path) -> None:
    """Copies these crates, and adds the lines that crates.txt lacks."""
    for name in names:
        for part in PARTS:
            if (ROOT / "crates" / name / part).is_dir():
                shutil.copytree(ROOT / "crates" / name / part, target / "crates" / name / part)
    listed = target / "crates.txt"
    text = listed.read_text() if listed.exists() else ""
    if text and not text.endswith("\n"):
        text += "\n"
    listed.write_text(text + "".join(lines[name] + "\n" for name in names if name not in lines_of(listed)))


def write_missing(target: Path) -> list[str]:
    """Writes HANDLES and .gitignore, if they are missing; returns the names of what it wrote."""
    written = []
    for name, text in (("HANDLES", (ROOT / "HANDLES").read_text()), (".gitignore", "out/\n")):
        if not (target / name).exists():
            (target / name).write_text(text)
            written.append(name)
    return written


def main() -> int:
    parser = argparse.ArgumentParser(description="Copies crates, and those that they stand on, into another repository.")
    parser.add_argument("folder", type=Path, help="the root of the other repository")
    parser.add_argument("crates", nargs="*", default=["pt_node"], help="the crates that are wanted (pt_node)")
    given = parser.parse_args()
    lines = lines_of(ROOT / "crates.txt")
    unknown = [name for name in given.crates if name not in lines]
    if unknown:
        parser.error(f"no such crate in crates.txt: {' '.join(unknown)}")
    if not given.folder.is_dir():
        parser.error(f"no such folder: {given.folder}")
    names = below(given.crates, lines)
    there = [name for name in names if (given.folder / "crates" / name).exists()]
    other = [name for name in there if not is_equal(ROOT / "crates" / name, given.folder / "crates" / name)]
    if other:
        print(f"{given.folder} has other crates of these names: {' '.join(other)}; nothing was copied", file=sys.stderr)
        return 1
    copy([name for name in names if name not in there], lines, given.folder)
    written = write_missing(given.folder)
    print("copied:", " ".join(name for name in names if name not in there) or "nothing")
    if there:
        print("there already, and equal:", " ".join(there))
    if written:
        print("written:", " ".join(written))
    return 0


if __name__ == "__main__":
    sys.exit(main())
