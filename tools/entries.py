#!/usr/bin/env python3
"""Shows the entries of crates.txt that no file of their crate names, and the crates that a file names without an entry.

    tools/entries.py

An entry that no file names may have its reason in a comment of crates.txt, as '# CRATE keeps ENTRY: REASON'. The last
line is 'N passed, M failed', and the status is 0 if nothing failed.
"""
from __future__ import annotations

import argparse
import re
import sys
from pathlib import Path

ROOT = Path(__file__).resolve().parent.parent
LISTED = re.compile(r"(\w+)[^:#]*:([^#]*)")
KEPT = re.compile(r"# (\w+) keeps (\w+): \w")
# A path in Rust code, and one in a definition or a proof.
IN_CODE = re.compile(r"(?<![\w:.])([a-z]\w*)(?=::)|^\s*(?:pub )?use (\w+)\b", re.M)
IN_LOGIC = re.compile(r"\bRattle\.(\w+)\.")


def listed() -> dict[str, list[str]]:
    """The crates of the repository, each with its entries."""
    matches = map(LISTED.match, (ROOT / "crates.txt").read_text().splitlines())
    return {match[1]: match[2].split() for match in matches if match}


def named(crate: str) -> set[str]:
    """The crates that a crate's files name."""
    folder = ROOT / "crates" / crate
    found: set[str] = set()
    for file in folder.rglob("*"):
        if "out" in file.relative_to(folder).parts or file.suffix not in (".rt", ".antt"):
            continue
        code = re.sub(r"//[^\n]*|^--[^\n]*", "", file.read_text(), flags=re.M)
        found.update(IN_LOGIC.findall(code))
        if file.suffix == ".rt":
            found.update(name for pair in IN_CODE.findall(code) for name in pair if name)
    return found


def main() -> int:
    argparse.ArgumentParser(description="Shows entries of crates.txt that nothing names, and names without an entry.").parse_args()
    crates = listed()
    reasons = {match.groups() for match in KEPT.finditer((ROOT / "crates.txt").read_text())}
    entries = [(crate, entry) for crate, below in crates.items() for entry in below]
    faults = []
    for crate, below in crates.items():
        names = named(crate)
        idle = [entry for entry in below if entry not in names and (crate, entry) not in reasons]
        faults += [f"{crate}: no file names {entry}" for entry in idle]
        faults += [f"{crate}: {name} has no entry" for name in sorted(names & set(crates) - {crate, *below})]
    faults += [f"{crate}: keeps {entry}, which is no entry" for crate, entry in reasons if (crate, entry) not in entries]
    print("".join(f"{fault}\n" for fault in faults), end="")
    print(f"entries: {len(entries) - len(faults)} passed, {len(faults)} failed")
    return 1 if faults else 0


if __name__ == "__main__":
    sys.exit(main())
