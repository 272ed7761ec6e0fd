#!/usr/bin/env python3
"""Shows the longest chain of crates: each stands on the one before it, so it is proved after it.

    tools/chain.py             the crates of the chain, each with its lines, and the sum
    tools/chain.py --most N    the same; the status is 1 if the chain has more than N lines

A crate's lines are those of its .rt and .antt files.
"""
from __future__ import annotations

import argparse
import sys
from functools import cache
from pathlib import Path

ROOT = Path(__file__).resolve().parent.parent


def listed() -> dict[str, list[str]]:
    """The crates of the repository, each with what its line of crates.txt names."""
    found = {}
    for line in (ROOT / "crates.txt").read_text().splitlines():
        head, colon, entries = line.split("#")[0].partition(":")
        if colon:
            found[head.split()[0]] = entries.split()
    return found


def lines(crate: str) -> int:
    """The lines of a crate's .rt and .antt files."""
    folders = [ROOT / "crates" / crate / folder for folder in ("src", "specs", "proofs")]
    files = [file for folder in folders for kind in ("*.rt", "*.antt") for file in folder.rglob(kind)]
    return sum(file.read_text().count("\n") for file in files)


def longest(crates: dict[str, list[str]]) -> list[str]:
    """The chain with the most lines, lowest crate first."""

    @cache
    def up_to(crate: str) -> tuple[int, tuple[str, ...]]:
        """The longest chain that ends with this crate, and its lines."""
        below = [up_to(entry) for entry in crates[crate] if entry in crates]
        most, chain = max(below, default=(0, ()))
        return most + lines(crate), (*chain, crate)

    return list(max(up_to(crate) for crate in crates)[1])


def main(words: list[str]) -> int:
    parser = argparse.ArgumentParser(description=__doc__, formatter_class=argparse.RawDescriptionHelpFormatter)
    parser.add_argument("--most", type=int, metavar="N", help="the most lines that the chain may have")
    asked = parser.parse_args(words)
    crates = listed()
    chain = longest(crates)
    for crate in chain:
        print(f"{crate:14} {lines(crate):6,}")
    total = sum(lines(crate) for crate in chain)
    print(f"the longest chain: {total:,} lines in {len(chain)} of {len(crates)} crates")
    if asked.most is not None and total > asked.most:
        print(f"it may have {asked.most:,} lines")
        return 1
    return 0


if __name__ == "__main__":
    sys.exit(main(sys.argv[1:]))
