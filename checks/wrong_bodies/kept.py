"""The verdicts that the repository keeps: each in a line of verdicts.txt, beside a checksum of all that it was made from.

That is the program logic, the edit, the file that decides, and all that the changed function reaches by names (reach.py). Kits
of one logic share verdicts, though their tactics may differ: the tenth that each commit draws tries that.
"""
from __future__ import annotations

import hashlib
import re
from collections import Counter
from dataclasses import dataclass
from pathlib import Path

from deciding import Edit
from reach import Reach

HEAD = """\
# What a trial of each wrong body found, beside a checksum of all that it was made from: `batches.py --keep` writes it.
# A line is: name, verdict, reason, clause, checksum. deciding.py says what the words mean. There are:
"""


@dataclass(frozen=True)
class Verdict:
    """A verdict that was kept."""

    verdict: str
    reason: str
    clause: str
    checksum: str

    def line(self, label: str) -> str:
        return f"{label}\t{self.verdict}\t{self.reason or '-'}\t{self.clause or '-'}\t{self.checksum}\n"


def read(file: Path) -> dict[str, Verdict]:
    """The verdicts that are kept, by the names of their edits."""
    if not file.exists():
        return {}
    rows = (it.split("\t") for it in file.read_text().split("\n") if it and not it.startswith("#"))
    return {row[0]: Verdict(row[1], row[2], row[3], row[4]) for row in rows}


def write(file: Path, kept: dict[str, Verdict]) -> None:
    """Writes the verdicts, sorted by the names of their edits, below how many there are of each kind."""
    counted = Counter((it.verdict, it.reason or "-") for it in kept.values())
    kinds = "".join(f"# {count:>4}  {verdict}{f' by {reason}' if reason != '-' else ''}\n" for (verdict, reason), count in sorted(counted.items()))
    file.write_text(HEAD + kinds + "".join(kept[it].line(it) for it in sorted(kept)))


class Checksums:
    """The checksums of edits."""

    def __init__(self, root: Path, crates: dict[str, list[str]], kit: str, deciding_file: Path):
        # (`rt version` prints `NAME logic SUM`)
        logic = re.search(r" logic (\w+)$", kit)
        self.logic = logic[1] if logic else kit
        self.deciding = deciding_file.read_bytes()
        self.reach = Reach(root, crates)
        self.reached: dict[str, str] = {}

    def of_edit(self, edit: Edit, text: bytes) -> str:
        """A checksum of all that the verdict of an edit is made from, of which this is the file."""
        if edit.label not in self.reached:
            self.reached[edit.label] = self.reach.checksum(edit)
        reached = self.reached[edit.label]
        return hashlib.sha256(b"\0".join([self.logic.encode(), reached.encode(), text, self.deciding])).hexdigest()[:20]


def drawn(edits: list[Edit], commit: str) -> list[Edit]:
    """The tenth of these edits that a commit draws to be tried again. Over all commits each edit comes as often as any other.

    Most of a check is the reading of libraries, so the tenth is of few crates and of few batches there. The edits are in a ring:
    crate by crate, and in a crate batch by batch. The commit draws the order of the crates, and the place at which the tenth
    begins. Each place is as likely as any other. So each edit has the same chance, whatever the order.
    """
    def number(word: str) -> int:
        return int(hashlib.sha256(f"{commit} {word}".encode()).hexdigest(), 16)

    order = {it: number(it) for it in {edit.crate for edit in edits}}
    batch = batch_of(edits)
    ring = sorted(edits, key=lambda it: (order[it.crate], batch[it.label], it.label))
    tenth = (len(ring) + 9) // 10
    first = number("begins") % max(1, len(ring))
    return (ring[first:] + ring[:first])[:tenth]


def batch_of(edits: list[Edit]) -> dict[str, int]:
    """In which batch of its crate each edit goes: the first that changes none of its functions. Edits outside of all are last."""
    found: dict[str, int] = {}
    changed: dict[tuple[str, int], set[str]] = {}
    for edit in edits:
        at = len(edits) if edit.outside else 0
        while not edit.outside and changed.setdefault((edit.crate, at), set()) & {*edit.functions}:
            at += 1
        found[edit.label] = at
        changed.setdefault((edit.crate, at), set()).update(edit.functions)
    return found
