#!/usr/bin/env python3
"""Finds calls whose Result is dropped by `let _ =`, so that a refused call leaves no trace, and fails if one is not allowed.

    tools/dropped.py            status 1 if there is a dropped Result that tools/dropped.txt does not allow
    tools/dropped.py --list     prints all of them, each with its place

A line of tools/dropped.txt is `CRATE CALL REASON`: CRATE may drop the results of CALL, for that reason. A call is told
by its name alone. So a call that returns no Result is found too, if another one of that name returns one: the reason
says so. A line that allows nothing fails. The last line is 'N passed, M failed'.
"""
from __future__ import annotations

import argparse
import re
import sys
from dataclasses import dataclass
from pathlib import Path

ROOT = Path(__file__).resolve().parent.parent
ALLOWED = ROOT / "tools" / "dropped.txt"
# Calls of std and of the kit's crates that return a Result.
OF_STD = {
    "insert", "push", "push_back", "push_front", "push_str", "reserve", "extend_from_slice", "write_str", "write_fmt", "flush",
    "print", "println", "eprint", "eprintln", "write", "writeln", "try_push", "clone_from",
}
SIGNATURE = re.compile(r"^ *(?:pub(?:\([a-z]+\))? )?(?:const )?(?:unsafe )?fn (\w+)", re.M)


@dataclass(frozen=True)
class Drop:
    """A place where a result is dropped."""

    crate: str
    call: str
    place: str


def header_at(text: str, at: int) -> str:
    """The signature that begins here, up to the contract or the body."""
    ends = re.search(r"\n\s*(?:starred )?(?:requires|ensures)\b|\{\s*\n|\{\}|;\s*\n", text[at:])
    return text[at : at + ends.start()] if ends else text[at:]


def returning_results() -> set[str]:
    """The names of the functions of the repository that return a Result."""
    found = set(OF_STD)
    for path in ROOT.glob("crates/*/src/**/*.rt"):
        text = path.read_text()
        for start in SIGNATURE.finditer(text):
            if re.search(r"-> *(?:\w+::)*(?:Result|LocalResult)\b", header_at(text, start.start())):
                found.add(start[1])
    return found


def outermost(statement: str) -> str:
    """The name of the call that makes this value, or nothing if the value is no call's own."""
    if not statement.endswith(")"):
        return ""
    depth = 0
    for at in range(len(statement) - 1, -1, -1):
        depth += (statement[at] in ")]}") - (statement[at] in "([{")
        if depth == 0:
            named = re.search(r"(\w+)(?:::<[^()]*>)?!?$", statement[:at])
            return named[1] if named else ""
    return ""


def drops() -> list[Drop]:
    """All places where a call's Result is dropped."""
    results = returning_results()
    found = []
    for path in sorted(ROOT.glob("crates/*/src/**/*.rt")):
        text = re.sub(r"^ *//.*$", "", path.read_text(), flags=re.M)
        for start in re.finditer(r"\blet _\w* = ([^;]*(?:;[^;\n]*\"[^;]*)?);", text):
            call = outermost(start[1].strip())
            if call in results:
                line = text.count("\n", 0, start.start()) + 1
                crate = path.relative_to(ROOT).parts[1]
                found.append(Drop(crate, call, f"{path.relative_to(ROOT)}:{line}"))
    return found


def allowed() -> set[tuple[str, str]]:
    """The calls whose results a crate may drop."""
    rows = (it.split(None, 2) for it in ALLOWED.read_text().split("\n") if it.strip() and not it.startswith("#"))
    return {(row[0], row[1]) for row in rows if len(row) == 3}


def main() -> int:
    parser = argparse.ArgumentParser(description="Finds calls whose Result is dropped.", allow_abbrev=False)
    parser.add_argument("--list", action="store_true", help="prints all of them")
    given = parser.parse_args()
    found, may = drops(), allowed()
    refused = [it for it in found if (it.crate, it.call) not in may]
    idle = may - {(it.crate, it.call) for it in found}
    for it in found if given.list else refused:
        print(f"{it.place}: the result of {it.call} is dropped" + (", as allowed" if it not in refused else ""))
    for crate, call in sorted(idle):
        print(f"dropped.txt: {crate} drops no result of {call}")
    print(f"{len(found) - len(refused)} passed, {len(refused) + len(idle)} failed")
    return 1 if refused or idle else 0


if __name__ == "__main__":
    sys.exit(main())
