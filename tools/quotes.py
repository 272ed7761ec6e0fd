#!/usr/bin/env python3
"""Whether the pages quote stored outputs as they are.

    tools/quotes.py
    tools/quotes.py --write FILE      puts all lines of FILE, but for its comments, into the blocks that quote it

A line '<!-- quotes FILE -->' stands before a block of code, of any language. FILE is named from the top of the
repository. Each line of the block is one of the file's, in the order of the file; a line '..' stands for any lines. The
last line is 'N passed, M failed', and the status is 0 if nothing failed.
"""
from __future__ import annotations

import re
import sys
from pathlib import Path

ROOT = Path(__file__).resolve().parent.parent
QUOTED = re.compile(r"^<!-- quotes (\S+) -->\n```\w*\n(.*?)^```$", re.M | re.S)
MARKED = re.compile(r"^<!-- quotes ", re.M)


def first_wrong(quoted: list[str], lines: list[str]) -> str | None:
    """The first quoted line that does not follow in the file, if there is one."""
    at, skips = 0, True
    for line in quoted:
        if line == "..":
            skips = True
            continue
        found = next((n for n in range(at, len(lines)) if lines[n] == line), None)
        if found is None or not skips and found != at:
            return line
        at, skips = found + 1, False
    return None


def pages() -> list[Path]:
    """The pages that quote."""
    return [ROOT / "README.md", *sorted(ROOT.glob("docs/*.md")), ROOT / "bench" / "RESULTS.md"]


def write(name: str) -> None:
    """Puts a file's lines into the blocks that quote it."""
    lines = "".join(f"{it}\n" for it in (ROOT / name).read_text().splitlines() if not it.startswith("#"))
    for page in pages():
        text = page.read_text()
        block = re.compile(rf"(^<!-- quotes {re.escape(name)} -->\n```\w*\n).*?(^```$)", re.M | re.S)
        page.write_text(block.sub(lambda it: f"{it[1]}{lines}{it[2]}", text))


def main() -> int:
    if len(sys.argv) == 3 and sys.argv[1] == "--write":
        write(sys.argv[2])
    passed, faults = 0, []
    for page in pages():
        text = page.read_text()
        blocks = QUOTED.findall(text)
        if len(blocks) != len(MARKED.findall(text)):
            faults.append(f"{page.name}: a mark has no block of code behind it")
        for name, block in blocks:
            file = ROOT / name
            wrong = first_wrong(block.splitlines(), file.read_text().splitlines()) if file.is_file() else name
            if wrong is None:
                passed += 1
            else:
                faults.append(f"{page.name}: '{wrong}' is not so in {name}")
    print("".join(f"{fault}\n" for fault in faults), end="")
    print(f"quotes: {passed} passed, {len(faults)} failed")
    return 1 if faults else 0


if __name__ == "__main__":
    sys.exit(main())
