#!/usr/bin/env python3
"""Writes the page of a history into the crate that prints it.

    tools/page.py            compares crates/pt_render/src/page.rt with the page's files; status 1 if it is not theirs
    tools/page.py --write    writes it

The files are crates/pt_render/page/page.html, page.css and page.js. A program prints the frame in three parts, with the history
and the names of its processes between them. The page may run its own script and style alone, which it names by their checksums.
"""
from __future__ import annotations

import base64
import hashlib
import sys
from pathlib import Path

CRATE = Path(__file__).resolve().parent.parent / "crates" / "pt_render"
PAGE = CRATE / "page"
WRITTEN = CRATE / "src" / "page.rt"
HEAD = "//! The page of a history, in parts. `tools/page.py` writes this file from crates/pt_render/page.\n"
PARTS = {
    "PAGE_HEAD": "The page up to the history: a line of JSON for each event, for each letter left over, and for the verdict.",
    "PAGE_NAMES": "What is between the history and the names of its processes, a JSON object from pids to names.",
    "PAGE_END": "The page behind the names.",
}


def checksum(text: str) -> str:
    """How a page names what it may run."""
    return "'sha256-" + base64.b64encode(hashlib.sha256(text.encode()).digest()).decode() + "'"


def literal(text: str) -> str:
    """The text as a literal of Rattle."""
    return '"' + text.replace("\\", "\\\\").replace('"', '\\"') + '"'


def parts() -> list[str]:
    """The page, cut where the history and the names stand."""
    style, script = ("\n" + (PAGE / name).read_text() for name in ("page.css", "page.js"))
    frame = (PAGE / "page.html").read_text()
    for place, text in (("STYLE_SUM", checksum(style)), ("SCRIPT_SUM", checksum(script)), ("STYLE", style), ("SCRIPT", script)):
        frame = frame.replace(f"@{place}@", text, 1)
    head, rest = frame.split("@HISTORY@\n")
    names, end = rest.split("@NAMES@\n")
    return [part.removesuffix("\n") for part in (head, names, end)]


def written() -> str:
    """The whole file."""
    text = HEAD
    for (name, what), part in zip(PARTS.items(), parts()):
        text += f"\n/// {what}\npub const {name}: &str = {literal(part)};\n"
    return text


def main() -> int:
    if sys.argv[1:] == ["--write"]:
        WRITTEN.write_text(written())
        return 0
    if sys.argv[1:]:
        print("wanted: tools/page.py [--write]")
        return 2
    if WRITTEN.read_text() != written():
        print("page: crates/pt_render/src/page.rt is not what crates/pt_render/page gives: tools/page.py --write")
        return 1
    print(f"page: crates/pt_render/src/page.rt has the page's files, {len(written().encode())} bytes")
    return 0


if __name__ == "__main__":
    sys.exit(main())
