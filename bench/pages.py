#!/usr/bin/env python3
"""How long a page of 1,000 processes stops the desks of a node that works, and that nothing is lost by it.

    bench/pages.py [RUNNERS [SECONDS]] [--write]

It runs `pages` of Rust and of Python and `observe` of C, each with so many processes (100,000; C's one desk has 60,000 at
most), and looks at all of them by pages, for so many seconds (5). The counts of each program are compared with what its views
have counted, those of Rust also with its history, which `bin/pt_audit` judges. It prints a section of RESULTS.md, or writes it
there. PUNDEWO_LIB names the folder of the library.
"""
from __future__ import annotations

import argparse
import json
import os
import re
import subprocess
import sys
import tempfile
import urllib.parse
import urllib.request
from datetime import date
from pathlib import Path
from typing import Any

ROOT = Path(__file__).resolve().parent.parent
HEADING = "## A node that is watched by pages\n"
MOST_OF_C = 60_000


def library() -> Path:
    return Path(os.environ["PUNDEWO_LIB"]).resolve()


def printed(command: list[str], folder: Path, **more: str) -> list[str]:
    """What a program prints, a line a fact. It fails if the program lost anything."""
    done = subprocess.run(command, cwd=folder, env={**os.environ, **more}, check=True, capture_output=True, text=True)
    return done.stdout.splitlines()


def rust(runners: int, seconds: float, work: Path) -> list[str]:
    history = work / "history"
    command = ["cargo", "run", "-q", "--release", "--offline", "--example", "pages", "--", str(history), str(runners), f"{seconds:.0f}"]
    lines = printed(command, ROOT / "bindings" / "rust")
    with history.open() as events:
        taken = sum(" = user " in event and " took " in event for event in events)
    told = re.search(r"the view has (\d+) messages", lines[-1])
    if told is None or int(told[1]) != taken:
        raise SystemExit(f"the history has {taken} messages that were taken: {lines[-1]}")
    verdict = printed([str(ROOT / "bin" / "pt_audit"), str(history)], work)
    return [*lines, f"its history has as many, and is {verdict[-1]}"]


def python(runners: int, seconds: float) -> list[str]:
    command = [sys.executable, "examples/pages.py", str(runners), str(seconds)]
    return printed(command, ROOT / "bindings" / "python", PYTHONPATH=".", PUNDEWO_SO=str(library() / "libpundewo.so"))


def paged(url: str) -> list[dict[str, Any]]:
    """All pages of a node, once."""
    pages: list[dict[str, Any]] = []
    after = ""
    while True:
        with urllib.request.urlopen(f"{url}state{after}", timeout=60) as answer:
            pages.append(json.load(answer))
        if pages[-1]["next"] is None:
            return pages
        after = "?after=" + urllib.parse.quote(str(pages[-1]["next"]))


def c(runners: int, seconds: float, work: Path) -> list[str]:
    sources, program = ROOT / "bindings" / "c", work / "observe"
    subprocess.run(["cc", "-O2", "-I", str(sources), "-o", str(program), str(sources / "observe.c"),
                    str(library() / "libpundewo.a"), "-lpthread"], check=True)
    page = ROOT / "bindings/rust/src/runtime/observing/observer.html"
    command = [str(program), str(page), str(60 + seconds), str(runners)]
    with subprocess.Popen(command, stdin=subprocess.PIPE, stdout=subprocess.PIPE, text=True) as process:
        assert process.stdin is not None and process.stdout is not None
        pages = paged(process.stdout.readline().strip())
        process.stdin.close()
        rest = process.stdout.read().splitlines()
    if process.returncode != 0:
        raise SystemExit(f"observe: {rest}")
    found = sum(len(page["processes"]) for page in pages)
    took = sorted(page["took"] * 1e3 for page in pages)
    return [f"{found} processes are on {len(pages)} pages",
            f"with a page its desk is stopped: {len(took)} times, {took[len(took) // 2]:.2f} ms at the median, {took[-1]:.2f} ms at most "
            "(by the clock)", *rest]


def section(runners: int, seconds: float) -> str:
    """The section, from its heading on."""
    proved = "that is not proved" if b"pt_c_is_not_proved" in (library() / "libpundewo.a").read_bytes() else "that was proved"
    load = os.getloadavg()[0]
    with tempfile.TemporaryDirectory() as folder:
        work = Path(folder)
        parts = {"Rust, four desks": rust(runners, seconds, work), "Python, two desks on one thread": python(runners, seconds),
                 "C, one desk": c(min(runners, MOST_OF_C), seconds, work)}
    lines = "".join(f"{name}:\n" + "".join(f"    {line}\n" for line in part) for name, part in parts.items())
    return (f"{HEADING}\n{date.today():%-d %B %Y}, beside other work (load {load:.0f}). `bench/pages.py` wrote this section, over a library "
            f"{proved}. Runners throw balls to each other meanwhile. A pacer on each desk of Rust, and one of Python, has a turn each "
            "millisecond, and notes the longest time of the desk's processor between two turns.\n\n```text\n" f"{lines}```\n\n")


def main(words: list[str]) -> None:
    asked = argparse.ArgumentParser()
    asked.add_argument("runners", type=int, nargs="?", default=100_000)
    asked.add_argument("seconds", type=float, nargs="?", default=5.0)
    asked.add_argument("--write", action="store_true")
    found = asked.parse_args(words)
    written = section(found.runners, found.seconds)
    if not found.write:
        print(written, end="")
        return
    page = ROOT / "bench" / "RESULTS.md"
    before, heading, rest = page.read_text().partition(HEADING)
    behind = rest.find("\n## ") if heading else 0
    # (without the section it comes last)
    page.write_text(before + ("" if heading else "\n") + written.rstrip() + "\n" + (rest[behind:] if heading and behind >= 0 else ""))


if __name__ == "__main__":
    main(sys.argv[1:])
