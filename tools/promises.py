#!/usr/bin/env python3
"""Writes docs/PROMISES.md: what each crate promises, one promise a bullet, read off the heads of the crates.

    tools/promises.py              says the first line of the page that differs, or what a head lacks; status 1 then
    tools/promises.py --write      writes the page

A crate's root file (src/lib.rt or src/main.rt) has a section `# What is proved` in its head. Each of its bullets begins
with the promise's name and has at most 300 letters. The crates are in the order of crates.txt. The head of a library also
says where its tests are (`Tests: ..`).
"""
from __future__ import annotations

import argparse
import re
import sys
from pathlib import Path

ROOT = Path(__file__).resolve().parent.parent
PAGE = ROOT / "docs" / "PROMISES.md"
MOST = 300
# a program that README shows whole, so its head is short
WITHOUT = {"example_hello"}

# What a reader asks, and the crates that answer it, those to read first in front.
QUESTIONS = (
    ("My message arrives once, and in order", ("pt_node", "pt_history", "pt_laws", "pt_carrier")),
    ("A message that is lost is reported", ("pt_shard", "pt_gathered", "pt_history")),
    ("A monitor delivers one `DOWN`, a link one exit signal", ("pt_laws", "pt_node", "pt_shard")),
    ("A pid never reaches another process", ("pt_slots", "pt_shard")),
    ("`NoProc` comes only after the exit", ("pt_directory", "pt_desk", "pt_node")),
    ("What a call does, and when it fails", ("pt_shard", "pt_desk", "pt_node")),
    ("What a turn does, and that turning ends", ("pt_desk", "pt_workers")),
    ("The history is legal, and what it says of a process", ("pt_gathered", "pt_history", "pt_accounts")),
    ("A node resumes with empty journals", ("pt_node", "pt_epochs", "pt_pauses")),
    ("A handler gets each item, and no wake-up is lost", ("pt_crew", "pt_behaviour", "pt_epochs")),
    ("A call is answered, or ends by a `DOWN` or a deadline", ("pt_names", "pt_c_tools")),
    ("A supervisor starts its children again", ("pt_children", "pt_supervisor", "pt_pauses", "pt_scheduler_laws")),
    ("A timer is never early; a name leads to its process", ("pt_timers", "pt_names")),
    ("From C, Rust or Python: a desk and its calls", ("pt_c", "pt_c_desks", "pt_c_values")),
    ("From C, Rust or Python: processes that run code", ("pt_scheduler", "pt_c_crews", "pt_c_tools")),
    ("A script is read, run and reported", ("pt_script", "pt_runner", "pt_report", "pt_run")),
    ("Every schedule of a script", ("pt_schedules", "pt_moves", "pt_alike", "pt_run_laws", "pt_key_laws", "pt_function", "pt_explorer", "pt_explore")),
    ("A printed history is judged", ("pt_auditor", "pt_texts", "pt_audit")),
    ("A history is drawn, or printed for another tool", ("pt_chart", "pt_render")),
    ("The shell", ("pt_shell",)),
)

HEAD = """# What each crate promises

With this page you can look up what you may rely on in each crate, and the function or clause that carries it.

Made by `tools/promises.py` from the heads of the crates; the gate compares it. A name in brackets is a function, a type
or a definition of the crate's `specs/`. A promise is said in short, and its clause has the premises: a crew's clauses ask
that it attends its desk, for one. [PROVED](PROVED.md) has the five promises of the whole table, what is only
tested, and what is not proved yet. [DEFINITIONS](DEFINITIONS.md) explains the words.
"""


def crates() -> dict[str, list[str]]:
    """The crates, lowest first, each with those of the repository that it stands on."""
    found: dict[str, list[str]] = {}
    for line in (ROOT / "crates.txt").read_text().split("\n"):
        names, colon, below = line.split("#")[0].partition(":")
        if colon:
            found[names.split()[0]] = [it for it in below.split() if it in found]
    return found


def head_of(crate: str) -> list[str]:
    """The lines of the head of a crate's root file."""
    for name in ("lib.rt", "main.rt"):
        path = ROOT / "crates" / crate / "src" / name
        if path.is_file():
            text = re.match(r"(?://!.*\n)*", path.read_text())
            return [it.removeprefix("//!").removeprefix(" ") for it in text[0].split("\n")] if text else []
    return []


def title_of(head: list[str]) -> str:
    """The first sentence of a head, on one line."""
    first: list[str] = []
    for line in head:
        if not line.strip():
            break
        first.append(line.strip())
    return re.split(r"(?<=[.:]) (?=[A-Z])", " ".join(first))[0]


def bullets_of(head: list[str]) -> list[str]:
    """The bullets of the section, each on one line."""
    found: list[str] = []
    within = False
    for line in head:
        if line.startswith("# "):
            within = line == "# What is proved"
        elif within and line.startswith("- "):
            found.append(line)
        elif within and line.startswith("  ") and found:
            found[-1] += " " + line.strip()
    return found


def faults_of(crate: str, bullets: list[str]) -> list[str]:
    """What is wrong with a crate's section."""
    if not bullets:
        return [] if crate in WITHOUT else [f"{crate}: its head has no section '# What is proved' with bullets"]
    faults = [f"{crate}: a promise without a name: {it[:60]}" for it in bullets if not re.match(r"- \*\*[^*]+\.\*\* ", it)]
    return faults + [f"{crate}: a promise of {len(it)} letters: {it[:60]}" for it in bullets if len(it) > MOST]


def test_faults(crate: str) -> list[str]:
    """What is wrong with the line of a library's head that says where its tests are."""
    if crate.startswith("test_") or not (ROOT / "crates" / crate / "src" / "lib.rt").is_file():
        return []
    told = re.search(r"^Tests: (?:.+\n)+", "\n".join(head_of(crate)) + "\n", re.M)
    if told is None:
        return [f"{crate}: its head has no line 'Tests: ..'"]
    return [f"{crate}: its tests are not in {it}" for it in re.findall(r"`([^`]+)`", told[0]) if not (ROOT / it).exists()]


def words_of(crate: str) -> str:
    """All that a crate's sources and definitions say, and the names of their files."""
    files = [it for part in ("src", "specs") for it in sorted((ROOT / "crates" / crate / part).rglob("*")) if it.is_file()]
    return "\n".join(it.stem + "\n" + re.sub(r"^//!.*$", "", it.read_text(), flags=re.M) for it in files)


def unknown_names(crate: str, bullets: list[str], below: list[str]) -> list[str]:
    """The names in the bullets that neither the crate nor one that it stands on has."""
    text = "\n".join(words_of(it) for it in [crate, *below])
    names = [word for it in bullets for name in re.findall(r"`([^`]+)`", it) for word in re.findall(r"[A-Za-z_]\w+", name)]
    return [f"{crate}: a promise names `{it}`, which is nowhere" for it in names if not re.search(rf"\b{it}\b", text)]


def page() -> tuple[str, list[str]]:
    """The page, and the faults of the heads."""
    questions, faults = index(set(crates()))
    parts = [HEAD, questions]
    for crate, below in crates().items():
        head = head_of(crate)
        bullets = bullets_of(head)
        faults += faults_of(crate, bullets) + unknown_names(crate, bullets, below) + test_faults(crate)
        if bullets:
            parts.append(f"## `{crate}`\n{title_of(head)}\n\n" + "\n".join(bullets) + "\n")
    return "\n".join(parts), faults


def index(listed: set[str]) -> tuple[str, list[str]]:
    """The table of questions, with links to the sections, and the crates in it that are not there."""
    rows = ["| Question | Sections |", "|---|---|"]
    rows += [f"| {question} | {', '.join(f'[{it}](#{it})' for it in names)} |" for question, names in QUESTIONS]
    faults = [f"tools/promises.py: no crate {it}" for _, names in QUESTIONS for it in names if it not in listed]
    return "## By question\n" + "\n".join(rows) + "\n", faults


def main() -> int:
    reader = argparse.ArgumentParser(description="Writes or compares docs/PROMISES.md.")
    reader.add_argument("--write", action="store_true", help="write the page")
    words = reader.parse_args()
    text, faults = page()
    for fault in faults:
        print(fault)
    if words.write:
        PAGE.write_text(text)
    elif not PAGE.is_file() or PAGE.read_text() != text:
        there = PAGE.read_text().split("\n") if PAGE.is_file() else []
        made = text.split("\n")
        at = next((n for n, (a, b) in enumerate(zip(there, made)) if a != b), min(len(there), len(made)))
        print(f"docs/PROMISES.md: line {at + 1} differs: tools/promises.py --write writes it")
        faults.append("page")
    return 1 if faults else 0


if __name__ == "__main__":
    sys.exit(main())
