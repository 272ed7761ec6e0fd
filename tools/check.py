#!/usr/bin/env python3
"""Checks crates over libraries that were proved before, and keeps what it proved for the next time.

    tools/check.py CRATE [--only FUNCTION].. [FLAG..]   checks the crate, or these functions (pt_desk::desk::Desk::link)
    tools/check.py CRATE --build                        proves the crate and makes its library for the crates above it: in half a
                                                        minute behind a check, of which it keeps what was proved
    tools/check.py --all [--jobs N] [CRATE..]           proves what is not proved yet as it is now: of all crates, or of these
                                                        and of those below them, N side by side

So a change of one function is checked in seconds, and its crate alone in minutes. `--all` goes by the order of crates.txt,
the longest chain first, and prints a line for each crate. What the prover says of a crate is in crates/CRATE/out/check/said.
At its end it says what failed, and what it did not try for that. It makes a library for each crate that others stand on,
and checks the others.

A library is one of these, if it was made of the sources that its crate and those below have now: that of `--build`, that of
`rt ci` (in crates/*/out/rlib, if no source is younger), or one of another checkout, whose folder crates/ PT_LIBRARIES names.
The other flags are those of `rattle check`. The verdict is the gate's alone: this trusts what it kept, and proves no tests.
"""
from __future__ import annotations

import functools
import hashlib
import os
import re
import shutil
import subprocess
import sys
import time
from concurrent.futures import FIRST_COMPLETED, Future, ThreadPoolExecutor, wait
from pathlib import Path

sys.dont_write_bytecode = True
ROOT = Path(__file__).resolve().parent.parent
sys.path.insert(0, str(ROOT / ".ci"))
from unproved import Fault, below, crates, kit, main_file  # noqa: E402

# What the other tools take from here.
__all__ = ["OTHER", "Fault", "below", "checksum", "compiler_words", "crates", "kit", "library", "side_by_side"]

OWN = ROOT / "crates"
OTHER = Path(os.environ.get("PT_LIBRARIES") or OWN).resolve()
COSTS = ROOT / "docs" / "proof-cost.txt"
WANTED = "wanted: tools/check.py CRATE [--only FUNCTION].. [--build], or --all [--jobs N] [CRATE..], with crates of crates.txt"
# The least that a check takes of memory, in kilobytes, if several are to run side by side.
MEMORY = 3_600_000


def side_by_side() -> int:
    """How many checks may run at a time."""
    free = re.search(r"MemAvailable:\s+(\d+)", Path("/proc/meminfo").read_text())
    by_memory = int(free[1]) // MEMORY if free else 1
    return max(1, min(len(os.sched_getaffinity(0)), by_memory))


def files(folder: Path) -> list[Path]:
    """The sources of a crate."""
    return sorted(it for part in ("src", "specs", "proofs") for it in (folder / part).rglob("*") if it.is_file())


@functools.cache
def sources(folder: Path) -> str:
    """A checksum of a crate's sources. It is read once: `sources.cache_clear` before it is to be read again."""
    found = hashlib.sha256()
    for path in files(folder):
        found.update(f"{path.relative_to(folder)}\0".encode() + path.read_bytes())
    return found.hexdigest()


def checksum(listed: dict[str, list[str]], crate: str) -> str:
    """A checksum of a crate's sources and of all below it."""
    return hashlib.sha256("".join(sources(OWN / it) for it in [*below(listed, crate), crate]).encode()).hexdigest()


def is_noted(note: Path, wanted: str) -> bool:
    """Whether a file says that something was made of the sources with this checksum."""
    return note.exists() and note.read_text() == wanted


def is_left(listed: dict[str, list[str]], crate: str, home: Path) -> bool:
    """Whether `rt ci` left a library of a crate there, made of the sources of this checkout: no source there is younger."""
    made = home / crate / "out" / "rlib" / f"{crate}.rlib"
    names = [*below(listed, crate), crate]
    if not made.exists() or any(sources(OWN / it) != sources(home / it) for it in names):
        return False
    return all(it.stat().st_mtime <= made.stat().st_mtime for name in names for it in files(home / name))


def library(listed: dict[str, list[str]], crate: str, other: Path = OTHER) -> Path:
    """The proved library of a crate, made of the sources that it has now: in this checkout, or in the other one."""
    for home in dict.fromkeys([OWN, other]):
        made = home / crate / "out" / "check" / f"{crate}.rlib"
        if made.exists() and is_noted(made.with_name("stamp"), checksum(listed, crate)):
            return made
        if is_left(listed, crate, home):
            return home / crate / "out" / "rlib" / f"{crate}.rlib"
    raise Fault(f"no library of {crate} as it is now: tools/check.py {crate} --build, or tools/check.py --all")


def compiler_words(listed: dict[str, list[str]], crate: str, other: Path = OTHER) -> list[str]:
    """What the compiler is told of a crate and of the libraries below it."""
    tools = kit()
    libraries = {it: library(listed, it, other) for it in below(listed, crate)}
    words = ["--crate-name", crate, main_file(ROOT, crate)]
    for name in dict.fromkeys(["std", *listed[crate]]):
        words += ["--extern", f"{name}={libraries.get(name, tools / 'rlibs' / f'{name}.rlib')}"]
    for folder in [tools / "rlibs", *(it.parent for it in libraries.values())]:
        words += ["-L", f"dependency={folder}"]
    words += ["--antt-project", f"{tools}/rattle/logic/antt-project.json", "--logic-built", f"{tools}/logic_built"]
    return [*words, "--links", f"{crate}="]


def command(listed: dict[str, list[str]], crate: str, flags: list[str]) -> list[str]:
    """The compiler's command for a check, or for making the library."""
    folder = OWN / crate / "out" / "check"
    (folder / "kept").mkdir(parents=True, exist_ok=True)
    kept = ["--incremental", str(folder / "kept")]
    how = "check"
    if "--build" in flags:
        how, kept = "build", [*kept, "-o", str(folder / f"{crate}.rlib")]
    rest = [it for it in flags if it != "--build"]
    return [f"{kit()}/bin/rattle", how, *compiler_words(listed, crate), *kept, *rest]


def check(listed: dict[str, list[str]], crate: str, flags: list[str]) -> int:
    """Checks a crate, or makes its library, and notes the sources of which all was proved."""
    folder = OWN / crate / "out" / "check"
    is_made = "--build" in flags
    before = checksum(listed, crate)
    words = command(listed, crate, flags)
    folder.mkdir(parents=True, exist_ok=True)
    if is_made:
        (folder / "stamp").unlink(missing_ok=True)
        shutil.rmtree(folder / f"{crate}.rlib", ignore_errors=True)
    status = subprocess.run(words, cwd=OWN / crate, check=False).returncode
    sources.cache_clear()
    is_whole = is_made or re.fullmatch(r"(--jobs \d+)?", " ".join(flags)) is not None
    if status == 0 and is_whole:
        if checksum(listed, crate) != before:
            raise Fault(f"the sources of {crate} changed while it was proved: once more")
        (folder / ("stamp" if is_made else "proved")).write_text(before)
    return status


class Proving:
    """Crates that are proved in the order in which they stand on each other."""

    def __init__(self, listed: dict[str, list[str]], names: list[str]):
        self.listed = listed
        # (each behind those below it)
        self.wanted = list(dict.fromkeys(it for name in names or listed for it in [*below(listed, name), name]))
        self.ended: dict[str, str] = {}
        # What it costs to prove a crate and the dearest chain of crates above it.
        self.chain: dict[str, int] = {}
        lines = COSTS.read_text().splitlines() if COSTS.exists() else []
        costs = {row[0]: int(row[2]) for row in map(str.split, lines) if row[1:2] == ["proof"]}
        for crate in reversed(self.wanted):
            above = [self.chain[it] for it in self.chain if crate in listed[it]]
            self.chain[crate] = costs.get(crate, 100) + max(above, default=0)

    def is_base(self, crate: str) -> bool:
        """Whether others stand on a crate."""
        return any(crate in uses for uses in self.listed.values())

    def was_proved(self, crate: str) -> bool:
        """Whether a crate was proved as it is now."""
        sources.cache_clear()
        notes = [home / crate / "out" / "check" / "proved" for home in (OWN, OTHER)]
        if not self.is_base(crate) and any(is_noted(it, checksum(self.listed, crate)) for it in notes):
            return True
        try:
            return library(self.listed, crate).exists()
        except Fault:
            return False

    def prove(self, crate: str) -> str:
        """Proves a crate by a process of its own, if it was not proved before, and prints and returns how that ended."""
        said = OWN / crate / "out" / "check" / "said"
        begun = time.monotonic()
        how = "was proved before"
        if not self.was_proved(crate):
            said.parent.mkdir(parents=True, exist_ok=True)
            words = [sys.executable, __file__, crate, *(["--build"] if self.is_base(crate) else []), "--jobs", "1"]
            with said.open("w") as output:
                status = subprocess.run(words, stdout=output, stderr=subprocess.STDOUT, check=False).returncode
            how = "FAILED" if status else "proved"
        seconds = "" if "before" in how else f", {time.monotonic() - begun:.0f} seconds"
        print(f"{crate}: {how}{seconds}{f': {said.relative_to(ROOT)}' if how == 'FAILED' else ''}", flush=True)
        return how

    def ready(self) -> list[str]:
        """The crates that no attempt was made at, with all below them proved. Those below the dearest chains come first."""
        found = [it for it in self.wanted if it not in self.ended]
        found = [it for it in found if all("proved" in self.ended.get(low, "") for low in self.listed[it] if low in self.listed)]
        return sorted(found, key=lambda it: -self.chain[it])

    def run(self, jobs: int) -> int:
        """Proves all, so many side by side, and returns the status."""
        running: dict[Future[str], str] = {}
        with ThreadPoolExecutor(jobs) as pool:
            while (ready := self.ready()) or running:
                for crate in ready[: jobs - len(running)]:
                    self.ended[crate] = "runs"
                    running[pool.submit(self.prove, crate)] = crate
                for ended in wait(running, return_when=FIRST_COMPLETED).done:
                    self.ended[running.pop(ended)] = ended.result()
        return self.sum_up()

    def sum_up(self) -> int:
        """Prints what was proved and what was not, and returns the status."""
        failed = [it for it in self.wanted if self.ended.get(it) == "FAILED"]
        left = [it for it in self.wanted if it not in self.ended]
        for says, names in (("failed", failed), ("not tried, since they stand on these", left)):
            print(f"{says}: {' '.join(names)}\n" if names else "", end="")
        proved = len(self.wanted) - len(failed) - len(left)
        before = sum("before" in it for it in self.ended.values())
        print(f"{proved} proved ({before} of them before), {len(failed)} failed, {len(left)} not tried")
        return 1 if failed or left else 0


def prove_all(listed: dict[str, list[str]], words: list[str]) -> int:
    """Proves all crates that are not proved yet, or those that the words name and what is below them."""
    jobs = side_by_side()
    if "--jobs" in words:
        at = words.index("--jobs")
        number = "".join(words[at + 1 : at + 2])
        if not re.fullmatch(r"[1-9]\d{0,2}", number):
            raise Fault(WANTED)
        jobs = int(number)
        words = [*words[:at], *words[at + 2 :]]
    if any(it not in listed for it in words):
        raise Fault(WANTED)
    return Proving(listed, words).run(jobs)


def main(words: list[str]) -> int:
    listed = crates(ROOT)
    if words[:1] == ["--all"]:
        return prove_all(listed, words[1:])
    if not words or words[0] not in listed:
        raise Fault(WANTED)
    return check(listed, words[0], words[1:])


if __name__ == "__main__":
    try:
        sys.exit(main(sys.argv[1:]))
    except Fault as fault:
        sys.exit(f"check.py: {fault}")
    except KeyboardInterrupt:
        sys.exit(130)
