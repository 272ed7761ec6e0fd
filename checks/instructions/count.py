#!/usr/bin/env python3
"""Counts the instructions of calls, and compares them with docs/instructions.txt.

    checks/instructions/count.py             compares
    checks/instructions/count.py --write     writes the table anew, and the pages that quote it

It builds bench/rattle/pt_bench_counts and pt_bench_restarts without proofs, as a proved program is compiled
(`.ci/as_proved.py`), and runs each under callgrind twice: each workload 1,024 times, and 2,048 times. A row is what a workload's
function takes more in the second run, divided by 1,024. So it is the same whatever else the machine does.

The rows of Rust's runtime are of checks/instructions/runtime, over a library that is compiled in the same way. It does one
workload in a run, and the row is what all its threads take. On one desk that differs by less than a thousandth from run to
run. Another rustc makes other code, so these rows are compared if the rustc is that of the table. Without cargo they are
left out.

A child is restarted 16,384 and 32,768 times. A restart among 10,000 children may take 1.2 times the instructions of one among
10 at most.

A row that is more than 2 % above the table is a loss, and fails. One that is more than 2 % below it fails too, until the table
is written anew: a later loss would not be seen otherwise. The last line is 'N passed, M failed', and the status is 0 if nothing
failed.
"""
from __future__ import annotations

import argparse
import hashlib
import os
import re
import shutil
import subprocess
import sys
import tempfile
from pathlib import Path

ROOT = Path(__file__).resolve().parent.parent.parent
sys.dont_write_bytecode = True
sys.path.insert(0, str(ROOT / "tools"))
import check  # noqa: E402

BENCH = ROOT / "bench" / "rattle"
KEPT = ROOT / "bin" / "counted"
RUNTIME = ROOT / "checks" / "instructions" / "runtime"
TABLE = ROOT / "docs" / "instructions.txt"
PROGRAM = "pt_bench_counts"
RESTARTS = "pt_bench_restarts"
TIMES = 1_024
# How often a child is restarted: tables of ten thousand are laid out anew some times meanwhile.
RESTARTED = 16 * TIMES
# How many hundredths a row may differ from the table.
SLACK = 2

# The workloads by their functions, and what one of each is.
ROWS = {
    "desks::exchange": "desk: a message there and one back",
    "desks::one_way": "desk: a message one way, 64 a turn",
    "desks::past": "desk: a message to oneself, received past 100 others",
    "desks::spawn": "desk: a spawn and its exit",
    "desks::watch": "desk: a spawn, a monitor, the exit and its DOWN",
    "desks::watch_behind": "desk: the same, behind 10,000 others",
    "desks::link_unlink": "desk: a link and its unlink",
    "desks::monitor_demonitor": "desk: a monitor and its demonitor",
    "nodes::exchange": "node: a message there and one back",
    "nodes::pause": "node: a message, and a pause that keeps no list",
    "crews::bursts": "crew: a message, 16 for each process in a step",
    "crews::ring": "crew: a message, one for each process in a step",
    "crews::idle": "crew: a step with one message, beside 10 that wait",
    "crews::child": "crew: a step with a child that is spawned, and one that exits",
    "as_c::message": "as C: pt_send, pt_turn and pt_receive of a message",
    "as_c::spawn": "as C: pt_spawn and pt_exit",
    "as_c::crew_of_64": "as C: a message of a crew, 64 a step",
    "as_c::crew_of_1": "as C: a step of a crew with one message",
    "kept::call": "a call with its answer, by a monitor",
    "kept::name": "a name that is registered, looked up and given up",
    "kept::timer": "a timer that fires and one that is cancelled, beside 1,000",
}
# The workloads of pt_bench_restarts.
RESTART_ROWS = {
    "restarts::among_10": "supervisor: a restart among 10 children",
    "restarts::among_10_000": "supervisor: a restart among 10,000 children",
}
# Rows that take about what another one takes, whatever differs in their names: at most so many hundredths of it.
ALIKE = {"supervisor: a restart among 10,000 children": "supervisor: a restart among 10 children"}
MOST_ALIKE = 120
# The workloads of Rust's runtime, and what one of each is.
RUNTIME_ROWS = {
    "message": "Rust's runtime: a message between two processes",
    "call": "Rust's runtime: a call between two processes, and its answer",
    "spawn": "Rust's runtime: a spawn, a monitor, the exit and its DOWN",
}
HEAD = """\
# The instructions that one of each takes, in a program that is not proved and is compiled as a proved one.
# `checks/instructions/count.py --write` writes this file, and `./test instructions` compares it.
"""
BY_RUSTC = "# The rows of Rust's runtime are by "
LINE = re.compile(r"(\S.*?) +([\d,]+)$")
NAMED = re.compile(r"(c?)fn=\((\d+)\)(?: (.*))?$")


class Fault(Exception):
    """What the command says before it stops."""


def run(words: list[str], **variables: str) -> str:
    """Runs a command that has to succeed, and returns what it printed."""
    ran = subprocess.run(words, cwd=ROOT, env={**os.environ, **variables}, stdin=subprocess.DEVNULL, capture_output=True, text=True,
                         check=False)
    if ran.returncode:
        raise Fault(f"failed: {' '.join(words)}\n{ran.stdout}{ran.stderr}")
    return ran.stdout


def lay_out(place: Path, program: str) -> None:
    """Lays out the repository's crates as links, with the program beside them. Programs that are built stay in bin/counted."""
    KEPT.mkdir(parents=True, exist_ok=True)
    (place / "bin").symlink_to(KEPT)
    sources = place / "crates" / program / "src"
    sources.mkdir(parents=True)
    for crate in (ROOT / "crates").iterdir():
        (place / "crates" / crate.name).symlink_to(crate)
    for file in [*(BENCH / program).glob("*.rt.txt"), BENCH / "pt_bench_desk" / "tools.rt.txt"]:
        shutil.copyfile(file, sources / file.stem)
    listed = re.search(rf"^{program}: .*$", (BENCH / "crates").read_text(), re.M)
    if not listed:
        raise Fault(f"bench/rattle/crates has no line '{program}:'")
    (place / "crates.txt").write_text(f"{(ROOT / 'crates.txt').read_text()}\n{listed[0]}\n")


def built(program: str) -> Path:
    """A program, which is built anew if a source has changed."""
    with tempfile.TemporaryDirectory(prefix="counted-") as folder:
        lay_out(Path(folder), program)
        run([str(ROOT / ".ci" / "build"), "--in", folder, "--as-proved", program])
    return KEPT / program


def built_runtime() -> Path:
    """The program over Rust's runtime. The library below it is built anew if a source has changed."""
    files = [check.kit() / "KIT-ID", *(ROOT / ".ci" / it for it in ("unproved_archive.py", "unproved.py", "as_proved.py"))]
    files += [ROOT / "bindings" / "build.sh", *sorted((ROOT / "bindings" / "c").glob("*.[ch]"))]
    made_of = check.checksum(check.crates(ROOT), "pt_c") + hashlib.sha256(b"".join(it.read_bytes() for it in files)).hexdigest()
    library, note = KEPT / "library", KEPT / "library.made-of"
    if not check.is_noted(note, made_of):
        note.unlink(missing_ok=True)
        KEPT.mkdir(parents=True, exist_ok=True)
        archive = KEPT / "libpt_c.a"
        run([str(ROOT / ".ci" / "unproved_archive.py"), "--as-proved", str(archive)])
        run([str(ROOT / "bindings" / "build.sh"), str(library)], PT_C_ARCHIVE=str(archive))
        note.write_text(made_of)
    run(["cargo", "build", "-q", "--release", "--offline", "--manifest-path", str(RUNTIME / "Cargo.toml")],
        PUNDEWO_LIB=f"{library}/lib", CARGO_TARGET_DIR=str(KEPT / "target"))
    return KEPT / "target" / "release" / "runtime_counts"


def inclusive(said: str) -> dict[str, int]:
    """The instructions of each function with all that it calls, of a file of callgrind's."""
    names: dict[str, str] = {}
    sums: dict[str, int] = {}
    function = ""
    for line in said.splitlines():
        if named := NAMED.match(line):
            if named[3]:
                names[named[2]] = named[3]
            if not named[1]:
                function = names[named[2]]
        elif line[:1] in "+-*0123456789" and len(words := line.split()) == 2:
            # (a line below 'calls=' has what the called function took)
            sums[function] = sums.get(function, 0) + int(words[1])
    return sums


def profile(words: list[str]) -> str:
    """What callgrind writes of a run."""
    with tempfile.TemporaryDirectory(prefix="counted-") as folder:
        out = Path(folder) / "out"
        run(["valgrind", "--tool=callgrind", f"--callgrind-out-file={out}", *words])
        return out.read_text()


def counted(program: Path, times: int) -> dict[str, int]:
    """What each function takes in a run of a program that does each workload so many times."""
    return inclusive(profile([str(program), str(times)]))


def whole(program: Path, workload: str, times: int) -> int:
    """What a run of a program takes that does this workload so many times."""
    found = re.search(r"^summary: (\d+)$", profile([str(program), workload, str(times)]), re.M)
    if not found:
        raise Fault(f"callgrind wrote no sum of {program.name} {workload}")
    return int(found[1])


def count_runs(program: Path, workloads: dict[str, str]) -> dict[str, int]:
    """The instructions of one of each workload, of which a run does one, by its row."""
    return {row: round((whole(program, name, 2 * TIMES) - whole(program, name, TIMES)) / TIMES) for name, row in workloads.items()}


def count(program: Path, functions: dict[str, str], times: int = TIMES) -> dict[str, int]:
    """The instructions of one of each workload, by its row."""
    few, many = counted(program, times), counted(program, 2 * times)
    missing = [name for name in functions if name not in few or name not in many]
    if missing:
        raise Fault(f"{program.name} has no function {missing[0]}")
    return {row: round((many[name] - few[name]) / times) for name, row in functions.items()}


def read(table: Path) -> dict[str, int]:
    """The rows of a table."""
    lines = table.read_text().splitlines() if table.exists() else []
    found = (LINE.match(line) for line in lines if not line.startswith("#"))
    return {it[1]: int(it[2].replace(",", "")) for it in found if it}


def write(table: Path, counts: dict[str, int], rustc: str = "") -> None:
    """Writes a table."""
    width = max(map(len, counts))
    head = HEAD + (f"{BY_RUSTC}{rustc}\n" if rustc else "")
    table.write_text(head + "".join(f"{row:{width}} {number:6,}\n" for row, number in counts.items()))


def rustc_of(table: Path) -> str:
    """The rustc by which the rows of Rust's runtime are in a table."""
    lines = table.read_text().splitlines() if table.exists() else []
    return next((it.removeprefix(BY_RUSTC) for it in lines if it.startswith(BY_RUSTC)), "")


def fault(row: str, number: int, known: dict[str, int]) -> str | None:
    """What is wrong with a row, if anything is."""
    if row not in known:
        return f"{row}: {number:,} instructions, and the table has no such row: write it anew (--write)"
    wanted = known[row]
    both = f"{row}: {number:,} instructions, and {wanted:,} in the table"
    if number * 100 > wanted * (100 + SLACK):
        return f"{both}, so {number / wanted - 1:.1%} more"
    if number * 100 < wanted * (100 - SLACK):
        return f"{both}, so {1 - number / wanted:.1%} less: write the table anew (--write)"
    return None


def growth(counts: dict[str, int]) -> list[str]:
    """Which rows take more than they may beside another one."""
    both = [(row, counts[row], counts[other]) for row, other in ALIKE.items() if row in counts and other in counts]
    return [f"{row}: {number:,} instructions, which is more than {MOST_ALIKE / 100} times {other:,}"
            for row, number, other in both if number * 100 > other * MOST_ALIKE]


def faults(counts: dict[str, int], known: dict[str, int]) -> list[str]:
    """What is wrong with the rows and with the table."""
    found = [fault(row, number, known) for row, number in counts.items()]
    gone = [f"{row}: the table has a row that is not counted: write it anew (--write)" for row in known if row not in counts]
    return [*(it for it in found if it), *gone, *growth(counts)]


def main(words: list[str]) -> int:
    parser = argparse.ArgumentParser(description=(__doc__ or "").splitlines()[0])
    parser.add_argument("--write", action="store_true", help="write docs/instructions.txt anew")
    asked = parser.parse_args(words)
    if not shutil.which("valgrind"):
        print("instructions: skipped: no valgrind, which counts them (apt-get install valgrind)")
        return 0
    known, rustc = read(TABLE), run(["rustc", "--version"]).strip() if shutil.which("cargo") else ""
    if asked.write and not rustc:
        raise Fault("no cargo, and the table has rows of Rust's runtime, too")
    counts = count(built(PROGRAM), {f"{PROGRAM}::{name}": row for name, row in ROWS.items()})
    counts.update(count(built(RESTARTS), {f"{RESTARTS}::{name}": row for name, row in RESTART_ROWS.items()}, RESTARTED))
    if asked.write or rustc == rustc_of(TABLE):
        counts.update(count_runs(built_runtime(), RUNTIME_ROWS))
    else:
        print(f"instructions: no rows of Rust's runtime: the table has them by {rustc_of(TABLE)}; here is {rustc or 'no cargo'}")
        known = {row: number for row, number in known.items() if row not in RUNTIME_ROWS.values()}
    if asked.write:
        write(TABLE, counts, rustc)
        run([str(ROOT / "tools" / "quotes.py"), "--write", str(TABLE.relative_to(ROOT))])
        known = read(TABLE)
    wrong = faults(counts, known)
    print("".join(f"WRONG: {it}\n" for it in wrong), end="")
    print(f"instructions: {len(counts) - len(wrong)} passed, {len(wrong)} failed")
    return 1 if wrong else 0


if __name__ == "__main__":
    try:
        sys.exit(main(sys.argv[1:]))
    except Fault as error:
        sys.exit(f"count.py: {error}")
