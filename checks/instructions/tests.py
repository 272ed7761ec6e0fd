#!/usr/bin/env python3
"""Tests of count.py: a loop that is planted in a workload fails, with both numbers. Without valgrind it is skipped.

    checks/instructions/tests.py
"""
from __future__ import annotations

import contextlib
import io
import os
import shutil
import subprocess
import sys
import tempfile
from pathlib import Path
from unittest import mock

sys.dont_write_bytecode = True
HERE = Path(__file__).resolve().parent
sys.path.insert(0, str(HERE))
import count  # noqa: E402

# A program with two workloads. PLANTED is how often the second one goes through a loop besides.
PROGRAM = """\
#include <stdlib.h>
#include <string.h>
static volatile unsigned sum;
__attribute__((noinline)) void add(long times) { while (times-- > 0) sum += 3; }
__attribute__((noinline)) static void step(void) {
    for (int k = 0; k < 100; k++) sum += k;
    for (int k = 0; k < PLANTED; k++) sum ^= k;
}
__attribute__((noinline)) void walk(long times) { while (times-- > 0) step(); }
int main(int argc, char **argv) {
    long times = argc > 1 ? atol(argv[argc - 1]) : 0;
    if (argc < 3 || !strcmp(argv[1], "add")) add(times);
    if (argc < 3 || !strcmp(argv[1], "walk")) walk(times);
    return 0;
}
"""
FUNCTIONS = {"add": "an addition", "walk": "a walk"}
passed, failed = 0, 0


def holds(what: str, fact: bool) -> None:
    """Counts a test."""
    global passed, failed
    passed, failed = passed + fact, failed + (not fact)
    if not fact:
        print(f"WRONG: {what}")


def program(folder: Path, planted: int) -> dict[str, int]:
    """What the workloads of the program take, with so many rounds of the loop that is planted."""
    built = folder / f"program_{planted}"
    (folder / "program.c").write_text(PROGRAM)
    subprocess.run(["cc", "-O1", f"-DPLANTED={planted}", "-o", str(built), str(folder / "program.c")], check=True)
    return count.count(built, FUNCTIONS)


def planted_loops(folder: Path) -> None:
    """A loop that is planted is found, and one that goes is told."""
    table = folder / "table.txt"
    plain = program(folder, 10)
    count.write(table, plain)
    known = count.read(table)
    holds("a table without Rust's runtime names no rustc", count.rustc_of(table) == "")
    count.write(table, plain, "rustc 1.2.3 (of today)")
    holds("a table names the rustc of its rows", count.rustc_of(table) == "rustc 1.2.3 (of today)" and count.read(table) == plain)
    holds("a table that is written is read again", known == plain and len(known) == len(FUNCTIONS))
    holds("the same program counted again is as it was", program(folder, 10) == plain)
    slower = program(folder, 20)
    told = count.faults(slower, known)
    holds("the workload without the loop stays", slower["an addition"] == plain["an addition"])
    holds("a loop that is planted fails, and its workload alone", len(told) == 1 and told[0].startswith("a walk: "))
    both = [f"{it['a walk']:,}" for it in (slower, plain)]
    holds("both numbers are named", len(told) == 1 and all(number in told[0] for number in both) and "more" in told[0])
    runs = count.count_runs(folder / "program_20", FUNCTIONS)
    holds("a run of one workload takes what its function takes", all(abs(runs[it] - slower[it]) <= 1 for it in slower))
    told = count.faults(program(folder, 0), known)
    holds("a workload that takes less asks for the table", len(told) == 1 and "--write" in told[0] and "less" in told[0])


def tables() -> None:
    """What is compared, and what is not."""
    known = {"a": 1_000, "b": 50}
    holds("a table passes as it is", not count.faults(known, known))
    holds("2 % more passes", not count.faults({"a": 1_020, "b": 51}, known))
    holds("more than 2 % fails", len(count.faults({"a": 1_021, "b": 50}, known)) == 1)
    holds("2 % less passes", not count.faults({"a": 980, "b": 49}, known))
    holds("more than 2 % less fails", len(count.faults({"a": 979, "b": 50}, known)) == 1)
    holds("a row that the table lacks fails", len(count.faults({**known, "c": 1}, known)) == 1)
    holds("a row that is not counted fails", len(count.faults({"a": 1_000}, known)) == 1)
    many, few = next(iter(count.ALIKE.items()))
    holds("1.2 times passes for rows that are alike", not count.growth({many: 1_200, few: 1_000}))
    told = count.growth({many: 1_201, few: 1_000})
    holds("more fails, and both numbers are named", len(told) == 1 and "1,201" in told[0] and "1,000" in told[0])


def without_valgrind(folder: Path) -> None:
    """Without valgrind the command says that it skips all, and how it is had."""
    python = Path(sys.executable)
    ran = subprocess.run([str(python), str(HERE / "count.py")], env={**os.environ, "PATH": str(folder / "empty")},
                         capture_output=True, text=True, check=False)
    holds("without valgrind it says so", ran.returncode == 0 and ran.stdout.startswith("instructions: skipped: no valgrind"))


def by_another_rustc() -> None:
    """Without cargo, or by another rustc, the rows of Rust's runtime are left out. They are compared by that of the table."""
    known = count.read(count.TABLE)
    rows = {row: known[row] for row in (*count.ROWS.values(), *count.RESTART_ROWS.values())}
    runtime = {row: known[row] for row in count.RUNTIME_ROWS.values()}
    here = count.rustc_of(count.TABLE)
    for cargo, rustc, counted, status in (
        (None, "", {}, 0), ("cargo", "rustc 0.0.1", {}, 0), ("cargo", here, runtime, 0),
        ("cargo", here, {row: number * 2 for row, number in runtime.items()}, 1),
    ):
        with (
            mock.patch.object(count.shutil, "which", lambda name: cargo if name == "cargo" else "/"),
            mock.patch.multiple(count, run=lambda *_: rustc, built=Path, built_runtime=Path, count=lambda *_: dict(rows),
                                count_runs=lambda *_: counted),
            contextlib.redirect_stdout(io.StringIO()) as said,
        ):
            ended = count.main([])
        wanted = f"instructions: {len(rows) + (0 if status else len(counted))} passed, {len(counted) if status else 0} failed"
        holds(f"rows by '{rustc}': {said.getvalue()}", ended == status and said.getvalue().splitlines()[-1] == wanted)
        holds(f"'{rustc}' is told", ("no rows of Rust's runtime" in said.getvalue()) == (not counted))


def main() -> int:
    tables()
    by_another_rustc()
    with tempfile.TemporaryDirectory(prefix="instructions-") as folder:
        without_valgrind(Path(folder))
        if shutil.which("valgrind"):
            planted_loops(Path(folder))
        else:
            print("no valgrind: no loop is planted")
    print(f"instructions: {passed} passed, {failed} failed")
    return 1 if failed else 0


if __name__ == "__main__":
    sys.exit(main())
