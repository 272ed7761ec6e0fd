#!/usr/bin/env python3
"""Measures Rust's runtime, crews of C and Python's runtime beside tokio, asyncio and Erlang's processes, in one run.

    bench/beside.py LIBRARY [ROUNDS] [--write]

LIBRARY is a folder that bindings/build.sh has built; ROUNDS is 5 if it is not given. It prints a section of RESULTS.md, or
writes it there.

A row is what one of a workload takes of the processor, in microseconds. Each program is run for a number of times, and at once
behind that for twice as many. What the second run takes more is the figure of a round, in which the programs take turns. The row
is the median of the rounds: other work, and a processor that grows slower meanwhile, make one round higher or lower. A run takes
about half a second, many times what its start differs by. The second table is by the wall, too: so it says something only if
the machine has a processor for each desk. What is missing (cargo, Debian's tokio, erl) is left out, and said.
"""
from __future__ import annotations

import argparse
import os
import shutil
import subprocess
import sys
import tempfile
import time
from datetime import date
from pathlib import Path
from statistics import median
from typing import NamedTuple

ROOT = Path(__file__).resolve().parent.parent
DEBIAN = Path("/usr/share/cargo/registry")
HEADING = "## Beside tokio, asyncio and Erlang's processes\n"
# How many messages one of the workload `crew_64` is.
PAIRS = 64
# The shapes of Rust's runtime on several desks, with what they are, and how many messages a run has.
SHAPES = {"own": "in pairs of one desk", "all": "between one desk and the next"}
DESKS = (1, 2, 4)
MESSAGES = 1_000_000
# How many items wait for a process that calls, and how often it calls then: about as long each time. What walks nothing says itself
# how often it is done at least.
WAITING = {0: 400_000, 1_000: 200_000, 10_000: 20_000, 100_000: 2_000}
# After how many events the node goes on: the runtime's own number, and a small one.
EVERY = (100_000, 10_000)


class Workload(NamedTuple):
    """The word that asks a program for it, how often it is done, and how many of what the row says one is."""

    word: str
    times: int
    many: int = 1

# What a process does behind items that wait.
CALLER = {"a call": Workload("called", 1), "a spawn and its DOWN": Workload("down", 200_000)}
ERLANG_CALLER = {"a call": Workload("call", 100_000), "a spawn and its DOWN": Workload("spawn", 100_000)}


class Program(NamedTuple):
    """A program with its workloads, by their rows."""

    name: str
    words: list[str]
    workloads: dict[str, Workload]


class Cost(NamedTuple):
    """Seconds of a processor, and by the wall."""

    processor: float
    wall: float


def run(words: list[str], **variables: str) -> None:
    subprocess.run(words, check=True, env={**os.environ, **variables}, stdin=subprocess.DEVNULL)


def cost(words: list[str]) -> Cost:
    """What a program takes, with all its threads."""
    began = time.monotonic()
    child = subprocess.Popen(words, stdin=subprocess.DEVNULL, stdout=subprocess.DEVNULL)
    _, status, used = os.wait4(child.pid, 0)
    if status:
        raise SystemExit(f"beside.py: failed: {' '.join(words)}")
    return Cost(float(used.ru_utime + used.ru_stime), time.monotonic() - began)


def taken(pairs: list[tuple[list[str], list[str]]], rounds: int) -> list[Cost]:
    """What the second command of each pair takes more than the first one: the median of so many rounds."""
    found: list[list[Cost]] = [[] for _ in pairs]
    for _ in range(rounds):
        for (first, second), differences in zip(pairs, found):
            few, more = cost(first), cost(second)
            differences.append(Cost(more.processor - few.processor, more.wall - few.wall))
    return [Cost(median(it.processor for it in rows), median(it.wall for it in rows)) for rows in found]


def rust(library: Path, room: Path) -> list[Program]:
    """Those that cargo builds."""
    if not shutil.which("cargo"):
        print("beside.py: no cargo: Rust's runtime and tokio are left out", file=sys.stderr)
        return []
    runtime = ROOT / "checks" / "instructions" / "runtime" / "Cargo.toml"
    run(["cargo", "build", "-q", "--release", "--offline", "--manifest-path", str(runtime)], PUNDEWO_LIB=str(library / "lib"),
        CARGO_TARGET_DIR=str(room))
    rows = {"message": Workload("message", 2_000_000), "call": Workload("call", 400_000), "spawn": Workload("spawn", 400_000)}
    found = [Program("Rust's runtime", [str(room / "release" / "runtime_counts")], rows)]
    if not list(DEBIAN.glob("tokio-1.*")):
        print("beside.py: no tokio: it is left out (apt-get install librust-tokio-dev)", file=sys.stderr)
        return found
    offline = ["--offline", "--config", 'source.crates-io.replace-with="debian"', "--config",
               f'source.debian.directory="{DEBIAN}"']
    manifest = ROOT / "bench" / "bindings" / "beside" / "Cargo.toml"
    run(["cargo", "build", "-q", "--release", *offline, "--manifest-path", str(manifest)], CARGO_TARGET_DIR=str(room))
    return [*found, Program("tokio, one thread", [str(room / "release" / "beside")], rows)]


def c(library: Path, room: Path) -> Program:
    source, built = ROOT / "bench" / "bindings" / "calls.c", room / "calls"
    run(["cc", "-std=c11", "-O2", "-pthread", "-I", str(library / "include"), "-o", str(built), str(source),
         str(library / "lib" / "libpundewo.a")])
    rows = {"message": Workload("crew", 2_000_000), "message, 64 a step": Workload("crew_64", 30_000, PAIRS)}
    return Program("C, a crew", [str(built)], rows)


def python() -> list[Program]:
    words = [sys.executable, str(ROOT / "bench" / "bindings" / "in_python.py")]
    rows = {"message": Workload("message", 80_000), "call": Workload("call", 20_000)}
    return [Program("Python's runtime", [*words, "pundewo"], {**rows, "restart": Workload("restart", 10_000)}),
            Program("asyncio", [*words, "asyncio"], rows)]


def erlang(room: Path) -> list[Program]:
    if not shutil.which("erlc"):
        print("beside.py: no erlc: Erlang's processes are left out (apt-get install erlang-base)", file=sys.stderr)
        return []
    run(["erlc", "-o", str(room), str(ROOT / "bench" / "erlang" / "beside.erl")])
    words = ["erl", "-noshell", "+S", "1", "-pa", str(room), "-s", "beside", "main"]
    rows = {"message": Workload("message", 2_000_000), "call": Workload("call", 500_000), "spawn": Workload("spawn", 500_000)}
    return [Program("Erlang", words, rows)]


def table(programs: list[Program], rounds: int) -> str:
    """What one of each workload takes."""
    asked = [(it, row) for it in programs for row in it.workloads]
    works = [(it.words, it.workloads[row]) for it, row in asked]
    costs = taken([([*words, work.word, str(work.times)], [*words, work.word, str(2 * work.times)]) for words, work in works], rounds)
    micros = {(it.name, row): more.processor / it.workloads[row].times / it.workloads[row].many * 1e6
              for (it, row), more in zip(asked, costs)}
    rows = list(dict.fromkeys(row for _, row in asked))
    lines = [f"| | {' | '.join(rows)} |", "|---|" + "---|" * len(rows)]
    lines += [f"| {it.name} | {' | '.join(f'{micros[it.name, row]:.2f}' if row in it.workloads else '' for row in rows)} |"
              for it in programs]
    return "".join(f"{line}\n" for line in lines)


def desks_table(runtime: list[str], rounds: int) -> str:
    """What a message of Rust's runtime takes on several desks."""
    asked = [(shape, desks, every) for shape in SHAPES for desks in DESKS for every in EVERY]
    costs = taken([([*runtime, shape, str(MESSAGES), str(desks), str(every)], [*runtime, shape, str(2 * MESSAGES), str(desks), str(every)])
                   for shape, desks, every in asked], rounds)
    text = ("| Messages | desks | the node goes on after | microseconds of a processor for each | "
            "millions a second by the wall |\n|---|---|---|---|---|\n")
    for (shape, desks, every), more in zip(asked, costs):
        micros = more.processor / MESSAGES * 1e6
        text += f"| {SHAPES[shape]} | {desks} | {every:,} events | {micros:.2f} | {MESSAGES / more.wall / 1e6:.2f} |\n"
    return text


def waiting_table(programs: list[Program], rounds: int) -> str:
    """What a call and a DOWN take behind items that wait."""
    asked = [(it, row, items) for it in programs for row in it.workloads for items in WAITING]
    times = [max(WAITING[items], it.workloads[row].times) for it, row, items in asked]
    costs = taken([([*it.words, it.workloads[row].word, str(count), str(items)],
                    [*it.words, it.workloads[row].word, str(2 * count), str(items)])
                   for (it, row, items), count in zip(asked, times)], rounds)
    micros = {key: more.processor / count * 1e6
              for key, count, more in zip(((it.name, row, items) for it, row, items in asked), times, costs)}
    text = f"| Items that wait | {' | '.join(f'{it:,}' for it in WAITING)} |\n|---|{'---|' * len(WAITING)}\n"
    for it in programs:
        for row in it.workloads:
            text += f"| {it.name}: {row} | {' | '.join(f'{micros[it.name, row, items]:.2f}' for items in WAITING)} |\n"
    return text


def section(library: Path, rounds: int) -> str:
    """The section of RESULTS.md, from its heading on."""
    os.environ.update(PUNDEWO_SO=str(library / "lib" / "libpundewo.so"), PYTHONPATH=str(ROOT / "bindings" / "python"),
                      PYTHONDONTWRITEBYTECODE="1")
    archive = (library / "lib" / "libpundewo.a").read_bytes()
    proved = "that is not proved" if b"pt_c_is_not_proved" in archive else "that was proved"
    with tempfile.TemporaryDirectory(prefix="beside-") as folder:
        room = Path(folder)
        cargo = rust(library, room)
        programs = [*cargo, c(library, room), *python(), *erlang(room)]
        first, before = table(programs, rounds), os.getloadavg()[0]
        second = desks_table(cargo[0].words, rounds) if cargo else ""
        third = waiting_table([Program("A desk", [str(room / "calls")], CALLER),
                               *(it._replace(workloads=ERLANG_CALLER) for it in programs if it.name == "Erlang")], rounds)
    return (f"{HEADING}\n{date.today():%-d %B %Y}, beside other work (load {before:.0f} on {os.cpu_count()} processors), over "
            f"a library {proved}. `bench/beside.py` wrote this section: microseconds of a processor for one of each, the "
            f"median of {rounds} rounds in which the programs took turns. A call is one with its answer, a spawn one with the exit "
            "and the `DOWN`, and a restart that of a supervisor's child. Only Pundewo's have a journal.\n\n"
            f"{first}\nRust's runtime on several desks, with 64 processes on each, in the same way:\n\n{second}\n"
            "A process that calls another one, or that spawns and monitors one and waits for its `DOWN`, while so many items wait "
            "for it, in microseconds. On a desk a call is `monitor`, two messages, `receive` by the sender, and `demonitor`; "
            "in Erlang it is `gen_server:call`. A crew, and the runtimes above it, take each item in turn and walk nothing.\n\n"
            f"{third}\n")


def write(written: str) -> None:
    """Puts the section into RESULTS.md, in its place or at the end."""
    page = ROOT / "bench" / "RESULTS.md"
    before, heading, rest = page.read_text().partition(HEADING)
    behind = rest.find("\n## ") if heading else -1
    page.write_text(before + ("" if heading else "\n") + written.rstrip() + "\n" + (rest[behind:] if behind >= 0 else ""))


def main(words: list[str]) -> int:
    parser = argparse.ArgumentParser(description=(__doc__ or "").splitlines()[0])
    parser.add_argument("library", type=Path, help="a folder that bindings/build.sh has built")
    parser.add_argument("rounds", type=int, nargs="?", default=5)
    parser.add_argument("--write", action="store_true", help="write the section into bench/RESULTS.md")
    asked = parser.parse_args(words)
    written = section(asked.library.resolve(), asked.rounds)
    if asked.write:
        write(written)
    else:
        print(written, end="")
    return 0


if __name__ == "__main__":
    sys.exit(main(sys.argv[1:]))
