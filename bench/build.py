#!/usr/bin/env python3
"""Builds programs with optimisation, over libraries that were proved before.

    bench/build.py PROGRAM..      each as bin/PROGRAM in the folder that ROOM names (/tmp/pundewo-bench)

A PROGRAM is one of bench/rattle or of the repository's crates. It is proved as it is built; the crates below it are not:
their libraries are those of tools/check.py, which `rt ci` left here or in the checkout whose crates/ PT_LIBRARIES names,
or which `tools/check.py CRATE --build` made. So it takes a minute or two. `bench/run.sh` proves all that is below, too.
RT names another 'rt'.
"""
from __future__ import annotations

import importlib.util
import os
import re
import shutil
import subprocess
import sys
from pathlib import Path
from typing import Any

sys.dont_write_bytecode = True
BENCH = Path(__file__).resolve().parent
REPOSITORY = BENCH.parent
ROOM = Path(os.environ.get("ROOM") or "/tmp/pundewo-bench")
NAME = re.compile(r"^(\w+)[^:\n]*:", re.M)


class Fault(Exception):
    """What the command says before it stops."""


def put(source: Path, to: Path) -> None:
    to.parent.mkdir(parents=True, exist_ok=True)
    shutil.copyfile(source, to)


def lay_out(place: Path) -> None:
    """Lays out a checkout of the repository's crates, as links, with the programs of bench/rattle beside them."""
    shutil.rmtree(place, ignore_errors=True)
    listed = (REPOSITORY / "crates.txt").read_text()
    ours = (BENCH / "rattle" / "crates").read_text()
    (place / "crates").mkdir(parents=True)
    (place / "crates.txt").write_text(listed + ours)
    for name in ("tools/check.py", ".ci/unproved.py", "HANDLES"):
        put(REPOSITORY / name, place / name)
    for name in NAME.findall(listed):
        (place / "crates" / name).symlink_to(REPOSITORY / "crates" / name)
    for file in sorted((BENCH / "rattle").rglob("*.txt")):
        crate, *rest = file.relative_to(BENCH / "rattle").with_suffix("").parts
        inside = rest if file.name.endswith(".antt.txt") else ["src", *rest]
        put(file, place.joinpath("crates", crate, *inside))


def checks(place: Path) -> Any:
    """tools/check.py of that checkout."""
    spec = importlib.util.spec_from_file_location("check", place / "tools" / "check.py")
    if spec is None or spec.loader is None:
        raise Fault("tools/check.py is not there")
    module = importlib.util.module_from_spec(spec)
    spec.loader.exec_module(module)
    return module


def run(words: list[str], folder: Path) -> None:
    if subprocess.run(words, cwd=folder, check=False).returncode != 0:
        raise Fault(f"failed: {' '.join(words[:3])} .. in {folder}")


def build(place: Path, name: str) -> None:
    """Proves and compiles a program, and links it."""
    check = checks(place)
    listed = check.crates(place)
    if name not in listed:
        raise Fault(f"no program '{name}' in crates.txt or bench/rattle/crates")
    tools: Path = check.kit()
    objects, to = place / f"{name}.o", ROOM / "bin" / name
    words: list[str] = check.compiler_words(listed, name)
    run(
        [f"{tools}/bin/rattle", "build", *words, "-o", str(objects), "--toolchain", f"{tools}/toolchain"],
        place / "crates" / name,
    )
    to.parent.mkdir(exist_ok=True)
    run(
        [
            f"{tools}/bin/rattle-link", "--target", "x86_64-unknown-linux-gnu", "--toolchain", f"{tools}/toolchain",
            "-o", str(to), str(objects), f"{tools}/c/libos_c.a", f"{tools}/c/liblibc_c.a",
        ],
        place,
    )


def main(names: list[str]) -> int:
    if not names or names[0].startswith("-"):
        raise Fault("wanted: bench/build.py PROGRAM..")
    os.environ.setdefault("PT_LIBRARIES", str(REPOSITORY / "crates"))
    place = ROOM / "built"
    lay_out(place)
    for name in names:
        build(place, name)
    return 0


if __name__ == "__main__":
    try:
        sys.exit(main(sys.argv[1:]))
    except (Fault, OSError) as fault:
        sys.exit(f"build.py: {fault}")
