#!/usr/bin/env python3
"""Builds a program without proofs, with optimisation.

    bench/build_unproved.py PROGRAM TO [--in FOLDER]      PROGRAM of crates.txt, in this checkout or in that of FOLDER

It takes the module that `rt try` compiles, without its checks, and compiles that as a proved program is compiled
(`.ci/as_proved.py`). So it takes two minutes where nothing below the program is proved, and the program takes within 1 % of
the instructions of a proved one. RT names another 'rt'.
"""
from __future__ import annotations

import argparse
import subprocess
import sys
import tempfile
from pathlib import Path

sys.dont_write_bytecode = True
REPOSITORY = Path(__file__).resolve().parent.parent
sys.path.insert(0, str(REPOSITORY / ".ci"))
from as_proved import FLAGS, as_proved  # noqa: E402
from unproved import Fault, clang, kit, module  # noqa: E402


def build(root: Path, name: str, to: Path) -> None:
    """Builds a program of a checkout, and puts it at this path."""
    tools = kit()
    with tempfile.TemporaryDirectory(prefix="unproved-") as room:
        folder = Path(room)
        text, objects = folder / "program.ll", folder / "program.o"
        text.write_text(as_proved(module(root, name, folder), root, tools))
        clang(tools, [*FLAGS, "-c", "-x", "ir", str(text), "-o", str(objects)])
        libraries = [f"{tools}/c/libos_c.a", f"{tools}/c/liblibc_c.a", "-lpthread", "-lm"]
        ran = subprocess.run(["cc", "-o", str(to), str(objects), *libraries], capture_output=True, text=True, check=False)
        if ran.returncode:
            raise Fault(f"cc failed: {ran.stderr}")


def main(words: list[str]) -> None:
    asked = argparse.ArgumentParser(description=(__doc__ or "").splitlines()[0])
    asked.add_argument("program")
    asked.add_argument("to", type=Path)
    asked.add_argument("--in", dest="root", type=Path, default=REPOSITORY, metavar="FOLDER")
    found = asked.parse_args(words)
    build(found.root.resolve(), found.program, found.to.resolve())


if __name__ == "__main__":
    try:
        main(sys.argv[1:])
    except Fault as fault:
        sys.exit(f"build_unproved.py: {fault}")
