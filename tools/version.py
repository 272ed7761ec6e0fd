#!/usr/bin/env python3
"""Compares each place that has the version with the one that the programs print.

    tools/version.py    prints the places that differ; status 1 if there is one

The version is the constant `VERSION` of the sources. The programs print it. What is not compiled with them repeats it:
the manifests of the bindings and of the benchmark, the newest entry of CHANGELOG.md, and stored outputs.
"""
from __future__ import annotations

import re
import sys
from pathlib import Path

ROOT = Path(__file__).resolve().parent.parent
SOURCE = "crates/pt_render/src/choices.rt"
# Each file, and the form of the line that has the version. The first such line counts.
PLACES = {
    "CHANGELOG.md": r"^## (\S+)",
    "crates/pt_schedules/src/options.rt": r'\.version\("(.*)"\)',
    "bindings/c/pundewo.h": r'^#define PUNDEWO_VERSION "(.*)"',
    "bindings/rust/sys/Cargo.toml": r'^version = "(.*)"',
    "bindings/rust/Cargo.toml": r'^version = "(.*)"',
    "bindings/python/pundewo/__init__.py": r'^__version__ = "(.*)"',
    "bench/rust/Cargo.toml": r'^version = "(.*)"',
    "checks/examples/version.json.stdout": r"^pt_run (\S+)",
    "checks/audit/selected.txt": r"^pt_audit (\S+)",
}


def found(path: str, form: str) -> str:
    """The version that a file has."""
    line = re.search(form, (ROOT / path).read_text(), re.M)
    return line[1] if line else "none"


def main() -> None:
    version = found(SOURCE, r'^pub const VERSION: &str = "(.*)";')
    wrong = [(path, there) for path, form in PLACES.items() if (there := found(path, form)) != version]
    for path, there in wrong:
        print(f"{path}: it has version {there}, and {SOURCE} has {version}")
    print(f"version: {len(PLACES) - len(wrong)} passed, {len(wrong)} failed")
    sys.exit(bool(wrong))


if __name__ == "__main__":
    main()
