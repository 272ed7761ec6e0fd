#!/usr/bin/env python3
"""Finds the .rt and .antt files of all crates that are not in the layout of `rt fmt`, and Rust's that are not in that of `cargo fmt`.

    tools/layout.py            names each such file, and says where to run what; status 1 if there is one

`rt ci` looks at the files of a crate when its turn comes, which may be an hour after its start, and the bindings come behind it.
This looks at all in seconds. Without `cargo fmt` it leaves Rust's out. The last line is 'N passed, M failed', by files and by
packages of Rust. RT names another 'rt'.
"""
from __future__ import annotations

import re
import shutil
import subprocess
import sys
from pathlib import Path

sys.dont_write_bytecode = True
ROOT = Path(__file__).resolve().parent.parent
sys.path.insert(0, str(ROOT / ".ci"))
from unproved import Fault, kit  # noqa: E402

PARTS = ("src", "specs", "proofs")
RUST = ("bindings/rust", "bindings/rust/tokio")
# The line that the toolchain prints of a file: it is not in the layout, or does not parse.
NAMED = re.compile(r"(crates/(\w+)/[^\n:]*?)(?: is not in the layout|: )")


def laid_out(crates: Path) -> list[Path]:
    """The files that have a layout, those of each crate together."""
    folders = (crate / part for crate in sorted(crates.iterdir()) for part in PARTS)
    return [file for it in folders for kind in ("*.antt", "*.rt") for file in sorted(it.rglob(kind)) if file.is_file()]


def crates_out_of_layout(files: list[str]) -> int:
    """Names the files of crates that are not in their layout, and returns how many they are."""
    ran = subprocess.run([kit() / "bin/rattle", "fmt", "--check", *files], cwd=ROOT, stdin=subprocess.DEVNULL, stdout=subprocess.PIPE,
                         stderr=subprocess.STDOUT, text=True, errors="replace", check=False)
    found = dict(it.groups() for line in ran.stdout.splitlines() if (it := NAMED.match(line)) and it[1] in files)
    print(ran.stdout, end="")
    for crate in dict.fromkeys(found.values()):
        print(f"run rt fmt in the folder of the crate: cd crates/{crate} && rt fmt")
    # (a status of 2 or 3 says that the toolchain itself failed)
    return max(len(found), int(ran.returncode != 0))


def is_laid_out(package: Path) -> bool:
    """Whether a package of Rust is in its layout; names its files that are not."""
    ran = subprocess.run(["cargo", "fmt", "--all", "--", "--check", "-l"], cwd=package, stdin=subprocess.DEVNULL, stdout=subprocess.PIPE,
                         stderr=subprocess.STDOUT, text=True, errors="replace", check=False)
    print(ran.stdout, end="")
    if ran.returncode:
        print(f"run cargo fmt in the folder of the package: cd {package.relative_to(ROOT)} && cargo fmt --all")
    return ran.returncode == 0


def has_cargo_fmt() -> bool:
    """Whether there is a `cargo fmt`."""
    return bool(shutil.which("cargo")) and subprocess.run(["cargo", "fmt", "--version"], capture_output=True, check=False).returncode == 0


def main(words: list[str]) -> int:
    if words:
        raise Fault("wanted: tools/layout.py")
    files = [str(it.relative_to(ROOT)) for it in laid_out(ROOT / "crates")]
    if not files:
        raise Fault("no crate has a .rt or .antt file")
    wrong = crates_out_of_layout(files)
    packages = [ROOT / it for it in RUST if (ROOT / it / "Cargo.toml").exists()]
    if packages and not has_cargo_fmt():
        print("layout: no rustfmt: the layout of Rust's sources is not looked at (rustup component add rustfmt; apt-get install rustfmt)")
        packages = []
    wrong += sum(not is_laid_out(it) for it in packages)
    print(f"{len(files) + len(packages) - wrong} passed, {wrong} failed")
    return 1 if wrong else 0


if __name__ == "__main__":
    try:
        sys.exit(main(sys.argv[1:]))
    except Fault as fault:
        sys.exit(f"layout.py: {fault}")
