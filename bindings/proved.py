#!/usr/bin/env python3
"""Keeps the library and the programs that the gate proved and built, so that no later command proves them again.

    bindings/proved.py                        prints the folder of what was kept, if it was made of the crates as they are
                                              now; else it says what differs, with status 1
    bindings/proved.py --keep ARCHIVE FOLDER  keeps this archive of pt_c, the FOLDER that bindings/build.sh built of it, and
                                              the programs that `rt ci` left; and writes docs/proved-files.txt
    bindings/proved.py --compare FOLDER       whether the files of FOLDER are those of the gate, by docs/proved-files.txt
    bindings/proved.py --note                 notes that `rt ci` has passed the crates as they are now
    bindings/proved.py --noted                whether it has; else it says what differs, with status 1

docs/proved-files.txt has the checksum of each file that the gate built, by version. So a reader who has a file, and not the
toolchain, sees by `sha256sum` whether it is that of the gate. Once CHANGELOG.md calls a version released, its lines stay as
they are, and a gate that builds other files of it fails.
"""
from __future__ import annotations

import hashlib
import re
import shutil
import sys
from pathlib import Path

sys.dont_write_bytecode = True
ROOT = Path(__file__).resolve().parent.parent
sys.path[:0] = [str(ROOT / "tools"), str(ROOT / ".ci")]
import check  # noqa: E402
from unproved import Fault, crates, kit  # noqa: E402

KEPT = ROOT / "out" / "proved"
NOTE = ROOT / "out" / "passed"
LISTED = ROOT / "docs" / "proved-files.txt"
PROGRAMS = ("pt_run", "pt_audit", "pt_explore", "pt_shell")
HEAD = """\
# What the gate proved and built last, by version: each file with its SHA-256. bindings/proved.py writes and compares it.
"""


def sum_of(path: Path) -> str:
    """The SHA-256 of a file."""
    return hashlib.sha256(path.read_bytes()).hexdigest()


def version() -> str:
    """The version of the header."""
    found = re.search(r'^#define PUNDEWO_VERSION "(.*)"', (ROOT / "bindings/c/pundewo.h").read_text(), re.M)
    if found is None:
        raise Fault("bindings/c/pundewo.h has no PUNDEWO_VERSION")
    return found[1]


def is_released(name: str) -> bool:
    """Whether CHANGELOG.md calls a version released."""
    return re.search(rf"^## {re.escape(name)}(?! \(not released yet\))", (ROOT / "CHANGELOG.md").read_text(), re.M) is not None


def crate_sums() -> dict[str, str]:
    """The checksums of all that the archive and the programs are proved and built of."""
    listed = crates(ROOT)
    return {**{name: check.checksum(listed, name) for name in ("pt_c", *PROGRAMS)}, "toolchain": sum_of(kit() / "KIT-ID")}


def made_of() -> dict[str, str]:
    """The checksums of all that a built folder is made of."""
    own = ROOT / "bindings"
    return {**crate_sums(), **{path.name: sum_of(path) for path in (*sorted((own / "c").glob("pundewo*")), own / "c/version.c",
                                                                    own / "build.sh")}}


def write_sums(path: Path, sums: dict[str, str]) -> None:
    """Writes checksums, a line each."""
    path.parent.mkdir(exist_ok=True)
    path.write_text("".join(f"{name} {found}\n" for name, found in sums.items()))


def compared(stamp: Path, now: dict[str, str], what: str) -> None:
    """Fails if this was not made of the sources as they are now."""
    if not stamp.exists():
        raise Fault(f"{what} is not there: .ci/run makes it")
    was = dict(line.split() for line in stamp.read_text().splitlines())
    other = sorted(name for name, found in now.items() if was.get(name) != found)
    if other:
        raise Fault(f"{what} is of other sources than those of now: {', '.join(other)}")


def kept(now: dict[str, str]) -> Path:
    """The folder of what was kept, if it was made of these sources."""
    compared(KEPT / "made-of", now, f"what the gate leaves in {KEPT}")
    return KEPT


def listed_sums(name: str) -> dict[str, str]:
    """The files of a version in the list, with their checksums."""
    lines = LISTED.read_text().splitlines() if LISTED.exists() else []
    rows = [line.split() for line in lines if line and not line.startswith("#")]
    return {row[1]: row[2] for row in rows if row[0] == name}


def found_sums(folder: Path, programs: Path) -> dict[str, str]:
    """The files of a built folder and of one of programs that the list names, with their checksums."""
    paths = [folder / "libpt_c.a", folder / "lib/libpundewo.a", folder / f"lib/libpundewo.so.{version()}"]
    paths += [programs / name for name in PROGRAMS]
    return {path.name: sum_of(path) for path in paths if path.exists()}


def differing(folder: Path, programs: Path) -> list[str]:
    """Lines on the files of a built folder and of one of programs that are not those of the list."""
    listed = listed_sums(version())
    return [f"{name} has the checksum {found}, and docs/proved-files.txt has "
            + (f"{listed[name]} for it" if name in listed else f"none for {name} of {version()}")
            for name, found in found_sums(folder, programs).items() if listed.get(name) != found]


def write_list(folder: Path) -> None:
    """Writes the lines of this version, or fails if it was released with other files."""
    name = version()
    faults = differing(folder, folder / "bin")
    if faults and is_released(name):
        raise Fault(f"version {name} was released with other files: {'; '.join(faults)}")
    old = LISTED.read_text().splitlines() if LISTED.exists() else []
    lines = [line for line in old if line and not line.startswith("#") and line.split()[0] != name]
    lines += [f"{name} {file} {found}" for file, found in found_sums(folder, folder / "bin").items()]
    LISTED.write_text(HEAD + "".join(f"{line}\n" for line in lines))


def keep(archive: Path, folder: Path) -> None:
    """Keeps what was proved and built."""
    shutil.rmtree(KEPT, ignore_errors=True)
    shutil.copytree(folder, KEPT, symlinks=True)
    shutil.copyfile(archive, KEPT / "libpt_c.a")
    left = [ROOT / "crates" / name / "out" / name for name in PROGRAMS]
    # (`rt ci` leaves each as LLVM and as Rattle's own compiler built it, and `rt run` the first alone. All are kept or none)
    if all(path.exists() and path.with_name(f"{path.name}.by-rattle").exists() for path in left):
        (KEPT / "bin").mkdir()
        for path in left:
            shutil.copyfile(path, KEPT / "bin" / path.name)
            (KEPT / "bin" / path.name).chmod(0o755)
    files = sorted(path for part in ("bin", "include", "lib") for path in (KEPT / part).rglob("*") if not path.is_symlink())
    (KEPT / "SHA256SUMS").write_text(
        "".join(f"{sum_of(path)}  {path.relative_to(KEPT)}\n" for path in files if path.is_file()))
    write_list(KEPT)
    # (last, so that what an interrupted run left is not taken)
    write_sums(KEPT / "made-of", made_of())


def main(words: list[str]) -> int:
    if not words:
        print(kept(crate_sums()))
    elif words[0] == "--keep" and len(words) == 3:
        keep(Path(words[1]), Path(words[2]))
        print(f"kept in {KEPT}: {', '.join(found_sums(KEPT, KEPT / 'bin'))}")
    elif words == ["--note"]:
        write_sums(NOTE, crate_sums())
    elif words == ["--noted"]:
        compared(NOTE, crate_sums(), "what `rt ci` passed")
    elif words[0] == "--compare" and len(words) == 2:
        faults = differing(Path(words[1]), Path(words[1]) / "bin")
        print("".join(f"{fault}\n" for fault in faults), end="")
        return 1 if faults else 0
    else:
        raise Fault("wanted: bindings/proved.py [--keep ARCHIVE FOLDER | --compare FOLDER | --note | --noted]")
    return 0


if __name__ == "__main__":
    try:
        sys.exit(main(sys.argv[1:]))
    except Fault as fault:
        sys.exit(f"proved.py: {fault}")
