#!/usr/bin/env python3
"""Makes the packages for those who have no toolchain, of a library that was built before. It proves and compiles nothing.

    make -C bindings dist [LIBRARY=FOLDER] [PROGRAMS=FOLDER] [DIST=FOLDER]
    bindings/dist.py [--library FOLDER] [--programs FOLDER] [--into FOLDER]

LIBRARY is what `bindings/build.sh FOLDER` built, and PROGRAMS has pt_run, pt_audit, pt_explore and pt_shell (LIBRARY/bin).
Without LIBRARY it takes what the gate proved and left (bindings/proved.py), and refuses it if the sources are others now. A
library that says that it was proved has to be that of the gate, by docs/proved-files.txt.

DIST (dist/ at the top) gets:

    pundewo-VERSION-linux-x86_64.tar.gz        headers, libraries, programs and pages, wherever it is unpacked
    pundewo-VERSION-py3-none-PLATFORMS.whl     the package for Python 3.9 and later, with the shared library
    pundewo-VERSION.tar.gz                     the same as a source distribution
    pundewo-sys-VERSION.crate                  the crate with the archive and its checksum
    pundewo-VERSION.crate                      the crate for Rust programs, over that one
    NAME_VERSION-1_amd64.deb                   libpundewo0, libpundewo-dev, pundewo (programs and pages), python3-pundewo
    SHA256SUMS

Two runs on the same files make the same packages, byte for byte. All dates are SOURCE_DATE_EPOCH, or that of the last commit.
It needs tar, gzip, dpkg-deb, dpkg-shlibdeps and cargo (1.88 or later).
"""
from __future__ import annotations

import argparse
import os
import re
import shutil
import subprocess
import sys
import tempfile
import textwrap
from collections.abc import Iterable
from dataclasses import dataclass
from pathlib import Path

sys.dont_write_bytecode = True
sys.path[:0] = [str(Path(__file__).resolve().parent), str(Path(__file__).resolve().parent.parent / ".ci")]
import proved  # noqa: E402
from proved import PROGRAMS, ROOT  # noqa: E402
from unproved import Fault  # noqa: E402

BINDINGS = ROOT / "bindings"
SAID = re.compile(rb"pundewo (\d+\.\d+\.\d+), ((?:not )?proved)\b[^\0]*")
TOOLS = {"tar": "tar", "gzip": "gzip", "dpkg-deb": "dpkg", "dpkg-shlibdeps": "dpkg-dev", "cargo": "cargo", "make": "make"}
MULTIARCH = "usr/lib/x86_64-linux-gnu"
# What the module of Python has in C, beside the library.
NATIVE = "pundewo_native.abi3.so"
PAGES = "usr/share/doc/pundewo"
MAINTAINER = "Pundewo maintainers <maintainers@users.noreply.pundewo.example>"
SUMMARY = "proved Erlang-style process table"
ABOUT = """\
Pundewo gives a program lightweight processes with mailboxes, selective receive, links, monitors, exit reasons and
trap_exit, as the Erlang manual describes them. Each function of the table is proved to meet its contract.
"""
# What Python compiled of the modules is no file of the package.
PRERM = """\
#!/bin/sh
set -e
rm -rf "${DPKG_ROOT:-}/usr/lib/python3/dist-packages/pundewo/__pycache__"
"""


@dataclass(frozen=True)
class Given:
    """What the packages are made of, where they go, and the date of all files."""

    library: Path
    programs: Path
    into: Path
    version: str
    is_proved: bool
    date: int


@dataclass(frozen=True)
class Package:
    """A Debian package: its name, section and summary, what it needs, and its files in the staged tree."""

    name: str
    section: str
    summary: str
    needs: str
    files: tuple[str, ...]


def run(words: list[str], **more: str) -> str:
    """Runs a command with these variables, and returns what it printed. If it fails, so does this, with what it said."""
    ran = subprocess.run(words, env={**os.environ, "LC_ALL": "C.UTF-8", "TZ": "UTC", **more}, capture_output=True, text=True,
                         check=False)
    if ran.returncode:
        raise Fault(f"{' '.join(words[:3])} failed:\n{ran.stdout}{ran.stderr}")
    return ran.stdout


def normalized(folder: Path, date: int) -> None:
    """Gives all files below a folder one date, and the modes that packages have."""
    for path in [folder, *sorted(folder.rglob("*"))]:
        if not path.is_symlink():
            path.chmod(0o755 if path.is_dir() or path.stat().st_mode & 0o100 else 0o644)
        os.utime(path, (date, date), follow_symlinks=False)


def stage(given: Given, prefix: Path, libraries: str) -> None:
    """Installs the library, the programs and the pages below a prefix, as `make install` does."""
    run(["make", "-s", "-C", str(BINDINGS), "install", f"LIBRARY={given.library}", "PREFIX=/", f"DESTDIR={prefix}",
         f"LIBDIR=/{libraries}"])
    (prefix / "bin").mkdir(exist_ok=True)
    for name in PROGRAMS:
        shutil.copyfile(given.programs / name, prefix / "bin" / name)
        (prefix / "bin" / name).chmod(0o755)
    pages = prefix / "share/doc/pundewo"
    listed = [ROOT / "README.md", ROOT / "CHANGELOG.md", BINDINGS / "python/README.md", BINDINGS / "rust/README.md"]
    for form in ("docs/*", "LICEN[CS]E*", "bindings/*/examples/*", "checks/examples/*.json", "checks/explore/*.json"):
        listed += ROOT.glob(form)
    # the examples of C that the page names
    named = re.findall(r"bindings/c/\w+\.c\b", (ROOT / "docs/EMBEDDING.md").read_text())
    listed += [ROOT / name for name in dict.fromkeys(named)]
    for path in listed:
        if path.is_file():
            to = pages / path.relative_to(ROOT)
            to.parent.mkdir(parents=True, exist_ok=True)
            shutil.copyfile(path, to)


def tarball(given: Given, room: Path) -> None:
    """The folder that runs wherever it is unpacked."""
    name = f"pundewo-{given.version}"
    stage(given, room / name, "lib")
    # (the file of pkg-config names the folder that it is in)
    shutil.copyfile(given.library / "lib/pkgconfig/pundewo.pc", room / name / "lib/pkgconfig/pundewo.pc")
    for path in (ROOT / "README.md", *ROOT.glob("LICEN[CS]E*")):
        shutil.copyfile(path, room / name / path.name)
    write_sums(room / name, (path for part in ("bin", "include", "lib") for path in (room / name / part).rglob("*")))
    normalized(room / name, given.date)
    run(["tar", "--sort=name", f"--mtime=@{given.date}", "--owner=0", "--group=0", "--numeric-owner", "--format=gnu",
         "--use-compress-program=gzip -n", "-C", str(room), "-cf", str(given.into / f"{name}-linux-x86_64.tar.gz"), name])


def write_sums(folder: Path, paths: Iterable[Path]) -> None:
    """Writes SHA256SUMS of these files into the folder."""
    files = sorted(path for path in paths if path.is_file() and not path.is_symlink())
    (folder / "SHA256SUMS").write_text("".join(f"{proved.sum_of(path)}  {path.relative_to(folder)}\n" for path in files))


def shared(given: Given) -> Path:
    """The shared library."""
    return given.library / "lib" / f"libpundewo.so.{given.version}"


def python(given: Given) -> None:
    """The wheel and the source distribution, by the package's own backend."""
    code = "import build_wheel, sys; build_wheel.build_wheel(sys.argv[1]); build_wheel.build_sdist(sys.argv[1])"
    run([sys.executable, "-c", code, str(given.into)], PYTHONPATH=str(BINDINGS / "python"), PYTHONDONTWRITEBYTECODE="1",
        PUNDEWO_SO=str(shared(given)), SOURCE_DATE_EPOCH=str(given.date))


def rust(given: Given, room: Path) -> None:
    """The two crates."""
    shutil.copytree(BINDINGS / "rust", room / "rust", ignore=shutil.ignore_patterns("target", "Cargo.lock"))
    within = room / "rust/sys/lib"
    within.mkdir()
    shutil.copyfile(given.library / "lib/libpundewo.a", within / "libpundewo.a")
    (within / "libpundewo.a.sha256").write_text(f"{proved.sum_of(within / 'libpundewo.a')}  libpundewo.a\n")
    normalized(room / "rust", given.date)
    run(["cargo", "package", "--offline", "--no-verify", "--exclude-lockfile", "--workspace", "--manifest-path",
         str(room / "rust/Cargo.toml")], CARGO_TARGET_DIR=str(room / "target"))
    for name in ("pundewo-sys", "pundewo"):
        shutil.copyfile(room / f"target/package/{name}-{given.version}.crate", given.into / f"{name}-{given.version}.crate")


def needs_of(programs: list[Path], room: Path) -> str:
    """The packages that these programs need, by Debian's own tool."""
    (room / "debian").mkdir()
    (room / "debian/control").write_text("Source: pundewo\n\nPackage: pundewo\nArchitecture: amd64\n")
    printed = subprocess.run(["dpkg-shlibdeps", "-O", *(f"-e{path}" for path in programs)], cwd=room, capture_output=True,
                             text=True, check=False)
    if printed.returncode:
        raise Fault(f"dpkg-shlibdeps failed:\n{printed.stderr}")
    return printed.stdout.strip().removeprefix("shlibs:Depends=")


def debian_packages(given: Given, needs: str) -> list[Package]:
    """The Debian packages."""
    same = f"(= {given.version}-1)"
    modules = "usr/lib/python3/dist-packages/pundewo"
    return [
        Package("libpundewo-dev", "libdevel", f"{SUMMARY} (headers and archive)", f"libpundewo0 {same}",
                ("usr/include/*", f"{MULTIARCH}/libpundewo.a", f"{MULTIARCH}/libpundewo.so", f"{MULTIARCH}/pkgconfig")),
        Package("libpundewo0", "libs", f"{SUMMARY} (shared library)", "libc6", (f"{MULTIARCH}/libpundewo.so.*",)),
        Package("pundewo", "devel", f"{SUMMARY} (programs and pages)", needs, ("usr/bin/*", PAGES)),
        Package("python3-pundewo", "python", f"{SUMMARY} (Python 3)", f"python3 (>= 3.9), libpundewo0 {same}", (modules,)),
    ]


def control(given: Given, package: Package, kilobytes: int) -> str:
    """The control file of a Debian package."""
    multi = "foreign" if package.name == "pundewo" else "same" if package.name.startswith("lib") else "no"
    about = textwrap.fill(" ".join(ABOUT.split()), 78, initial_indent=" ", subsequent_indent=" ")
    return (f"Package: {package.name}\nSource: pundewo\nVersion: {given.version}-1\nArchitecture: amd64\nMulti-Arch: {multi}\n"
            f"Maintainer: {MAINTAINER}\nInstalled-Size: {kilobytes}\nDepends: {package.needs}\nSection: {package.section}\n"
            f"Priority: optional\nDescription: {package.summary}\n{about}\n")


def deb(given: Given, package: Package, staged: Path, room: Path) -> None:
    """Moves the files of a package out of the staged tree, and packs them."""
    root = room / package.name
    for form in package.files:
        found = sorted(staged.glob(form))
        if not found:
            raise Fault(f"{package.name} has no {form}")
        for path in found:
            to = root / path.relative_to(staged)
            to.parent.mkdir(parents=True, exist_ok=True)
            shutil.move(path, to)
    files = sorted(path for path in root.rglob("*") if path.is_file() and not path.is_symlink())
    about = root / "DEBIAN"
    about.mkdir()
    (about / "control").write_text(control(given, package, sum(path.stat().st_size // 1024 + 1 for path in files)))
    (about / "md5sums").write_text(run(["sh", "-c", 'cd "$1" && shift && md5sum "$@"', "sh", str(root),
                                        *(str(path.relative_to(root)) for path in files)]))
    if package.name == "libpundewo0":
        (about / "triggers").write_text("activate-noawait ldconfig\n")
        (about / "shlibs").write_text(f"libpundewo 0 libpundewo0 (>= {given.version})\n")
    if package.name == "python3-pundewo":
        (about / "prerm").write_text(PRERM)
        (about / "prerm").chmod(0o755)
    normalized(root, given.date)
    run(["dpkg-deb", "--root-owner-group", "--threads-max=1", "-b", str(root),
         str(given.into / f"{package.name}_{given.version}-1_amd64.deb")], SOURCE_DATE_EPOCH=str(given.date))


def debian(given: Given, room: Path) -> None:
    """The Debian packages, out of one staged tree."""
    staged = room / "staged"
    stage(given, staged / "usr", MULTIARCH.removeprefix("usr/"))
    pc = staged / MULTIARCH / "pkgconfig/pundewo.pc"
    pc.write_text(pc.read_text().replace("prefix=/\n", "prefix=/usr\n").replace("libdir=/lib", "libdir=${prefix}/lib"))
    modules = staged / "usr/lib/python3/dist-packages/pundewo"
    modules.mkdir(parents=True)
    sources = BINDINGS / "python/pundewo"
    for path in (*sorted(sources.glob("*.py")), *sources.glob("*.html"), sources / "py.typed"):
        if path.exists():
            shutil.copyfile(path, modules / path.name)
    (modules / "py.typed").touch()
    shutil.move(staged / MULTIARCH / NATIVE, modules / NATIVE)
    (modules / "libpundewo.so").symlink_to(f"../../../{MULTIARCH.removeprefix('usr/lib/')}/libpundewo.so.0")
    needs = needs_of([staged / "usr/bin" / name for name in PROGRAMS], room)
    for package in debian_packages(given, needs):
        deb(given, package, staged, room)
    left = [path for path in staged.rglob("*") if not path.is_dir()]
    if left:
        raise Fault(f"no Debian package has {left[0]}")


def given_by(asked: argparse.Namespace) -> Given:
    """What the packages are made of, or what is wrong with it."""
    library = asked.library.resolve() if asked.library else proved.kept(proved.made_of())
    archive = library / "lib/libpundewo.a"
    if not archive.is_file():
        raise Fault(f"no library in {library}: `bindings/build.sh FOLDER` makes lib/libpundewo.a, and LIBRARY names FOLDER")
    said = SAID.search(archive.read_bytes())
    if said is None:
        raise Fault(f"{archive} does not say what it is: it has no `pundewo_build`")
    version, is_proved = said[1].decode(), said[2] == b"proved"
    if version != proved.version():
        raise Fault(f"{archive} is of version {version}, and bindings/c/pundewo.h is of {proved.version()}")
    programs = asked.programs.resolve() if asked.programs else library / "bin"
    for name in PROGRAMS:
        if not (programs / name).is_file():
            raise Fault(f"no program {name} in {programs}: PROGRAMS names the folder of {', '.join(PROGRAMS)}")
    faults = proved.differing(library, programs) if is_proved else []
    if faults:
        raise Fault(f"{library} says that it was proved, and this is not what the gate built: {faults[0]}")
    date = os.environ.get("SOURCE_DATE_EPOCH") or run(["git", "-C", str(ROOT), "log", "-1", "--format=%ct"])
    return Given(library, programs, asked.into.resolve(), version, is_proved, int(date))


def make(given: Given) -> None:
    """Makes all packages, and their checksums."""
    missing = [f"{tool} (apt-get install {name})" for tool, name in TOOLS.items() if shutil.which(tool) is None]
    if missing:
        raise Fault(f"missing: {', '.join(missing)}")
    given.into.mkdir(parents=True, exist_ok=True)
    for old in (*given.into.glob("*pundewo*"), given.into / "SHA256SUMS"):
        old.unlink(missing_ok=True)
    with tempfile.TemporaryDirectory(prefix="dist-") as folder:
        for name in ("tarball", "rust", "debian"):
            (Path(folder) / name).mkdir()
        tarball(given, Path(folder) / "tarball")
        python(given)
        rust(given, Path(folder) / "rust")
        debian(given, Path(folder) / "debian")
    write_sums(given.into, given.into.iterdir())


def main() -> None:
    reader = argparse.ArgumentParser(description="Makes the packages of a library that was built before.")
    reader.add_argument("--library", type=Path, help="what bindings/build.sh built (what the gate left)")
    reader.add_argument("--programs", type=Path, help="the folder of the programs (LIBRARY/bin)")
    reader.add_argument("--into", type=Path, default=ROOT / "dist", help="where the packages go (dist/ at the top)")
    os.umask(0o022)
    given = given_by(reader.parse_args())
    make(given)
    for path in sorted(given.into.iterdir()):
        print(f"{path.stat().st_size:9} {path.name}")
    print(f"dist: pundewo {given.version}, {'proved' if given.is_proved else 'not proved: for trying out'}, in {given.into}")


if __name__ == "__main__":
    try:
        main()
    except Fault as fault:
        sys.exit(f"dist.py: {fault}")
