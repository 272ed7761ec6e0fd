#!/usr/bin/env python3
"""Tests the packages as their users get them: without the toolchain, in a fresh folder, and without a network.

    bindings/packages.py LIBRARY PROGRAMS

LIBRARY is what `bindings/build.sh FOLDER` built, and PROGRAMS the folder of pt_run, pt_audit, pt_explore and pt_shell. All
packages are made twice (bindings/dist.py) and compared byte for byte. Then each is installed and used: the tarball, the wheel
and the source distribution, the crates in a program of their own, the Debian packages in a root of their own, and what
`make install` leaves. What is wrong with a package, or not there, has to be named. The last line is 'N passed, M failed'.

It needs what a user has: cc, c++, make, pkg-config, cargo, python3, dpkg, and `unshare` for a namespace without a network.
"""
from __future__ import annotations

import os
import re
import shutil
import subprocess
import sys
import tempfile
import time
from collections.abc import Callable
from dataclasses import dataclass
from pathlib import Path

HERE = Path(__file__).resolve().parent
ROOT = HERE.parent
# The first word of a run that has no network.
APART = "--apart"
C_FLAGS = "-std=c11 -D_GNU_SOURCE -O2 -Wall -Wextra -Werror -pthread"
NEEDED = {
    "cc": "gcc", "c++": "g++", "make": "make", "pkg-config": "pkg-config", "cargo": "cargo", "rustc": "rustc", "dpkg": "dpkg",
    "dpkg-deb": "dpkg", "dpkg-shlibdeps": "dpkg-dev", "unshare": "util-linux", "nm": "binutils", "readelf": "binutils",
    "sha256sum": "coreutils", "git": "git", "tar": "tar", "gzip": "gzip", "python3": "python3",
}
# A program of C++ that asks for the version first, as the header says.
PLUS = """\
#include <cstdio>
#include <pundewo.h>

int main() {
    if (!pt_version_fits())
        return 2;
    pt_desk desk = PT_NO_DESK;
    pt_pid pid;
    if (pt_open(&desk, 1, pt_config PT_CONFIG_DEFAULT) != PT_OK || pt_spawn(&desk, &pid) != PT_OK)
        return 3;
    std::printf("%u %s\\n", pid.version, pundewo_build);
    return pt_give_up(&desk) != PT_OK;
}
"""
MANIFEST = """\
[package]
name = "user"
version = "0.1.0"
edition = "2021"

[dependencies]
pundewo = "{version}"

[patch.crates-io]
pundewo = {{ path = "{folder}/pundewo-{version}" }}
pundewo-sys = {{ path = "{folder}/pundewo-sys-{version}" }}
"""
MAIN = """\
#[path = "../supervisor.rs"]
mod supervisor;

fn main() {
    eprintln!("{}", pundewo::build());
    supervisor::main().unwrap();
}
"""
STATUS = """\
Package: {name}
Status: install ok installed
Architecture: amd64
Maintainer: nobody <nobody@example.org>
Version: {version}
Description: stands for what is installed

"""


class Wrong(Exception):
    """What a test found."""


@dataclass(frozen=True)
class World:
    """The fresh folder, the packages, what they were made of, and what the library says of itself."""

    folder: Path
    dist: Path
    library: Path
    programs: Path
    version: str
    said: str

    def room(self, name: str) -> Path:
        """A folder of a test's own."""
        made = self.folder / name
        made.mkdir()
        return made

    def package(self, form: str) -> Path:
        """The one package with such a name."""
        found = sorted(self.dist.glob(form))
        if len(found) != 1:
            raise Wrong(f"{len(found)} packages are {form}")
        return found[0]


def ran(words: list[str | Path], at: Path, **more: str) -> subprocess.CompletedProcess[str]:
    """Runs a command in a folder, with these variables."""
    return subprocess.run(list(map(str, words)), cwd=at, env={**os.environ, **more}, stdin=subprocess.DEVNULL,
                          capture_output=True, text=True, timeout=1800, check=False)


def run(words: list[str | Path], at: Path, **more: str) -> str:
    """Runs a command that has to pass, and returns what it printed."""
    done = ran(words, at, **more)
    if done.returncode:
        raise Wrong(f"{' '.join(map(str, words))}: status {done.returncode}\n{done.stdout}{done.stderr}")
    return done.stdout


def refused(says: str, words: list[str | Path], at: Path, **more: str) -> None:
    """Runs a command that has to fail with such a text."""
    done = ran(words, at, **more)
    text = done.stdout + done.stderr
    if not done.returncode or re.search(says, text) is None:
        raise Wrong(f"{' '.join(map(str, words))}: status {done.returncode}, and not '{says}':\n{text}")


def is_same(what: str, got: str | bytes, want: str | bytes) -> None:
    """Whether two texts are the same."""
    if got != want:
        raise Wrong(f"{what}: {got!r}, and not {want!r}")


def stored(name: str) -> str:
    """A stored output of the examples."""
    return (HERE / "c" / name).read_text()


# ---- what is made


def same_bytes(world: World) -> None:
    """Two builds in other folders, at other times and with another mask, zone and language, are the same."""
    again = world.folder / "again"
    os.umask(0o077)
    make_dist(world.library, world.programs, again, TZ="Asia/Tokyo", LANG="C", HOME=str(world.folder))
    os.umask(0o022)
    names = [sorted(path.name for path in folder.iterdir()) for folder in (world.dist, again)]
    is_same("the packages of two builds", str(names[1]), str(names[0]))
    for name in names[0]:
        if (world.dist / name).read_bytes() != (again / name).read_bytes():
            raise Wrong(f"two builds of {name} differ")
    if len(names[0]) != 10:
        raise Wrong(f"there are {len(names[0])} files: {', '.join(names[0])}")
    run(["sha256sum", "--check", "--strict", "SHA256SUMS"], world.dist)


def exports(world: World) -> None:
    """The shared library exports what the header declares, has its name, and needs no library by name. Nor does the module in C
    for Python, which exports what begins it."""
    path = world.library / "lib" / f"libpundewo.so.{world.version}"
    rows = [line.split() for line in run(["nm", "-D", "--defined-only", path], world.folder).splitlines()]
    header = (world.library / "include/pundewo.h").read_text()
    declared = re.findall(r"^(?:uint32_t |void |unsigned |const char \*)(pt_\w+)\(", header, re.M)
    is_same("what is exported", "\n".join(sorted(row[-1] for row in rows)), "\n".join(sorted([*declared, "pundewo_build"])))
    native = path.with_name("pundewo_native.abi3.so")
    is_same("what the module in C exports", run(["nm", "-D", "--defined-only", native], world.folder).split()[-1], "PyInit_pundewo_native")
    wanted = {row.split()[-1] for row in run(["nm", "-D", "--undefined-only", native], world.folder).splitlines()}
    if any(not name.startswith(("Py", "_Py_NoneStruct")) for name in wanted) or "(NEEDED)" in run(["readelf", "-d", native], world.folder):
        raise Wrong(f"{native} needs more than Python: {', '.join(sorted(wanted))}")
    dynamic = run(["readelf", "-d", path], world.folder)
    if "soname: [libpundewo.so.0]" not in dynamic or "(NEEDED)" in dynamic:
        raise Wrong(f"{path} has another name, or needs a library:\n{dynamic}")


# ---- C and the programs


def use_from_c(world: World, at: Path, libraries: Path, rooted: Path | None = None) -> None:
    """C by pkg-config, shared and static, and C++ print what the examples do."""
    sysroot = {"PKG_CONFIG_SYSROOT_DIR": str(rooted)} if rooted else {}
    words = run(["pkg-config", "--cflags", "--libs", "pundewo"], at, PKG_CONFIG_LIBDIR=str(libraries / "pkgconfig"), **sysroot)
    is_same("the version of pkg-config", run(["pkg-config", "--modversion", "pundewo"], at, PKG_CONFIG_LIBDIR=str(
        libraries / "pkgconfig")).strip(), world.version)
    flags = [it for it in words.split() if not it.startswith("-l")]
    compiler: list[str | Path] = ["cc", *C_FLAGS.split(), HERE / "c/supervisor.c"]
    run([*compiler, *words.split(), "-o", "shared"], at)
    run([*compiler, *flags, "-o", "static", "-static", "-lpundewo"], at)
    is_same("the shared program", run(["./shared"], at, LD_LIBRARY_PATH=str(libraries)), stored("supervisor.out"))
    is_same("the static program", run(["./static"], at), stored("supervisor.out"))
    (at / "plus.cpp").write_text(PLUS)
    for level in ("c++11", "c++20"):
        run(["c++", f"-std={level}", "-Wall", "-Wextra", "-Wpedantic", "-Werror", "plus.cpp", *words.split(), "-o", level], at)
        is_same("the program of C++", run([f"./{level}"], at, LD_LIBRARY_PATH=str(libraries)), f"1 {world.said}\n")
    for name, needs in (("shared", True), ("static", False)):
        if ("libpundewo.so.0" in ran(["readelf", "-d", name], at).stdout) != needs:
            raise Wrong(f"the program '{name}' is linked in another way")


def use_programs(world: World, at: Path, programs: Path, pages: Path) -> None:
    """The four programs do on the example of the pages what the pages say."""
    script = pages / "checks/examples/lane.json"
    for name in ("pt_run", "pt_audit"):
        is_same(f"the version of {name}", run([programs / name, "--version"], at), f"{name} {world.version}\n")
    (at / "history").write_text(run([programs / "pt_run", "--turns", "4", "--print", "history", script], at))
    audited = run([programs / "pt_audit", "history"], at)
    if "legal" not in audited.splitlines()[0]:
        raise Wrong(f"pt_audit says {audited}")
    if "outcome" not in run([programs / "pt_explore", script], at):
        raise Wrong("pt_explore prints no outcome")
    case = ROOT / "checks/shell/epochs.txt"
    opened = subprocess.run([programs / "pt_shell"], input=case.read_text(), capture_output=True, text=True, check=False)
    is_same("what pt_shell prints", opened.stdout, case.with_name("epochs.txt.stdout").read_text())
    for link in re.findall(r"\]\((docs/[\w.]+)\)", (pages / "README.md").read_text()):
        if not (pages / link).is_file():
            raise Wrong(f"the pages lack {link}")


def unpacked(world: World, at: Path) -> Path:
    """The folder of the tarball."""
    run(["tar", "-xzf", world.package("pundewo-*-linux-x86_64.tar.gz")], at)
    return at / f"pundewo-{world.version}"


def tarball(world: World) -> None:
    """The tarball works wherever it is unpacked."""
    at = world.room("tarball")
    folder = unpacked(world, at)
    run(["sha256sum", "--check", "--strict", "--quiet", "SHA256SUMS"], folder)
    use_from_c(world, at, folder / "lib")
    use_programs(world, at, folder / "bin", folder / "share/doc/pundewo")
    moved = at / "elsewhere"
    folder.rename(moved)
    run(["make", "-s", "-C", HERE, "install", f"LIBRARY={moved}", "PREFIX=/opt/pundewo", f"DESTDIR={at}/installed"], at)
    for path in sorted(moved.rglob("*")):
        there = at / "installed/opt/pundewo" / path.relative_to(moved)
        is_page = path.relative_to(moved).parts[0] not in ("bin", "include", "lib")
        if path.is_file() and path.name != "pundewo.pc" and not is_page and path.read_bytes() != there.read_bytes():
            raise Wrong(f"make install leaves another {there}")
    use_from_c(world, world.room("installed"), at / "installed/opt/pundewo/lib", at / "installed")
    run(["make", "-s", "-C", HERE, "uninstall", "PREFIX=/opt/pundewo", f"DESTDIR={at}/installed"], at)
    left = [str(path) for path in (at / "installed").rglob("*") if not path.is_dir()]
    is_same("what make uninstall leaves", str(left), "[]")


# ---- Python


def use_from_python(world: World, at: Path, python: Path, **more: str) -> None:
    """The examples print what they do in the repository."""
    examples = HERE / "python/examples"
    for name in ("supervisor", "crew", "crew_supervisors"):
        printed = run([python, "-I" if not more else "-B", examples / f"{name}.py"], at, **more)
        is_same(f"{name}.py", printed, stored(f"{name}.out"))
    code = "import pundewo; print(pundewo.__version__, pundewo.BUILD)"
    is_same("the package", run([python, "-c", code], at, **more), f"{world.version} {world.said}\n")
    code = "import sys; from pundewo import _crossing as it; print((it.native is None) == (sys.version_info < (3, 10)))"
    is_same("whether the module in C is used", run([python, "-c", code], at, **more), "True\n")


def wheel(world: World) -> None:
    """The wheel is installed into a new environment, by its name, and the source distribution into a folder."""
    at = world.room("wheel")
    run([sys.executable, "-m", "venv", "venv"], at)
    python = at / "venv/bin/python"
    install: list[str | Path] = [python, "-m", "pip", "install", "-q", "--no-index", "--disable-pip-version-check"]
    run([*install, "--only-binary", ":all:", "--find-links", world.dist, "pundewo"], at)
    use_from_python(world, at, python)
    run([*install, "--target", at / "sources", world.dist / f"pundewo-{world.version}.tar.gz"], at)
    run([python, "-m", "pip", "uninstall", "-q", "-y", "pundewo"], at)
    use_from_python(world, at, python, PYTHONPATH=str(at / "sources"))


# ---- Rust


def crates(world: World) -> None:
    """A program of Rust is built over the unpacked crates, and a changed archive is refused."""
    at = world.room("crates")
    for name in ("pundewo-sys", "pundewo"):
        run(["tar", "-xzf", world.dist / f"{name}-{world.version}.crate"], at)
    user = at / "user"
    (user / "src").mkdir(parents=True)
    (user / "Cargo.toml").write_text(MANIFEST.format(version=world.version, folder=at))
    (user / "src/main.rs").write_text(MAIN)
    example = (at / f"pundewo-{world.version}/examples/supervisor.rs").read_text()
    (user / "supervisor.rs").write_text(example.replace("//!", "//").replace("\nfn main(", "\npub fn main("))
    run(["cargo", "build", "-q", "--offline"], user, CARGO_TARGET_DIR=str(at / "target"))
    done = ran([at / "target/debug/user"], user)
    is_same("the program of Rust", done.stdout, stored("supervisor.out"))
    is_same("the library of Rust", done.stderr, f"{world.said}\n")
    with open(at / f"pundewo-sys-{world.version}/lib/libpundewo.a", "ab") as archive:
        archive.write(b"\n")
    refused("pundewo: .*libpundewo.a has another checksum than libpundewo.a.sha256", ["cargo", "build", "-q", "--offline"],
            user, CARGO_TARGET_DIR=str(at / "target"))


# ---- Debian


def debian(world: World) -> None:
    """The packages are installed into a root, used from there, and leave nothing when they are purged."""
    at = world.room("debian")
    root = at / "root"
    for folder in ("info", "updates", "triggers"):
        (root / "var/lib/dpkg" / folder).mkdir(parents=True)
    there = {"libc6": "2.36-9", "libgcc-s1": "12.2.0-14", "python3": "3.11.2-1"}
    (root / "var/lib/dpkg/status").write_text("".join(STATUS.format(name=name, version=it) for name, it in there.items()))
    for name in there:
        (root / f"var/lib/dpkg/info/{name}.list").write_text("/.\n")
    (root / "var/lib/dpkg/info/format").write_text("1\n")
    # (there is no shell in this root)
    dpkg: list[str | Path] = ["dpkg", f"--root={root}", f"--log={at}/log", "--force-script-chrootless"]
    before = {path for path in root.rglob("*") if not path.is_dir()}
    refused("depends on libpundewo0 ", [*dpkg, "-i", world.package("libpundewo-dev_*.deb")], at)
    run([*dpkg, "-i", *sorted(world.dist.glob("*.deb"))], at)
    use_from_c(world, at, root / "usr/lib/x86_64-linux-gnu", root)
    use_programs(world, at, root / "usr/bin", root / "usr/share/doc/pundewo")
    use_from_python(world, at, Path(sys.executable), PYTHONPATH=str(root / "usr/lib/python3/dist-packages"))
    run([*dpkg, "--verify"], at)
    run([*dpkg, "-P", "libpundewo0", "libpundewo-dev", "pundewo", "python3-pundewo"], at)
    now = {path for path in root.rglob("*") if not path.is_dir()}
    left = sorted(str(path) for path in now - before if root / "var" not in path.parents)
    is_same("what a purge leaves", str(left), "[]")


# ---- what is wrong


def bad_input(world: World) -> None:
    """What is missing or changed is named."""
    at = world.room("bad")
    dist: list[str | Path] = ["make", "-s", "-C", HERE, "dist", f"DIST={at}/dist"]
    install: list[str | Path] = ["make", "-s", "-C", HERE, "install", f"DESTDIR={at}/installed"]
    refused("no library in /nowhere: `bindings/build.sh FOLDER` makes lib/libpundewo.a", [*dist, "LIBRARY=/nowhere"], at)
    refused("no library in LIBRARY=/nowhere: it has no file SHA256SUMS", [*install, "LIBRARY=/nowhere"], at)
    refused("PREFIX is 'here', and must be an absolute path", [*install, f"LIBRARY={world.library}", "PREFIX=here"], at)
    refused("no program pt_run in .*: PROGRAMS names the folder", [*dist, f"LIBRARY={world.library}", f"PROGRAMS={at}"], at)
    for name, old, new, says in (
            ("changed", b"", b"\n", "the library in .* is not as it was built|this is not what the gate built"),
            ("older", f"pundewo {world.version}, ".encode(), b"pundewo 0.0.1, ", "is of version 0.0.1, and .*pundewo.h is of"),
            ("silent", b"pundewo ", b"nothing ", "does not say what it is"),
            ("false", world.said.encode(), f"pundewo {world.version}, proved: 00".encode(),
             "this is not what the gate built: .*checksum")):
        other = at / name
        shutil.copytree(world.library, other, symlinks=True)
        archive = other / "lib/libpundewo.a"
        text = archive.read_bytes()
        archive.write_bytes(text.replace(old, new) if old else text + new)
        refused(says, [*dist, f"LIBRARY={other}", f"PROGRAMS={world.programs}"], at)
        if name == "changed":
            refused("the library in .* is not as it was built", [*install, f"LIBRARY={other}"], at)
    wheel_of_nothing: list[str | Path] = [sys.executable, "-B", "-c", "import build_wheel as b; b.build_wheel('.')"]
    refused("pundewo: no shared library at /nowhere", wheel_of_nothing, at, PYTHONPATH=str(HERE / "python"), PUNDEWO_SO="/nowhere")
    left = [str(path) for path in at.rglob("*") if path.suffix in (".whl", ".deb", ".crate") or "installed" in path.parts]
    is_same("what the refused commands leave", str(left), "[]")


TESTS: tuple[Callable[[World], None], ...] = (same_bytes, exports, tarball, wheel, crates, debian, bad_input)


def make_dist(library: Path, programs: Path, into: Path, **more: str) -> None:
    """Makes the packages, as the page says."""
    words: list[str | Path] = ["make", "-s", "-C", HERE, "dist", f"LIBRARY={library}", f"PROGRAMS={programs}", f"DIST={into}"]
    run(words, HERE, **more)


def without_toolchain(folder: Path) -> str:
    """A path without the folders that have the toolchain's command, but with what else is needed from them."""
    missing = [f"{tool} (apt-get install {name})" for tool, name in NEEDED.items() if shutil.which(tool) is None]
    if missing:
        raise Wrong(f"missing: {', '.join(missing)}")
    kept = [it for it in os.environ["PATH"].split(":") if it and not (Path(it) / "rt").exists()]
    path = ":".join([str(folder), *kept, "/usr/sbin", "/sbin"])
    folder.mkdir()
    for tool in NEEDED:
        if shutil.which(tool, path=path) is None:
            (folder / tool).symlink_to(str(shutil.which(tool)))
    if shutil.which("rt", path=path) is not None:
        raise Wrong("the toolchain's command is still on the path")
    return path


def set_apart(folder: Path) -> None:
    """Leaves nothing of the toolchain, of a user or of a build in the environment."""
    path = without_toolchain(folder / "tools")
    rustup = os.environ.get("RUSTUP_HOME") or str(Path.home() / ".rustup")
    kept = {name: value for name, value in os.environ.items() if name in ("LANG", "TERM", "TMPDIR", "SOURCE_DATE_EPOCH")}
    os.environ.clear()
    home = folder / "home"
    home.mkdir()
    os.environ.update(kept, PATH=path, HOME=str(home), RUSTUP_HOME=rustup, CARGO_HOME=str(home / "cargo"))
    # (git refuses a repository of another owner, and asks HOME whether it may)
    (home / ".gitconfig").write_text(f"[safe]\n\tdirectory = {ROOT}\n")


def test_all(library: Path, programs: Path, folder: Path) -> int:
    """Runs all tests in this folder."""
    set_apart(folder)
    said = re.search(rb"pundewo (\d+\.\d+\.\d+), [^\0]*", (library / "lib/libpundewo.a").read_bytes())
    if said is None:
        raise Wrong(f"{library} does not say what it is")
    make_dist(library, programs, folder / "dist")
    world = World(folder, folder / "dist", library, programs, said[1].decode(), said[0].decode())
    failed = 0
    for test in TESTS:
        begun = time.monotonic()
        try:
            test(world)
        except (Wrong, OSError, subprocess.TimeoutExpired) as fault:
            failed += 1
            print(f"packages: {test.__name__}: {fault}")
        else:
            print(f"packages: {test.__name__}: passed in {time.monotonic() - begun:.0f} s", flush=True)
    print(f"packages: {len(TESTS) - failed} passed, {failed} failed")
    return 1 if failed else 0


def main(words: list[str]) -> int:
    if len(words) == 2:
        alone = ["unshare", "--net"] if os.geteuid() == 0 else ["unshare", "--net", "--map-root-user"]
        inner = [sys.executable, __file__, APART, *(os.path.abspath(word) for word in words)]
        return subprocess.run([*alone, *inner], check=False).returncode
    if len(words) != 3 or words[0] != APART:
        print("wanted: bindings/packages.py LIBRARY PROGRAMS", file=sys.stderr)
        return 2
    with tempfile.TemporaryDirectory(prefix="packages-") as folder:
        return test_all(Path(words[1]), Path(words[2]), Path(folder))


if __name__ == "__main__":
    try:
        sys.exit(main(sys.argv[1:]))
    except Wrong as fault:
        sys.exit(f"packages.py: {fault}")
