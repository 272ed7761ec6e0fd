"""Builds the package's wheel and its source distribution, for pip: the module, and the shared library within it.

The library is the one that PUNDEWO_SO names, else `pundewo/libpundewo.so` in this folder. `bindings/build.sh` makes it, and beside
it what the module has in C. The package takes that too if it is there, and runs without it, in more time. Two
builds of the same files are the same, byte for byte: all dates are SOURCE_DATE_EPOCH, or 1980 without it.
"""

from __future__ import annotations

import base64
import gzip
import hashlib
import io
import os
import re
import sys
import tarfile
import time
import zipfile
from pathlib import Path
from typing import Any, Optional

HERE = Path(__file__).resolve().parent
PACKAGE = HERE / "pundewo"
# What the module has in C, beside the library.
NATIVE = "pundewo_native.abi3.so"
# Where a library runs that needs none by name, and where another one does.
ANYWHERE = ("manylinux2014_x86_64", "manylinux_2_17_x86_64", "musllinux_1_1_x86_64")
HERE_ALONE = ("linux_x86_64",)
# The least date that a zip file can have.
FIRST_DATE = 315532800


def library_path() -> Path:
    """Where the shared library is."""
    return Path(os.environ.get("PUNDEWO_SO") or PACKAGE / "libpundewo.so")


def library() -> bytes:
    """The shared library's bytes."""
    path = library_path()
    if not path.is_file():
        sys.exit(f"pundewo: no shared library at {path}: run bindings/build.sh FOLDER, and set PUNDEWO_SO to the "
                 "libpundewo.so in FOLDER/lib")
    return path.read_bytes()


def platforms(shared: bytes) -> tuple[str, ...]:
    """The platforms on which this shared library runs, by the names of libraries and of their versions that it needs."""
    return HERE_ALONE if b"GLIBC_" in shared or b"libc." in shared else ANYWHERE


def date() -> int:
    """The date of all files."""
    return max(FIRST_DATE, int(os.environ.get("SOURCE_DATE_EPOCH") or FIRST_DATE))


def package_version() -> str:
    """The version of the package."""
    return word("pundewo/__init__.py", r'^__version__ = "(.*)"')


def word(path: str, form: str) -> str:
    """What a line of a file of this folder has behind its name."""
    found = re.search(form, (HERE / path).read_text(), re.M)
    if found is None:
        sys.exit(f"pundewo: {path} has no line {form}")
    return found[1]


def words(name: str) -> list[str]:
    """The texts of a list of pyproject.toml."""
    return re.findall(r'"(.*?)"', word("pyproject.toml", rf"^{name} = \[((?:[^]]|\n)*)\]"))


def metadata(version: str) -> str:
    """The wheel's METADATA."""
    summary = word("pyproject.toml", r'^description = "(.*)"')
    wanted = word("pyproject.toml", r'^requires-python = "(.*)"')
    return "\n".join([
        "Metadata-Version: 2.1", "Name: pundewo", f"Version: {version}", f"Summary: {summary}",
        f"Keywords: {','.join(words('keywords'))}", *(f"Classifier: {it}" for it in words("classifiers")),
        f"Requires-Python: {wanted}", "Description-Content-Type: text/markdown", "", (HERE / "README.md").read_text(),
    ])


def record(files: dict[str, bytes], own: str) -> bytes:
    """The wheel's RECORD: each file with its checksum and size."""
    def checksum(content: bytes) -> str:
        return base64.urlsafe_b64encode(hashlib.sha256(content).digest()).rstrip(b"=").decode()

    lines = [f"{name},sha256={checksum(content)},{len(content)}" for name, content in files.items()]
    return "\n".join([*lines, f"{own},,", ""]).encode()


def write_wheel(folder: str, modules: dict[str, bytes], where: tuple[str, ...]) -> str:
    """Writes the wheel with these files into the folder, and returns its name."""
    version = package_version()
    info = f"pundewo-{version}.dist-info"
    tags = "".join(f"Tag: py3-none-{it}\n" for it in where)
    wheel = f"Wheel-Version: 1.0\nGenerator: pundewo\nRoot-Is-Purelib: false\n{tags}"
    files = {**modules, f"{info}/METADATA": metadata(version).encode(), f"{info}/WHEEL": wheel.encode()}
    files[f"{info}/RECORD"] = record(files, f"{info}/RECORD")
    name = f"pundewo-{version}-py3-none-{'.'.join(where)}.whl"
    with zipfile.ZipFile(Path(folder) / name, "w", zipfile.ZIP_DEFLATED) as archive:
        for path, content in files.items():
            entry = zipfile.ZipInfo(path, time.gmtime(date())[:6])
            entry.compress_type, entry.external_attr = zipfile.ZIP_DEFLATED, 0o100644 << 16
            archive.writestr(entry, content)
    return name


def module_files() -> dict[str, bytes]:
    """The files of the module, the shared library included."""
    modules = {f"pundewo/{path.name}": path.read_bytes() for form in ("*.py", "*.html") for path in sorted(PACKAGE.glob(form))}
    files = {**modules, "pundewo/py.typed": b"", "pundewo/libpundewo.so": library()}
    native = library_path().with_name(NATIVE)
    return {**files, f"pundewo/{NATIVE}": native.read_bytes()} if native.is_file() else files


def build_wheel(wheel_directory: str, config_settings: Optional[dict[str, Any]] = None,
                metadata_directory: Optional[str] = None) -> str:
    """What `pip install bindings/python` calls."""
    return write_wheel(wheel_directory, module_files(), platforms(library()))


def build_editable(wheel_directory: str, config_settings: Optional[dict[str, Any]] = None,
                   metadata_directory: Optional[str] = None) -> str:
    """What `pip install -e bindings/python` calls: a wheel that leads to this folder."""
    return write_wheel(wheel_directory, {"pundewo.pth": f"{HERE}\n".encode()}, HERE_ALONE)


def build_sdist(sdist_directory: str, config_settings: Optional[dict[str, Any]] = None) -> str:
    """The sources of the package with the shared library, which is built from the whole repository."""
    version = package_version()
    files = {**module_files(), "PKG-INFO": metadata(version).encode()}
    for path in sorted([*HERE.glob("*.toml"), *HERE.glob("*.py"), *HERE.glob("*.md"), *HERE.glob("examples/*.py")]):
        files[str(path.relative_to(HERE))] = path.read_bytes()
    packed = io.BytesIO()
    with tarfile.open(fileobj=packed, mode="w", format=tarfile.PAX_FORMAT) as archive:
        for name, content in sorted(files.items()):
            entry = tarfile.TarInfo(f"pundewo-{version}/{name}")
            entry.size, entry.mtime, entry.mode = len(content), date(), 0o644
            archive.addfile(entry, io.BytesIO(content))
    name = f"pundewo-{version}.tar.gz"
    (Path(sdist_directory) / name).write_bytes(gzip.compress(packed.getvalue(), 9, mtime=date()))
    return name
