#!/usr/bin/env python3
"""Compiles the library for C without proofs, for trying it out: in minutes, while `rt lib` proves all below it first.

    .ci/unproved_archive.py ARCHIVE              writes the archive of pt_c
    .ci/unproved_archive.py --as-proved ARCHIVE  without any checks, and compiled as if it were proved: to count what it takes

The toolchain builds a library only from proved sources, but `rt try` compiles a program without proofs. So this makes a
program of pt_c's sources that calls each export in a branch that never runs, and has `rt try`'s compiler write it, with
a `clang` before the toolchain's own that keeps the module. Then it makes the exports external, adds for each a function
in C that has its name and C's calling convention, and compiles both. Without `--as-proved` the checks that `rt try` adds
stay: an overflow, an index out of bounds or a bad access stops the program. The archive has the symbol `pt_c_is_not_proved`.

It leans on the toolchain's inside: how a module names functions, and how it passes structs (two words as two words, more
by a pointer). If another toolchain does that in another way, this says so and makes nothing.
"""
from __future__ import annotations

import re
import shutil
import subprocess
import sys
import tempfile
from collections import Counter
from dataclasses import dataclass
from pathlib import Path

sys.dont_write_bytecode = True
from as_proved import FLAGS, as_proved  # noqa: E402
from unproved import Fault, clang, kit, module  # noqa: E402

ROOT = Path(__file__).resolve().parent.parent
PROGRAM = "pt_c_unproved"
EXPORT = re.compile(r'#\[unsafe\(no_mangle\)\]\n(?:#\[.*\]\n)*pub extern "C" fn (\w+)\(([^)]*)\)( -> u32)?')
ROW = re.compile(r"(&(?:mut )?)\[(\w+)\]")
PLAIN = {"u8": "uint8_t", "u32": "uint32_t", "u64": "uint64_t", "i64": "int64_t", "usize": "size_t", "bool": "bool"}
# Structs by their names: their fields, with their types.
Structs = dict[str, list[tuple[str, str]]]


@dataclass(frozen=True)
class Export:
    """A function that the library exports: its module, its name, its parameters with their types, what it returns."""

    module: str
    name: str
    parameters: tuple[tuple[str, str], ...]
    returns: bool


def exports() -> list[Export]:
    """The exports of pt_c, read off its sources."""
    found = []
    for path in sorted((ROOT / "crates/pt_c/src").glob("*.rt")):
        for name, words, returns in EXPORT.findall(path.read_text()):
            pairs = [word.split(":", 1) for word in " ".join(words.split()).split(",") if word.strip()]
            parameters = tuple((left.strip(), right.strip()) for left, right in pairs)
            found.append(Export(path.stem, name, parameters, bool(returns)))
    marked = sum(path.read_text().count("no_mangle") for path in (ROOT / "crates/pt_c/src").glob("*.rt"))
    if len(found) != marked:
        raise Fault(f"crates/pt_c marks {marked} exports, and {len(found)} were read")
    return found


def argument(kind: str) -> str:
    """An argument of this type in the program's call, which never runs."""
    if kind == "Global":
        return "rt.alloc()"
    if row := ROW.fullmatch(kind):
        handle = {"DeskHandle": "pt_c_desks::desk_handle", "CrewHandle": "pt_c_crews::crew_handle"}.get(row[2])
        item = row[2] if row[2] in PLAIN else f"{handle or 'pt_c_values::types'}::{row[2]}"
        return f"{row[1]}any::<[{item}; 1]>(&rt)"
    return "&mut any(&rt)" if kind.startswith("&mut ") else "any(&rt)"


def program(all_exports: list[Export], folder: Path) -> None:
    """Writes the repository of the program: links to all crates, and the program's own sources."""
    (folder / "crates").mkdir()
    for crate in sorted((ROOT / "crates").iterdir()):
        (folder / "crates" / crate.name).symlink_to(crate)
    listed = (ROOT / "crates.txt").read_text()
    uses = re.search(r"^pt_c staticlib: (.*)$", listed, re.M)
    if uses is None:
        raise Fault("crates.txt has no line 'pt_c staticlib:'")
    (folder / "crates.txt").write_text(f"{listed}\n{PROGRAM}: {uses[1]}\n")
    sources = folder / "crates" / PROGRAM / "src"
    sources.mkdir(parents=True)
    for path in (ROOT / "crates/pt_c/src").glob("*.rt"):
        text = path.read_text().replace("#[unsafe(no_mangle)]\n", "").replace('pub extern "C" fn', "pub fn")
        (sources / ("main.rt" if path.stem == "lib" else path.name)).write_text(text)
    calls = [f"{it.module}::{it.name}({', '.join(argument(kind) for _, kind in it.parameters)})" for it in all_exports]
    body = "".join(f"        let _ = {call};\n" for call in calls)
    with (sources / "main.rt").open("a") as main:
        main.write('\nfn any<T>(rt: &impl std::process::Abort) -> T {\n    panic!(rt; "never")\n}\n\n'
                   "fn main(rt: HostRuntime) {\n    if std::hint::black_box(false) {\n" + body + "    }\n}\n")


def with_external(text: str, all_exports: list[Export]) -> str:
    """The module with the exports external, under names of their own, and without a program's entry."""
    text = re.sub(r"^define i32 @main\(\)", "define internal i32 @pt_entry()", text, flags=re.M)
    listed = {(it.module, it.name) for it in all_exports}
    found: Counter[tuple[str, str]] = Counter()

    def inner(match: re.Match[str]) -> str:
        export = (match[1], match[2])
        found[export] += export in listed
        return f"@inner_{match[2]}(" if export in listed else match[0]

    # (a pass over all of the text for each export took minutes)
    text = re.sub(rf'@"{PROGRAM}::(\w+)::(\w+)"\(', inner, text)
    for it in all_exports:
        if found[it.module, it.name] < 2:
            raise Fault(f"the module does not name {it.name} as {PROGRAM}::{it.module}::{it.name}")
    return re.sub(r"^define internal ([^@\n]*@inner_\w+\()", r"define \1", text, flags=re.M)


def crossing(name: str, kind: str, structs: Structs) -> tuple[list[str], list[str], list[str]]:
    """A parameter: its declarations in C, those of the inner function, and what is handed on."""
    if kind == "Global":
        return [], [], []
    if ROW.fullmatch(kind):
        return [f"void *{name}", f"size_t {name}_count"], ["void *", "size_t"], [name, f"{name}_count"]
    if kind.startswith("&mut "):
        return [f"void *{name}"], ["void *"], [name]
    if kind in PLAIN:
        return [f"{PLAIN[kind]} {name}"], [PLAIN[kind]], [name]
    fields = structs[kind]
    # (a struct of two words crosses as its fields, and one of more by a pointer)
    if len(fields) == 2 and all(word in PLAIN for _, word in fields):
        return [f"{kind} {name}"], [PLAIN[word] for _, word in fields], [f"{name}.{field}" for field, _ in fields]
    return [f"{kind} {name}"], [f"{kind} *"], [f"&{name}"]


def structs_by_value(all_exports: list[Export]) -> Structs:
    """The structs that are passed by value, and those within them, each behind those that it has."""
    sys.path.insert(0, str(ROOT / "bindings"))
    from abi_source import Source  # noqa: PLC0415  (it reads the exports by this module)

    source, found = Source(), Structs()

    def add(kind: str) -> None:
        if kind in source.structs and kind not in found:
            for field in source.structs[kind].fields:
                add(field.kind)
            found[kind] = [(field.name, field.kind) for field in source.structs[kind].fields]

    for it in all_exports:
        for _, kind in it.parameters:
            if kind != "Global" and not kind.startswith("&") and kind not in PLAIN:
                add(kind)
                if kind not in found:
                    raise Fault(f"a parameter of type {kind}: how does it cross?")
    return found


HEAD = """\
#include <stdbool.h>
#include <stddef.h>
#include <stdint.h>
const char pt_c_is_not_proved = 1;
"""


def shim(all_exports: list[Export]) -> str:
    """The functions that C calls."""
    structs = structs_by_value(all_exports)
    text = HEAD
    for name, fields in structs.items():
        body = " ".join(f"{PLAIN.get(kind, kind)} {field};" for field, kind in fields)
        text += f"typedef struct {{ {body} }} {name};\n"
    for it in all_exports:
        parts = [crossing(*parameter, structs) for parameter in it.parameters]
        outer, inner, words = (", ".join(word for part in parts for word in part[at]) or "void" for at in range(3))
        result, back = ("uint32_t", "return ") if it.returns else ("void", "")
        text += f"{result} inner_{it.name}({inner});\n{result} {it.name}({outer});\n"
        text += f"{result} {it.name}({outer}) {{\n    {back}inner_{it.name}({words});\n}}\n"
    return text


def build(archive: Path, folder: Path, is_as_proved: bool) -> None:
    """Compiles the module and the functions over it into the archive."""
    tools = kit()
    all_exports = exports()
    program(all_exports, folder)
    text = module(folder, PROGRAM, folder)
    text = as_proved(text, folder, tools) if is_as_proved else text
    (folder / "inner.ll").write_text(with_external(text, all_exports))
    (folder / "outer.c").write_text(shim(all_exports))
    flags = ["-O2", "-fPIC", "-ffunction-sections", "-fdata-sections", "-c"]
    inner = [*FLAGS, "-c"] if is_as_proved else flags
    clang(tools, ["-x", "ir", str(folder / "inner.ll"), *inner, "-o", str(folder / "inner.o")])
    ran = subprocess.run(["cc", "-std=c11", "-Wall", "-Wextra", "-Werror", *flags, str(folder / "outer.c"), "-o",
                          str(folder / "outer.o")], capture_output=True, text=True, check=False)
    if ran.returncode:
        raise Fault(f"cc failed: {ran.stderr}")
    archive.unlink(missing_ok=True)
    subprocess.run(["ar", "rcs", str(archive), str(folder / "inner.o"), str(folder / "outer.o")], check=True)


def main(words: list[str]) -> None:
    is_as_proved = words[:1] == ["--as-proved"]
    words = words[is_as_proved:]
    if len(words) != 1 or words[0].startswith("-"):
        raise Fault("wanted: .ci/unproved_archive.py [--as-proved] ARCHIVE")
    folder = Path(tempfile.mkdtemp(prefix="unproved-"))
    try:
        build(Path(words[0]).absolute(), folder, is_as_proved)
    finally:
        shutil.rmtree(folder)


if __name__ == "__main__":
    try:
        main(sys.argv[1:])
    except Fault as fault:
        sys.exit(f"unproved_archive.py: {fault}")
