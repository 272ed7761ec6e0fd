#!/usr/bin/env python3
"""Whether bindings/abi.py finds what differs, and names it: it is run in a copy in which one line is another.

    bindings/abi_tests.py

The last line is 'N passed, M failed', and the status is 0 if nothing failed.
"""
from __future__ import annotations

import shutil
import subprocess
import sys
import tempfile
from pathlib import Path

ROOT = Path(__file__).resolve().parent.parent
HEADER = "bindings/c/pundewo.h"
RAW = "bindings/rust/src/raw.rs"
PYTHON = "bindings/python/pundewo/_abi.py"
LAYOUT = "bindings/c/layout.c"
ALL = (HEADER, LAYOUT, RAW, PYTHON)
TYPES = "crates/pt_c_values/src/types.rt"
# What is changed in which file, and what has to be said of which files.
CASES = [
    ("a field of the sources has another type", TYPES, "pub posted: u64,", "pub posted: i64,", (HEADER, RAW, PYTHON),
     "posted"),
    ("a field of the sources is smaller", TYPES, "pub handled: u64,", "pub handled: u32,", (),
     "PtTurned has 16 bytes by its fields, and the library is proved to say 24"),
    ("two fields of the sources change names", TYPES, "pub restart: u32",
     "pub again: u32", ALL, "again"),
    ("a struct of the sources has one field more", TYPES, "    pub was: PtNext,\n",
     "    pub was: PtNext,\n    pub more: u64,\n", (),
     "PtJob has 200 bytes by its fields, and the library is proved to say 192"),
    ("a struct of the sources is new", TYPES, "/// An exit reason.",
     "#[repr(C)]\npub struct PtNew {\n    pub a: u8,\n}\n\n/// ", (), "bindings/abi.txt has no [struct PtNew]"),
    ("a code of the sources has another number", "crates/pt_c_tools/specs/About.antt", "  pick_any = 5;",
     "  pick_any = 6;", (), "the codes of pt_pick_code are not those from 0 on, in order"),
    ("a code of the sources is new", "crates/pt_c_tools/src/about.rt", "    pub bad_places: u32,\n",
     "    pub bad_places: u32,\n    pub late: u32,\n", (), "PtCodes has 272 bytes by its fields"),
    ("a code of the table is gone", "bindings/abi.txt", "- PT_UNLISTED unlisted: the settled node has no list of its pids\n",
     "", (), "bindings/abi.txt has no name for the code unlisted of PtCodes"),
    ("a function of the sources takes another type", "crates/pt_c/src/calls.rt", "linked: bool,", "linked: u8,",
     (HEADER, RAW, PYTHON), "pt_spawn_child"),
    ("a function of the sources is new", "crates/pt_c/src/letters.rt", "fn pt_letters_out(", "fn pt_letters_far(", (),
     "does not declare pt_letters_far. Add it, with a comment:\nuint32_t pt_letters_far(pt_desk *desk, uint64_t *out);"),
    ("the version is another", "crates/pt_render/src/choices.rt", 'VERSION: &str = "', 'VERSION: &str = "9.',
     (HEADER,), '#define PUNDEWO_VERSION "9.'),
    ("the default is another", "crates/pt_signal/src/config.rt", "lane: 64,", "lane: 65,", (HEADER, RAW, PYTHON),
     "65"),
    ("a text of the table is another", "bindings/abi.txt", "what a call returns", "what calls return", (HEADER,), ""),
    ("a number in the header is another", HEADER, "PT_WORN = 3,", "PT_WORN = 4,", (HEADER,), "enum pt_code {"),
    ("a type in the header is another", HEADER, "pt_pid from, pt_pid to, pt_body body",
     "pt_pid from, pt_pid to, pt_pid body", (HEADER,), "pt_send"),
    ("the header lacks a function", HEADER, "uint32_t pt_turn(", "// uint32_t pt_turn(", (),
     "does not declare pt_turn"),
    ("the header has one function more", HEADER, "void pt_about_codes",
     "void pt_about_more(pt_pid *out);\nvoid pt_about_codes", (),
     "declares pt_about_more, which crates/pt_c/src does not export"),
    ("a mark of the header is gone", HEADER, "/* [abi: sizes] */\n", "", (), "has no part '/* [abi: sizes] */'"),
    ("a struct in Rust is another", RAW, "pub has_who: bool,", "pub has_who: u8,", (RAW,), "RawBody"),
    ("a constant in Rust is another", RAW, "PT_KILLED: u32 = 2;", "PT_KILLED: u32 = 1;", (RAW,), "PT_KILLED"),
    ("a struct in Python is another", PYTHON, '("num", c.c_int64)', '("num", c.c_int32)', (PYTHON,), "CBody"),
    ("a call in Python is another", PYTHON, '"pt_link": [_P(CHandle), CPid, CPid]', '"pt_link": [_P(CHandle), CPid]',
     (PYTHON,), "pt_link"),
    ("a place in the test of C is another", LAYOUT, "IS_AT(pt_body, num, 8)", "IS_AT(pt_body, num, 4)", (LAYOUT,),
     "pt_body, num"),
]


def copy_to(folder: Path) -> None:
    """The files that the command reads, in a folder of their own."""
    for name in (".ci", "bindings"):
        shutil.copytree(ROOT / name, folder / name, ignore=shutil.ignore_patterns("target", "__pycache__", "*.so"))
    for crate in (ROOT / "crates").iterdir():
        for part in ("src", "specs"):
            for file in (crate / part).rglob("*"):
                if file.suffix in (".rt", ".antt"):
                    there = folder / file.relative_to(ROOT)
                    there.parent.mkdir(parents=True, exist_ok=True)
                    shutil.copyfile(file, there)


def run(folder: Path, *words: str) -> tuple[int, str]:
    """The status of the command in this folder, and what it says."""
    command = [sys.executable, str(folder / "bindings/abi.py"), *words]
    ran = subprocess.run(command, capture_output=True, text=True, check=False)
    return ran.returncode, ran.stdout + ran.stderr


def wrong(folder: Path, case: tuple[str, str, str, str, tuple[str, ...], str]) -> str:
    """What is wrong with the answer to a case, or an empty text."""
    _, path, old, new, files, said = case
    file = folder / path
    text = file.read_text()
    if text.lower().count(old.lower()) == 0:
        return f"{path} has no '{old}'"
    at = text.lower().index(old.lower())
    file.write_text(text[:at] + new + text[at + len(old):])
    status, told = run(folder)
    file.write_text(text)
    if status != 1:
        return f"status {status}: {told}"
    named = {name for name in ALL if f"{name}:" in told}
    if named != set(files) or said not in told:
        return f"it names {sorted(named)}, and says: {told}"
    return ""


def writes_back(folder: Path) -> str:
    """Whether --write makes the files as they were, whatever was changed in them."""
    texts = {name: (folder / name).read_text() for name in ALL}
    for name, old, new in ((HEADER, "PT_WORN = 3,", "PT_WORN = 4,"), (HEADER, "pt_pid *out);", "pt_ref *out);"),
                           (RAW, "u64", "u32"), (PYTHON, "c_bool", "c_uint8"), (LAYOUT, "8", "9")):
        (folder / name).write_text((folder / name).read_text().replace(old, new))
    status, told = run(folder, "--write")
    if status or run(folder)[0]:
        return told
    other = [name for name, text in texts.items() if (folder / name).read_text() != text]
    return f"{', '.join(other)}: not as before" if other else ""


def main() -> int:
    with tempfile.TemporaryDirectory() as name:
        folder = Path(name)
        copy_to(folder)
        status, told = run(folder)
        faults = [f"unchanged: {told}"] if status else []
        for case in CASES:
            if fault := wrong(folder, case):
                faults.append(f"{case[0]}: {fault}")
        if fault := writes_back(folder):
            faults.append(f"--write: {fault}")
    print("".join(f"{fault}\n" for fault in faults), end="")
    count = len(CASES) + 2
    print(f"abi tests: {count - len(faults)} passed, {len(faults)} failed")
    return 1 if faults else 0


if __name__ == "__main__":
    sys.exit(main())
