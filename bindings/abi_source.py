"""The interface of the library for C, read off the Rattle sources: structs, codes, calls, defaults and the version.

`Table` is bindings/abi.txt, which has what the sources do not say: names of codes in C, an order, and texts.
"""
from __future__ import annotations

import re
import sys
from collections.abc import Iterator
from dataclasses import dataclass, field
from pathlib import Path

sys.dont_write_bytecode = True
ROOT = Path(__file__).resolve().parent.parent
sys.path.insert(0, str(ROOT / ".ci"))
from unproved_archive import ROW, Export, exports  # noqa: E402

__all__ = [
    "ROOT", "ROW", "Code", "Codes", "Default", "Entry", "Export", "Fault", "Field", "Section", "Source", "Struct",
    "snake", "table",
]

STRUCT = re.compile(r"^#\[repr\(C\)\]\n(?:#\[[^\n]*\]\n)*pub struct (\w+) \{\n(.*?)^\}", re.M | re.S)
FIELD = re.compile(r"^    pub (\w+): ([^,\n]+),$", re.M)
ARRAY = re.compile(r"\[(\w+); (\d+)\]")
# The records of the definitions that the library is proved to say of itself, and where their structs are.
RECORDS = {
    "PtCodes": ("pt_c_tools/specs/About.antt", "all_codes"),
    "PtSizes": ("pt_c_tools/specs/About.antt", "all_sizes"),
    "PtSupervisorCodes": ("pt_c_tools/specs/AboutSupervisors.antt", "all_supervisor_codes"),
    "PtAskingAbout": ("pt_c_tools/specs/AboutAsking.antt", "asking_about"),
}
# A code that no such record has: the function that makes it.
CASES = {"Heard": ("pt_c_tools/src/hearing.rt", r"Heard::(\w+)(?:\(\w+\))? => PtHeard \{\s*code: (\d+)")}
SIZES = {"u8": 1, "bool": 1, "u32": 4, "u64": 8, "i64": 8, "usize": 8}


class Fault(Exception):
    """What the command says before it stops."""


@dataclass(frozen=True)
class Field:
    """A field of a struct: its name, its Rattle type, and where it is."""

    name: str
    kind: str
    offset: int


@dataclass(frozen=True)
class Struct:
    """A struct that crosses, with its layout."""

    name: str
    fields: tuple[Field, ...]
    size: int
    align: int


@dataclass(frozen=True)
class Code:
    """A code: its name in C, its name in the sources, its number and its text."""

    name: str
    source: str
    number: int
    text: str


@dataclass(frozen=True)
class Codes:
    """An enumeration of C."""

    name: str
    text: str
    codes: tuple[Code, ...]

    def words(self) -> list[str]:
        """The codes as the words of Python. Those of supervisors are OTP's own."""
        names = [it.name if "::" in it.source else it.source for it in self.codes]
        parts = [name.split("_") for name in names]
        shared = next(n for n in range(9) if len({it[n] for it in parts}) > 1 or any(len(it) == n + 1 for it in parts))
        joint = "-" if shared else "_"
        return [joint.join(it[shared:]).lower() for it in parts]


@dataclass(frozen=True)
class Default:
    """The default of a struct: the macro, and its fields with their numbers."""

    struct: str
    macro: str
    text: str
    numbers: dict[str, int]


@dataclass
class Entry:
    """An entry of the table: its kind, the words of its head, its text, and the texts of its members."""

    kind: str
    words: list[str]
    lines: list[str] = field(default_factory=list)
    members: dict[str, str] = field(default_factory=dict)

    @property
    def text(self) -> str:
        """The text, as one paragraph."""
        return " ".join(self.lines)


@dataclass
class Section:
    """A part of the header."""

    name: str
    entries: list[Entry] = field(default_factory=list)


def snake(name: str) -> str:
    """PtLeftOver as left_over."""
    return re.sub(r"(?<!^)(?=[A-Z])", "_", name.removeprefix("Pt")).lower()


def add_line(sections: list[Section], line: str) -> None:
    """Adds a line of the table to what was read."""
    if not line or line.startswith("#"):
        return
    if line.startswith("== "):
        sections.append(Section(line[3:]))
        return
    if head := re.fullmatch(r"\[(\w+) (.*)\]", line):
        sections[-1].entries.append(Entry(head[1], head[2].split()))
        return
    entry = sections[-1].entries[-1]
    if member := re.fullmatch(r"- ([^:]*(?:::\w+)?)(?:: (.*))?", line):
        entry.members[member[1]] = member[2] or ""
    elif line.startswith("  ") and entry.members:
        entry.members[next(reversed(entry.members))] += " " + line.strip()
    else:
        entry.lines.append(line)


def table() -> list[Section]:
    """The table, as it is written."""
    sections: list[Section] = []
    for at, line in enumerate((ROOT / "bindings/abi.txt").read_text().split("\n")):
        try:
            add_line(sections, line)
        except IndexError:
            raise Fault(f"bindings/abi.txt:{at + 1}: '{line}' is in no entry") from None
    return sections


def record_of(path: str, name: str) -> dict[str, int]:
    """The numbers of a record of the definitions."""
    text = (ROOT / "crates" / path).read_text()
    found = re.search(rf"^{name} = record \{{\n(.*?)^\}}", text, re.M | re.S)
    if found is None:
        raise Fault(f"crates/{path} has no record {name}")
    return {it[1]: int(it[2]) for it in re.finditer(r"(\w+) = (\d+);", found[1])}


class Source:
    """What the Rattle sources say."""

    def __init__(self) -> None:
        self._texts = dict(self._plain())
        self.structs: dict[str, Struct] = {}
        self.handles: set[str] = set()
        for name in self._texts:
            if name.endswith("Handle"):
                self.handles.add(name)
            else:
                self.struct(name)
        self.calls = exports()
        self.numbers = {name: record_of(*where) for name, where in RECORDS.items()}
        for case, (path, form) in CASES.items():
            found = re.findall(form, (ROOT / "crates" / path).read_text())
            self.numbers[case] = {f"{case}::{name}": int(number) for name, number in found}

    def _plain(self) -> Iterator[tuple[str, str]]:
        for path in sorted((ROOT / "crates").glob("*/src/**/*.rt")):
            for name, body in STRUCT.findall(path.read_text()):
                if name != "Opaque":
                    yield name, body

    def struct(self, name: str) -> Struct:
        """A struct by its name, with its layout."""
        if name in self.structs:
            return self.structs[name]
        if name not in self._texts:
            raise Fault(f"no struct {name} with #[repr(C)] in crates/*/src")
        fields, at, most = [], 0, 1
        for field_name, kind in FIELD.findall(self._texts[name]):
            size, align = self.layout(kind)
            at += -at % align
            fields.append(Field(field_name, kind, at))
            at, most = at + size, max(most, align)
        self.structs[name] = Struct(name, tuple(fields), at + -at % most, most)
        return self.structs[name]

    def layout(self, kind: str) -> tuple[int, int]:
        """The size and the alignment of a type."""
        if kind in SIZES:
            return SIZES[kind], SIZES[kind]
        if array := ARRAY.fullmatch(kind):
            size, align = self.layout(array[1])
            return size * int(array[2]), align
        struct = self.struct(kind)
        return struct.size, struct.align

    def code(self, name: str) -> int:
        """The number of a code, by its name in the sources."""
        for numbers in self.numbers.values():
            if name in numbers:
                return numbers[name]
        raise Fault(f"no code {name} in {', '.join(path for path, _ in (*RECORDS.values(), *CASES.values()))}")

    def said(self, record: str) -> list[tuple[str, int]]:
        """What the library says of its codes: the fields of a struct, with their numbers."""
        return [(it.name, self.numbers[record][it.name]) for it in self.struct(record).fields if it.kind == "u32"]

    def codes(self, entry: Entry) -> Codes:
        """An enumeration of the table, with its numbers."""
        listed = []
        for member, text in entry.members.items():
            name, source = member.split()
            listed.append(Code(name, source, self.code(source), text))
        if [it.number for it in listed] != list(range(len(listed))):
            raise Fault(f"bindings/abi.txt: the codes of {entry.words[0]} are not those from 0 on, in order")
        return Codes(entry.words[0], entry.text, tuple(listed))

    def default(self, entry: Entry) -> Default:
        """A default of the table: the struct of the table that Rattle has without the prefix has the numbers."""
        name, macro = entry.words
        text = (ROOT / "crates/pt_signal/src/config.rt").read_text()
        found = re.search(rf"pub const DEFAULT: {name.removeprefix('Pt')} = \w+ \{{(.*?)\}};", text, re.S)
        if found is None:
            raise Fault(f"crates/pt_signal/src/config.rt has no default of {name}")
        words = dict(re.findall(r"(\w+): ([\w:]+)", found[1]))
        numbers = {it.name: 2**32 - 1 if words[it.name] == "u32::MAX" else int(words[it.name])
                   for it in self.struct(name).fields}
        return Default(name, macro, entry.text, numbers)

    def version(self) -> str:
        """The version, which the programs print."""
        text = (ROOT / "crates/pt_render/src/choices.rt").read_text()
        found = re.search(r'^pub const VERSION: &str = "(.*)";', text, re.M)
        if found is None:
            raise Fault("crates/pt_render/src/choices.rt has no VERSION")
        return found[1]

    def proved_sizes(self) -> Iterator[tuple[str, int, int]]:
        """Each struct whose size the library is proved to say: its name, this size, and that of its fields here."""
        for record in RECORDS:
            for name, number in self.numbers[record].items():
                short = name.removesuffix("_size")
                found = [it for it in self.structs.values() if snake(it.name) == {"reference": "ref"}.get(short, short)]
                if found and (record in ("PtSizes", "PtSupervisorCodes") or name.endswith("_size")):
                    yield found[0].name, number, found[0].size
