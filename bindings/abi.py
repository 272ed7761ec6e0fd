#!/usr/bin/env python3
"""Writes what C, Rust and Python have of the library's interface, from the Rattle sources and bindings/abi.txt.

    bindings/abi.py            compares, and names each declaration that differs; status 1 if there is one
    bindings/abi.py --write    writes what differs

What is written:

    bindings/c/pundewo.h                the parts between marks: version, handles, codes, structs, defaults and sizes;
                                        and the types of each function. The rest, names too, is written by hand.
    bindings/c/layout.c                 where each field is, for a C compiler to compare
    bindings/rust/src/raw.rs            structs, codes and functions
    bindings/python/pundewo/_abi.py     structs, codes and calls

A new function is declared in the header by hand, with its comment: this command says what is missing.
"""
from __future__ import annotations

import argparse
import re
import sys
import textwrap
from collections.abc import Callable, Iterator
from pathlib import Path

sys.dont_write_bytecode = True
sys.path.insert(0, str(Path(__file__).resolve().parent))
from abi_source import (  # noqa: E402
    ROOT, ROW, Codes, Default, Entry, Export, Fault, Section, Source, Struct, snake, table,
)

WIDTH = 120
HEADER = "bindings/c/pundewo.h"
MARKED = re.compile(r"^/\* \[abi: (\w+)\] \*/\n(.*?)^/\* \[abi: end\] \*/\n", re.M | re.S)
DECLARED = re.compile(r"^(uint32_t|void) (pt_\w+)\(([^;]*?)\);", re.M)
ARRAY = re.compile(r"\[(\w+); (\d+)\]")
IN_C = {"u8": "uint8_t", "u32": "uint32_t", "u64": "uint64_t", "i64": "int64_t", "usize": "size_t", "bool": "bool"}
IN_PYTHON = {"u8": "c.c_uint8", "u32": "c.c_uint32", "u64": "c.c_uint64", "i64": "c.c_int64", "usize": "c.c_size_t",
             "bool": "c.c_bool"}
# Structs that the Rust crate has as public types, and a field whose name Python does not take.
RUST_OWN = {"PtPid": "Pid", "PtConfig": "Config"}
PYTHON_NAMES = {"from": "sender"}


def wrapped(text: str, first: str, then: str, end: str = "") -> str:
    """The text in lines of at most 120 letters."""
    lines = textwrap.wrap(text, WIDTH - len(end), initial_indent=first, subsequent_indent=then, break_on_hyphens=False,
                          break_long_words=False)
    return "\n".join(lines) + end + "\n"


def in_rows(words: list[str], first: str, then: str, end: str) -> str:
    """The words, with commas between them, in lines of at most 120 letters."""
    return wrapped(", ".join(word.replace(" ", "\0") for word in words), first, then, end).replace("\0", " ")


# ---- C


def c_name(kind: str) -> str:
    """The name of a type in C."""
    if kind.endswith("Handle"):
        return f"pt_{snake(kind.removesuffix('Handle'))}"
    return IN_C.get(kind) or f"pt_{snake(kind)}"


def c_field(name: str, kind: str) -> str:
    """A field in C. Letters are chars there."""
    if array := ARRAY.fullmatch(kind):
        return f"{'char' if array[1] == 'u8' else c_name(array[1])} {name}[{array[2]}];"
    return f"{c_name(kind)} {name};"


def commented(rows: list[tuple[str, str]]) -> str:
    """Lines with texts beside them if there is room for all, and else above them."""
    wide = max(len(row) for row, _ in rows)
    if all(not text or wide + len(text) + 11 <= WIDTH for _, text in rows):
        return "".join(f"    {row:{wide}} /* {text} */\n" if text else f"    {row}\n" for row, text in rows)
    parts = []
    for row, text in rows:
        parts.append((wrapped(text, "    /* ", "     * ", " */") if text else "") + f"    {row}\n")
    return "".join(parts)


def c_comment(text: str) -> str:
    return wrapped(text, "/* ", " * ", " */") if text else ""


def c_struct(struct: Struct, entry: Entry) -> str:
    """A struct in C: in one line if it has no texts and fits; fields of one type together if it has many."""
    name = f"pt_{snake(struct.name)}"
    fields = [(c_field(it.name, it.kind), entry.members.get(it.name, "")) for it in struct.fields]
    line = f"typedef struct {name} {{ {' '.join(field for field, _ in fields)} }} {name};"
    if not any(text for _, text in fields):
        if len(line) <= WIDTH:
            return c_comment(entry.text) + line + "\n"
        if len(fields) > 20:
            body = "".join(in_rows(names, f"    {kind} ", "        ", ";") for kind, names in runs(struct))
            return c_comment(entry.text) + f"typedef struct {name} {{\n{body}}} {name};\n"
    return c_comment(entry.text) + f"typedef struct {name} {{\n{commented(fields)}}} {name};\n"


def runs(struct: Struct) -> Iterator[tuple[str, list[str]]]:
    """The fields in runs of one type."""
    names: list[str] = []
    for it, after in zip(struct.fields, (*struct.fields[1:], None)):
        names.append(it.name)
        if after is None or after.kind != it.kind:
            yield c_name(it.kind), names
            names = []


def c_codes(codes: Codes) -> str:
    rows = [(f"{it.name} = {it.number}{',' if it is not codes.codes[-1] else ''}", it.text) for it in codes.codes]
    line = f"enum {codes.name} {{ {' '.join(row for row, _ in rows)} }};"
    if not any(text for _, text in rows) and len(line) <= WIDTH:
        return c_comment(codes.text) + line + "\n"
    return c_comment(codes.text) + f"enum {codes.name} {{\n{commented(rows)}}};\n"


def c_default(default: Default) -> str:
    numbers = ", ".join("UINT32_MAX" if it == 2**32 - 1 else str(it) for it in default.numbers.values())
    return c_comment(default.text) + f"#define {default.macro} {{{numbers}}}\n"


def c_handles(section: Section) -> str:
    """The handles, and what an empty one is."""
    names = [c_name(entry.words[0]) for entry in section.entries]
    types = "".join(f"typedef struct {name} {{ void *at; }} {name};\n" for name in names)

    def none(form: str) -> str:
        return "".join(f"#define PT_NO_{name[3:].upper()} {form.format(name)}\n" for name in names)

    plain = "".join(f"#define {name.upper()}_INIT {{NULL}}\n" for name in names)
    return (
        "/* Handles: each is one pointer, and null if it is empty. */\n" + types +
        "\n/* An empty handle as an initializer, also of a static: `static pt_desk desk = PT_DESK_INIT;`. */\n" +
        plain +
        "\n/* An empty handle as a value: `desk = PT_NO_DESK;`. */\n#ifdef __cplusplus\n" + none("{}{{nullptr}}") +
        "#else\n" + none("(({}){{0}})") + "#endif\n")


def c_version(source: Source) -> str:
    """The version, as a text, in its parts, and as one number."""
    version = source.version()
    major, minor, patch = (int(part) for part in version.split(".")[:3])
    parts = "".join(f"#define PUNDEWO_VERSION_{name} {number}\n"
                    for name, number in (("MAJOR", major), ("MINOR", minor), ("PATCH", patch)))
    return ("/* The version of this header: as a text, in its parts, and as the number that pt_version() returns of the library\n"
            " * (10203 is 1.2.3). */\n"
            f'#define PUNDEWO_VERSION "{version}"\n{parts}'
            f"#define PUNDEWO_VERSION_NUMBER {10000 * major + 100 * minor + patch}\n")


def c_entry(source: Source, entry: Entry) -> str:
    if entry.kind == "struct":
        return c_struct(source.struct(entry.words[0]), entry)
    if entry.kind == "codes":
        return c_codes(source.codes(entry))
    if entry.kind == "default":
        return c_default(source.default(entry))
    raise Fault(f"bindings/abi.txt: [{entry.kind} {' '.join(entry.words)}] is no entry of this section")


def c_sizes(source: Source, sections: list[Section]) -> str:
    """A compiler's own test of each size, in C and in C++, also before C11."""
    lines = "".join(f"PT_SIZE_IS(pt_{snake(it.name)}, {it.size});\n" for it in structs_of(source, sections))
    message = 'pundewo.h: " #type " has another size in the library'
    return (
        "/* Each struct has the size that it has in the library, or this header does not compile. */\n"
        "#if defined(__cplusplus) && __cplusplus >= 201103L\n"
        f'#define PT_SIZE_IS(type, size) \\\n    static_assert(sizeof(type) == (size), "{message}")\n'
        "#elif !defined(__cplusplus) && defined(__STDC_VERSION__) && __STDC_VERSION__ >= 201112L\n"
        f'#define PT_SIZE_IS(type, size) \\\n    _Static_assert(sizeof(type) == (size), "{message}")\n'
        "#else\n"
        "#define PT_SIZE_IS(type, size) extern const char type##_has_its_size[sizeof(type) == (size) ? 1 : -1]\n"
        f"#endif\n{lines}#undef PT_SIZE_IS\n")


def c_parameters(call: Export) -> list[tuple[str, str]]:
    """The parameters of a function of C: type and, as far as the sources have it, name."""
    found: list[tuple[str, str]] = []
    for name, kind in call.parameters:
        if kind == "Global":
            continue
        if row := ROW.fullmatch(kind):
            star = "const char *" if row[2] == "u8" else f"{'' if 'mut' in row[1] else 'const '}{c_name(row[2])} *"
            found += [(star, name), ("size_t ", f"{name}_count")]
        elif kind.startswith("&mut "):
            # (the sources call a handle by one letter)
            word = snake(kind[5:].removesuffix("Handle")) if kind.endswith("Handle") else name
            found.append((f"{c_name(kind[5:])} *", name if name == "out" else word))
        else:
            found.append((f"{c_name(kind)} ", name))
    return found


def prototype(call: Export, names: list[str]) -> str:
    """The declaration of a function in C, with these names if there are as many."""
    parameters = c_parameters(call)
    if len(names) != len(parameters):
        names = [name for _, name in parameters]
    words = [f"{kind}{name}" for (kind, _), name in zip(parameters, names)]
    return in_rows(words, f"{'uint32_t' if call.returns else 'void'} {call.name}(", "    ", ");").rstrip("\n")


def names_of(parameters: str) -> list[str]:
    """The names of the parameters of a declaration."""
    return [match[0] for part in parameters.split(",") if (match := re.search(r"\w+\s*$", part))]


def plain(text: str) -> str:
    """A text with one space where it has some, and none within brackets."""
    return re.sub(r"\s+", " ", text).strip()


def calls_in_order(source: Source, header: str) -> list[tuple[Export, list[str]]]:
    """The functions in the order of the header, each with the names of its parameters there."""
    known = {call.name: call for call in source.calls}
    declared = {found[2]: names_of(found[3]) for found in DECLARED.finditer(header)}
    for name in sorted(known.keys() - declared.keys()):
        raise Fault(f"{HEADER} does not declare {name}. Add it, with a comment:\n{prototype(known[name], [])}")
    for name in sorted(declared.keys() - known.keys()):
        raise Fault(f"{HEADER} declares {name}, which crates/pt_c/src does not export")
    return [(known[name], names) for name, names in declared.items()]


def header_of(source: Source, sections: list[Section], header: str) -> str:
    """The header, with its parts between marks and the types of its functions as the sources have them."""
    by_name = {section.name: section for section in sections}
    known = {call.name: call for call, _ in calls_in_order(source, header)}

    def part(mark: re.Match[str]) -> str:
        name = mark[1]
        if name == "version":
            body = c_version(source)
        elif name == "sizes":
            body = c_sizes(source, sections)
        elif name == "handles":
            body = c_handles(by_name[name])
        elif name in by_name:
            body = "\n".join(c_entry(source, entry) for entry in by_name[name].entries)
        else:
            raise Fault(f"{HEADER} has a part '{name}', which bindings/abi.txt has not")
        return f"/* [abi: {name}] */\n{body}/* [abi: end] */\n"

    def declaration(found: re.Match[str]) -> str:
        wanted = prototype(known[found[2]], names_of(found[3]))
        return found[0] if plain(found[0]) == plain(wanted) else wanted

    text = MARKED.sub(part, header)
    for name in ("version", "sizes", *by_name):
        if f"/* [abi: {name}] */\n" not in text:
            raise Fault(f"{HEADER} has no part '/* [abi: {name}] */'")
    return DECLARED.sub(declaration, text)


def structs_of(source: Source, sections: list[Section]) -> list[Struct]:
    """All structs, in the order of the table."""
    listed = [entry.words[0] for section in sections for entry in section.entries if entry.kind == "struct"]
    for name in sorted(source.structs.keys() - set(listed)):
        raise Fault(f"bindings/abi.txt has no [struct {name}], which is in crates/*/src with #[repr(C)]")
    for name in sorted(source.handles - {entry.words[0] for section in sections for entry in section.entries}):
        raise Fault(f"bindings/abi.txt has no [handle {name}]")
    return [source.struct(name) for name in listed]


def codes_of(source: Source, sections: list[Section]) -> list[Codes]:
    """All enumerations, in the order of the table."""
    listed = [source.codes(entry) for section in sections for entry in section.entries if entry.kind == "codes"]
    used = {code.source for codes in listed for code in codes.codes}
    for record in ("PtCodes", "PtSupervisorCodes"):
        for it in source.struct(record).fields:
            if it.kind == "u32" and it.name not in used:
                raise Fault(f"bindings/abi.txt has no name for the code {it.name} of {record}")
    return listed


def layout_of(source: Source, sections: list[Section], _: str) -> str:
    """The test of where fields are, in C and in C++."""
    text = ("/* Whether this compiler puts each field of pundewo.h where the library has it, and takes each\n"
            " * initializer. Written by bindings/abi.py: change nothing here. */\n"
            '#include <assert.h>\n#include <stdio.h>\n\n#include "pundewo.h"\n#include "pundewo_text.h"\n\n'
            "#define IS_AT(type, field, place) static_assert(offsetof(type, field) == (place), #type \".\" #field)\n\n")
    for struct in structs_of(source, sections):
        name = f"pt_{snake(struct.name)}"
        text += f'static_assert(sizeof({name}) == {struct.size}, "{name}");\n'
        text += "".join(f"IS_AT({name}, {it.name}, {it.offset});\n" for it in struct.fields)
    handles = [c_name(entry.words[0]) for section in sections for entry in section.entries if entry.kind == "handle"]
    text += "\n" + "".join(f"static {it} the_{it[3:]} = {it.upper()}_INIT;\n" for it in handles)
    text += "static const pt_config the_config = PT_CONFIG_DEFAULT;\n\nint main(void) {\n"
    text += "".join(f"    the_{it[3:]} = PT_NO_{it[3:].upper()};\n    assert(the_{it[3:]}.at == NULL);\n"
                    for it in handles)
    text += "    assert(the_config.slots > 0);\n"
    last = codes_of(source, sections)[0].codes[-1].name
    text += f"    assert(pt_code_name({last})[0] != '?');\n    assert(pt_code_name({last} + 1)[0] == '?');\n"
    text += "    puts(\"c: layout, 0 wrong\");\n    return 0;\n}\n"
    return text


# ---- Rust


def rust_name(kind: str) -> str:
    """The name of a type in raw.rs."""
    if array := ARRAY.fullmatch(kind):
        return f"[{rust_name(array[1])}; {array[2]}]"
    if kind.endswith("Handle"):
        return "Handle"
    return kind if kind in IN_C else RUST_OWN.get(kind) or f"Raw{kind.removeprefix('Pt')}"


def rust_struct(struct: Struct) -> str:
    fields = "".join(f"    pub {it.name}: {rust_name(it.kind)},\n" for it in struct.fields)
    compared = ", PartialEq, Eq" if struct.name in ("PtCodes", "PtSupervisorCodes") else ""
    return (f"#[repr(C)]\n#[derive(Clone, Copy, Debug, Default{compared})]\npub struct {rust_name(struct.name)} {{\n"
            f"{fields}}}\n")


def rust_call(call: Export, names: list[str]) -> str:
    """The declaration of a function in Rust, as rustfmt has it."""
    words, left = [], iter(names)
    for _, kind in call.parameters:
        if row := ROW.fullmatch(kind):
            star = "*mut" if "mut" in row[1] else "*const"
            words += [f"{next(left)}: {star} {rust_name(row[2])}", f"{next(left)}: usize"]
        elif kind != "Global":
            taken = f"&mut {rust_name(kind[5:])}" if kind.startswith("&mut ") else rust_name(kind)
            words.append(f"{next(left)}: {taken}")
    end = " -> u32;" if call.returns else ";"
    line = f"    pub fn {call.name}({', '.join(words)}){end}"
    if len(line) <= WIDTH:
        return line + "\n"
    return f"    pub fn {call.name}(\n" + "".join(f"        {word},\n" for word in words) + f"    ){end}\n"


def rust_said(source: Source, sections: list[Section], record: str, constant: str) -> str:
    """What the library has to say of its codes and sizes."""
    of_code = {code.source: code.name for codes in codes_of(source, sections) for code in codes.codes}
    of_size = {{"ref": "reference"}.get(snake(name), snake(name)): rust_name(name) for name in source.structs}
    fields = "".join(f"    {it.name}: {of_code.get(it.name) or f'size_of::<{of_size[it.name]}>()'},\n"
                     for it in source.struct(record).fields)
    head = f"/// What the library says, if it is that of these sources.\npub const {constant}: "
    return f"{head}{rust_name(record)} = {rust_name(record)} {{\n{fields}}};\n"


def rust_assert(struct: Struct) -> str:
    """A test of the size of a struct, and of the places of the fields of one that is written by hand."""
    name = rust_name(struct.name)
    text = f"const _: () = assert!(size_of::<{name}>() == {struct.size});\n"
    if struct.name in RUST_OWN:
        text += "".join(f"const _: () = assert!(offset_of!({name}, {it.name}) == {it.offset});\n"
                        for it in struct.fields)
    return text


def rust_default(default: Default) -> str:
    name = rust_name(default.struct)
    numbers = ", ".join(f"{key}: {'u32::MAX' if it == 2**32 - 1 else f'{it:_}'}" for key, it in default.numbers.items())
    return f"pub const {default.macro}: {name} = {name} {{ {numbers} }};\n"


def rust_of(source: Source, sections: list[Section], header: str) -> str:
    """raw.rs."""
    structs = structs_of(source, sections)
    consts = "\n".join("".join(f"pub const {it.name}: u32 = {it.number};\n" for it in codes.codes)
                       for codes in codes_of(source, sections))
    defaults = [source.default(entry) for section in sections for entry in section.entries if entry.kind == "default"]
    calls = "".join(rust_call(call, names) for call, names in calls_in_order(source, header))
    return (
        "//! The C interface, as `pundewo.h` has it. Written by `bindings/abi.py`: change nothing here.\n"
        "//!\n"
        "//! `tests/about.rs` compares it with what the library says of itself.\n\n"
        "use crate::{Config, Pid};\nuse std::mem::offset_of;\n\n"
        "#[repr(C)]\n#[derive(Debug)]\npub struct Handle {\n    pub at: *mut u8,\n}\n\n"
        "// SAFETY: the library proves that the type of each handle is `Send`.\nunsafe impl Send for Handle {}\n\n"
        + consts + "\n" + "\n".join(rust_struct(it) for it in structs if it.name not in RUST_OWN) + "\n"
        + "".join(map(rust_default, defaults)) + "\n" + rust_said(source, sections, "PtCodes", "CODES") + "\n"
        + rust_said(source, sections, "PtSizes", "SIZES") + "\n"
        + rust_said(source, sections, "PtSupervisorCodes", "SUPERVISOR_CODES") + "\n"
        + "".join(map(rust_assert, structs)) + "\n"
        + "unsafe extern \"C\" {\n    /// The first byte of a text that ends with a zero.\n"
        + f"    pub static pundewo_build: std::ffi::c_char;\n\n{calls}}}\n")


# ---- Python


def python_name(kind: str) -> str:
    """The name of a type in _abi.py."""
    if array := ARRAY.fullmatch(kind):
        return f"{python_name(array[1])} * {array[2]}"
    if kind.endswith("Handle"):
        return "CHandle"
    return IN_PYTHON.get(kind) or f"C{kind.removeprefix('Pt')}"


def python_struct(struct: Struct) -> str:
    fields = [f'("{PYTHON_NAMES.get(it.name, it.name)}", {python_name(it.kind)})' for it in struct.fields]
    return f"class {python_name(struct.name)}(c.Structure):\n" + in_rows(fields, "    _fields_ = [", " " * 16, "]")


def python_row(first: str, words: list[str], end: str) -> str:
    """A tuple or a dictionary, in one line if it fits."""
    line = f"{first}{', '.join(words)}{end}\n"
    return line if len(line) <= WIDTH + 1 else f"{first}\n" + in_rows(words, "    ", "    ", f",\n{end}")


def python_call(call: Export) -> str:
    kinds = []
    for _, kind in call.parameters:
        if row := ROW.fullmatch(kind):
            kinds += ["c.c_char_p" if row[2] == "u8" else f"_P({python_name(row[2])})", "c.c_size_t"]
        elif kind != "Global":
            kinds.append(f"_P({python_name(kind[5:])})" if kind.startswith("&mut ") else python_name(kind))
    return in_rows(kinds, f'    "{call.name}": [', " " * 8, "],")


def python_of(source: Source, sections: list[Section], header: str) -> str:
    """_abi.py."""
    codes = codes_of(source, sections)
    first, others = codes[0], codes[1:]
    calls = [call for call, _ in calls_in_order(source, header)]
    defaults = [source.default(entry) for section in sections for entry in section.entries if entry.kind == "default"]
    words = "".join(python_row(f"{it.name.removeprefix('pt_').upper()}S = (", [f'"{word}"' for word in it.words()], ")")
                    for it in others)
    said = "".join(python_row(f"{name} = {{", [f'"{field}": {number}' for field, number in source.said(record)], "}")
                   for record, name in (("PtCodes", "CODES"), ("PtSupervisorCodes", "SUPERVISOR_CODES")))
    return (
        '"""The structs, codes and calls of the library. Written by bindings/abi.py: change nothing here.\n\n'
        "pundewo.h says what they mean. `CODES` and `SUPERVISOR_CODES` are what the library says of its codes.\n\"\"\"\n\n"
        "from __future__ import annotations\n\n"
        "import ctypes as c\nfrom enum import IntEnum\nfrom typing import Any\n\n\n"
        'class Code(IntEnum):\n    """What calls return."""\n\n'
        + "".join(f"    {it.name.removeprefix('PT_')} = {it.number}\n" for it in first.codes)
        + "\n\n# The codes of structs, each in its place.\n" + words + "\n" + said
        + "".join(f"{it.macro.removeprefix('PT_')} = ({', '.join(map(str, it.numbers.values()))})\n" for it in defaults)
        + "\n\nclass CHandle(c.Structure):\n    _fields_ = [(\"at\", c.c_void_p)]\n\n\n"
        + "\n\n".join(python_struct(it) for it in structs_of(source, sections))
        + "\n\n_P = c.POINTER\n\n# The calls that return a code, with the types of their parameters.\n"
        + "CALLS: dict[str, list[Any]] = {\n" + "".join(python_call(it) for it in calls if it.returns)
        + "}\n\n# What the library says of itself.\nABOUT: dict[str, list[Any]] = {\n"
        + "".join(python_call(it) for it in calls if not it.returns) + "}\n")


# ---- both

FILES: dict[str, Callable[[Source, list[Section], str], str]] = {
    HEADER: header_of,
    "bindings/c/layout.c": layout_of,
    "bindings/rust/src/raw.rs": rust_of,
    "bindings/python/pundewo/_abi.py": python_of,
}


def difference(path: str, wanted: str, there: str) -> str:
    """The first line in which a file differs, and the declaration that it is in."""
    lines, own = wanted.split("\n"), there.split("\n")
    at = next((n for n, (left, right) in enumerate(zip(lines, own)) if left != right), min(len(lines), len(own)))
    got, want = (it[at] if at < len(it) else "no line" for it in (own, lines))
    head = next((line for line in reversed(lines[:at + 1]) if line[:1].isalpha()), "")
    return (f"{path}:{at + 1}: '{got.strip()}', and by the Rattle sources and bindings/abi.txt '{want.strip()}'"
            + (f"\n    in: {head}" if head and head.strip() != want.strip() else ""))


def run(write: bool) -> int:
    """Compares or writes the files, and returns the status."""
    source, sections = Source(), table()
    for name, proved, size in source.proved_sizes():
        if proved != size:
            raise Fault(f"{name} has {size} bytes by its fields, and the library is proved to say {proved}")
    header = (ROOT / HEADER).read_text()
    faults = []
    for path, make in FILES.items():
        file = ROOT / path
        wanted = make(source, sections, header)
        there = file.read_text() if file.exists() else ""
        if wanted == there:
            continue
        if write:
            file.write_text(wanted)
            print(f"written: {path}")
        else:
            faults.append(difference(path, wanted, there))
    print("".join(f"{fault}\n" for fault in faults), end="")
    if faults:
        print("bindings/abi.py --write makes them as the sources are")
    print(f"abi: {len(FILES) - len(faults)} passed, {len(faults)} failed")
    return 1 if faults else 0


def main() -> int:
    reader = argparse.ArgumentParser(description="Compares what C, Rust and Python have of the library with sources.")
    reader.add_argument("--write", action="store_true", help="write what differs")
    try:
        return run(reader.parse_args().write)
    except Fault as fault:
        print(f"abi.py: {fault}\nabi: 0 passed, 1 failed")
        return 1


if __name__ == "__main__":
    sys.exit(main())
