#!/usr/bin/env python3
"""Prints docs/API.md: what a program can use of a node and of the crates over it, read off the sources.

    tools/api.py > docs/API.md      writes the page anew
    tools/api.py --compare          prints the first line that differs, with status 1

The page has a table of contents and a section for each crate of `CRATES`. A type or a call is there with its signature,
the first sentence of its documentation, and the sentences that say when it fails. A type also has the traits of these
crates that it implements.
"""
from __future__ import annotations

import argparse
import re
import sys
import textwrap
from collections.abc import Iterator
from pathlib import Path

ROOT = Path(__file__).resolve().parent.parent
PAGE = ROOT / "docs" / "API.md"
# the crates whose calls a program makes; one that is not there is passed over
CRATES = (
    "pt_node", "pt_history", "pt_behaviour", "pt_crew", "pt_supervisor", "pt_scheduler", "pt_epochs",
    "pt_pauses", "pt_scheduler_laws", "pt_timers", "pt_names",
)

HEAD = """# What a program calls

With this page you can look up each public type and call of a program, and when it fails.
It covers {crates}.

Made from the sources by `tools/api.py`; the gate compares it. `use pt_node::{{..}}` has each name of the first section.
Each other crate has a section of its own. [RUNTIME](RUNTIME.md) explains crews, supervisors, calls and desks that rest,
[TIMERS](TIMERS.md) timers and names. The documentation and the contract of each call are in the named file.
"""

CONTENTS = "## Contents"

ITEM = re.compile(r"pub (struct|enum|trait|fn|const) (\w+)")
IMPL = re.compile(r"^impl(?:<[^>]*>)? (\w+)(?:<[^>]*>)? \{")
IMPL_OF = re.compile(r"^impl(?:<[^>]*>)? (\w+)(?:<[^>]*>)? for (\w+)(?:<[^>]*>)? \{", re.M)
EXPORT = re.compile(r"pub use (\w+(?:::\w+)*?)::(\{[^}]*\}|\w+);")
FAILS = re.compile(r"(((Then |Else |If )?[Ii]t|They) )?((is|are) )?([Rr]efused|[Ff]ails?)\b|`\w+` (where|if|exactly)\b|It is given back\b")

Doc = list[str]


def front(crate: str) -> Path:
    """The root file of a library."""
    return ROOT / "crates" / crate / "src" / "lib.rt"


def sources(crate: str) -> list[Path]:
    """The source files of a crate."""
    return sorted((ROOT / "crates" / crate / "src").rglob("*.rt"))


def exports(crate: str) -> Iterator[tuple[str, str]]:
    """The crate that each public name of a crate comes from: those of its `pub use` lines, then those of its front."""
    lines = front(crate).read_text().splitlines()
    text = " ".join(line for line in lines if not line.startswith("//"))
    for path, names in EXPORT.findall(text):
        of = path.split("::")[0]
        for name in re.findall(r"\w+", names):
            yield (of if of.startswith("pt_") else crate), name
    for line in lines:
        found = ITEM.match(line)
        if found:
            yield crate, found[2]


def parts(doc: Doc) -> list[str]:
    """The sentences of a documentation, without its links."""
    text = re.sub(r"\[(`[^`]*`)\](?:\([^)]*\))?", r"\1", " ".join(doc))
    return [part.strip() for part in re.split(r"(?<=[.])\s+(?=[A-Z`])", text) if part.strip()]


def sentences(doc: Doc) -> list[str]:
    """The first sentence of a documentation, and those that say when the call fails."""
    found = parts(doc)
    return found[:1] + [part for part in found[1:] if FAILS.match(part)]


def heading(crate: str) -> str:
    """The first sentence of a crate's head."""
    lines = front(crate).read_text().splitlines()
    head = [line.removeprefix("//!").strip() for line in lines if line.startswith("//!")]
    return parts(head[:head.index("")] if "" in head else head)[0]


def signature(lines: list[str], start: int) -> str:
    """The signature that begins in this line, on one line, without its contract."""
    words = []
    for line in lines[start:]:
        bare = line.split("//")[0].strip()
        if re.match(r"(ensures|requires)\b", bare) or bare == "{":
            break
        words.append(bare.rstrip("{").strip())
        if bare.endswith("{") or bare.endswith(";"):
            break
    text = " ".join(words).rstrip(";,")
    return re.sub(r"\(\s+", "(", re.sub(r",?\s+\)", ")", text)).removeprefix("pub ")


class Item:
    """A public item, with its documentation and what it has: fields, variants or calls."""

    def __init__(self, name: str, doc: Doc, path: Path, line: str) -> None:
        self.name, self.doc, self.path, self.line = name, doc, path, line
        self.calls: list[tuple[Doc, str]] = []


Calls = list[tuple[str, Doc, str]]


def read(path: Path) -> tuple[dict[str, Item], Calls]:
    """The public items of a file, and the calls of its `impl` blocks, each with the type that it is of."""
    items: dict[str, Item] = {}
    calls: Calls = []
    lines = path.read_text().splitlines()
    doc: Doc = []
    inside = None
    for at, line in enumerate(lines):
        bare = line.strip()
        if bare.startswith("///"):
            doc.append(bare[3:].strip())
            continue
        if line and not line.startswith((" ", "}", ")")):
            within = IMPL.match(line)
            inside = within[1] if within else None
        found = ITEM.match(bare)
        if found and found[1] == "fn" and inside and line.startswith("    "):
            calls.append((inside, doc, signature(lines, at)))
        elif found and not line.startswith(" "):
            kind, name = found[1], found[2]
            item = Item(name, doc, path, signature(lines, at) if kind in ("fn", "const") else name)
            item.calls = members(kind, lines, at)
            items[name] = item
        if not bare.startswith("#["):
            doc = []
    return items, calls


def members(kind: str, lines: list[str], start: int) -> list[tuple[Doc, str]]:
    """The public fields, variants or methods of the item that begins in this line, with their documentation."""
    found: list[tuple[Doc, str]] = []
    doc: Doc = []
    if kind not in ("struct", "enum", "trait") or not lines[start].rstrip().endswith("{"):
        return found
    for at in range(start + 1, len(lines)):
        line, bare = lines[at], lines[at].strip()
        if line.startswith("}"):
            break
        if bare.startswith("///"):
            doc.append(bare[3:].strip())
            continue
        if re.match(r"    (pub \w+:|[A-Z]\w*|fn )", line) and (kind != "struct" or bare.startswith("pub")):
            name = signature(lines, at) if bare.startswith("fn") else bare.rstrip(",").removeprefix("pub ")
            found.append((doc, name))
        if not bare.startswith("#["):
            doc = []
    return found


def find(crate: str, name: str, seen: tuple[str, ...] = ()) -> Item | None:
    """The item of that name, and what its `impl` blocks have, in the crate or the one that it has it from."""
    files = [read(path) for path in sources(crate)]
    for items, _ in files:
        if name in items:
            item = items[name]
            for _, calls in files:
                item.calls += [(doc, line) for of, doc, line in calls if of == name]
            return item
    text = " ".join(front(crate).read_text().split())
    for path, names in re.findall(r"pub use (pt_\w+)(?:::\w+)*::(\{[^}]*\}|\w+);", text):
        if name in re.findall(r"\w+", names) and path not in seen:
            return find(path, name, (*seen, crate))
    text = " ".join(path.read_text() for path in sources(crate)).replace("\n", " ")
    for path, names in re.findall(r"pub use (pt_\w+)(?:::\w+)*::(\{[^}]*\}|\w+(?: as \w+)?);", text):
        was = re.search(r"(\w+) as " + name + r"\b", names)
        if was or name in re.findall(r"\w+", names):
            found = find(path, was[1] if was else name, (*seen, crate))
            if found and was:
                found.line = found.line.replace(was[1], name)
            return found
    return None


def implemented(crates: list[str]) -> dict[tuple[str, str], list[str]]:
    """The exported traits of these crates that each type implements, by the type's crate and name."""
    owners = {crate: {name: of for of, name in exports(crate)} for crate in crates}
    every = {name: of for crate in reversed(crates) for name, of in owners[crate].items()}
    found: dict[tuple[str, str], list[str]] = {}
    for crate in crates:
        for path in sources(crate):
            for trait, name in IMPL_OF.findall(path.read_text()):
                of = owners[crate].get(name, every.get(name))
                if of and trait in every:
                    found.setdefault((of, name), []).append(f"`{trait}`")
    return found


def wrapped(text: str, indent: str = "") -> str:
    """The text in lines of the pages' width."""
    return textwrap.fill(text, 120, initial_indent=indent, subsequent_indent=indent, break_long_words=False, break_on_hyphens=False)


def entry(line: str, doc: Doc) -> str:
    """A call: its signature in one line, and what it does in lines below it."""
    return f"- `{line}`" + (f"\\\n{wrapped(' '.join(sentences(doc)), '  ')}" if doc else "")


def section(crate: str, traits: dict[tuple[str, str], list[str]]) -> Iterator[str]:
    """The parts of a crate's section, with the traits that each type implements."""
    yield f"## `{crate}`"
    yield wrapped(heading(crate))
    for of, name in exports(crate):
        item = find(of, name)
        if item is None:
            sys.exit(f"{name} of {of}: not found")
        yield f"### `{item.line}`"
        said = sentences(item.doc)
        if (of, name) in traits:
            said.append(f"Implements {' and '.join(sorted(traits[of, name]))}.")
        yield wrapped(f"{' '.join(said)} (`{item.path.relative_to(ROOT)}`)")
        if item.calls:
            yield "\n".join(entry(line, doc) for doc, line in item.calls)


def anchors(headings: list[str]) -> Iterator[str]:
    """The anchor that a code host gives each heading of a page: its words in small letters, joined by hyphens, and a
    number behind one that was there before."""
    seen: dict[str, int] = {}
    for text in headings:
        words = re.sub(r"[^\w -]", "", text.lstrip("#").strip().lower()).replace(" ", "-")
        count = seen[words] = seen.get(words, -1) + 1
        yield f"{words}-{count}" if count else words


def short(text: str) -> str:
    """What a heading is about: the name of a type, of a constant, or of a function."""
    words = re.match(r"#+ `(?:(?:const|unsafe|fn) )*(\w+)", text)
    return f"`{words[1]}`" if words else text.lstrip("# ")


def contents(body: list[str]) -> str:
    """A line for each crate, with links to its section and to each of its types and functions."""
    headings = [part for part in body if part.startswith("#")]
    links = zip(headings, anchors(headings))
    lines: list[str] = []
    for text, anchor in links:
        link = f"[{short(text)}](#{anchor})"
        if text.startswith("### "):
            lines[-1] += (", " if lines[-1].endswith(")") else " ") + link
        elif text.startswith("## ") and text != CONTENTS:
            lines.append(f"- {link}:")
    return "\n".join(wrapped(line.rstrip(":"), "  ").removeprefix("  ") for line in lines)


def page() -> str:
    """The whole page."""
    crates = [crate for crate in CRATES if front(crate).exists()]
    names = [f"`{crate}`" for crate in crates]
    traits = implemented(crates)
    head = HEAD.format(crates=f"{', '.join(names[:-1])} and {names[-1]}").rstrip("\n")
    body = [part for crate in crates for part in section(crate, traits)]
    return "\n\n".join([head, CONTENTS, contents([*head.split("\n\n"), CONTENTS, *body]), *body]) + "\n"


def main() -> None:
    reader = argparse.ArgumentParser(description="Prints docs/API.md, or compares it.")
    reader.add_argument("--compare", action="store_true", help="print the first line that differs, with status 1")
    compare = reader.parse_args().compare
    made = page()
    if not compare:
        sys.stdout.write(made)
        return
    there = PAGE.read_text() if PAGE.exists() else ""
    for number, (new, old) in enumerate(zip(made.splitlines(), there.splitlines()), 1):
        if new != old:
            sys.exit(f"docs/API.md:{number}: the sources say: {new}")
    if made != there:
        sys.exit("docs/API.md: the sources say more, or less: write it anew by tools/api.py > docs/API.md")


if __name__ == "__main__":
    main()
