"""What the verdict of a wrong body rests on: its function, and each contract, definition and lemma that this reaches by names.

A check of a function reads its body and the answers to its goals. Of all else it reads what these name: contracts,
definitions, types and lemmas, and what those name in turn, in this crate and in the crates below. A wrong body that was
refused stays refused as long as all of that stays as it is. So a new call or lemma, an import, a comment, and the body of
another function leave its verdict as it was.

The texts are split into parts: a function without its body, a type, an `impl` block without its functions, or a definition
or lemma of antt. A name of a file of antt is defined there or imported. In a source file a name may be that of a type or a
definition, and in a body that of a function, whose `impl` is of a type that is known there. Its tactics name lemmas. If a name
may mean several parts, all of them are reached.

Other crates see the Model's value alone of a type that has one, if all its fields are private: the prover opens such a value
where a body names a field. So its fields, and each item of the `impl Model` that names one of them, are the inside of the type.
Only edits of its own crate read that.
"""
from __future__ import annotations

import hashlib
import re
from collections.abc import Iterable, Iterator
from dataclasses import dataclass, replace
from functools import cache, cached_property
from pathlib import Path

import deciding

WORD = re.compile(r"[A-Za-z_][\w'-]*|[^\w\s(){}\[\],;.'\"◌]+")
DECLARES = re.compile(r"(?:pub(?:\(\w+\))? )?(?:unsafe )?(?:struct|enum|union|trait|const|static|type|mod|macro_rules!) *(\w+)")
MODEL = re.compile(r"impl\b[^\n{]*\bModel for (\w+)", re.M)
DEFINES = re.compile(r"(?:(?:abbrev|unfoldable|unfolding|pub|starred|instance|partial) )*(?:(?:record|data) )?([A-Za-z_][\w'-]*|◌[^\s{},.()]+◌)(?= |$)")
# What others read whole.
OPEN = re.compile(r"(pub )?(abbrev|unfoldable|record|data)\b|pub (record|data)\b")


@dataclass(frozen=True)
class Part:
    """A part of a crate: the names by which others reach it, and its text without comments.

    `words` are the names in the text that may be of a part, and `lemmas` those that may be of a lemma. A local part is reached
    from its own crate alone. A function is reached from bodies alone, and one of an `impl` if one of its `owners` is known there.
    An inside is behind the part that other crates read of the same item. It is read by edits of its own crate that reach that part.
    """

    names: frozenset[str]
    text: str
    words: frozenset[str]
    lemmas: frozenset[str]
    local: bool = False
    is_lemma: bool = False
    is_function: bool = False
    is_inside: bool = False
    owners: frozenset[str] = frozenset()


class File:
    """A file: its text without comments and imports, where its imports come from, and what it exports under another name."""

    def __init__(self, text: str, comment: str):
        self.text, imports = split(text, comment)
        self.is_source = comment == "//"
        self.origins = dict(it for line in imports for it in origins_in(line))
        # (a variant is imported from its type)
        self.types = {path: {word for word in words_of(path) if word[0].isupper()} for path, _ in self.origins.values()}
        self.defines = frozenset() if self.is_source else names_defined(self.text)
        exported = dict(it for line in imports if line.startswith("pub ") for it in origins_in(line))
        self.renamed = [self.part([name], name) for name, (_, original) in exported.items() if name != original]

    def part(self, names: Iterable[str], text: str, local: bool = False, is_lemma: bool = False) -> Part:
        """A part of this file. Beside its text is where each imported name in it comes from.

        A file of antt imports each name of another file. A source file names lemmas in its tactics alone, or imports them.
        """
        words = words_of(text)
        used = {name: self.origins[name] for name in sorted(words & self.origins.keys())}
        origins = "".join(f"\n{name} of {path} {original}" for name, (path, original) in used.items())
        imported = {original for _, original in used.values()}.union(*(self.types[path] for path, _ in used.values()))
        if not self.is_source:
            known = (words & self.defines) | imported
            return Part(frozenset(names), text + origins, known, known, local, is_lemma)
        tactics = words_of(" ".join(line for line in text.split("\n") if "tactic(" in line))
        cited = {original for path, original in used.values() if ".proofs." in path}
        return Part(frozenset(names), text + origins, words | imported, tactics | cited, local, is_lemma)


def split(text: str, comment: str) -> tuple[str, list[str]]:
    """The lines of a text that are not empty nor a comment, without its imports; and the imports, a line each."""
    kept: list[str] = []
    imports: list[str] = []
    is_open = False
    for line in text.split("\n"):
        begun = line.lstrip()
        if is_open or begun.startswith(("use ", "ghost use ", "pub use ")):
            imports.append(imports.pop() + " " + begun if is_open else line)
            is_open = not line.rstrip().endswith((";", "}") if comment == "--" else ";")
        elif begun and not begun.startswith(comment):
            kept.append(line.rstrip())
    return "\n".join(kept), imports


def origins_in(line: str) -> Iterator[tuple[str, tuple[str, str]]]:
    """Each name that a line imports, with the path that it is of and its name there."""
    path, _, names = re.sub(r"^\s*(pub )?(ghost )?use ", "", line).partition("{")
    found = re.findall(r"([A-Za-z_][\w'-]*|◌[^\s{},]+◌)(?: as (\w+))?", names) if names else re.findall(r"(\w+)(?: as (\w+))?;?$", path)
    for original, alias in found:
        yield (alias or original).strip("◌"), (path.strip(), original.strip("◌"))


def names_defined(text: str) -> frozenset[str]:
    """All names that begin a line of a file of antt, and so all that it defines."""
    return frozenset(first_name(line.lstrip()) for line in text.split("\n") if " : " in line or " where" in line)


def words_of(text: str) -> frozenset[str]:
    """The names in a text; of one with a hyphen also those on its sides."""
    found = set(WORD.findall(text))
    return frozenset(found | {piece for it in found if "-" in it for piece in it.split("-") if piece})


def begin_of(lines: list[str], function: deciding.Function) -> int:
    """The line in which the attributes of a function begin."""
    at = function.first
    while at > 0 and lines[at - 1].strip() and not re.search(r"[{};]$", lines[at - 1].rstrip()):
        at -= 1
    return at


def header_of(lines: list[str], function: deciding.Function) -> str:
    """The attributes of a function, its arguments and its contract, without its body."""
    indent = re.match(" *", lines[function.first])
    opens = f"{indent[0] if indent else ''}{{"
    own = lines[begin_of(lines, function) : function.last + 1]
    end = next((at for at, line in enumerate(own) if line.rstrip() == opens), None)
    if end is None:
        end = next((at + 1 for at, line in enumerate(own) if line.rstrip().endswith(" {")), len(own))
    return "\n".join(own[:end])


def parts_of_source(text: str, module: str) -> list[Part]:
    """The parts of a source file."""
    lines = text.split("\n")
    file = File(text, "//")
    functions = deciding.functions_of(text, module)
    parts = [of_function(file, lines, it) for it in functions]
    within = {at for it in functions for at in range(begin_of(lines, it), it.last + 1)}
    rest = split("\n".join("" if at in within else line for at, line in enumerate(lines)), "//")[0]
    blocks = blocks_of(rest)
    models = frozenset(MODEL.findall(text))
    hidden = {name: fields for it in blocks if (fields := private_fields(it)) for name in names_declared(it) & models}
    for block in blocks:
        face = face_of(block, hidden)
        parts.append(file.part(names_declared(block), face))
        if face != block:
            parts.append(replace(file.part(names_declared(block), block, local=True), is_inside=True))
    return parts + file.renamed


def items_in(block: str) -> list[str]:
    """The lines of an item, joined to the fields or ghost items that they are of."""
    found: list[str] = []
    for line in block.split("\n"):
        if found and line.startswith(("     ", "    }")):
            found[-1] += "\n" + line
        else:
            found.append(line)
    return found


def private_fields(block: str) -> frozenset[str]:
    """The fields of a struct whose fields are all private; none if there is a public one, by which others open its values."""
    if re.search(r"^(pub )?struct\b[^\n]*\{$", block, re.M) is None or re.search(r"^    pub ", block, re.M):
        return frozenset()
    return frozenset(it[1] for item in items_in(block) if (it := re.match(r"    (\w+): ", item)))


def face_of(block: str, hidden: dict[str, frozenset[str]]) -> str:
    """What other crates read of an item: no private field of a type with a Model, and nothing in its `impl Model` that names one."""
    model = MODEL.match(block)
    fields = frozenset().union(*(hidden.get(it, frozenset()) for it in ([model[1]] if model else names_declared(block))))
    names = r"\.({0})\b" if model else r"^    ({0}): "
    unwanted = re.compile(names.format("|".join(sorted(fields)))) if fields else None
    if unwanted is None or not model and not DECLARES.search(block):
        return block
    return "\n".join(it for it in items_in(block) if not unwanted.search(it))


def of_function(file: File, lines: list[str], function: deciding.Function) -> Part:
    """The part of a function: what its callers read of it."""
    header = split(header_of(lines, function), "//")[0]
    part = file.part([function.path.split("::")[-1]], header, is_local(lines[function.first]))
    return replace(part, is_function=True, owners=owners_of(lines, function.first))


def owners_of(lines: list[str], at: int) -> frozenset[str]:
    """The names in the line of the `impl` or `trait` that a function is in; none if it is in none."""
    if not lines[at].startswith(" "):
        return frozenset()
    above = next((it for it in range(at, -1, -1) if re.match(r"(unsafe )?impl\b|(pub(\(\w+\))? )?trait ", lines[it])), at)
    head = "\n".join(lines[above:at]).partition("{")[0]
    return frozenset(it for it in words_of(head) if it[0].isupper())


def is_local(line: str) -> bool:
    """Whether a function that begins so is of its crate alone. One of an `impl` without `pub` may be that of a trait."""
    return re.match(r" *pub\(", line) is not None or re.match(r"pub | ", line) is None


def blocks_of(text: str) -> list[str]:
    """The items of a source file whose functions are cut out: each from the line at the margin that begins it."""
    blocks: list[list[str]] = []
    for line in text.split("\n"):
        begins = line[:1] not in ("", " ", "}", ")") and not (blocks and blocks[-1][-1].startswith("#["))
        if begins or not blocks:
            blocks.append([])
        blocks[-1].append(line)
    return ["\n".join(it) for it in blocks if any(it)]


def names_declared(block: str) -> frozenset[str]:
    """The names by which an item is reached: its own, or those in the line of an `impl`. None: it is read by its own crate alone."""
    for line in block.split("\n"):
        declared = DECLARES.match(line)
        if declared:
            return frozenset({declared[1]})
        if re.match(r"(unsafe )?impl\b", line):
            return words_of(block.partition("{")[0]) - {"impl", "for", "where", "unsafe", "mut", "dyn"}
    return frozenset()


def parts_of_antt(text: str, is_lemma: bool = False) -> list[Part]:
    """The parts of a file of specs/ or proofs/: each definition or lemma.

    A lemma is abstract outside of its module: others read what it says, and not its proof. So are definitions, but for
    an `abbrev`, for what is `unfoldable`, a record or a type, and what a definition of the same file unfolds.
    """
    file = File(text, "--")
    unfolded = {word for line in file.text.split("\n") if line.lstrip().startswith("unfolding ") for word in line.split()}
    return [file.part(names, it, local, is_lemma) for names, it, local in definitions_in(file.text.split("\n"), "", unfolded)] + file.renamed


def definitions_in(lines: list[str], scope: str, unfolded: set[str]) -> Iterator[tuple[list[str], str, bool]]:
    """The definitions at the margin of these lines, behind the parameters of the module that they are in; whether each is local."""
    for block in blocks_at_margin(lines):
        name = first_name(block[0])
        if block[0].startswith("module "):
            head = next((at for at, line in enumerate(block) if line.rstrip().endswith(" where")), len(block) - 1)
            inner = [line.removeprefix("  ") for line in block[head + 1 :]]
            yield from definitions_in(inner, scope + "\n".join(block[: head + 1]) + "\n", unfolded)
        else:
            is_open = OPEN.match(block[0]) is not None or name in unfolded
            yield [name] if name else [], scope + "\n".join(block if is_open else statement_of(block)), re.match(r"(\w+ )*?pub ", block[0]) is None


def statement_of(block: list[str]) -> list[str]:
    """What a definition says, without the equations behind that."""
    return block[: next((at for at, line in enumerate(block[1:], 1) if line[:1] not in " })"), len(block))]


def blocks_at_margin(lines: list[str]) -> list[list[str]]:
    """The definitions at the margin, in order: what a name begins, with its equations and what is indented below them."""
    blocks: list[list[str]] = []
    for line in lines:
        if not line.strip():
            continue
        begins = line[0] not in " })" and (" : " in line or " where" in line or line.startswith(("module ", "record ", "data ", "abbrev ", "pub ")))
        is_equation = bool(blocks) and begins and first_name(line) == first_name(blocks[-1][0])
        if not blocks or begins and not is_equation:
            blocks.append([])
        blocks[-1].append(line)
    return blocks


def first_name(line: str) -> str:
    """The name that a line defines, or nothing."""
    found = DEFINES.match(line)
    return found[1].strip("◌") if found else ""


class Reach:
    """The parts of all crates, and what is reached from a text of one of them."""

    def __init__(self, root: Path, crates: dict[str, list[str]]):
        self.root, self.crates = root, crates
        self.parts: list[Part] = []
        self.of_crate: dict[str, range] = {}
        self.named: dict[str, dict[str, list[int]]] = {}
        self.offered: dict[str, dict[str, list[int]]] = {}
        for crate in crates:
            first = len(self.parts)
            self.parts += parts_of_crate(root / "crates" / crate)
            self.of_crate[crate] = range(first, len(self.parts))
            self.named[crate], self.offered[crate] = {}, {}
            for at in self.of_crate[crate]:
                for name in self.parts[at].names:
                    self.named[crate].setdefault(name, []).append(at)
                    if not self.parts[at].local:
                        self.offered[crate].setdefault(name, []).append(at)
        self.seen: dict[str, list[str]] = {}

    def visible(self, crate: str) -> list[str]:
        """This crate and those below it."""
        if crate not in self.seen:
            found = {crate: None}
            for below in self.crates[crate]:
                if below in self.crates:
                    found.update(dict.fromkeys(self.visible(below)))
            self.seen[crate] = list(found)
        return self.seen[crate]

    @cached_property
    def digests(self) -> list[bytes]:
        """A checksum of each part."""
        return [hashlib.sha256((" ".join(sorted(it.names)) + "\0" + it.text).encode()).digest() for it in self.parts]

    @cached_property
    def closures(self) -> list[int]:
        """What each part reaches, itself included: a number with a bit for each part."""
        return closures_of([self.reached_by([self.parts[at]], crate) for crate, own in self.of_crate.items() for at in own])

    def reached_by(self, parts: Iterable[Part], crate: str, types: frozenset[str] | None = None) -> list[int]:
        """The parts that these parts of a crate name; functions if the types are given that are known there."""
        known = [self.named[crate], *(self.offered[it] for it in self.visible(crate) if it != crate)]
        found = [at for it in parts for word in it.words | it.lemmas for names in known for at in names.get(word, ()) if self.may_name(it, word, at, types)]
        return [at for at in found if not self.parts[at].is_inside]

    def may_name(self, part: Part, word: str, at: int, types: frozenset[str] | None) -> bool:
        """Whether this word of a part may mean the part at this place."""
        named = self.parts[at]
        if named.is_function and (types is None or named.owners and not named.owners & types):
            return False
        return word in (part.lemmas if named.is_lemma else part.words)

    @cache
    def types_of(self, crate: str) -> frozenset[str]:
        """The types that values in the bodies of a crate may have: those that it names, and those in what it calls and in fields."""
        bodies = self.bodies_of(crate)[1].values()
        words = frozenset(word for it in [*bodies, *(self.parts[at] for at in self.of_crate[crate])] for word in it.words)
        parts = [self.parts[at] for it in self.visible(crate) for at in self.of_crate[it] if self.parts[at].names & words or not self.parts[at].is_function]
        found = frozenset(it for it in words if it[0].isupper())
        while more := frozenset(word for it in parts if self.shows(it, found) for word in it.words if word[0].isupper()) - found:
            found |= more
        return found

    def shows(self, part: Part, types: frozenset[str]) -> bool:
        """Whether these types lead to those that a part names."""
        return not part.owners or bool(part.owners & types) if part.is_function else bool(part.names & types) and not part.is_lemma

    def checksum(self, edit: deciding.Edit) -> str:
        """A checksum of the functions that an edit changes, with the answers to their goals and all that they reach."""
        own = self.read_of(edit)
        new = " ".join(new for _, _, new in edit.pairs)
        bits = 0
        for at in self.reached_by([*own, Part(frozenset(), new, words_of(new), frozenset())], edit.crate, self.types_of(edit.crate)):
            bits |= self.closures[at]
        bits = self.with_insides(bits, edit.crate)
        found = hashlib.sha256("\0".join(it.text for it in own).encode())
        for digest in sorted(self.digests[at] for at in set_bits(bits)):
            found.update(digest)
        return found.hexdigest()

    def with_insides(self, bits: int, crate: str) -> int:
        """These parts, with the insides of this crate's types among them and all that those reach. An inside follows its face."""
        left = [at for at in self.of_crate[crate] if self.parts[at].is_inside]
        while found := [at for at in left if bits >> (at - 1) & 1]:
            left = [at for at in left if at not in found]
            for at in found:
                bits |= self.closures[at]
        return bits

    def read_of(self, edit: deciding.Edit) -> list[Part]:
        """What a check reads of the functions themselves; of an edit outside of all functions, the whole crate."""
        answers, bodies, rest = self.bodies_of(edit.crate)
        if edit.outside:
            return [*answers.values(), *bodies.values(), *rest]
        own = [(paths, it) for paths, it in answers.items() if any(deciding.same(path, name) for path in paths for name in edit.functions)]
        wanted = {path for paths, _ in own for path in paths} | set(edit.functions)
        return [it for _, it in own] + [it for (path, _), it in bodies.items() if any(deciding.same(name, path) for name in wanted)]

    @cache
    def bodies_of(self, crate: str) -> tuple[dict[tuple[str, ...], Part], dict[tuple[str, str], Part], list[Part]]:
        """The answers of a crate by the functions whose goals they answer, its functions whole, and the rest of it."""
        folder = self.root / "crates" / crate
        answers: dict[tuple[str, ...], Part] = {}
        for path in sorted((folder / "proofs").rglob("*.antt")):
            at = path.relative_to(folder)
            if is_answers(at):
                text = path.read_text()
                file = File(text, "--")
                answers[(str(at), *deciding.proofs_in(deciding.function_at(str(at)), text))] = file.part([], file.text)
        bodies: dict[tuple[str, str], Part] = {}
        for path in sorted((folder / "src").rglob("*.rt")):
            bodies.update(bodies_in(path.read_text(), str(path.relative_to(folder))))
        return answers, bodies, [self.parts[at] for at in self.of_crate[crate]]


def bodies_in(text: str, path: str) -> dict[tuple[str, str], Part]:
    """The functions of a source file, each with its body and with the tactics of its file."""
    lines = text.split("\n")
    file = File(text, "//")
    tactics = "".join(line + "\n" for line in lines if line.startswith("#!["))
    found: dict[tuple[str, str], Part] = {}
    for it in deciding.functions_of(text, deciding.module_of(path)):
        own = split("\n".join(lines[begin_of(lines, it) : it.last + 1]), "//")[0]
        found[it.path, f"{path}:{it.first}"] = file.part([], tactics + own)
    return found


def set_bits(bits: int) -> list[int]:
    """The places of the bits that are set."""
    text = bin(bits)[:1:-1]
    return [at for at, it in enumerate(text) if it == "1"]


def parts_of_crate(folder: Path) -> list[Part]:
    """All parts of a crate, but for the answers to the goals of its functions."""
    found: list[Part] = []
    for file in sorted((folder / "src").rglob("*.rt")):
        found += parts_of_source(file.read_text(), deciding.module_of(str(file.relative_to(folder))))
    for part in ("specs", "proofs"):
        for file in sorted((folder / part).rglob("*.antt")):
            if not is_answers(file.relative_to(folder)):
                found += parts_of_antt(file.read_text(), part == "proofs")
    return found


# The files that answer the goals of one function, in its own folder below proofs/. No module may cite them (tests.py).
ANSWERS = ("Answers.antt", "Invariants.antt", "Proof.antt")


def is_answers(path: Path) -> bool:
    """Whether the file at this path in a crate answers the goals of one function."""
    return path.parts[0] == "proofs" and len(path.parts) > 2 and path.name in ANSWERS


def closures_of(edges: list[list[int]]) -> list[int]:
    """What each node of a graph reaches, itself included, as bits. Nodes that reach each other share it (Tarjan)."""
    count = len(edges)
    order, low = [-1] * count, [0] * count
    on_stack = [False] * count
    stack: list[int] = []
    found = [0] * count
    clock = 0
    for start in range(count):
        if order[start] >= 0:
            continue
        work = [(start, 0)]
        while work:
            at, next_edge = work.pop()
            if next_edge == 0:
                order[at] = low[at] = clock
                clock += 1
                stack.append(at)
                on_stack[at] = True
            for place in range(next_edge, len(edges[at])):
                to = edges[at][place]
                if order[to] < 0:
                    work += [(at, place + 1), (to, 0)]
                    break
                if on_stack[to]:
                    low[at] = min(low[at], order[to])
            else:
                if low[at] == order[at]:
                    close(at, stack, on_stack, edges, found)
                if work:
                    low[work[-1][0]] = min(low[work[-1][0]], low[at])
    return found


def close(first: int, stack: list[int], on_stack: list[bool], edges: list[list[int]], found: list[int]) -> None:
    """Takes a set of nodes that reach each other from the stack, and notes what each of them reaches."""
    members = stack[stack.index(first) :]
    del stack[-len(members) :]
    bits = 0
    for it in members:
        on_stack[it] = False
        bits |= 1 << it
    own = set(members)
    for it in members:
        for to in edges[it]:
            if to not in own:
                bits |= found[to]
    for it in members:
        found[it] = bits
