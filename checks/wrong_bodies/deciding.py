"""What decides about a wrong body: how edits, proofs and the prover's report are read, and what verdict follows.

A kept verdict rests on this file too, so a change of it takes all of them back. What only runs or prints is elsewhere.

The prover names each goal after the clause that it is of, as `returns-in-Some-clause-writes`. An edit names its clause
by a line `clause: NAME: what is false of it`. NAME is the clause's label in the contract of the function, or `ensures` if
the function has one clause that has no label. If the goal is not of that clause itself, but may be of what it is proved
by, then the line is `clause: NAME (PLACE): ..`, and PLACE is one of these (its first word stands for all of them):

    loop NAME               an invariant of a loop
    invariant [FIELD]       a ghost field of a type
    requires CALLEE         what a callee asks
    closure NAME            what a closure ensures
    safe                    arithmetic, an index

Only a goal of that clause counts, and it counts by one of four reasons:

    values    the prover names values at which the goal is false
    search    the prover's tactics prove the clause of the right body, and not this goal
    answer    the hand-written answer of the goal fails, not about a name, and the edit keeps the form of the body
    words     the answer fails otherwise, or none is there for this goal, or a definition fails that the answer uses, or
              the clause asks for a value, which the tactics seldom find. That the wrong body has no proof is then what
              the words of its clause say. So a neutral twin of the function must not fail there too: see `with_twin`
"""
from __future__ import annotations

import functools
import re
from dataclasses import dataclass, field
from pathlib import Path

# How a proof file fails if a name is gone, which says nothing of the contract.
OF_A_NAME = re.compile(
    r"has no field|is not in scope|has no `|was not admitted|no such|cannot be named|was rejected, w(as|ere) not checked"
    r"|is no goal|is not a goal|names no goal|is not declared|unknown name"
)
# How the prover says that values break a goal, all that is known there being true.
HAS_VALUES = re.compile(r"allow values at which this goal is false|The hypotheses hold, and the goal fails at")
# A statement that asks for a value: a product over a name.
A_VALUE = re.compile(r"\(\w+(?: \w+)* : [^()]*(?:\([^()]*\)[^()]*)*\) ×")
# An answer that is one tactic. The prover finds such a proof by itself.
TACTIC = re.compile(r"^(λ[^.\n]*\. *)?(search|grind|omega|simp|cc)\b[^\n]*$")


class Broken(Exception):
    """Something without which no verdict can be had."""


@dataclass(frozen=True)
class Function:
    """A function of a source file, by the end of the prover's name, with its place there (lines from 0)."""

    path: str
    first: int
    last: int
    has_loop: bool


def parts_of(text: str) -> list[str]:
    """The types of a list that is separated by commas, those within brackets apart."""
    parts, depth = [""], 0
    for letter in text:
        depth += (letter in "<([") - (letter in ">)]")
        if letter == "," and depth == 0:
            parts.append("")
        else:
            parts[-1] += letter
    return [it.strip() for it in parts if it.strip()]


def flat_name(text: str) -> str:
    """What the prover calls a type among the arguments of a trait: its names, one behind the other."""
    text = re.sub(r"&('\w+ )?(mut )?|dyn ", "", text).strip()
    if text.startswith("("):
        inner = parts_of(text[1:-1])
        return f"Tuple{len(inner)}" + "".join(map(flat_name, inner))
    name, found, rest = text.partition("<")
    return name.split("::")[-1].strip() + ("".join(map(flat_name, parts_of(rest.rstrip()[:-1]))) if found else "")


def owner_of(header: str) -> str:
    """What the prover calls the block of this `impl` or `trait` line: its type, or type, trait and the trait's arguments."""
    header = re.sub(r"\s+", " ", header).split(" where ")[0].rstrip("{ ")
    if re.match(r"(pub(\(\w+\))? )?trait ", header):
        return re.split(r"[:<]", header.partition("trait ")[2])[0].strip()
    header = re.sub(r"^(unsafe )?impl\s*", "", header)
    if header.startswith("<"):
        depth = 0
        for at, letter in enumerate(header):
            depth += (letter == "<") - (letter == ">" and header[at - 1] != "-")
            if depth == 0:
                header = header[at + 1 :].strip()
                break
    trait, found, of = header.rpartition(" for ")
    name = flat_name(of.partition("<")[0])
    return name + flat_name(trait) if found else name


@functools.cache
def functions_of(text: str, module: str) -> tuple[Function, ...]:
    """The functions of a source file in the formatter's layout, those of `impl` blocks and of traits too."""
    lines = text.split("\n")
    found: list[Function] = []
    owner = ""
    for at, line in enumerate(lines):
        if re.match(r"(unsafe )?impl\b|(pub(\(\w+\))? )?trait ", line):
            header = line
            below = at + 1
            while "{" not in header and below < len(lines):
                header += " " + lines[below].strip()
                below += 1
            owner = owner_of(header.split("{")[0])
        elif line.startswith("}"):
            owner = ""
        start = re.match(r'( *)(pub(\([a-z]+\))? )?(const )?(unsafe )?(extern "C" )?fn (\w+)', line)
        if start and len(start[1]) in (0, 4):
            last = end_of(lines, at, start[1])
            # (the prover names a method by the module of its type, which may be another one)
            of = owner if start[1] else module
            has_loop = any(re.match(r" *(for|while|loop)\b", it) for it in lines[at : last + 1])
            found.append(Function("::".join(it for it in (of, start[7]) if it), at, last, has_loop))
    return tuple(found)


def callers_of(texts: dict[str, str], functions: set[str]) -> set[str]:
    """The functions that may call one of these, at once or by others: they name it, or a function of the same name."""
    words: dict[str, set[str]] = {}
    for file, text in texts.items():
        lines = text.split("\n")
        for it in functions_of(text, module_of(file)):
            words[it.path] = words.get(it.path, set()) | set(re.findall(r"\w+", "\n".join(lines[it.first + 1 : it.last + 1])))
    found: set[str] = set()
    while more := {path for path, used in words.items() if used & {it.split("::")[-1] for it in found | functions}} - found:
        found |= more
    return found


def end_of(lines: list[str], at: int, indent: str) -> int:
    """The last line of the function that begins in this line."""
    if lines[at].rstrip().endswith(("}", ";")) and lines[at].count("{") == lines[at].count("}"):
        return at
    for below in range(at + 1, len(lines)):
        if re.match(indent + r"\}\s*$", lines[below]) or lines[below].startswith(indent + ");"):
            return below
        if lines[below].rstrip() == indent + "{}" or re.match(indent + r"    .*;$", lines[below]) and "{" not in "".join(lines[at : below + 1]):
            return below
    return len(lines) - 1


def module_of(file: str) -> str:
    """The module of a source file, as a path below the crate."""
    parts = [it for it in re.sub(r"\.rt$", "", file).split("/")[1:] if it not in ("lib", "main", "mod")]
    return "::".join(parts)


@dataclass(frozen=True)
class Clause:
    """The clause that a wrong body makes false: its name, where that shows if not in a goal of its own, and how."""

    name: str
    place: str
    says: str

    def __str__(self) -> str:
        return f"{self.name} ({self.place})" if self.place else self.name


def clause_in(text: str) -> Clause | None:
    """Reads what stands behind `clause:`."""
    found = re.fullmatch(r"([\w-]+)(?: \(([^)]+)\))?: (\S.*)", text.strip())
    return Clause(found[1], found[2] or "", found[3]) if found else None


def kind_of(goal: str) -> tuple[str, str]:
    """What a goal is of, as a place, and the label of its clause."""
    base, _, label = goal.partition("-clause-")
    loop = re.match(r"loop-(?:(\w+?)-)?(preserved|init|smaller)", base)
    if loop:
        # (the invariant of a `while` has no name)
        return f"loop {loop[1]}" if loop[1] else "loop", label
    if base.startswith("returns"):
        return "returns", label
    if base.startswith("invariant_of"):
        return f"invariant {label}".strip(), label
    asks = re.match(r"(.+?)-requires", base)
    if asks:
        return f"requires {asks[1].split('-')[0]}", label
    closure = re.match(r"(\w+)-(?:[\w-]*-)?returns", base)
    return (f"closure {closure[1]}" if closure else "safe"), label


def is_of(goal: str, clause: Clause) -> bool:
    """Whether a goal is of this clause. A goal that all clauses share is of each."""
    kind, label = kind_of(goal)
    if goal.endswith("_spec"):
        # (a proof that walks the whole body)
        return True
    if kind == "returns":
        return label in ("", clause.name)
    return clause.place != "" and clause.place in (kind, kind.partition(" ")[0])


@dataclass
class Edit:
    """A wrong body, or a neutral twin: an edit that changes nothing."""

    crate: str
    name: str
    pairs: list[tuple[str, str, str]]
    named: list[str] = field(default_factory=list)
    clause: Clause | None = None
    open: str = ""
    neutral: bool = False
    functions: list[str] = field(default_factory=list)
    outside: bool = False

    @property
    def label(self) -> str:
        return f"{self.crate}/{self.name}" + (".neutral" if self.neutral else "")

    def apply(self, texts: dict[str, str]) -> dict[str, str] | None:
        """The files with this edit, or None if a text to be replaced is in its file not exactly once."""
        changed = dict(texts)
        for file, old, new in self.pairs:
            if changed.get(file, "").count(old) != 1:
                return None
            changed[file] = changed[file].replace(old, new)
        return None if changed == texts else changed

    def find_functions(self, texts: dict[str, str]) -> None:
        """Finds the functions that the edit changes, and whether it changes something outside of all."""
        changed = dict(texts)
        found = []
        for file, old, new in self.pairs:
            line = changed[file][: changed[file].index(old)].count("\n")
            within = [it.path for it in functions_of(changed[file], module_of(file)) if it.first <= line <= it.last]
            self.outside = self.outside or not within
            found += within[-1:]
            changed[file] = changed[file].replace(old, new)
        self.functions = self.named or list(dict.fromkeys(found))

    def keeps_form(self) -> bool:
        """Whether the edit changes operands and operators alone, so that no place of the body goes or comes."""
        return all(form_of(old) == form_of(new) for _, old, new in self.pairs)


def form_of(text: str) -> list[str]:
    """The form of a text: its words and signs, with each path, number or text as one operand, and what a text names."""
    text = re.sub(r'"(\\.|[^"\\])*"', lambda it: " 0" * (1 + it[0].count("{")), text)
    text = re.sub(r"b?'(\\.|[^'\\])'", "0", text)
    tokens = re.findall(r"[\w.:]*\w|==|!=|<=|>=|&&|\|\||=>|->|\.\.=?|[^\w\s]", text)
    signs = {"==": "o", "!=": "o", "<=": "o", ">=": "o", "<": "o", ">": "o", "+": "o", "-": "o", "*": "o", "/": "o", "%": "o"}
    kept = {"let", "if", "else", "match", "for", "while", "loop", "return", "break", "continue", "in", "mut", "move"}
    return [it if it in kept else "i" if re.match(r"[\w.:]*\w$", it) else signs.get(it, it) for it in tokens]


def read_edit(path: Path) -> Edit:
    """Reads a file of an edit or of a neutral twin."""
    edit = Edit(path.parent.name, path.stem, [], neutral=path.suffix == ".neutral")
    file, old = "", None
    for line in path.read_text().split("\n"):
        word, _, text = line.partition(":")
        text = text.removeprefix(" ")
        if word == "file":
            file = text.strip()
        elif word == "fn":
            edit.named.append(text.strip())
        elif word == "clause":
            edit.clause = clause_in(text)
            if edit.clause is None:
                raise Broken(f"{path}: a line 'clause:' is not 'clause: NAME: WORDS' or 'clause: NAME (PLACE): WORDS'")
        elif word == "open":
            edit.open = text.strip()
        elif word == "old":
            old = text
        elif word == "new":
            if not file or old is None:
                raise Broken(f"{path}: a line 'new:' is before 'file:' or 'old:'")
            edit.pairs.append((file, old, text))
            old = None
    if not edit.pairs:
        raise Broken(f"{path}: it has no lines 'old:' and 'new:'")
    return edit


def clauses_of(lines: list[str], function: Function) -> list[tuple[str, str]]:
    """The clauses that a function ensures, each with its label ('' if it has none) and its text, as its own lines have them."""
    found: list[tuple[str, str]] = []
    is_open = False
    for line in lines[function.first : function.last + 1]:
        clause = re.match(r" *(?:starred )?(ensures|requires) *(\w*) *\{(.*)", line)
        if clause:
            is_open = clause[1] == "ensures"
            found += [(clause[2], clause[3])] if is_open else []
        elif line.strip() == "{":
            break
        elif is_open:
            found[-1] = (found[-1][0], found[-1][1] + " " + line.strip())
    return found


def definitions_in(text: str) -> dict[str, str]:
    """The definitions of a file of specs/, each by its name, with all that stands behind its colons and equal signs."""
    found: dict[str, str] = {}
    name = ""
    for line in text.split("\n"):
        begins = re.match(r"(?:[a-z]+ )*pub (?:(?:record|data) )?([A-Za-z_][\w'-]*)", line)
        name = begins[1] if begins else name if line.startswith((" ", f"{name} ")) else ""
        if name:
            found[name] = found.get(name, "") + " " + line
    return found


def asks_for_value(clause: str, definitions: dict[str, str]) -> bool:
    """Whether a clause, or a definition that it cites, asks for a value by a product over a name."""
    seen: set[str] = set()
    waits = [clause]
    while waits:
        text = waits.pop()
        if A_VALUE.search(text):
            return True
        names = {it for it in re.findall(r"[A-Za-z_][\w'-]*", text) if it in definitions} - seen
        seen |= names
        waits += [definitions[it] for it in names]
    return False


def answers_in(text: str) -> dict[str, str]:
    """The answers of a proof file, each by its name, with the text of its definition."""
    found: dict[str, str] = {}
    name = ""
    lines: list[str] = []
    for line in [*text.split("\n"), "pub end :"]:
        begins = re.match(r"pub ([^\s:]+) *:", line)
        if begins:
            if name:
                found[name] = "\n".join(lines).strip()
            name, lines = begins[1], []
        elif name and line.startswith(name + " "):
            lines = [line.partition("=")[2]]
        elif name and lines:
            lines.append(line)
    return found


def uses_in(text: str) -> dict[str, set[str]]:
    """The definitions of a proof file, each by its name, with the words of its text."""
    found: dict[str, set[str]] = {}
    name = ""
    for line in text.split("\n"):
        begins = re.match(r"(?:pub )?([^\s:]+) *:", line)
        name = begins[1] if begins else name
        if name and not line.startswith("use "):
            found.setdefault(name, set()).update(re.findall(r"[\w'-]+", line))
    return found


def answers_with(text: str, helper: str) -> list[str]:
    """The answers of a proof file that use this definition of it, by others or at once."""
    uses = uses_in(text)
    reached = {helper}
    while more := {it for it, words in uses.items() if words & reached} - reached:
        reached |= more
    return [it for it in answers_in(text) if it in reached]


def without_answers(text: str, goals: set[str]) -> str:
    """A proof file without its answers of these goals, so that the tactics try them."""
    kept: list[str] = []
    is_dropped = False
    for line in text.split("\n"):
        begins = re.match(r"(?:pub )?([^\s:]+) *:", line)
        if begins:
            is_dropped = begins[1] in goals
        if not is_dropped:
            kept.append(line)
    return "\n".join(kept)


def function_at(file: str) -> str:
    """The path of the function whose goals this file of a crate answers."""
    return "::".join(file.split("/")[1:-1])


def without_failed(answers: dict[str, str], edit: Edit, found: Finding) -> dict[str, str]:
    """The files that answer goals of a changed function, without the answers of those that were refused. None are in it
    that answer none of these."""
    failed = {it for it in found.goals + found.names if it}
    own = {file: text for file, text in answers.items() if any(same(function_at(file), it) for it in edit.functions)}
    cut = {file: without_answers(text, failed) for file, text in own.items()}
    return {file: text for file, text in cut.items() if text != own[file]}


def answered_by_hand(text: str, clause: Clause) -> bool:
    """Whether a proof file answers a goal of this clause by more than one tactic."""
    return any(is_of(name, clause) and not TACTIC.match(body) for name, body in answers_in(text).items())


@dataclass(frozen=True)
class Goal:
    """A goal that was refused: the reason is `values`, `open` (the prover left it open), `answer`, `name`, or `helper` (a
    definition that its answer uses fails)."""

    name: str
    reason: str
    text: str


@dataclass
class Said:
    """What the prover said in one check, function by function."""

    verdicts: dict[str, str]
    goals: dict[str, list[Goal]]
    waits: set[str]
    ended: bool
    text: str
    seconds: float

    def own(self, function: str) -> list[Goal]:
        """The goals that were refused of a function and of the closures in it."""
        return [it for name, found in self.goals.items() if within(name, {function}) for it in found]

    def is_above(self, function: str, changed: set[str]) -> bool:
        """Whether a function is refused only since it calls, by others or at once, a changed one."""
        seen: set[str] = set()
        waits = [function]
        while waits:
            name = waits.pop()
            for it in re.findall(r"`([^`]+)`", self.verdicts.get(name, "")):
                if within(it, changed) or any(each.startswith(it + "::") for each in changed):
                    return True
                if it not in seen:
                    seen.add(it)
                    waits.append(it)
        return False

    def apart(self, changed: set[str]) -> dict[str, str]:
        """The verdicts of the functions that are neither changed nor call a changed one."""
        full = {name for name in self.verdicts if any(same(name, it) for it in changed)}
        return {name: it for name, it in self.verdicts.items() if not within(name, full) and not self.is_above(name, full)}

    def is_sound(self, changed: set[str]) -> bool:
        """Whether each function that is neither changed nor calls a changed one is proved, and there is one."""
        apart = self.apart(changed)
        return bool(apart) and all(map(is_proved, apart.values()))

    def not_sound(self, changed: set[str]) -> str:
        """Which of these functions is not proved, and what is said of it."""
        refused = [f"{name}: {it}" for name, it in self.apart(changed).items() if not is_proved(it)]
        return (refused or ["none that the edit does not reach was checked"])[0][:200]


def messages_of(text: str) -> list[str]:
    """The lines of a report, each with the lines that are set in below it."""
    found: list[str] = []
    for line in text.split("\n"):
        if line.startswith(" ") and found:
            found[-1] += " " + line.strip()
        else:
            found.append(line)
    return found


def understood(text: str, crate: str, seconds: float) -> Said:
    """Reads the prover's report."""
    said = Said({}, {}, set(), bool(re.search(r"^(only=|logic=)", text, re.M)), text, seconds)
    falsified: set[str] = set()
    for message in messages_of(text):
        verdict = re.match(r"fn (\S+): (.*)", message)
        noted = re.match(r"note: \S+:\d+:\d+: .*?\(`([^`\s]+)`\)", message)
        waiting = re.match(r"note: `search` has not tried the goals of `([^`]+)`", message)
        if verdict:
            take_verdict(said, crate, verdict[1], verdict[2], falsified)
            falsified = set()
        elif noted and HAS_VALUES.search(message):
            falsified.add(noted[1])
        elif waiting:
            said.waits.add(waiting[1].removeprefix(f"{crate}::"))
        else:
            take_error(said, message)
    return said


def take_verdict(said: Said, crate: str, function: str, verdict: str, falsified: set[str]) -> None:
    """Takes the line of a function, with the goals that are left open and those of them that values break."""
    name = function.removeprefix(f"{crate}::")
    said.verdicts[name] = verdict.replace(f"`{crate}::", "`")
    unanswered = re.search(r"`search` did not prove ((?:`[^`]+`(?:, | and )?)+)", verdict)
    for goal in (of_member(name, it) for it in re.findall(r"`([^`]+)`", unanswered[1] if unanswered else "")):
        said.goals.setdefault(name, []).append(Goal(goal, "values" if goal in falsified else "open", f"`search` did not prove `{goal}`"))


def take_error(said: Said, message: str) -> None:
    """Takes an error in a function's own proof file."""
    wrong = re.match(r"(?:note: )?(?:\./)?proofs/(\S+)/(?:Answers|Invariants|Proof)\.antt:\d+:\d+: error: (.*)", message)
    if wrong:
        named = re.match(r"`([^`\s]+)`: ", wrong[2])
        reason = "name" if OF_A_NAME.search(wrong[2]) else "values" if HAS_VALUES.search(wrong[2]) else "answer"
        for function, goal in [member_of(wrong[1].replace("/", "::"), named[1] if named else "")]:
            said.goals.setdefault(function, []).append(Goal(goal, reason, wrong[2]))


def of_member(function: str, goal: str) -> str:
    """A goal of a function. The prover puts the name of a function of a cycle before it."""
    return re.sub(rf"^{function.split('::')[-1]}-(?!requires)", "", goal)


def member_of(path: str, goal: str) -> tuple[str, str]:
    """The function that a goal of this proof file is of, and the goal. A file of a cycle has the goals of all its functions."""
    module, cycle, _ = path.rpartition("::+")
    member, _, rest = goal.partition("-")
    return (f"{module}::{member}", rest) if cycle else (path, goal)


def proofs_in(path: str, text: str) -> dict[str, str]:
    """What this proof file says of each function, by the function's path."""
    if "::+" not in path:
        return {path: text}
    found: dict[str, str] = {}
    for name, body in answers_in(text).items():
        function, goal = member_of(path, name)
        found[function] = found.get(function, "") + f"pub {goal} : it\n{goal} = {body}\n"
    return found


@dataclass
class Finding:
    """What a check says of an edit.

    The verdict is `refused`, `proved`, `name` (only a name, or only the form of a proof, refuses it), `other` (a goal
    of another clause), `bad` (it cannot be tried), `open`, `neutral`, or empty if there is none yet. `goals` are those
    that were refused otherwise than by a name, and `names` those by a name.
    """

    verdict: str = ""
    reason: str = ""
    text: str = ""
    goals: list[str] = field(default_factory=list)
    names: list[str] = field(default_factory=list)


def goals_through(goal: Goal, proof: str) -> list[Goal]:
    """The goals that fail with this one: itself, or if it is a definition of the proof file, those whose answers use it."""
    if goal.reason == "name" or goal.name in answers_in(proof):
        return [goal]
    return [Goal(it, "helper", f"`{it}`: {goal.text}") for it in answers_with(proof, goal.name)] or [goal]


def reason_of(edit: Edit, clause: Clause, goal: Goal, proof: str, asks: bool) -> str:
    """Why a goal of the clause counts. `asks` says whether the clause asks for a value."""
    if goal.reason in ("values", "name"):
        return goal.reason
    if goal.reason == "helper":
        return "words"
    # (a body of the same form has the same goals, so a goal without an answer is one that the tactics prove of the right body)
    if not answered_by_hand(proof, clause) or goal.reason == "open" and edit.keeps_form():
        return "words" if asks else "search"
    return "answer" if edit.keeps_form() else "words"


def found_in(edit: Edit, said: Said, proofs: dict[str, str], is_alone: bool, asks: bool = False) -> Finding:
    """What a sound check says of an edit. In a batch, a goal that waits for another function decides nothing."""
    own = [name for name in said.verdicts if any(same(name, it) for it in edit.functions)]
    if not own and edit.neutral:
        return Finding("bad", "", f"the prover says nothing of {', '.join(edit.functions)}")
    if not own:
        raise Broken(f"{edit.label}: the prover says nothing of {', '.join(edit.functions)}: name it by a line 'fn: PATH'")
    goals = [(name, it) for name in own for each in said.own(name) for it in goals_through(each, proofs.get(name, ""))]
    if edit.neutral or edit.clause is None:
        clauses = [(Clause(*place_of(it.name), ""), name, it) for name, it in goals]
    else:
        clauses = [(edit.clause, name, it) for name, it in goals if is_of(it.name, edit.clause)]
    counted = [it.name for _, it in goals if it.reason != "name"]
    named = [it.name for _, it in goals if it.reason == "name"]
    reasons = [(reason_of(edit, clause, it, proofs.get(name, ""), asks), name, it) for clause, name, it in clauses]
    for wanted in ("values", "search", "answer", "words"):
        for reason, name, it in reasons:
            if reason == wanted:
                counts = "neutral" if edit.neutral and reason == "words" else "refused"
                return Finding(counts, reason, f"{name}: {it.text}", counted)
    if all(is_proved(said.verdicts[name]) for name in own):
        return Finding("neutral" if edit.neutral else "proved", "proved", f"{', '.join(own)}: the contract lets it through")
    if not is_alone and (not goals or any(within(it, set(own)) for it in said.waits)):
        return Finding()
    texts = [f"{name}: {it.text}" for name, it in goals] or [first_error(said.text)]
    if edit.neutral:
        return Finding("neutral", "name", texts[0], counted)
    return Finding("other" if any(counted) and edit.clause else "name", "", texts[0], counted, named)


def found_behind(edit: Edit, found: Finding, said: Said, proofs: dict[str, str], asks: bool) -> Finding:
    """A finding, after a check without the answers that had failed: the tactics have tried all goals of the function there.
    It counts only if values break the clause's goal, or the tactics prove the goal of the right body alone."""
    if not said.ended or not said.is_sound(set(edit.functions)):
        return found
    behind = found_in(edit, said, proofs, True, asks)
    return behind if behind.verdict == "refused" and behind.reason in ("values", "search") else found


def place_of(goal: str) -> tuple[str, str]:
    """The name and the place of a clause that this goal is of."""
    kind, label = kind_of(goal)
    return (label or "ensures", "") if kind == "returns" else (label or "ensures", kind)


def with_twin(edit: Edit, found: Finding, twin: Finding) -> Finding:
    """What is left of a refusal that rests on words, if a neutral twin of the function was tried."""
    if edit.clause and any(is_of(it, edit.clause) for it in twin.goals):
        return Finding("name", "", f"a twin that changes nothing fails there too: {found.text}", found.goals)
    return found


def twin_of(crate: str, texts: dict[str, str], path: str) -> Edit | None:
    """An edit of a function that changes nothing: a value gets one more name on its way. None if no line is fit for it."""
    for file, text in texts.items():
        lines = text.split("\n")
        for function in functions_of(text, module_of(file)):
            if function.path == path:
                old = lines[function.first : function.last + 1]
                new = renamed(old)
                if new is None or text.count("\n".join(old)) != 1:
                    return None
                pairs = [(file, "\n".join(old), "\n".join(new))]
                return Edit(crate, path, pairs, [path], neutral=True, functions=[path])
    return None


def renamed(lines: list[str]) -> list[str] | None:
    """A function in which one value has one more name."""
    for at, line in enumerate(lines):
        bound = re.fullmatch(r"( +)let ([a-z]\w*)(: [^=]+)? = (.+);", line)
        if bound and not bound[4].rstrip().endswith("{"):
            indent, name, kind, value = bound[1], bound[2], bound[3] or "", bound[4]
            return [*lines[:at], f"{indent}let here_first{kind} = {value};", f"{indent}let {name}{kind} = here_first;", *lines[at + 1 :]]
    return result_renamed(lines) or argument_renamed(lines)


def result_renamed(lines: list[str]) -> list[str] | None:
    """A function whose result is a line of its own, and has a name."""
    if len(lines) < 3 or not re.match(r" *[\w&*(\"!].*[^;{},]$", lines[-2]) or not re.search(r"[;{}]$", lines[-3]):
        return None
    indent = lines[-2][: len(lines[-2]) - len(lines[-2].lstrip())]
    if len(indent) != len(lines[-1]) - len(lines[-1].lstrip()) + 4:
        return None
    return [*lines[:-2], f"{indent}let here_first = {lines[-2].strip()};", f"{indent}here_first", lines[-1]]


def argument_renamed(lines: list[str]) -> list[str] | None:
    """A function with a contract, whose first argument that is no `&mut` has one more name."""
    indent = lines[0][: len(lines[0]) - len(lines[0].lstrip())]
    opens = next((at for at, line in enumerate(lines) if line == indent + "{"), None)
    header = " ".join(it.strip() for it in lines[:opens])
    given = re.search(r"\((.*?)\)(?: ->| ensures| requires| where|$)", header)
    if opens is None or not given:
        return None
    for argument in parts_of(given[1]):
        named = re.fullmatch(r"([a-z]\w*): (?!&(?:'\w+ )?mut)(.+)", argument)
        if named:
            added = f"{indent}    let here_first = {named[1]};", f"{indent}    let {named[1]} = here_first;"
            return [*lines[: opens + 1], *added, *lines[opens + 1 :]]
    return None


def is_proved(verdict: str) -> bool:
    """Whether a function is proved. The prover says behind it if the function may wait, abort or serve."""
    return re.fullmatch(r"proved(, may (wait|abort|serve))*", verdict) is not None


def same(name: str, path: str) -> bool:
    """Whether the name that the prover prints is that of this path."""
    return name == path or name.endswith("::" + path)


def within(name: str, functions: set[str]) -> bool:
    """Whether a function is one of these, or a closure in one."""
    return any(name == it or name.startswith(it + "::") for it in functions)


def first_error(text: str) -> str:
    """The first line of an output that names an error, or else its last line."""
    lines = [it for it in text.split("\n") if "error" in it] or text.strip().split("\n")[-1:]
    return lines[0][:200]
