#!/usr/bin/env python3
"""Which public calls no program and no test makes.

    tools/unrun.py    prints them; its status is 1 if tools/unrun.txt does not name one of them

A compiled program has the functions that its `main` can reach, and no others. So a public function runs nowhere if it is
in no program of bin/ (./test builds them) and no test, and no program that ./test does not build, calls its name. A body
of it that always refuses would pass then. A law, which is a function with an empty body or one that calls laws alone,
needs no caller.

LLVM leaves out functions that it copies into their callers, so `.ci/build` lists those that a program had before. With
PT_PROVED=1 the programs are those that the last `rt ci` proved and Rattle's own compiler built.

Each line of tools/unrun.txt is a function, or a crate, module or type with `::*` behind it, and why nothing here runs
it. A line that is not needed is told too.
"""
from __future__ import annotations

import os
import re
import subprocess
import sys
from itertools import takewhile
from pathlib import Path

ROOT = Path(__file__).resolve().parent.parent
EXCEPTIONS = ROOT / "tools" / "unrun.txt"

IMPL = re.compile(r"^impl(?:<.*?>)? (\w+)(?:<[^{]*>)?(?: \{|$)")
CALL = re.compile(r"^( *)pub (?:unsafe )?fn (\w+)")
# a call of a law of pt_laws, or of the law of pt_pauses that makes six such calls
LAW = re.compile(r" *(?:(?:laws|links)::\w+|still_node_laws)\(\);")
NAMED = re.compile(r"(?<!fn )\b(\w+)(?:::<[^()]*>)?\(")
# The tests, what they alone reach, and what `.ci/run` builds: two programs and the C library.
CRATES = "test_calls test_stress example_uses pt_behaviour pt_crew pt_children pt_supervisor pt_scheduler example_hello example_scenes example_exchange pt_c_values pt_c_desks pt_c_tools pt_c_crews pt_c"
CALLERS = [
    "checks/tried/*/*.rt.txt",
    "checks/refused/calls/*.rt.txt",
    *(f"crates/{name}/src/**/*.rt" for name in CRATES.split()),
]


class Fault(Exception):
    """What the command says before it stops."""


def functions_in(program: Path) -> set[str]:
    """The functions of this repository that a program has, without their type arguments."""
    listed = program.parent / ".sums" / f"{program.name}.functions"
    names = listed.read_text().splitlines() if listed.exists() else symbols_of(program)
    return {plain(name) for name in names if name.startswith("pt_")}


def symbols_of(program: Path) -> list[str]:
    """The functions that are in a program. The optimiser leaves out those that it copies into all their callers."""
    words = ["nm", str(program)]
    try:
        ran = subprocess.run(words, stdout=subprocess.PIPE, stderr=subprocess.DEVNULL, text=True, check=False)
    except OSError as error:
        raise Fault(f"'nm', which lists the functions of a program, does not run: {error}") from error
    if ran.returncode:
        raise Fault(f"{program} is no program that nm reads")
    return [line.split(" ", 2)[2] for line in ran.stdout.splitlines() if line.count(" ") >= 2]


def plain(name: str) -> str:
    """A function's name without its type arguments and those of the type that it is of."""
    return re.sub(r"\+[^:]*", "", name.split("::<")[0]).rstrip(":")


def module_of(path: Path) -> str:
    """The path of the module that a file is, with its crate in front."""
    crate, inside = path.relative_to(ROOT / "crates").parts[0], path.with_suffix("").parts
    names = inside[inside.index("src") + 1 :]
    return "::".join([crate, *(name for name in names if name not in ("lib", "main", "mod"))])


def is_law(lines: list[str], start: int, indent: str) -> bool:
    """Whether the function that begins in this line is a law: its body is empty, or calls laws alone."""
    for at, line in enumerate(lines[start:], start):
        if line in (f"{indent}{{}}", f"{indent}}}"):
            return line.endswith("{}")
        if line == f"{indent}{{":
            return all(LAW.fullmatch(it) for it in takewhile(lambda it: it != f"{indent}}}", lines[at + 1 :]))
        if line.rstrip().endswith("{") and not line.strip().startswith(("ensures", "requires")):
            return False
    return False


def public_calls() -> dict[str, str]:
    """The public functions of all crates but their laws, and where each stands."""
    found: dict[str, str] = {}
    for path in sorted((ROOT / "crates").glob("*/src/**/*.rt")):
        lines = path.read_text().splitlines()
        inside = ""
        for number, line in enumerate(lines):
            if line and not line.startswith((" ", "}", ")")):
                head = IMPL.match(line)
                inside = head[1] if head and " for " not in line else ""
            call = CALL.match(line)
            if call and not is_law(lines, number, call[1]):
                names = [module_of(path), *([inside] if call[1] and inside else []), call[2]]
                found["::".join(names)] = f"{path.relative_to(ROOT)}:{number + 1}"
    return found


def exceptions() -> dict[str, str]:
    """The functions that nothing here runs, and why."""
    lines = EXCEPTIONS.read_text().splitlines() if EXCEPTIONS.exists() else []
    words = (line.split(None, 1) for line in lines if line.strip() and not line.startswith("#"))
    found = {}
    for word in words:
        if len(word) < 2:
            raise Fault(f"{EXCEPTIONS.relative_to(ROOT)}: no reason stands behind {word[0]}")
        found[word[0]] = word[1]
    return found


def names_it(exception: str, call: str) -> bool:
    """Whether a line of the exceptions names this function."""
    return call == exception or (exception.endswith("::*") and call.startswith(exception[:-1]))


def run_functions() -> set[str]:
    """The functions that some program has."""
    programs = [file for file in sorted((ROOT / "bin").glob("pt_*")) if file.is_file()]
    if os.environ.get("PT_PROVED"):
        proved = {file: ROOT / "crates" / file.name / "out" / f"{file.name}.by-rattle" for file in programs}
        programs = [proved[file] if proved[file].exists() else file for file in programs]
    if not programs:
        raise Fault("there is no program in bin/: ./test builds them")
    return set().union(*(functions_in(program) for program in programs))


def called_by_tests() -> set[str]:
    """The names of all functions that a test calls."""
    texts = (file.read_text() for pattern in CALLERS for file in ROOT.glob(pattern))
    return {name for text in texts for name in NAMED.findall(text)}


def main(words: list[str]) -> int:
    if words:
        raise Fault("wanted: tools/unrun.py")
    calls, run, tested, left = public_calls(), run_functions(), called_by_tests(), exceptions()
    unrun = {call for call in calls if call not in run and call.rsplit("::", 1)[1] not in tested}
    wrong = [f"{calls[call]}: nothing runs {call}" for call in sorted(unrun) if not any(names_it(line, call) for line in left)]
    wrong += [
        f"{EXCEPTIONS.relative_to(ROOT)}: {line} is run, or gone" for line in left if not any(names_it(line, call) for call in unrun)
    ]
    print("\n".join([*wrong, f"public calls that run: {len(calls) - len(unrun)} passed, {len(wrong)} failed"]))
    return 1 if wrong else 0


if __name__ == "__main__":
    try:
        sys.exit(main(sys.argv[1:]))
    except Fault as fault:
        sys.exit(f"unrun: {fault}")
