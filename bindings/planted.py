#!/usr/bin/env python3
"""Whether the trials of the runtimes find faults that are planted into them, one at a time.

    bindings/planted.py                   every fault, in Rust and in Python
    bindings/planted.py rust [NAME..]     those of Rust, or these of them
    bindings/planted.py python [NAME..]   those of Python, or these of them

`checks/planted/rust` and `checks/planted/python` have a file for each fault: what it is, the trial that is to find it, and the
edits of the sources. In Rust one copy of the crate is built with all faults, and PUNDEWO_PLANTED says which of them is there: so
that takes one build. In Python each fault is planted into a copy of the package. With no fault each of these trials passes.

PUNDEWO_LIB and PUNDEWO_SO name the library, as for the tests. The table of docs/TRIALS.md has a row for each fault of Rust.
"""
from __future__ import annotations

import json
import os
import re
import shutil
import signal
import subprocess
import sys
import tempfile
from collections import defaultdict
from dataclasses import dataclass
from pathlib import Path
from typing import Optional

sys.dont_write_bytecode = True
ROOT = Path(__file__).resolve().parent.parent
FAULTS = ROOT / "checks" / "planted"
KEY = re.compile(r"^(of|fault|trial|file|old|new): ?", re.M)
# How many seconds of a processor a trial may take with a fault, and how one ends that takes more (.ci/bounded).
LONGEST = 120
BOUNDED, OVER = str(ROOT / ".ci" / "bounded"), (124, -signal.SIGXCPU)
TEST = "trial_runtime"

PLANTED = """\
//! Which fault is planted.

use std::sync::OnceLock;

pub(crate) fn is(name: &str) -> bool {
    static PLANTED: OnceLock<Option<String>> = OnceLock::new();
    PLANTED.get_or_init(|| std::env::var("PUNDEWO_PLANTED").ok()).as_deref() == Some(name)
}

pub(crate) fn drop_twice<T>(value: T) {
    // SAFETY: none, for a value that has something of its own. (a token shares a count that is kept for ever)
    drop(unsafe { std::ptr::read(&value) });
    drop(value);
}
"""


class Broken(Exception):
    """Something is wrong with a fault, or with what it is planted into."""


@dataclass(frozen=True)
class Fault:
    """A fault: its name, its kind, what it is, the trial that finds it, and its edits: a file, what is there, and what is then."""

    name: str
    of: str
    what: str
    trial: str
    edits: tuple[tuple[str, str, str], ...]


def fault(path: Path) -> Fault:
    """The fault of a file: lines that begin with a key, each of which goes on up to the next one."""
    parts = KEY.split(path.read_text())[1:]
    once: dict[str, str] = {}
    edits, file, old = [], "", ""
    for key, text in zip(parts[::2], parts[1::2]):
        text = text.removesuffix("\n")
        if key == "file":
            file = text
        elif key == "old":
            old = text
        elif key == "new":
            edits.append((file, old, text))
        else:
            once[key] = text
    if not edits or not all(file and old for file, old, _ in edits) or set(once) != {"of", "fault", "trial"}:
        raise Broken(f"{path}: wanted are of, fault, trial, file, old and new")
    return Fault(path.stem, once["of"], once["fault"], once["trial"], tuple(edits))


def faults(kind: str, names: list[str]) -> list[Fault]:
    """The faults of a kind, all of them or these."""
    found = [fault(path) for path in sorted((FAULTS / kind).glob("*.fault"))]
    return [it for it in found if not names or it.name in names]


def only_place(text: str, old: str, where: str) -> int:
    """Where the text has this, which it has once."""
    if text.count(old) != 1:
        raise Broken(f"{where} has {text.count(old)} times: {old}")
    return text.index(old)


def choice(old: str, planted: list[tuple[str, str]]) -> str:
    """What does one of these if that fault is planted, and else what was there."""
    arms = "".join(f'if crate::planted::is("{name}") {{\n{new}\n}} else ' for name, new in planted)
    whole = f"{arms}{{\n{old}\n}}"
    # (a statement, and a block, need no parentheses)
    return whole if old.endswith((";", "}")) else f"({whole})"


def plant_all(crate: Path, planted: list[Fault]) -> None:
    """Plants all faults into the crate, each of which is there if it is chosen as the program runs."""
    by_place: dict[str, dict[str, list[tuple[str, str]]]] = defaultdict(lambda: defaultdict(list))
    for it in planted:
        for file, old, new in it.edits:
            by_place[file][old].append((it.name, new))
    for file, edits in by_place.items():
        text = (crate / file).read_text()
        places = [(only_place(text, old, file), old, new) for old, new in edits.items()]
        for place, old, arms in sorted(places, reverse=True):
            text = text[:place] + choice(old, arms) + text[place + len(old):]
        (crate / file).write_text(text)
    (crate / "src" / "planted.rs").write_text(PLANTED)
    root = crate / "src" / "lib.rs"
    root.write_text(root.read_text() + "\nmod planted;\n")


def built(crate: Path) -> Path:
    """The tests of the crate."""
    command = ["cargo", "test", "-q", "--offline", "--test", TEST, "--no-run", "--message-format=json"]
    # (beside the copy, so that nothing that is built elsewhere is built again)
    flags, target = f"{os.environ.get('RUSTFLAGS', '')} --cap-lints allow", str(crate.parent / "target")
    environment = {**os.environ, "RUSTFLAGS": flags, "CARGO_TARGET_DIR": target}
    done = subprocess.run(command, cwd=crate, env=environment, capture_output=True, text=True, check=False)
    if done.returncode:
        rendered = [json.loads(line).get("message", {}).get("rendered", "") for line in done.stdout.splitlines() if line[:1] == "{"]
        raise Broken(f"the crate is not built with the faults:\n{''.join(rendered)}{done.stderr[-2000:]}")
    for line in done.stdout.splitlines():
        row = json.loads(line)
        if row.get("executable") and row["target"]["name"] == TEST:
            return Path(row["executable"])
    raise Broken(f"cargo does not say where the test {TEST} is")


def tried(command: list[str], environment: dict[str, str], where: Path) -> Optional[str]:
    """What a command says that fails, and None if it passes."""
    done = subprocess.run([BOUNDED, str(LONGEST), *command], cwd=where, env={**os.environ, **environment}, capture_output=True,
                          text=True, check=False)
    if done.returncode in OVER:
        raise Broken(f"{' '.join(command)} takes more than {LONGEST} seconds")
    return done.stdout + done.stderr if done.returncode else None


def rust(names: list[str]) -> list[str]:
    """The faults of Rust that no trial finds."""
    planted, missed = faults("rust", names), []
    with tempfile.TemporaryDirectory(prefix="planted-") as folder:
        crate = Path(folder, "rust")
        shutil.copytree(ROOT / "bindings" / "rust", crate, ignore=shutil.ignore_patterns("target"))
        plant_all(crate, planted)
        program = built(crate)
        said = tried([str(program)], {"PUNDEWO_PLANTED": ""}, crate)
        if said is not None:
            raise Broken(f"without a fault the trials fail:\n{said}")
        for it in planted:
            said = tried([str(program), "--exact", it.trial], {"PUNDEWO_PLANTED": it.name}, crate)
            if said is None or f"test {it.trial} ... FAILED" not in said:
                missed.append(f"{it.name}: {it.trial} does not find that {it.what}\n{said or ''}")
    print(f"planted: of {len(planted)} faults of Rust {len(planted) - len(missed)} are found")
    return missed


def plant(package: Path, it: Fault) -> dict[str, str]:
    """Plants a fault into the package, and returns the texts of the files that were there."""
    before = {file: (package / file).read_text() for file, _, _ in it.edits}
    for file, old, new in it.edits:
        text = (package / file).read_text()
        place = only_place(text, old, file)
        (package / file).write_text(text[:place] + new + text[place + len(old):])
    return before


def python(names: list[str]) -> list[str]:
    """The faults of Python that no trial finds."""
    planted, missed = faults("python", names), []
    with tempfile.TemporaryDirectory(prefix="planted-") as folder:
        package = Path(folder, "python")
        parts = shutil.ignore_patterns("__pycache__", "build", "*.egg-info", "examples")
        shutil.copytree(ROOT / "bindings" / "python", package, ignore=parts)
        command, environment = [sys.executable, "-B", "-m", "unittest", "-f"], {"PYTHONPATH": str(package)}
        said = tried([*command, *sorted({it.trial for it in planted})], environment, package / "tests")
        if said is not None:
            raise Broken(f"without a fault the trials fail:\n{said}")
        for it in planted:
            before = plant(package, it)
            said = tried([*command, it.trial], environment, package / "tests")
            # (a trial that fails, and not one that is not there)
            if said is None or not re.search(r"^Ran 1 test", said, re.M) or "TrialFailed" not in said:
                missed.append(f"{it.name}: {it.trial} does not find that {it.what}\n{said or ''}")
            for file, text in before.items():
                (package / file).write_text(text)
    print(f"planted: of {len(planted)} faults of Python {len(planted) - len(missed)} are found")
    return missed


def page() -> list[str]:
    """What the table of the page lacks, or has too much."""
    text = (ROOT / "docs" / "TRIALS.md").read_text()
    table = text.partition("\n| Of | The fault |\n")[2].partition("\n\n")[0]
    rows = re.findall(r"^\|([a-z ]*)\| ([^|]*) \|$", table, re.M)
    listed, of = set(), ""
    for kind, what in rows:
        of = kind.strip() or of
        listed.add((of, what))
    there = {(it.of, it.what) for it in faults("rust", [])}
    return [f"docs/TRIALS.md lacks a row: {row}" for row in sorted(there - listed)] + [
        f"docs/TRIALS.md has a row of no fault: {row}" for row in sorted(listed - there)]


def main(words: list[str]) -> int:
    kinds = {"rust": rust, "python": python}
    chosen, names = (words[:1], words[1:]) if words else (list(kinds), [])
    for kind in chosen:
        if kind not in kinds:
            raise Broken(f"wanted is rust or python, and not {kind}")
        unknown = set(names) - {it.name for it in faults(kind, [])}
        if unknown:
            raise Broken(f"there is no such fault of {kind}: {' '.join(sorted(unknown))}")
    missed = page()
    for kind in chosen:
        missed += kinds[kind](names)
    for it in missed:
        print(f"planted: {it}", file=sys.stderr)
    return 1 if missed else 0


if __name__ == "__main__":
    try:
        sys.exit(main(sys.argv[1:]))
    except Broken as broken:
        sys.exit(f"planted.py: {broken}")
