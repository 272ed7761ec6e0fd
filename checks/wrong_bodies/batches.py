#!/usr/bin/env python3
"""Tries wrong bodies in batches: the prover has to refuse each one, by a goal of the clause that the edit names.

    checks/wrong_bodies/batches.py                 those without a verdict of what is there now, and a tenth of the others, as
                                                   the gate does
    checks/wrong_bodies/batches.py --all           all, and a neutral twin of each function with a proof by hand
    checks/wrong_bodies/batches.py CRATE..         all those of these crates
    checks/wrong_bodies/batches.py CRATE/NAME..    these alone
    checks/wrong_bodies/batches.py --apply         none: it only applies all edits, in seconds and without libraries
    --keep               writes the verdicts into verdicts.txt
    --fill               gives each edit without a line `clause:` one, by the goals that refuse it
    --mark-open          gives each edit that no goal of its clause refuses a line `open:` that says so
    --logs FOLDER        keeps what the prover said of each batch there
    --said FOLDER        takes from there what the prover said of the very same files, and keeps it there
    --libraries FOLDER   takes the proved libraries that this checkout lacks from another one (its folder crates/)
    --jobs N             so many checks side by side (else one a processor, as memory allows)

The libraries are those of tools/check.py: what `rt ci` has left, or what `tools/check.py --all` has made, of the sources
as they are now. So this runs behind one of them.

A wrong body is a file CRATE/NAME.edit in this folder, with lines `file:`, `old:` and `new:` as the toolchain's edits under
`must-fail` have them, and a line `clause: NAME: what is false of it`. deciding.py says what NAME may be, and when an edit counts as
refused. A file CRATE/NAME.neutral is a twin: an edit that changes nothing, and may not come out as refused. Each run
applies all edits, those too that it does not try.

Edits of different functions go into one copy of their crate, and one check proves the changed functions and what they
call. In the same check each function that is neither changed nor calls a changed one has to be proved, and at least one
such function is asked for, so a broken set-up refuses nothing. An edit for which a batch gives no verdict joins a later batch,
apart from those for which it waits, and is tried alone at last. If a hand-written answer of another clause fails there, the
prover leaves goals untried. So one more check looks behind all answers that failed so in a batch: it leaves them out, and an
edit counts then if values break its goal or the tactics do not prove it. If a refusal rests on the words of its clause
(deciding.py), then a twin of its function joins a later batch, and the refusal does not count if the twin fails at a goal of
the same clause. No check is made twice.

A verdict is kept in verdicts.txt beside the checksum of all that it was made from. A run tries the edits that have none or
one that is out of date, and a tenth of the others. The commit draws it, of few crates, since most of a check is the reading of
libraries; over the commits each edit comes as often as any other (kept.py). A kept verdict that a trial contradicts fails the
run. So does an edit that names no clause. An edit with a line `open: REASON` is one that no clause refuses yet. It is counted
and printed, and fails if a clause refuses it.

An edit of something outside of all functions, as a constant, may reach any function, so it is tried alone. A line
`fn: PATH` names the function whose goal is to refuse it.
"""
from __future__ import annotations

import argparse
import hashlib
import os
import re
import shutil
import subprocess
import sys
import tempfile
from collections import Counter
from concurrent.futures import ThreadPoolExecutor
from dataclasses import dataclass, replace
from itertools import product
from pathlib import Path

sys.dont_write_bytecode = True
import deciding
import kept
from deciding import Broken, Edit, Finding, Said

HERE = Path(__file__).resolve().parent
ROOT = HERE.parent.parent
sys.path.insert(0, str(ROOT / "tools"))
import check  # noqa: E402

VERDICTS = HERE / "verdicts.txt"
# What the prover says of a closure that asks something of its callers: these are proved beside it.
BY_CALLERS = re.compile(r": proved where its callers give what it asks$", re.M)


@dataclass
class Kit:
    """Where compiler, libraries and the crates' lists are."""

    folder: Path
    version: str
    libraries: Path
    crates: dict[str, list[str]]

    def words(self, crate: str) -> list[str]:
        """The compiler's words for a check of this crate."""
        try:
            return [*check.compiler_words(self.crates, crate, self.libraries), "--jobs", "1"]
        except check.Fault as fault:
            raise Broken(str(fault)) from fault

    def below(self, crate: str) -> list[str]:
        """The crates of the repository that this one stands on."""
        return check.below(self.crates, crate)


def kit_of(libraries: Path) -> Kit:
    """The toolchain, the proved libraries and the lists of crates.txt."""
    rt = os.environ.get("RT", "rt")
    try:
        page, version = (subprocess.run([rt, it], capture_output=True, text=True, check=True).stdout.strip() for it in ("doc", "version"))
    except (OSError, subprocess.CalledProcessError) as error:
        raise Broken(f"'{rt}' does not tell where the toolchain is: {error}") from error
    return Kit(Path(page).parent, version, libraries, check.crates(ROOT))


def sources_of(crate: str) -> dict[str, str]:
    """The source files of a crate, by their paths in it."""
    folder = ROOT / "crates" / crate
    return {str(it.relative_to(folder)): it.read_text() for it in sorted((folder / "src").rglob("*.rt"))}


def answers_of(crate: str) -> dict[str, str]:
    """The files of a crate that answer the goals of its functions, by their paths in it."""
    folder = ROOT / "crates" / crate
    files = [it for name in ("Answers.antt", "Proof.antt") for it in sorted((folder / "proofs").rglob(name))]
    return {str(it.relative_to(folder)): it.read_text() for it in files}


def proofs_of(answers: dict[str, str]) -> dict[str, str]:
    """What is written of the proof of each function, by the function's path."""
    found: dict[str, str] = {}
    for file, text in answers.items():
        read = deciding.proofs_in(deciding.function_at(file), text)
        found.update({path: found.get(path, "") + each for path, each in read.items()})
    return found


def definitions_of(crates: list[str]) -> dict[str, str]:
    """The definitions of these crates."""
    found: dict[str, str] = {}
    for crate in crates:
        for file in sorted((ROOT / "crates" / crate / "specs").rglob("*.antt")):
            for name, text in deciding.definitions_in(file.read_text()).items():
                found[name] = found.get(name, "") + text
    return found


@dataclass
class Options:
    """What a run was asked for."""

    logs: Path | None
    said: Path | None


class Trials:
    """The edits of one crate that are tried, and what the prover says of them."""

    def __init__(self, kit: Kit, crate: str, edits: list[Edit], options: Options):
        self.kit, self.crate, self.edits, self.options = kit, crate, edits, options
        self.texts = sources_of(crate)
        self.answers = answers_of(crate)
        self.proofs = proofs_of(self.answers)
        self.definitions = definitions_of([*kit.below(crate), crate])
        self.found: dict[str, Finding] = {}
        self.twins: dict[str, Edit | None] = {}
        # (pairs of functions of which the first one waits for the proof of the second)
        self.calls: set[tuple[str, str]] = set()
        # (the names of the edits that are tried alone)
        self.aside = {it.label for it in edits if it.outside}
        self.said: dict[str, Said] = {}
        self.checks = 0
        self.seconds = 0.0
        self.kept = ""

    def asks(self, edit: Edit) -> bool:
        """Whether the clause that an edit names asks for a value."""
        clauses = [it for path in edit.functions for it in clauses_at(self.texts, path)]
        wanted = [text for label, text in clauses if edit.clause and edit.clause.name == (label or "ensures")]
        return any(deciding.asks_for_value(it, self.definitions) for it in wanted)

    def left(self) -> list[Edit]:
        """The edits and twins that have no verdict."""
        return [it for it in [*self.edits, *self.twins.values()] if it and it.label not in self.found]

    def fill(self, edits: list[Edit]) -> list[Edit]:
        """As many edits as go together: of different functions, none of which waits for the proof of one that a wrong body changes."""
        batch: list[Edit] = []
        texts = self.texts
        for edit in edits:
            apart = not any({*edit.functions} & {*it.functions} or self.waits(edit, it) or self.waits(it, edit) for it in batch)
            changed = edit.apply(texts) if apart else None
            if changed is not None:
                batch.append(edit)
                texts = changed
        return batch

    def waits(self, edit: Edit, other: Edit) -> bool:
        """Whether it is known that a function of an edit waits for the proof of one that a wrong body changes."""
        return not other.neutral and not self.calls.isdisjoint(product(edit.functions, other.functions))

    def in_order(self, edits: list[Edit], tries: Counter[str]) -> list[Edit]:
        """The edits, those first that wait for the fewest others, and of these those that were tried least. Twins are last."""
        return sorted(edits, key=lambda it: (it.neutral, sum(self.waits(it, other) for other in edits), tries[it.label]))

    def applied(self, edits: list[Edit]) -> dict[str, str]:
        """The files with all these edits."""
        texts = self.texts
        for edit in edits:
            changed = edit.apply(texts)
            if changed is None:
                raise Broken(f"{edit.label}: its text is not in its file exactly once, behind {', '.join(it.label for it in edits)}")
            texts = changed
        return texts

    def asked_for(self, changed: set[str]) -> list[str]:
        """The functions to ask for: the changed ones, and a short one that calls none of them; an empty list for all."""
        files = [it for file, text in self.texts.items() for it in deciding.functions_of(text, deciding.module_of(file))]
        names = [it.path for it in files]
        free = [it for it in files if it.path not in changed and names.count(it.path) == 1 and it.last - it.first > 1]
        above = deciding.callers_of(self.texts, changed)
        free.sort(key=lambda it: (it.path in above, re.search(r"[A-Z]", it.path) is not None, it.has_loop, it.last - it.first))
        return [*sorted(changed), free[0].path] if changed and free else []

    def try_all(self) -> None:
        """Tries all edits, and twins of the functions of which a refusal rests on words."""
        with tempfile.TemporaryDirectory(prefix="wrong-bodies-kept-") as folder:
            # (what one check proved of the functions that no edit changes serves the next ones; to keep it costs a little)
            self.kept = folder if len(self.edits) > 1 else ""
            while self.left():
                self.try_together()
                for edit in self.left():
                    self.try_alone(edit)
        self.take_back()

    def try_together(self) -> None:
        """Tries what has no verdict in batches. What a batch leaves open joins those that are left, as a twin that is due does. If
        a batch tells nothing at all, then its edits are tried alone."""
        tries: Counter[str] = Counter()
        while waits := [it for it in self.left() if it.label not in self.aside]:
            batch = self.fill(self.in_order(waits, tries))
            known = len(self.found) + len(self.calls)
            self.try_batch(batch)
            tries.update(it.label for it in batch)
            if known == len(self.found) + len(self.calls):
                self.aside |= {it.label for it in batch}

    def try_batch(self, batch: list[Edit]) -> None:
        """Tries a batch; what it does not decide keeps no verdict."""
        changed = {it for edit in batch for it in edit.functions}
        said = self.check(self.applied(batch), self.asked_for(changed))
        if not said.ended and len(batch) > 1:
            self.try_batch(batch[: len(batch) // 2])
            self.try_batch(batch[len(batch) // 2 :])
        elif not said.ended:
            self.decide(batch[0], Finding("bad", "", deciding.first_error(said.text)))
        elif said.is_sound(changed):
            self.take(batch, said)

    def take(self, batch: list[Edit], said: Said) -> None:
        """Takes what a sound check says of each edit of a batch."""
        hidden = []
        for edit in batch:
            found = deciding.found_in(edit, said, self.proofs, len(batch) == 1, self.asks(edit))
            if self.answers_behind(edit, found, self.answers):
                hidden.append((edit, found))
            elif found.verdict:
                self.decide(edit, found)
            else:
                self.calls |= {(path, it) for path in edit.functions for it in self.waits_for(path, batch, said)}
        self.look_behind(hidden, len(batch) == 1)

    def waits_for(self, path: str, batch: list[Edit], said: Said) -> set[str]:
        """The functions that a batch changes for whose proofs this function waits, since it calls them, by others or at once."""
        full = {it: {name for name in said.verdicts if deciding.same(name, it)} for edit in batch for it in edit.functions}
        return {it for it, names in full.items() if it != path and any(said.is_above(name, names) for name in full[path])}

    def try_alone(self, edit: Edit) -> None:
        """Tries one edit; if it changes no function, with a check of the whole crate."""
        changed = set(edit.functions)
        said = self.check(edit.apply(self.texts) or self.texts, self.asked_for(changed))
        if not said.ended:
            self.decide(edit, Finding("bad", "", deciding.first_error(said.text)))
        elif not changed:
            self.decide(edit, Finding("bad", "", "it changes no function: name the one that is to refuse it by a line 'fn: PATH'"))
        elif not said.is_sound(changed):
            self.decide(edit, Finding("bad", "", "a function is refused that the edit does not reach: " + said.not_sound(changed)))
        else:
            found = deciding.found_in(edit, said, self.proofs, True, self.asks(edit))
            if self.answers_behind(edit, found, self.answers):
                self.look_behind([(edit, found)], True)
            else:
                self.decide(edit, found)

    def decide(self, edit: Edit, found: Finding) -> None:
        """Notes what was found of an edit. If it is refused by words alone, a twin of each function that it changes is due."""
        self.found[edit.label] = found
        if found.reason == "words" and not edit.neutral:
            for path in edit.functions:
                self.twins[path] = self.twins.get(path) or deciding.twin_of(self.crate, self.texts, path)

    def take_back(self) -> None:
        """Takes back each refusal by words that a twin of its function refutes."""
        for edit in self.edits:
            if self.found[edit.label].reason == "words" and not edit.neutral:
                for twin in filter(None, map(self.twins.get, edit.functions)):
                    self.found[edit.label] = deciding.with_twin(edit, self.found[edit.label], self.found[twin.label])

    def answers_behind(self, edit: Edit, found: Finding, answers: dict[str, str]) -> dict[str, str]:
        """The files of answers without those that failed, if another goal than that of the clause refuses the edit."""
        if edit.neutral or found.verdict not in ("other", "name"):
            return {}
        return deciding.without_failed(answers, edit, found)

    def cuts_others(self, one: tuple[Edit, Finding], hidden: list[tuple[Edit, Finding]]) -> bool:
        """Whether a file of answers that is cut for this edit is that of a function of another one."""
        others = [path for edit, _ in hidden if edit is not one[0] for path in edit.functions]
        files = map(deciding.function_at, self.answers_behind(*one, self.answers))
        return any(deciding.same(it, path) for it in files for path in others)

    def look_behind(self, hidden: list[tuple[Edit, Finding]], is_alone: bool) -> None:
        """Looks at the goals that the prover does not try once a hand-written answer of others fails: one check for all these
        edits. Of several it decides those alone that it refuses, and each of the others is tried alone."""
        self.aside |= {edit.label for edit, _ in hidden}
        hidden = [it for it in hidden if not self.cuts_others(it, hidden)]
        if not hidden:
            return
        answers = self.answers
        for edit, found in hidden:
            answers = {**answers, **self.answers_behind(edit, found, answers)}
        cut = {file: text for file, text in answers.items() if text != self.answers[file]}
        changed = {it for edit, _ in hidden for it in edit.functions}
        said = self.check({**self.applied([it for it, _ in hidden]), **cut}, self.asked_for(changed))
        for edit, found in hidden:
            own = {name: it for name, it in said.verdicts.items() if any(deciding.same(name, path) for path in edit.functions)}
            of_it = replace(said, verdicts={**own, **said.apart(changed)})
            behind = deciding.found_behind(edit, found, of_it, self.proofs, self.asks(edit))
            if is_alone or behind.verdict == "refused":
                self.decide(edit, behind)

    def check(self, texts: dict[str, str], only: list[str]) -> Said:
        """Checks a copy of the crate with these source files, or of it the functions `only` and what they call; the same once."""
        reads = (self.kit.version, self.crate, self.kit.crates[self.crate], check.checksum(self.kit.crates, self.crate))
        known = hashlib.sha256(repr((*reads, sorted(texts.items()), sorted(only))).encode()).hexdigest()
        if known not in self.said:
            self.said[known] = self.check_anew(texts, only, known)
        return self.said[known]

    def check_anew(self, texts: dict[str, str], only: list[str], known: str) -> Said:
        """Makes a check, or takes from the folder of `--said` what the prover said in it before."""
        kept_file = self.options.said / f"{self.crate}.{known[:20]}" if self.options.said else None
        if kept_file and kept_file.exists():
            text, seconds = kept_file.read_text(), 0.0
        else:
            text, seconds = self.run(texts, only)
            if kept_file:
                kept_file.write_text(text)
        self.checks += 1
        self.seconds += seconds
        print(f"{self.crate}: check {self.checks}: {seconds:.0f} processor seconds", flush=True)
        if self.options.logs:
            (self.options.logs / f"{self.crate}.{self.checks}.log").write_text(text)
        unknown = re.search(r"^rattle: error: `.*` (has no function|fits).*", text, re.M)
        if unknown:
            raise Broken(f"{self.crate}: {unknown[0][:200]}")
        return deciding.understood(BY_CALLERS.sub(": proved", text), self.crate, seconds)

    def run(self, texts: dict[str, str], only: list[str]) -> tuple[str, float]:
        """Runs the prover, and returns what it said and the processor seconds."""
        with tempfile.TemporaryDirectory(prefix="wrong-bodies-") as room:
            folder = ROOT / "crates" / self.crate
            for part in ("src", "specs", "proofs"):
                if (folder / part).is_dir():
                    shutil.copytree(folder / part, f"{room}/{part}")
            for file, text in texts.items():
                Path(room, file).write_text(text)
            words = [str(self.kit.folder / "bin" / "rattle"), "check", *self.kit.words(self.crate)]
            words += ["--incremental", self.kept] if self.kept else []
            for name in only:
                # (a plain function by its whole name, a method by the end of its name)
                words += ["--only", name if name[0].isupper() else f"{self.crate}::{name}"]
            ran = subprocess.Popen(words, cwd=room, stdin=subprocess.DEVNULL, stdout=subprocess.PIPE, stderr=subprocess.STDOUT, text=True, errors="replace")
            text = ran.stdout.read() if ran.stdout else ""
            _, _, used = os.wait4(ran.pid, 0)
        return text, used.ru_utime + used.ru_stime


def file_of(edit: Edit) -> Path:
    """The file of an edit."""
    return HERE / edit.crate / f"{edit.name}.{'neutral' if edit.neutral else 'edit'}"


def all_edits() -> list[Edit]:
    """All edits and neutral twins, each applied to the files of its crate as a trial."""
    edits = [deciding.read_edit(it) for it in sorted([*HERE.glob("*/*.edit"), *HERE.glob("*/*.neutral")])]
    texts = {it: sources_of(it) for it in {edit.crate for edit in edits}}
    stale = [it.label for it in edits if it.apply(texts[it.crate]) is None]
    if stale:
        raise Broken(f"a text to be replaced is not in its file exactly once: {', '.join(stale)}")
    for edit in edits:
        edit.find_functions(texts[edit.crate])
    unknown = [it for edit in edits for it in wrong_names(edit, texts[edit.crate])]
    if unknown:
        raise Broken("\n".join(["these name clauses that their functions do not have:", *unknown]))
    return edits


def wrong_names(edit: Edit, texts: dict[str, str]) -> list[str]:
    """What is wrong with the name of an edit's clause: its function has clauses of its own, and none is called so."""
    known = {label or "ensures" for path in edit.functions for label, _ in clauses_at(texts, path)}
    if edit.clause is None or not known or edit.clause.name in known:
        return []
    return [f"{edit.label}: {edit.clause.name}, where there are {', '.join(sorted(known))}"]


def clauses_at(texts: dict[str, str], path: str) -> list[tuple[str, str]]:
    """The clauses that the function of this path ensures."""
    for file, text in texts.items():
        for function in deciding.functions_of(text, deciding.module_of(file)):
            if function.path == path:
                return deciding.clauses_of(text.split("\n"), function)
    return []


def chosen(edits: list[Edit], given: argparse.Namespace, verdicts: dict[str, kept.Verdict], sums: kept.Checksums) -> list[Edit]:
    """The edits that are to be tried."""
    words, everything = given.names, given.all
    known = {it.label for it in edits} | {it.crate for it in edits}
    for word in words:
        if word not in known:
            raise Broken(f"no wrong body or crate is called {word}")
    if words:
        return [it for it in edits if {it.label, it.crate} & {*words}]
    commit = subprocess.run(["git", "rev-parse", "HEAD"], cwd=ROOT, capture_output=True, text=True, check=False).stdout.strip()
    rest = [it for it in edits if not everything and is_kept(it, verdicts, sums)]
    left_out = {it.label for it in rest} - {it.label for it in kept.drawn(rest, commit)}
    return [it for it in edits if it.label not in left_out]


def is_kept(edit: Edit, verdicts: dict[str, kept.Verdict], sums: kept.Checksums) -> bool:
    """Whether a verdict is kept that was made from what is there now."""
    found = verdicts.get(edit.label)
    return found is not None and found.checksum == sums.of_edit(edit, file_of(edit).read_bytes())


def twins_of(crate: str, edits: list[Edit]) -> list[Edit]:
    """A twin of each function of a crate that has a proof by hand and has none beside the edits."""
    texts = sources_of(crate)
    made = (deciding.twin_of(crate, texts, path) for path in by_hand(crate, texts))
    have = {path for it in edits if it.neutral for path in it.functions}
    return [it for it in made if it and not have & set(it.named)]


def by_hand(crate: str, texts: dict[str, str]) -> list[str]:
    """The functions of a crate that have a proof by hand."""
    paths = [it.path for file, text in texts.items() for it in deciding.functions_of(text, deciding.module_of(file))]
    proved = proofs_of(answers_of(crate))
    return [it for it in paths if paths.count(it) == 1 and any(deciding.same(name, it) for name in proved)]


def arguments() -> argparse.Namespace:
    """The words of the command line."""
    parser = argparse.ArgumentParser(description="Tries wrong bodies in batches.", allow_abbrev=False)
    parser.add_argument("names", nargs="*", metavar="CRATE[/NAME]")
    parser.add_argument("--apply", action="store_true", help="tries none, and only applies all edits")
    parser.add_argument("--all", action="store_true", help="those with a kept verdict too, and twins of all functions with a proof by hand")
    parser.add_argument("--keep", action="store_true", help="writes the verdicts into verdicts.txt")
    parser.add_argument("--fill", action="store_true", help="writes a line 'clause:' into each edit that has none")
    parser.add_argument("--mark-open", action="store_true", help="writes a line 'open:' into each edit that no goal of its clause refuses")
    parser.add_argument("--logs", type=Path, help="a folder for what the prover says of each batch")
    parser.add_argument("--said", type=Path, help="a folder with what the prover said of the same files before")
    parser.add_argument("--libraries", type=Path, default=check.OTHER, help="the folder crates/ of another checkout with proved libraries")
    parser.add_argument("--jobs", type=int, default=check.side_by_side(), help="checks side by side")
    return parser.parse_args()


def main() -> int:
    given = arguments()
    for folder in (given.logs, given.said):
        if folder:
            folder.mkdir(parents=True, exist_ok=True)
    try:
        edits = all_edits()
        if given.apply:
            print(f"{len(edits)} passed, 0 failed")
            return 0
        kit = kit_of(given.libraries.resolve())
        sums = kept.Checksums(ROOT, kit.crates, kit.version, HERE / "deciding.py")
        verdicts = kept.read(VERDICTS)
        tried = chosen(edits, given, verdicts, sums)
        crates: dict[str, list[Edit]] = {}
        for edit in tried:
            crates.setdefault(edit.crate, []).append(edit)
        if given.all:
            for crate, own in crates.items():
                own += twins_of(crate, own)
        trials = [Trials(kit, crate, own, Options(given.logs, given.said)) for crate, own in crates.items()]
        with ThreadPoolExecutor(max(1, given.jobs)) as pool:
            try_all(pool, trials)
    except Broken as error:
        print(f"wrong bodies: {error}", file=sys.stderr)
        return 2
    if given.fill:
        fill_clauses(trials)
    if given.mark_open:
        mark_open(trials)
    return Report(edits, trials, verdicts, sums).end(given.keep)


def try_all(pool: ThreadPoolExecutor, trials: list[Trials]) -> None:
    """Tries all edits, the crates side by side, the largest first."""
    trials.sort(key=lambda it: -sum(map(len, it.texts.values())))
    for task in [pool.submit(it.try_all) for it in trials]:
        task.result()


def fill_clauses(trials: list[Trials]) -> None:
    """Writes a line `clause:` into each edit that has none, of the first goal that refuses it, with the words of its name."""
    for it in trials:
        for edit in it.edits:
            goals = [name for name in it.found[edit.label].goals if name]
            if edit.neutral or edit.clause or edit.open or not goals:
                continue
            clause, place = deciding.place_of(goals[0])
            words = edit.name.removeprefix(edit.functions[0].split("::")[-1]).strip("_").replace("_", " ") if edit.functions else edit.name
            file = file_of(edit)
            file.write_text(f"clause: {deciding.Clause(clause, place, '')}: {words}\n{file.read_text()}")


def mark_open(trials: list[Trials]) -> None:
    """Writes a line `open:` into each edit that no goal of its clause refuses."""
    says = {"proved": "it is proved", "name": "only a name or the form of a proof refuses it", "other": "a goal of another clause refuses it"}
    for it in trials:
        for edit in it.edits:
            found = it.found[edit.label]
            if not edit.neutral and not edit.open and found.verdict in says:
                goals = ", ".join(dict.fromkeys(it for it in found.goals if it))
                edit.open = says[found.verdict] + (f": {goals}" if goals else "")
                file = file_of(edit)
                file.write_text(f"open: {edit.open}\n{file.read_text()}")


@dataclass
class Report:
    """What a run found."""

    edits: list[Edit]
    trials: list[Trials]
    verdicts: dict[str, kept.Verdict]
    sums: kept.Checksums

    def end(self, keeps: bool) -> int:
        """Prints each verdict, the bad ones last, keeps them if that is asked for, and returns the status."""
        tried = [(edit, it.found[edit.label]) for it in self.trials for edit in it.edits]
        faults = {edit.label: self.fault(edit, found) for edit, found in tried}
        for edit, found in sorted(tried, key=lambda it: (faults[it[0].label] != "", it[0].label)):
            says = f"WRONG: {faults[edit.label]}" if faults[edit.label] else f"{found.verdict} ({found.reason}, {edit.clause or edit.open or 'nothing'})"
            print(f"{edit.label}: {says}: {found.text[:160]}")
        if keeps:
            self.keep([it for it in tried if not faults[it[0].label]])
        for it in sorted(self.trials, key=lambda it: it.crate):
            print(f"{it.crate}: {len(it.edits)} edits in {it.checks} checks, {it.seconds:.0f} processor seconds")
        return self.sum_up(tried, faults)

    def fault(self, edit: Edit, found: Finding) -> str:
        """What is wrong with a verdict, or nothing."""
        if edit.neutral and (file_of(edit).exists() or found.verdict != "bad"):
            return "it changes nothing, and is refused" if found.verdict == "refused" else "it cannot be tried" if found.verdict == "bad" else ""
        if edit.neutral:
            return ""
        if edit.open:
            return "it is not open any more" if found.verdict == "refused" else "it cannot be tried" if found.verdict == "bad" else ""
        if found.verdict == "refused" and edit.clause is None:
            return "it names no clause"
        before = self.verdicts.get(edit.label)
        is_old = before and before.checksum == self.sums.of_edit(edit, file_of(edit).read_bytes())
        if is_old and before and before.verdict == "refused" != found.verdict:
            return f"its kept verdict is 'refused', and this trial says '{found.verdict}'"
        return {
            "refused": "",
            "proved": "it is proved",
            "name": "only a name or the form of a proof refuses it",
            "other": f"no goal of {edit.clause} refuses it, but {', '.join(it for it in found.goals if it)}",
            "bad": "it cannot be tried",
        }[found.verdict]

    def keep(self, tried: list[tuple[Edit, Finding]]) -> None:
        """Writes the verdicts of this run, and drops those of edits that are gone."""
        labels = {it.label for it in self.edits}
        now = {label: it for label, it in kept.read(VERDICTS).items() if label in labels}
        for edit, found in tried:
            if edit.label in labels:
                verdict = "open" if edit.open else found.verdict
                checksum = self.sums.of_edit(edit, file_of(edit).read_bytes())
                now[edit.label] = kept.Verdict(verdict, found.reason, str(edit.clause or ""), checksum)
        kept.write(VERDICTS, now)

    def sum_up(self, tried: list[tuple[Edit, Finding]], faults: dict[str, str]) -> int:
        """Prints the open edits and how many there are of each kind, and returns the status."""
        for edit in self.edits:
            if edit.open:
                print(f"open: {edit.label}: {edit.open}")
        reasons = Counter(found.reason for edit, found in tried if found.verdict == "refused" and not faults[edit.label])
        was_tried = {edit.label for edit, _ in tried}
        rests = [self.verdicts[it.label] for it in self.edits if it.label not in was_tried and is_kept(it, self.verdicts, self.sums)]
        before = Counter(it.reason for it in rests if it.verdict == "refused")
        for says, counts in (("refused in this run", reasons), ("kept as refused", before)):
            print(f"{says}: {sum(counts.values())}, by " + ", ".join(f"{reason} {count}" for reason, count in sorted(counts.items())))
        wrong = sum(it != "" for it in faults.values())
        refused = sum(found.verdict == "refused" for edit, found in tried if not faults[edit.label])
        neutral = sum(edit.neutral and not faults[edit.label] for edit, _ in tried)
        rest = [it for it in self.edits if not it.neutral]
        print(
            f"of {len(rest)} wrong bodies {len(rest) - sum(not it.neutral and file_of(it).exists() for it, _ in tried)} were not tried in this run, "
            f"{sum(it.open != '' for it in rest)} are open; "
            f"{neutral} twins that change nothing are not refused"
        )
        seconds = sum(it.seconds for it in self.trials)
        checks = sum(it.checks for it in self.trials)
        print(f"wrong bodies in {checks} checks and {seconds:.0f} processor seconds: {refused} refused, {wrong} not as they should be")
        return 0 if wrong == 0 else 1


if __name__ == "__main__":
    sys.exit(main())
