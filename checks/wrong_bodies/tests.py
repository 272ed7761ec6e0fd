#!/usr/bin/env python3
"""Tests of the part that decides about wrong bodies, over stored reports of the prover (samples/).

    checks/wrong_bodies/tests.py

The last line is 'N passed, M failed', and the status is 0 if nothing failed.
"""
from __future__ import annotations

import argparse
import re
import sys
import tempfile
import unittest
from collections import Counter
from pathlib import Path
from unittest import mock

sys.dont_write_bytecode = True
import batches
import deciding
import kept
import reach
from deciding import Edit, Finding, Said

HERE = Path(__file__).resolve().parent
# A function whose clause a proof answers by hand, and one whose clause a tactic proves.
BY_HAND = "pub returns-in_default : goal.returns-in_default\nreturns-in_default g c =\n    let walk = c.args in\n    walk\n"
BY_TACTIC = "pub returns-in_default : goal.returns-in_default\nreturns-in_default g c = search (rules, c.args)\n"


def said(name: str) -> Said:
    return deciding.understood((HERE / "samples" / f"{name}.log").read_text(), "pt_schedules", 1.0)


def edit(function: str, clause: str = "", old: str = "a < b", new: str = "a <= b", neutral: bool = False) -> Edit:
    read = deciding.clause_in(clause) if clause else None
    return Edit("pt_schedules", "it", [("src/lib.rt", old, new)], clause=read, neutral=neutral, functions=[function])


def found(tried: Edit, log: str = "goals_of_two_clauses", proofs: dict[str, str] | None = None, is_alone: bool = True) -> Finding:
    return deciding.found_in(tried, said(log), proofs or {}, is_alone)


class Reports(unittest.TestCase):
    def test_a_name_in_a_message_of_two_lines(self) -> None:
        goals = said("name_over_two_lines").own("outcomes::Outcomes::add")
        self.assertEqual([it.reason for it in goals], ["name", "name"])
        self.assertEqual(found(edit("Outcomes::add", "counted: words"), "name_over_two_lines").verdict, "name")

    def test_an_edit_that_changes_nothing(self) -> None:
        tried = edit("Outcomes::add", neutral=True)
        self.assertEqual(found(tried, "name_over_two_lines").verdict, "neutral")

    def test_an_edit_that_changes_nothing_and_is_refused(self) -> None:
        self.assertEqual(found(edit("Walk::next", neutral=True)).verdict, "refused")

    def test_goals_left_open(self) -> None:
        goals = said("goals_of_two_clauses").own("exploring::count")
        self.assertEqual([(it.name, it.reason) for it in goals], [("returns-clause-counts", "open"), ("returns-clause-told", "open")])

    def test_a_function_above_a_changed_one_is_no_witness(self) -> None:
        report = said("goals_of_two_clauses")
        self.assertTrue(report.is_sound({"Walk::next", "Walk::back", "count", "Ids::of"}))
        self.assertFalse(report.is_sound({"Walk::back", "count", "Ids::of"}))

    def test_a_broken_set_up_decides_nothing(self) -> None:
        self.assertFalse(said("broken_set_up").is_sound({"Walk::next"}))

    def test_a_function_that_may_wait_is_proved(self) -> None:
        self.assertEqual(found(edit("laws::tree_decides", "ensures: words")).verdict, "proved")


class Clauses(unittest.TestCase):
    def test_the_open_goal_of_the_clause(self) -> None:
        self.assertEqual(found(edit("exploring::count", "counts: words")).reason, "search")
        self.assertEqual(found(edit("exploring::count", "told: words")).verdict, "refused")

    def test_a_goal_of_another_clause(self) -> None:
        self.assertEqual(found(edit("exploring::count", "unchanged: words")).verdict, "other")
        self.assertEqual(found(edit("Walk::back", "schedule: words")).verdict, "other")

    def test_values(self) -> None:
        self.assertEqual(found(edit("Walk::next", "ensures: words")).reason, "values")
        self.assertEqual(found(edit("Ids::of", "ensures: words")).reason, "values")

    def test_places(self) -> None:
        at = {
            "loop-run-preserved": "loop run", "invariant_of-self-2-clause-few": "invariant few", "push-requires-clause-room": "requires push",
            "search_within-returns": "closure search_within", "overflow_add-count": "safe", "returns-in-Some-clause-writes": "returns",
            "loop-preserved-then-in-Some": "loop", "loop-init-clause-few": "loop",
        }
        self.assertEqual({it: deciding.kind_of(it)[0] for it in at}, at)
        clause = deciding.clause_in("counts (loop run): it counts one more")
        self.assertTrue(clause and deciding.is_of("loop-run-preserved", clause) and not deciding.is_of("loop-of-preserved", clause))
        self.assertTrue(clause and deciding.is_of("returns-then-clause-counts", clause) and not deciding.is_of("returns-clause-given", clause))
        self.assertIsNone(deciding.clause_in("counts it counts one more"))


class Cycles(unittest.TestCase):
    def test_a_goal_names_its_function(self) -> None:
        self.assertEqual(deciding.member_of("finding::+search", "search_by-returns-then"), ("finding::search_by", "returns-then"))
        self.assertEqual(deciding.member_of("finding::search", "returns-then"), ("finding::search", "returns-then"))
        self.assertEqual(deciding.of_member("finding::search_by", "search_by-loop-it-preserved"), "loop-it-preserved")
        self.assertEqual(deciding.of_member("finding::search_by", "search_by-requires"), "search_by-requires")

    def test_an_error_is_of_its_function(self) -> None:
        text = "proofs/finding/+search/Answers.antt:3:1: error: `search_by-returns-then`: it has another type\nfn pt_a::finding::search_by: refused"
        own = deciding.understood(text, "pt_a", 1.0).own("finding::search_by")
        self.assertEqual([(it.name, it.reason) for it in own], [("returns-then", "answer")])

    def test_a_proof_is_of_its_function(self) -> None:
        text = "pub a-returns : goal.a-returns\na-returns c = walk c\n\npub b-returns : goal.b-returns\nb-returns c = search\n"
        read = deciding.proofs_in("finding::+a", text)
        clause = deciding.clause_in("ensures: it is not so")
        assert clause
        self.assertEqual(sorted(read), ["finding::a", "finding::b"])
        self.assertTrue(deciding.answered_by_hand(read["finding::a"], clause))
        self.assertFalse(deciding.answered_by_hand(read["finding::b"], clause))


class Reasons(unittest.TestCase):
    def test_an_answer_by_hand_counts_if_the_form_is_kept(self) -> None:
        proofs = {"playing::play": BY_HAND}
        self.assertEqual(found(edit("playing::play", "ensures: words"), proofs=proofs).reason, "answer")
        self.assertEqual(found(edit("playing::play", "ensures: words", new="let c = b; a < c"), proofs=proofs).reason, "words")

    def test_a_tactic_counts(self) -> None:
        tried = edit("playing::play", "ensures: words", new="let c = b; a < c")
        self.assertEqual(found(tried, proofs={"playing::play": BY_TACTIC}).reason, "search")

    def test_a_clause_that_asks_for_a_value(self) -> None:
        specs = "abbrev pub IsGivenUp : Pending → Type 0\nIsGivenUp p = (result : Result Bool Fault) × Unwatches p result\n"
        definitions = deciding.definitions_in(specs + "-- closes\nabbrev pub Closes : Type 0\nCloses p =\n    IsGivenUp p\n\npub two : ℕ\ntwo = 2\n")
        self.assertTrue(deciding.asks_for_value("Closes self.old", definitions))
        self.assertFalse(deciding.asks_for_value("(p : Pid) → result ≡ two", definitions))
        self.assertEqual(deciding.found_in(edit("exploring::count", "counts: words"), said("goals_of_two_clauses"), {}, True, True).reason, "words")

    def test_a_definition_that_answers_use_is_of_their_goals(self) -> None:
        proof = "one : Whole\none c = walk c\n\ntwo : Whole\ntwo c = one c\n\n" + "".join(
            f"pub {it} : goal.{it}\n{it} c = ({by} c).0\n\n" for it, by in (("returns-clause-does", "two"), ("returns-clause-fit", "other"))
        )
        self.assertEqual(deciding.answers_with(proof, "one"), ["returns-clause-does"])
        text = "proofs/playing/play/Answers.antt:2:9: error: `one`: it has another type\nfn pt_schedules::playing::play: refused\nonly=1"
        report = deciding.understood(text, "pt_schedules", 1.0)
        for name, verdict in (("does", "refused"), ("fit", "other")):
            tried = edit("playing::play", f"{name}: words")
            self.assertEqual(deciding.found_in(tried, report, {"playing::play": proof}, True).verdict, verdict)

    def test_a_failed_answer_hides_other_goals(self) -> None:
        answers = {"proofs/playing/play/Answers.antt": BY_HAND + "\nother : It\nother = it\n", "proofs/lib/of/Answers.antt": BY_HAND}
        tried = edit("playing::play", "told: words")
        first = Finding("other", "", "", ["returns-in_default"])
        self.assertEqual(deciding.without_failed(answers, tried, first), {"proofs/playing/play/Answers.antt": "other : It\nother = it\n"})
        self.assertEqual(deciding.without_failed(answers, tried, Finding("other", "", "", ["returns-in-Some"])), {})
        told = "fn pt_schedules::playing::play: `search` did not prove `returns-clause-told`\nfn pt_schedules::lib::of: proved\nonly=2"
        for text, verdict in ((told, "refused"), (told.replace("of: proved", "of: refused"), "other"), (told.replace("only=2", ""), "other")):
            behind = deciding.found_behind(tried, first, deciding.understood(text, "pt_schedules", 1.0), {}, False)
            self.assertEqual(behind.verdict, verdict)

    def test_a_caller_is_no_witness(self) -> None:
        text = "fn tell(a: u8) {\n    go(a)\n}\n\nfn tell_all(a: u8) {\n    tell(a)\n}\n\nfn run() {\n    tell_all(1)\n}\n\nfn rest() {\n    go(2)\n}\n"
        self.assertEqual(deciding.callers_of({"src/a.rt": text}, {"a::tell"}), {"a::tell_all", "a::run"})

    def test_which_function_is_not_sound(self) -> None:
        text = "fn pt_a::one: refused\nfn pt_a::two: out of memory\nonly=2"
        self.assertEqual(deciding.understood(text, "pt_a", 1.0).not_sound({"one"}), "two: out of memory")

    def test_the_clauses_of_a_function(self) -> None:
        text = "fn two(a: u8) -> u8\n    requires { a < 9 }\n    ensures sum { result ≡\n        a + 1 }\n    ensures { a ≡ a }\n{\n    a + 1\n}\n"
        function = deciding.functions_of(text, "")[0]
        self.assertEqual([it[0] for it in deciding.clauses_of(text.split("\n"), function)], ["sum", ""])

    def test_a_twin_that_fails_there_too_takes_the_refusal_back(self) -> None:
        tried = edit("playing::play", "ensures: words", new="let c = b; a < c")
        before = found(tried, proofs={"playing::play": BY_HAND})
        self.assertEqual(deciding.with_twin(tried, before, Finding("neutral", "words", "", ["returns-in_default"])).verdict, "name")
        self.assertEqual(deciding.with_twin(tried, before, Finding("neutral", "name", "", ["loop-run-preserved"])).verdict, "refused")

    def test_a_goal_that_waits_decides_nothing_in_a_batch(self) -> None:
        self.assertEqual(found(edit("playing::ask", "asks: words"), is_alone=False).verdict, "")

    def test_forms(self) -> None:
        self.assertEqual(deciding.form_of("if a.b < 3 {"), deciding.form_of("if c >= d::E {"))
        self.assertNotEqual(deciding.form_of("f(a)"), deciding.form_of("f(g(a))"))


class Twins(unittest.TestCase):
    TEXT = "fn two(a: u8) -> u8 {\n    let b = a + 1;\n    b\n}\n\nfn one(a: u8) -> u8 {\n    go();\n    a + 1\n}\n"

    def test_a_value_has_one_more_name(self) -> None:
        texts = {"src/lib.rt": self.TEXT}
        two, one = (deciding.twin_of("pt", texts, it) for it in ("two", "one"))
        self.assertTrue(two and one)
        if two and one:
            self.assertEqual((two.functions, two.neutral), (["two"], True))
            self.assertIn("let here_first = a + 1;\n    let b = here_first;", (two.apply(texts) or {})["src/lib.rt"])
            self.assertIn("let here_first = a + 1;\n    here_first\n}", (one.apply(texts) or {})["src/lib.rt"])


    def test_an_argument_has_one_more_name(self) -> None:
        text = "fn three(a: &mut A, b: u8) -> u8\n    ensures { result ≡ b }\n{\n    match b {\n        _ => b,\n    }\n}\n"
        three = deciding.twin_of("pt", {"src/lib.rt": text}, "three")
        changed = three.apply({"src/lib.rt": text}) if three else None
        self.assertIn("{\n    let here_first = b;\n    let b = here_first;\n    match", (changed or {}).get("src/lib.rt", ""))


class Files(unittest.TestCase):
    def test_an_edit_is_read(self) -> None:
        with tempfile.TemporaryDirectory() as room:
            file = Path(room, "next_skips.edit")
            file.write_text("clause: rest (loop run): it skips one\nfile: src/lib.rt\nold: a\nnew: b\n")
            read = deciding.read_edit(file)
        self.assertEqual((read.pairs, str(read.clause)), ([("src/lib.rt", "a", "b")], "rest (loop run)"))
        self.assertIsNone(read.apply({"src/lib.rt": "a a"}))
        self.assertEqual(read.apply({"src/lib.rt": "a c"}), {"src/lib.rt": "b c"})

    def test_verdicts_are_kept(self) -> None:
        with tempfile.TemporaryDirectory() as room:
            file = Path(room, "verdicts.txt")
            verdicts = {"a/b": kept.Verdict("refused", "values", "rest (loop run)", "12ab"), "a/c": kept.Verdict("open", "-", "-", "34cd")}
            kept.write(file, verdicts)
            self.assertEqual(kept.read(file), verdicts)

    def test_no_module_cites_the_answers_of_a_function(self) -> None:
        crates = Path(__file__).resolve().parent.parent.parent / "crates"
        cites = re.compile(r"use Rattle\.\w+\.proofs\.[\w.+]*\.(Answers|Invariants|Proof)\.\{")
        files = [it for kind in ("antt", "rt") for it in crates.glob(f"*/*/**/*.{kind}") if "out" not in it.parts]
        self.assertEqual([str(it) for it in files if cites.search(it.read_text())], [])
        self.assertTrue(cites.search("use Rattle.pt_a.proofs.lib.run.Answers.{lemma}"))


class Drawn(unittest.TestCase):
    """Which of the edits with a kept verdict a commit draws."""

    # (so many functions of each crate, and so many edits of the first one)
    SIZES = {"one": (1, 1), "low": (3, 4), "middle": (12, 2), "high": (30, 5), "large": (70, 3)}
    COMMITS = [f"{it:040x}" for it in range(1500)]

    def edits(self) -> list[Edit]:
        found = [Edit("low", "outside", [], outside=True)]
        for crate, (functions, of_first) in self.SIZES.items():
            found += [Edit(crate, f"first_{it}", [], functions=["f0"]) for it in range(1, of_first)]
            found += [Edit(crate, f"of_{it}", [], functions=[f"f{it}"]) for it in range(functions)]
        return found

    def test_each_edit_comes_as_often_as_any_other(self) -> None:
        edits = self.edits()
        times = Counter(it.label for commit in self.COMMITS for it in kept.drawn(edits, commit))
        self.assertEqual({*times}, {it.label for it in edits})
        wanted = len(self.COMMITS) * len(kept.drawn(edits, "a")) / len(edits)
        # (five times how far a count of so many draws is off on average)
        self.assertLess(max(abs(it - wanted) for it in times.values()), 5 * (wanted * 0.9) ** 0.5)

    def test_at_least_a_tenth_is_drawn_and_none_twice(self) -> None:
        for many in (0, 1, 9, 10, 11, 127):
            edits = self.edits()[:many]
            for commit in self.COMMITS[:50]:
                labels = [it.label for it in kept.drawn(edits, commit)]
                self.assertEqual((len(labels), len({*labels})), (-(-many // 10), -(-many // 10)))

    def test_the_commit_alone_decides(self) -> None:
        edits = self.edits()
        draws = [[it.label for it in kept.drawn(edits, commit)] for commit in self.COMMITS[:50]]
        self.assertEqual(draws, [[it.label for it in kept.drawn(self.edits(), commit)] for commit in self.COMMITS[:50]])
        self.assertGreater(len({*map(tuple, draws)}), 40)
        orders = {tuple(dict.fromkeys(it.crate for it in kept.drawn(edits, commit))) for commit in self.COMMITS}
        self.assertTrue({("low", "middle"), ("middle", "low")} <= {pair for it in orders for pair in zip(it, it[1:])}, orders)

    def test_what_is_drawn_is_of_few_batches(self) -> None:
        names = [(f"crate_{it // 20}", f"f{it % 20}", nth) for it in range(800) for nth in range(1 + it % 20 // 15)]
        edits = [Edit(crate, f"{function}_{nth}", [], functions=[function]) for crate, function, nth in names]
        for commit in self.COMMITS[:100]:
            found = kept.drawn(edits, commit)
            batch = kept.batch_of(found)
            self.assertLessEqual(len({it.crate for it in found}), 5)
            self.assertLessEqual(len({(it.crate, batch[it.label]) for it in found}), 10)

    def test_the_edits_of_one_function_are_in_different_batches(self) -> None:
        changed = {"1": "fg", "2": "h", "3": "g", "4": "f", "5": "gh"}
        batch = kept.batch_of([Edit("a", name, [], functions=[*of]) for name, of in changed.items()])
        self.assertEqual(batch, {"a/1": 0, "a/2": 0, "a/3": 1, "a/4": 1, "a/5": 2})

    def test_an_edit_without_a_fresh_verdict_is_always_tried(self) -> None:
        edits = self.edits()
        stale = {it.label for it in edits[::7]}
        for everything, names, least in ((False, [], stale), (True, [], {it.label for it in edits}), (False, ["high"], set())):
            given = argparse.Namespace(all=everything, names=names)
            with mock.patch.object(batches, "is_kept", lambda it, *_: it.label not in stale):
                tried = {it.label for it in batches.chosen(edits, given, {}, mock.Mock())}
            self.assertTrue(least <= tried, least - tried)
            rest = -(-(len(edits) - len(stale)) // 10)
            wanted = len(edits) if everything else sum(it.crate == "high" for it in edits) if names else len(stale) + rest
            self.assertEqual(len(tried), wanted)


class Checks(unittest.TestCase):
    """How many checks a run of edits takes, with a prover that goes by words in the bodies.

    `open` breaks the clause `right`. So does `hidden`, but the answer of the clause `other` fails there first. `named` has a name
    alone fail, `far` breaks each function that no edit changes, and `worded` fails at the answer of the clause `right`. `d` calls `a`.
    """

    FUNCTIONS = ("a", "b", "c", "d", "free")
    BODY = "pub fn NAME(x: u8) -> u8\n    ensures right { is_one }\n    ensures other { is_other }\n{\n    let y = x;\n    y\n}\n\n"
    SOURCE = "".join(map(BODY.replace, ("NAME",) * 5, FUNCTIONS))

    def fake(self, texts: dict[str, str], only: list[str]) -> str:
        """What the prover says of these functions."""
        lines = []
        bodies = {it.path: it for it in deciding.functions_of(texts["src/lib.rt"], "")}
        source = texts["src/lib.rt"].split("\n")
        for name in only:
            if name == "d" and any(it.startswith("fn low::a: no") for it in lines):
                lines.append("fn low::d: no proof: it calls `low::a`, which is not proved")
                continue
            body = "\n".join(source[bodies[name].first : bodies[name].last])
            answers = texts.get(f"proofs/{name}/Answers.antt", self.ANSWERS)
            fails = "right" if "worded" in body else "other" if "hidden" in body or "named" in body else ""
            if fails and f"pub returns-clause-{fails} " in answers:
                says = "is not in scope" if "named" in body else "the types differ"
                lines += [f"./proofs/{name}/Answers.antt:1:1: error: `returns-clause-{fails}`: {says}", f"fn low::{name}: not proved"]
            elif any(it in body for it in ("open", "hidden", "named")):
                lines.append(f"fn low::{name}: no proof: `search` did not prove `returns-clause-{'other' if 'named' in body else 'right'}`")
            else:
                lines.append(f"fn low::{name}: {'not proved' if 'far' in texts['src/lib.rt'] and 'far' not in body else 'proved'}")
        return "\n".join([*lines, f"only={len(only)}"])

    ANSWERS = "pub returns-clause-other : goal\nreturns-clause-other c =\n  let walk = c in\n  walk\n"
    OF_RIGHT = "pub returns-clause-right : goal\nreturns-clause-right c =\n  let walk = c in\n  walk\n"

    def tried(self, *bodies: str) -> batches.Trials:
        """The trials of edits, each a function and the word in its body, once all were tried."""
        edits = []
        for number, it in enumerate(bodies):
            function, word = it.split()
            old = next(part for part in self.SOURCE.split("\n\n") if part.startswith(f"pub fn {function}("))
            new = old.replace("    let y = x;", f"    let y = {word}{number}(x);")
            edits.append(Edit("low", f"{number}", [("src/lib.rt", old, new)], clause=deciding.clause_in("right: words"), functions=[function]))
        answers = {f"proofs/{it}/Answers.antt": self.ANSWERS + (self.OF_RIGHT if it == "c" else "") for it in self.FUNCTIONS}
        kit = mock.Mock(version="kit", crates={"low": []}, below=lambda _: [])
        with mock.patch.multiple(batches, sources_of=lambda _: {"src/lib.rt": self.SOURCE}, answers_of=lambda _: answers, definitions_of=lambda _: {}), \
                mock.patch.object(batches.check, "checksum", lambda *_: ""), mock.patch("builtins.print"):
            trials = batches.Trials(kit, "low", edits, batches.Options(None, None))
            with mock.patch.object(trials, "run", lambda texts, only: (self.fake({**answers, **texts}, only), 1.0)):
                trials.try_all()
        return trials

    def found(self, *bodies: str) -> tuple[list[str], int]:
        """What was found of each edit, and in how many checks."""
        trials = self.tried(*bodies)
        found = [trials.found[it.label] for it in trials.edits]
        return [f"{it.verdict} {it.reason}".strip() for it in found], trials.checks

    def test_edits_of_different_functions_share_a_check(self) -> None:
        self.assertEqual(self.found("a open", "b open"), (["refused search"] * 2, 1))
        self.assertEqual(self.found("a open", "a open", "b open"), (["refused search"] * 3, 2))

    def test_one_check_looks_behind_all_answers_that_fail(self) -> None:
        self.assertEqual(self.found("a hidden"), (["refused search"], 2))
        self.assertEqual(self.found("a hidden", "b hidden"), (["refused search"] * 2, 2))
        self.assertEqual(self.found("a hidden", "b open", "b hidden"), (["refused search"] * 3, 4))

    def test_what_no_look_refuses_has_one_of_its_own(self) -> None:
        self.assertEqual(self.found("a named"), (["name"], 2))
        self.assertEqual(self.found("a named", "b hidden", "free open"), (["name", "refused search", "refused search"], 4))

    def test_a_twin_joins_the_batches_that_are_left(self) -> None:
        self.assertEqual(self.found("c worded"), (["refused words"], 2))
        self.assertEqual(self.found("c worded", "a open", "a open"), (["refused words", "refused search", "refused search"], 2))

    def test_a_twin_is_tried_once(self) -> None:
        self.assertEqual(self.found("c worded", "c worded"), (["refused words"] * 2, 3))

    def test_what_waits_for_another_proof_joins_the_batches_that_are_left(self) -> None:
        self.assertEqual(self.found("a open", "d open"), (["refused search"] * 2, 2))
        self.assertEqual(self.found("a open", "b open", "b open", "d open"), (["refused search"] * 4, 2))
        self.assertEqual(self.found("a open", "a open", "d open", "d open"), (["refused search"] * 4, 4))

    def test_a_check_that_decides_nothing_is_not_made_twice(self) -> None:
        self.assertEqual(self.found("a far"), (["bad"], 1))
        self.assertEqual(self.found("a fine"), (["proved proved"], 1))


class Reached(unittest.TestCase):
    """What changes the checksum of a verdict: a small repository of two crates, and one change of it at a time."""

    FILES = {
        "low/specs/Counts.antt": "use Rattle.std.specs.Prelude.{ℕ, ◌+◌}\n\nabbrev pub Count : Type 0\nCount = ℕ\n\n"
        "-- one more\nabbrev pub more : Count → Count\nmore n = n + 1\n\npub hidden : Count → Count\nhidden n = n\n",
        "low/src/lib.rt": "ghost use low.specs.Counts.{more};\n\n/// A counter.\npub struct Counter {\n    count: u8,\n}\n\nimpl Counter {\n"
        "    /// Adds one.\n    #[inline(always)]\n    pub fn add(&mut self)\n        ensures { self.new ≡ more self.old }\n    {\n"
        "        self.count += 1;\n    }\n}\n",
        "low/proofs/Adding.antt": "use low.specs.Counts.{more as one_more}\n\nmodule _ (n : Count) where\n  pub added : one_more n ≡ n + 1\n  added = refl\n",
        "high/src/lib.rt": "use low::Counter;\n\nfn add_two(counter: &mut Counter)\n    ensures { counter.new ≡ two counter.old }\n{\n"
        "    counter.add();\n    counter.add();\n}\n\nfn rest(a: u8) -> u8 {\n    a\n}\n",
        "high/specs/Twice.antt": "use low.specs.Counts.{more}\n\nabbrev pub two : Count → Count\ntwo n = more (more n)\n",
        "high/proofs/add_two/Answers.antt": "use low.proofs.Adding.{added}\n\npub returns : goal.returns\nreturns c = added c.n\n",
    }

    def checksum(self, file: str = "", old: str = "", new: str = "", kit: str = "kit", edit: bytes = b"edit", function: str = "add_two") -> str:
        with tempfile.TemporaryDirectory() as room:
            root = Path(room)
            for path, text in self.FILES.items():
                if path == file:
                    self.assertEqual(text.count(old), 1, old)
                    text = text.replace(old, new)
                (root / "crates" / path).parent.mkdir(parents=True, exist_ok=True)
                (root / "crates" / path).write_text(text)
            (root / "deciding.py").write_text("")
            tried = Edit("high", "it", [("src/lib.rt", "    counter.add();\n}", "}")], functions=[function] if function else [], outside=not function)
            return kept.Checksums(root, {"low": [], "high": ["low"]}, kit, root / "deciding.py").of_edit(tried, edit)

    def test_what_is_reached_counts(self) -> None:
        for file, old, new in (
            ("high/src/lib.rt", "counter.add();\n    counter", "counter.add(); // twice\n    counter"),
            ("high/src/lib.rt", "counter.new ≡ two", "counter.new ≡ one"),
            ("high/specs/Twice.antt", "more (more n)", "more n"),
            ("high/proofs/add_two/Answers.antt", "added c.n", "added c.m"),
            ("low/src/lib.rt", "self.new ≡ more self.old", "self.new ≡ self.old"),
            ("low/src/lib.rt", "count: u8", "count: u16"),
            ("low/specs/Counts.antt", "n + 1", "n + 2"),
            ("low/specs/Counts.antt", "Count = ℕ", "Count = ℤ"),
            ("low/proofs/Adding.antt", "(n : Count)", "(n : Other)"),
            ("low/proofs/Adding.antt", "one_more n ≡", "one_more m ≡"),
            ("low/proofs/Adding.antt", "{more as one_more}", "{hidden as one_more}"),
            ("high/specs/Twice.antt", "low.specs.Counts", "low.specs.Others"),
        ):
            self.assertNotEqual(self.checksum(), self.checksum(file, old, new), f"{file}: {new}")

    def test_the_logic_and_the_edit_count(self) -> None:
        self.assertNotEqual(self.checksum(), self.checksum(kit="other"))
        self.assertNotEqual(self.checksum(kit="kit-1 logic 0a"), self.checksum(kit="kit-1 logic 0b"))
        self.assertEqual(self.checksum(kit="kit-1 logic 0a"), self.checksum(kit="kit-2 logic 0a"))
        self.assertNotEqual(self.checksum(), self.checksum(edit=b"other"))

    def test_what_is_not_reached_does_not_count(self) -> None:
        for file, old, new in (
            ("high/src/lib.rt", "    a\n", "    a + 1\n"),
            ("high/src/lib.rt", "fn rest", "/// The rest.\nfn more_rest() {}\n\nfn rest"),
            ("low/src/lib.rt", "self.count += 1;", "self.count = self.count + 1;"),
            ("low/src/lib.rt", "/// A counter.", "/// A counter, with words."),
            ("low/src/lib.rt", "    /// Adds one.", "    pub fn other(&self) -> u8 {\n        0\n    }\n\n    /// Adds one."),
            ("low/specs/Counts.antt", "-- one more", "-- another comment"),
            ("low/specs/Counts.antt", "{ℕ, ◌+◌}", "{ℕ, ◌+◌, List}"),
            ("low/specs/Counts.antt", "hidden n = n", "hidden n = n\n\nabbrev pub less : Count\nless = 0"),
            ("low/proofs/Adding.antt", "added = refl", "added = sym refl"),
            ("low/proofs/Adding.antt", "  pub added", "  two : Other\n  two = refl\n\n  pub added"),
            ("low/src/lib.rt", "/// A counter.", "fn two(a: u8) {}\n\npub(crate) fn add_two() {}\n\n/// A counter."),
            ("low/src/lib.rt", "/// A counter.", "impl Other {\n    pub fn add(&self) -> Other {}\n}\n\n/// A counter."),
        ):
            self.assertEqual(self.checksum(), self.checksum(file, old, new), f"{file}: {new}")

    def test_the_inside_of_a_type_counts_in_its_own_crate(self) -> None:
        model = "pub struct Held {\n    count: u8,\n}\n\nimpl Model for Held {\n    ghost Value = { ℕ };\n    ghost view = { λ h. h.count };\n}\n"
        open_one = model.replace("    count", "    pub other: u8,\n    count")
        for crate, text, counts in (("low", model, False), ("low", open_one, True), ("high", model, True)):
            path = f"{crate}/src/held.rt"
            body = "fn add_two(counter: &mut Counter, held: Held)"
            files = {**self.FILES, path: text, "high/src/lib.rt": self.FILES["high/src/lib.rt"].replace("fn add_two(counter: &mut Counter)", body)}
            with mock.patch.object(Reached, "FILES", files):
                for old, new in (("    count: u8", "    count: u16"), ("h.count }", "h.count + 1 }")):
                    self.assertEqual(self.checksum() != self.checksum(path, old, new), counts, f"{path}: {new}")
                self.assertNotEqual(self.checksum(), self.checksum(path, "Value = { ℕ }", "Value = { ℤ }"), path)

    def test_of_an_edit_outside_of_functions_the_whole_crate_counts(self) -> None:
        self.assertNotEqual(self.checksum(function=""), self.checksum("high/src/lib.rt", "    a\n", "    a + 1\n", function=""))
        self.assertEqual(self.checksum(function=""), self.checksum("low/specs/Counts.antt", "hidden n = n", "hidden n = 0", function=""))

    def test_what_is_unfolded_in_its_file_is_read_whole(self) -> None:
        text = "pub one : ℕ\none = 1\n\nabbrev pub two : ℕ\nunfolding one\ntwo = one + one\n\npub three : ℕ\nthree = 3\n"
        self.assertEqual([it.text.split("\n")[-1] for it in reach.parts_of_antt(text)], ["one = 1", "two = one + one", "pub three : ℕ"])

    def test_what_is_exported_under_another_name_is_reached_by_it(self) -> None:
        part = reach.parts_of_source("pub use low::{MOST, LANE as CAPACITY};\n", "")[0]
        self.assertEqual((part.names, "LANE" in part.words), (frozenset({"CAPACITY"}), True))

    def test_a_variant_reaches_its_type(self) -> None:
        text = "use Rattle.low.specs.declared.fault.Fault.TheVariants.{Full}\n\nabbrev pub Is : Fault → Type 0\nIs f = f ≡ Full\n"
        self.assertIn("Fault", reach.parts_of_antt(text.replace("Fault →", "_ →"))[0].words)

    def test_the_parts_of_a_source_file(self) -> None:
        parts = {name: it.text for it in reach.parts_of_source(self.FILES["low/src/lib.rt"], "") for name in it.names}
        self.assertEqual(sorted(parts), ["Counter", "add"])
        self.assertIn("#[inline(always)]\n    pub fn add(&mut self)\n        ensures { self.new ≡ more self.old }", parts["add"])
        self.assertNotIn("count += 1", parts["add"])


if __name__ == "__main__":
    ran = unittest.main(argv=["tests.py", "--quiet"], exit=False).result
    wrong = len(ran.failures) + len(ran.errors)
    print(f"{ran.testsRun - wrong} passed, {wrong} failed")
    sys.exit(1 if wrong else 0)
