#!/usr/bin/env python3
"""Whether tools/check.py proves what is not proved yet, in the order of crates.txt, and takes only what is of the same sources.

It runs the command as a user does, over small repositories, with a prover that only notes what it was asked. Of a crate whose
source has the word `wrong` it says that it is not proved. The last line is 'N passed, M failed'.
"""
from __future__ import annotations

import os
import shutil
import subprocess
import sys
import tempfile
import unittest
from pathlib import Path

ROOT = Path(__file__).resolve().parent.parent
CRATES = {"low": "", "middle": "low", "high": "middle other", "other": "low", "apart": ""}
COSTS = "low proof 5 100\nmiddle proof 90 100\nother proof 10 100\nhigh proof 20 100\napart proof 50 100\napart tests 999 9\n"
PROVER = """\
#!/usr/bin/env python3
import os, sys, time
words, text = sys.argv[1:], open("src/lib.rt").read()
crate = words[words.index("--crate-name") + 1]
room = os.path.dirname(os.path.dirname(os.path.abspath(__file__)))
open(f"{room}/asked", "a").write(f"{words[0]} {crate}\\n")
for each in words:
    name, found, path = each.partition("=")
    if found and path.endswith(".rlib") and "/crates/" in path and not os.path.exists(path + "/format"):
        sys.exit(f"no library {path}")
open(f"{room}/began-{crate}", "w").close()
while "together" in text and not all(os.path.exists(f"{room}/began-{it}") for it in ("middle", "other")):
    time.sleep(0.01)
if "changes" in text:
    open("src/lib.rt", "a").write("// more\\n")
if "wrong" in text:
    sys.exit(f"fn {crate}::run: refused")
if words[0] == "build":
    os.makedirs(words[words.index("-o") + 1])
    open(words[words.index("-o") + 1] + "/format", "w").close()
"""


class Small:
    """A small repository with a kit of its own."""

    def __init__(self, room: Path):
        self.room, self.root = room, room / "repository"
        self.put(room / "kit/rt", f'#!/bin/sh\necho "{room}/kit/page"\n', 0o755)
        self.put(room / "kit/bin/rattle", PROVER, 0o755)
        for name in ("tools/check.py", ".ci/unproved.py"):
            self.put(self.root / name, (ROOT / name).read_text())
        self.put(self.root / "crates.txt", "".join(f"{name}: {below}\n" for name, below in CRATES.items()))
        self.put(self.root / "docs/proof-cost.txt", "# a head\n" + COSTS)
        for name in CRATES:
            self.write(name, "// a crate\n")

    def put(self, path: Path, text: str, mode: int = 0o644) -> None:
        """Writes a file."""
        path.parent.mkdir(parents=True, exist_ok=True)
        path.write_text(text)
        path.chmod(mode)

    def write(self, crate: str, text: str) -> None:
        """Writes the source of a crate."""
        self.put(self.root / "crates" / crate / "src/lib.rt", text)

    def run(self, *words: str, libraries: str = "") -> tuple[int, list[str]]:
        """Runs the command, and returns its status and its lines."""
        place = {**os.environ, "RT": f"{self.room}/kit/rt", "PT_LIBRARIES": libraries}
        ran = subprocess.run([sys.executable, "tools/check.py", *words], cwd=self.root, env=place, stdout=subprocess.PIPE,
                             stderr=subprocess.STDOUT, text=True, timeout=120, check=False)
        return ran.returncode, ran.stdout.splitlines()

    def asked(self) -> list[str]:
        """What the prover was asked since the last time."""
        file = self.room / "kit/asked"
        found = file.read_text().splitlines() if file.exists() else []
        file.unlink(missing_ok=True)
        return found


class Checks(unittest.TestCase):
    def setUp(self) -> None:
        room = tempfile.TemporaryDirectory(prefix="check-")
        self.addCleanup(room.cleanup)
        self.small = Small(Path(room.name))

    def prove_all(self) -> None:
        self.assertEqual(self.small.run("--all")[0], 0)
        self.small.asked()

    def test_all_are_proved_the_dearest_chain_first(self) -> None:
        status, lines = self.small.run("--all", "--jobs", "1")
        self.assertEqual((status, lines[-1]), (0, "5 proved (0 of them before), 0 failed, 0 not tried"))
        self.assertEqual(self.small.asked(), ["build low", "build middle", "check apart", "build other", "check high"])
        self.assertEqual([it.split(":")[0] for it in lines[:-1]], ["low", "middle", "apart", "other", "high"])

    def test_what_was_proved_is_not_proved_again(self) -> None:
        self.prove_all()
        status, lines = self.small.run("--all")
        self.assertEqual((status, self.small.asked()), (0, []))
        self.assertEqual(lines[-1], "5 proved (5 of them before), 0 failed, 0 not tried")

    def test_what_changed_is_proved_again_and_all_above_it(self) -> None:
        self.prove_all()
        self.small.write("middle", "// another\n")
        self.small.run("--all")
        self.assertEqual(self.small.asked(), ["build middle", "check high"])
        self.small.write("high", "// another\n")
        self.small.run("high", "--only", "high::run")
        self.assertEqual(self.small.asked(), ["check high"])
        self.small.run("--all")
        self.assertEqual(self.small.asked(), ["check high"])

    def test_nothing_is_tried_above_what_fails(self) -> None:
        self.small.write("middle", "wrong")
        status, lines = self.small.run("--all", "--jobs", "3")
        self.assertEqual(status, 1)
        self.assertIn("FAILED", next(it for it in lines if it.startswith("middle: ")))
        self.assertEqual(lines[-3:], ["failed: middle", "not tried, since they stand on these: high",
                                      "3 proved (0 of them before), 1 failed, 1 not tried"])
        self.assertEqual((self.small.root / "crates/middle/out/check/said").read_text(), "fn middle::run: refused\n")
        self.small.write("middle", "// mended\n")
        self.small.asked()
        self.assertEqual(self.small.run("--all")[0], 0)
        self.assertEqual(self.small.asked(), ["build middle", "check high"])

    def test_a_build_that_fails_leaves_no_library(self) -> None:
        self.prove_all()
        self.small.write("low", "wrong")
        self.assertEqual(self.small.run("low", "--build")[0], 1)
        self.small.write("low", "// a crate\n")
        self.small.run("--all", "low")
        self.assertEqual(self.small.asked(), ["build low", "build low"])

    def test_those_that_are_named_and_those_below_them(self) -> None:
        self.small.run("--all", "middle", "--jobs", "2")
        self.assertEqual(self.small.asked(), ["build low", "build middle"])

    def test_some_are_proved_side_by_side(self) -> None:
        for crate in ("middle", "other"):
            self.small.write(crate, "together")
        self.assertEqual(self.small.run("--all", "--jobs", "2", "middle", "other")[0], 0)

    def test_what_changes_while_it_is_proved_is_not_taken(self) -> None:
        self.small.write("low", "changes\n")
        status, lines = self.small.run("--all", "middle")
        self.assertEqual((status, self.small.asked()), (1, ["build low"]))
        self.assertIn("changed while it was proved", (self.small.root / "crates/low/out/check/said").read_text())
        self.assertIn("failed: low", lines)
        self.assertIn("no library of low as it is now", self.small.run("middle")[1][-1])

    def test_the_libraries_of_another_checkout(self) -> None:
        self.prove_all()
        other = self.small.room / "other"
        shutil.copytree(self.small.root, other)
        for crate in CRATES:
            shutil.rmtree(self.small.root / "crates" / crate / "out")
        self.small.write("middle", "// another\n")
        self.assertEqual(self.small.run("--all", libraries=f"{other}/crates")[0], 0)
        self.assertEqual(self.small.asked(), ["build middle", "check high"])
        (other / "crates/low/src/lib.rt").write_text("// changed, and not proved\n")
        self.small.run("--all", "low", libraries=f"{other}/crates")
        self.assertEqual(self.small.asked(), [])

    def test_what_the_gate_left_is_taken_if_no_source_is_younger(self) -> None:
        left = self.small.root / "crates/low/out/rlib/low.rlib"
        self.small.put(left / "format", "")
        self.assertEqual(self.small.run("--all", "low")[1][0], "low: was proved before")
        young = left.stat().st_mtime + 5
        os.utime(self.small.root / "crates/low/src/lib.rt", (young, young))
        self.assertIn("low: proved", self.small.run("--all", "low")[1][0])

    def test_a_library_that_lacks_is_named(self) -> None:
        status, lines = self.small.run("middle")
        self.assertEqual((status, lines), (1, [
            "check.py: no library of low as it is now: tools/check.py low --build, or tools/check.py --all"]))

    def test_other_words_are_refused(self) -> None:
        for words in ((), ("none",), ("--all", "none"), ("--all", "--jobs"), ("--all", "--jobs", "0"), ("--all", "--jobs", "low")):
            status, lines = self.small.run(*words)
            self.assertEqual((status, lines[0][:17]), (1, "check.py: wanted:"), words)


if __name__ == "__main__":
    ran = unittest.main(argv=["check_tests.py", "--quiet"], exit=False).result
    wrong = len(ran.failures) + len(ran.errors)
    print(f"{ran.testsRun - wrong} passed, {wrong} failed")
    sys.exit(1 if wrong else 0)
