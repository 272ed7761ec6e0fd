#!/usr/bin/env python3
"""Whether .ci/run makes its parts in their order, ends with the first one that fails, and says so in its last line.

    checks/gate/tests.py

It runs the script as it is, over parts that only note that they were run. The last line is 'N passed, M failed'.
"""
from __future__ import annotations

import os
import re
import shutil
import subprocess
import sys
import tempfile
import unittest
from itertools import product
from pathlib import Path

ROOT = Path(__file__).resolve().parent.parent.parent
# What stands for each part: it notes its words, writes its costs, and fails if FAILS names it.
PART = """\
#!/bin/bash
words="$(basename "$0") $*"
echo "${words%% /*}${PT_PROVING:+ proving}${RT_JOBS:+ by $RT_JOBS}" >>ran
[ "${*: -2:1}" != --costs ] || echo "of_it 3" >"${*: -1}"
[[ -n "${FAILS-}" && "$words" == "$FAILS"* ]] && { echo "3 passed, 1 failed"; exit 1; }
echo "3 passed, 0 failed"
"""
PARTS = ("test", ".ci/costs", "bindings/run.sh", "bindings/proved.py", "checks/wrong_bodies/batches.py")
STATIC, OTHERS, PROGRAMS = (f"test --{it}" for it in ("static", "others", "programs"))
# How many processors the gate is told of: with four, and memory for it, parts run beside others.
PROCESSORS = ("2", "4")


class Gates(unittest.TestCase):
    def setUp(self) -> None:
        room = tempfile.TemporaryDirectory(prefix="gate-")
        self.addCleanup(room.cleanup)
        self.root = Path(room.name)
        (self.root / "docs").mkdir()
        for name in PARTS:
            path = self.root / name
            path.parent.mkdir(parents=True, exist_ok=True)
            path.write_text(PART)
            path.chmod(0o755)
        shutil.copy(ROOT / ".ci/run", self.root / ".ci/run")

    def run_it(self, processors: str, fails: str = "") -> tuple[int, str, list[str]]:
        """Runs the gate, and returns its status, its last line and the parts that it made, without the numbers of their jobs.

        No more proofs run at a time than there are processors."""
        tools = self.root / "tools"
        tools.mkdir(exist_ok=True)
        (tools / "nproc").write_text(f"#!/bin/sh\necho {processors}\n")
        (tools / "nproc").chmod(0o755)
        kept = {name: value for name, value in os.environ.items() if name != "RT_JOBS"}
        environment = {**kept, "PATH": f"{tools}:{os.environ['PATH']}", "FAILS": fails, "RT": "true"}
        ran = subprocess.run([".ci/run"], cwd=self.root, env=environment, stdin=subprocess.DEVNULL,
                             stdout=subprocess.PIPE, stderr=subprocess.STDOUT, text=True, timeout=120, check=False)
        said = (self.root / "ran").read_text()
        self.assertTrue(all(1 <= int(it) <= int(processors) for it in re.findall(" by ([0-9]+)$", said, re.MULTILINE)), said)
        made = re.sub(" by [0-9]+$", " by N", re.sub(" --jobs [0-9]+", "", said), flags=re.MULTILINE)
        return ran.returncode, ran.stdout.splitlines()[-1], [it.rstrip() for it in made.splitlines()]

    def test_all_passes(self) -> None:
        for processors in PROCESSORS:
            with self.subTest(processors):
                self.setUp()
                status, last, ran = self.run_it(processors)
                self.assertEqual((status, last), (0, "18 passed, 0 failed"))
                self.assertEqual(ran[:2], ["run.sh --tools", f"{STATIC} --costs"])
                self.assertEqual(sorted(ran[2:]), sorted([f"{OTHERS} --costs proving", "costs docs/proof-cost.txt true ci by N", "proved.py --note",
                                                          f"{PROGRAMS} --costs", "batches.py", "run.sh --gate"]))
                self.assertIn("of_it", (self.root / "docs/gate-cost.txt").read_text())

    def test_it_ends_with_the_first_part_that_fails(self) -> None:
        # (tests and bindings may run beside others, and count then behind them)
        for processors, (fails, passed) in product(PROCESSORS, ((STATIC, "3"), (OTHERS, "6|9"), ("costs", "6|9"), (PROGRAMS, "12"),
                                                                ("batches.py", "15"))):
            with self.subTest(fails, processors=processors):
                self.setUp()
                status, last, ran = self.run_it(processors, fails)
                self.assertEqual(status, 1)
                self.assertRegex(last, rf"^({passed}) passed, 1 failed$")
                self.assertFalse((self.root / "docs/gate-cost.txt").exists())
                self.assertEqual(len(ran) == 2, fails == STATIC)


if __name__ == "__main__":
    done = unittest.main(argv=["tests.py", "--quiet"], exit=False).result
    wrong = len(done.failures) + len(done.errors)
    print(f"{done.testsRun - wrong} passed, {wrong} failed")
    sys.exit(1 if wrong else 0)
