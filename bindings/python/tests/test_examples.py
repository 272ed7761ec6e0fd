"""Tests of the programs in examples/, each as a user runs it: by its command, in a folder of its own."""

from __future__ import annotations

import os
import re
import subprocess
import sys
import tempfile
import unittest
from pathlib import Path

import pundewo as p

from behaviours import PATIENCE, audit

ROOT = Path(p.__file__).parent.parent


class Examples(unittest.TestCase):
    def setUp(self) -> None:
        folder = tempfile.TemporaryDirectory()
        self.addCleanup(folder.cleanup)
        self.folder = Path(folder.name)

    def run_it(self, name: str, *words: str) -> str:
        """What it prints."""
        at = {**os.environ, "PYTHONPATH": str(ROOT)}
        ran = subprocess.run([sys.executable, str(ROOT / "examples" / f"{name}.py"), *words], env=at, cwd=self.folder,
                             capture_output=True, text=True, check=False, timeout=5 * PATIENCE)
        self.assertEqual((ran.returncode, ran.stderr), (0, ""), name)
        return ran.stdout

    def test_a_counter(self) -> None:
        self.assertEqual(self.run_it("counter"), "7\n")
        file = self.folder / "counter.history"
        self.assertGreater(len(file.read_text().splitlines()), 10)
        audit(self, file)

    def test_lines_under_supervisors(self) -> None:
        said = self.run_it("lines").splitlines()
        self.assertRegex(said[0], r"^<Address <0\.\d+\.\d+> of Line> crashed, and <Address <0\.\d+\.\d+> of Line> has its name$")
        self.assertEqual(said[1:3], ["['first', 'second', 'third', 'fourth'] fourth", "True"])
        self.assertTrue(re.fullmatch(r"Summary\(spawned=7, crashes=1, epochs=1, archived=0, killed=\(\)\)", said[3]), said[3])

    def test_a_code_lock(self) -> None:
        said = self.run_it("code_lock").splitlines()
        self.assertEqual(said, ["forgotten", "the visitor waits: True", *["opening", "open", "locked"] * 2, "the visitor goes in",
                                "CallTimeout"])

    def test_reports(self) -> None:
        said = self.run_it("reports").splitlines()
        self.assertRegex(said[0], r"^<0\.\d+\.1> of Line crashed: ValueError: noise$")
        self.assertRegex(said[1], r"^<0\.1\.1> started its child line again, as <0\.\d+\.2>, 2 times in all: "
                                  r"the one before exited with other:\d+$")
        self.assertEqual(said[2:], ["call somebody: the run halted: OSError: no space left on device",
                                    "the program is told: the run halted: OSError: no space left on device"])

    def test_a_race_under_every_schedule(self) -> None:
        said = self.run_it("lost_update").splitlines()
        self.assertEqual((said[0], said[-1]), ("{'1': 60, '2': 8}", "{'2': 10} True"))
        self.assertEqual(said[1:4], ["this outcome was not expected: 1", "the shortest schedule found: ", "its history:"])

    def test_a_run_that_is_watched_by_pages(self) -> None:
        printed = self.run_it("pages", "2500", "1")
        self.assertRegex(printed, r"(?m)^2501 processes are on 3 pages$")
        self.assertRegex(printed, r"(?m)^with a look at a page it is stopped: \d+ times, [\d.]+ ms at the median, .* ms at most; \d+ epochs ended$")
        told = re.search(r"2500 runners: (\d+) throws, (\d+) handled, 32 of 32 caught; the view has (\d+) messages and 0 lost", printed)
        assert told is not None, printed
        self.assertEqual(int(told[1]) + 32, int(told[2]))
        self.assertEqual(told[2], told[3])

    def test_a_run_that_shows_itself(self) -> None:
        said = self.run_it("watched", "1.5").splitlines()
        self.assertRegex(said[0], r"^http://127\.0\.0\.1:\d+/[0-9a-f]{32}/$")
        self.assertEqual(said[1:], ["21 processes, some messages, 20 children of one_for_one",
                                    "Worker waits for any, and is linked with 1"])


if __name__ == "__main__":
    unittest.main()
