#!/usr/bin/env python3
"""Whether tools/layout.py finds each file that is not in the layout of `rt fmt`, in small repositories, with the toolchain.

The last line is 'N passed, M failed'. RT names another 'rt'.
"""
from __future__ import annotations

import shutil
import subprocess
import sys
import tempfile
import unittest
from pathlib import Path

ROOT = Path(__file__).resolve().parent.parent
IN_LAYOUT = {
    "crates/low/src/lib.rt": "//! A crate.\n#![tactic(auto)]\n\nmod one;\n",
    "crates/low/src/one.rt": "pub fn one() -> u32 {\n    1\n}\n",
    "crates/low/specs/Lib.antt": "pub mod One\n",
    "crates/low/proofs/one/one/Answers.antt": "-- nothing\n",
    "crates/high/src/main.rt": "#![tactic(auto)]\n",
}


class Layouts(unittest.TestCase):
    def setUp(self) -> None:
        room = tempfile.TemporaryDirectory(prefix="layout-")
        self.addCleanup(room.cleanup)
        self.root = Path(room.name)
        for name in ("tools/layout.py", ".ci/unproved.py"):
            self.put(name, (ROOT / name).read_text())
        for name, text in IN_LAYOUT.items():
            self.put(name, text)

    def put(self, name: str, text: str) -> None:
        """Writes a file."""
        path = self.root / name
        path.parent.mkdir(parents=True, exist_ok=True)
        path.write_text(text)

    def run_it(self, *words: str) -> tuple[int, list[str]]:
        """Runs the command, and returns its status and its lines."""
        ran = subprocess.run([sys.executable, "tools/layout.py", *words], cwd=self.root, stdout=subprocess.PIPE,
                             stderr=subprocess.STDOUT, text=True, timeout=120, check=False)
        return ran.returncode, ran.stdout.splitlines()

    def test_all_in_their_layout(self) -> None:
        self.assertEqual(self.run_it(), (0, ["5 passed, 0 failed"]))

    def test_a_file_out_of_its_layout_is_named_with_what_to_do(self) -> None:
        for name, text in (("crates/low/src/one.rt", "pub fn  one( )->u32 {1}\n"), ("crates/low/specs/One.antt", "use  A.{b,c}\n"),
                           ("crates/low/proofs/one/one/Answers.antt", "use  A.{b,c}\n"), ("crates/low/src/deep/two.rt", "fn  f( ) { }\n")):
            with self.subTest(name):
                self.setUp()
                self.put(name, text)
                status, lines = self.run_it()
                self.assertEqual((status, lines[:2]), (1, [
                    f"{name} is not in the layout", "run rt fmt in the folder of the crate: cd crates/low && rt fmt"]))
                self.assertRegex(lines[-1], r"^\d passed, 1 failed$")

    def test_files_of_two_crates(self) -> None:
        for name in ("crates/low/src/lib.rt", "crates/low/src/one.rt", "crates/high/src/main.rt"):
            self.put(name, "fn  f( ) { }\n")
        status, lines = self.run_it()
        self.assertEqual((status, lines[-1]), (1, "2 passed, 3 failed"))
        self.assertEqual([it.split()[-4] for it in lines if it.startswith("run rt fmt")], ["crates/high", "crates/low"])

    def test_a_file_that_does_not_parse(self) -> None:
        self.put("crates/low/src/one.rt", "fn f( {\n")
        status, lines = self.run_it()
        self.assertEqual((status, lines[-1]), (1, "4 passed, 1 failed"))
        self.assertIn("crates/low/src/one.rt: it does not parse", lines[0])

    def test_what_was_made_has_no_layout(self) -> None:
        self.put("crates/low/out/src/made.rt", "fn  f( ) { }\n")
        self.assertEqual(self.run_it(), (0, ["5 passed, 0 failed"]))

    @unittest.skipUnless(shutil.which("rustfmt"), "no rustfmt")
    def test_a_file_of_rust(self) -> None:
        self.put("bindings/rust/Cargo.toml", '[package]\nname = "small"\nversion = "0.1.0"\nedition = "2021"\n')
        self.put("bindings/rust/src/lib.rs", "pub fn one() -> u32 {\n    1\n}\n")
        self.assertEqual(self.run_it(), (0, ["6 passed, 0 failed"]))
        self.put("bindings/rust/src/lib.rs", "pub fn  one( )->u32 {1}\n")
        status, lines = self.run_it()
        self.assertEqual((status, lines[-2:]), (1, [
            "run cargo fmt in the folder of the package: cd bindings/rust && cargo fmt --all", "5 passed, 1 failed"]))
        self.assertTrue(lines[0].endswith("bindings/rust/src/lib.rs"), lines)

    def test_no_file_at_all(self) -> None:
        for name in IN_LAYOUT:
            (self.root / name).unlink()
        self.assertEqual(self.run_it(), (1, ["layout.py: no crate has a .rt or .antt file"]))


if __name__ == "__main__":
    ran = unittest.main(argv=["layout_tests.py", "--quiet"], exit=False).result
    wrong = len(ran.failures) + len(ran.errors)
    print(f"{ran.testsRun - wrong} passed, {wrong} failed")
    sys.exit(1 if wrong else 0)
