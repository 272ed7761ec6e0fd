#!/usr/bin/env python3
"""Whether bindings/proved.py keeps what was built, takes it only for the same sources, and holds a released version to its
checksums. It runs over a small repository that stands for this one. The last line is 'N passed, M failed'.
"""
from __future__ import annotations

import sys
import tempfile
from collections.abc import Callable
from pathlib import Path

sys.dont_write_bytecode = True
sys.path[:0] = [str(Path(__file__).resolve().parent), str(Path(__file__).resolve().parent.parent / ".ci")]
import proved  # noqa: E402
from unproved import Fault  # noqa: E402

NOT_RELEASED = "# Changes\n\n## 1.2.3 (not released yet)\n\n## 1.2.2\n"
RELEASED = "# Changes\n\n## 1.2.3\n\n## 1.2.2\n"


class Small:
    """A repository with a header, a built folder and programs; the checksums of its crates are in `crates`."""

    def __init__(self, root: Path) -> None:
        self.root, self.built, self.archive = root, root / "built", root / "libpt_c.a"
        self.crates = {"pt_c": "11", "pt_run": "22", "toolchain": "33"}
        files = {
            "bindings/c/pundewo.h": '#define PUNDEWO_VERSION "1.2.3"\n', "bindings/c/version.c": "version\n",
            "bindings/build.sh": "build\n", "CHANGELOG.md": NOT_RELEASED,
            "docs/proved-files.txt": "# head\n1.2.2 libpundewo.a 00\n", "built/include/pundewo.h": "header\n",
            "built/lib/libpundewo.a": "archive\n", "built/lib/libpundewo.so.1.2.3": "shared\n", "libpt_c.a": "inner\n",
            **{f"crates/{name}/out/{name}{by}": f"{name}\n" for name in proved.PROGRAMS for by in ("", ".by-rattle")},
        }
        for path, text in files.items():
            self.write(path, text)
        proved.ROOT, proved.KEPT, proved.NOTE = root, root / "out/proved", root / "out/passed"
        proved.LISTED = root / "docs/proved-files.txt"
        setattr(proved, "crate_sums", lambda: dict(self.crates))

    def write(self, path: str, text: str) -> None:
        """Writes a file."""
        (self.root / path).parent.mkdir(parents=True, exist_ok=True)
        (self.root / path).write_text(text)

    def keep(self) -> None:
        """Keeps what was built, as the gate does."""
        proved.keep(self.archive, self.built)

    def listed(self) -> str:
        """The list of checksums."""
        return proved.LISTED.read_text()


def refused(says: str, call: Callable[[], object]) -> None:
    """Whether a call fails with such a text."""
    try:
        call()
    except Fault as fault:
        assert says in str(fault), str(fault)
    else:
        raise AssertionError(f"it did not fail with '{says}'")


def test_what_was_built_is_kept(small: Small) -> None:
    refused("is not there: .ci/run makes it", lambda: proved.kept(proved.made_of()))
    small.keep()
    kept = proved.kept(proved.made_of())
    assert (kept / "libpt_c.a").read_text() == "inner\n" and (kept / "lib/libpundewo.a").read_text() == "archive\n"
    assert all((kept / "bin" / name).stat().st_mode & 0o111 == 0o111 for name in proved.PROGRAMS)
    names = [line.split()[1] for line in (kept / "SHA256SUMS").read_text().splitlines()]
    assert names == sorted(names) and "bin/pt_run" in names and "lib/libpundewo.so.1.2.3" in names, names


def test_all_programs_are_kept_or_none(small: Small) -> None:
    (small.root / "crates/pt_shell/out/pt_shell.by-rattle").unlink()
    small.keep()
    assert not (proved.KEPT / "bin").exists()


def test_other_crates_are_refused(small: Small) -> None:
    small.keep()
    small.crates["pt_run"] = "23"
    refused("is of other sources than those of now: pt_run", lambda: proved.kept(proved.crate_sums()))


def test_another_header_leaves_the_archive(small: Small) -> None:
    small.keep()
    small.write("bindings/c/pundewo.h", '#define PUNDEWO_VERSION "1.2.3"\n\n')
    assert proved.kept(proved.crate_sums()) == proved.KEPT
    refused("is of other sources than those of now: pundewo.h", lambda: proved.kept(proved.made_of()))


def test_an_interrupted_keeping_is_not_taken(small: Small) -> None:
    small.keep()
    small.archive.unlink()
    try:
        small.keep()
    except OSError:
        pass
    refused("is not there", lambda: proved.kept(proved.crate_sums()))


def test_the_list_has_each_file_by_version(small: Small) -> None:
    small.keep()
    rows = [line.split() for line in small.listed().splitlines()[1:]]
    assert rows[0] == ["1.2.2", "libpundewo.a", "00"], rows
    assert [row[:2] for row in rows[1:]] == [["1.2.3", name] for name in (
        "libpt_c.a", "libpundewo.a", "libpundewo.so.1.2.3", *proved.PROGRAMS)], rows
    assert rows[1][2] == proved.sum_of(small.archive)
    assert proved.differing(proved.KEPT, proved.KEPT / "bin") == []


def test_a_version_that_is_not_released_gets_new_lines(small: Small) -> None:
    small.keep()
    before = small.listed()
    small.archive.write_text("another\n")
    small.keep()
    assert small.listed() != before and len(small.listed().splitlines()) == len(before.splitlines())


def test_a_released_version_keeps_its_lines(small: Small) -> None:
    small.keep()
    before = small.listed()
    small.write("CHANGELOG.md", RELEASED)
    small.keep()
    assert small.listed() == before
    (small.built / "lib/libpundewo.a").write_text("another\n")
    refused("version 1.2.3 was released with other files: libpundewo.a has the checksum", small.keep)
    assert small.listed() == before


def test_a_file_that_is_not_of_the_gate_is_named(small: Small) -> None:
    refused_lines = proved.differing(small.built, proved.KEPT / "bin")
    assert "and docs/proved-files.txt has none for libpundewo.a of 1.2.3" in refused_lines[0], refused_lines
    small.keep()
    (small.built / "lib/libpundewo.a").write_text("another\n")
    (line,) = proved.differing(small.built, proved.KEPT / "bin")
    assert line.startswith("libpundewo.a has the checksum "), line
    small.write("other/pt_run", "another\n")
    lines = proved.differing(small.built, small.root / "other")
    assert [it.split()[0] for it in lines] == ["libpundewo.a", "pt_run"], lines


def test_what_passed_is_noted(small: Small) -> None:
    refused("what `rt ci` passed is not there", lambda: proved.main(["--noted"]))
    assert proved.main(["--note"]) == 0 and proved.main(["--noted"]) == 0
    small.crates["toolchain"] = "34"
    refused("is of other sources than those of now: toolchain", lambda: proved.main(["--noted"]))


def main() -> int:
    tests = [it for name, it in globals().items() if name.startswith("test_")]
    failed = 0
    for test in tests:
        with tempfile.TemporaryDirectory() as folder:
            try:
                test(Small(Path(folder)))
            except (AssertionError, Fault, OSError) as fault:
                failed += 1
                print(f"{test.__name__}: {fault!r}")
    print(f"proved tests: {len(tests) - failed} passed, {failed} failed")
    return 1 if failed else 0


if __name__ == "__main__":
    sys.exit(main())
