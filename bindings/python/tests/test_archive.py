"""Tests of the files that the histories of runs go to, as a program uses them, with the program that audits them."""

from __future__ import annotations

import io
import itertools
import os
import random
import subprocess
import tempfile
import unittest
from pathlib import Path
from typing import Any, Iterator

import pundewo as p
from pundewo import runtime as r
from pundewo._archive import end_before

from behaviours import AUDIT, BOUNDED, Doing, audit, quiet

SCRIPT = Path(p.__file__).parent.parent / "examples" / "audit_all.sh"


def flood(run: r.Runtime, count: int) -> r.Address:
    """A process that sends itself so many messages, and then exits."""
    def handle(cx: r.Context, event: Any) -> Any:
        if event.value == count:
            return r.Next.stop()
        return cx.send(cx.me, event.value + 1) and None

    address = run.spawn(Doing(handle))
    address.send(0)
    return address


class Half:
    """A disk that is full in the midst of an epoch: it takes some epochs, and then so many lines of one."""

    def __init__(self, file: r.HistoryFile, epochs: int, lines: int) -> None:
        self.file, self.epochs, self.left, self.history = file, epochs, lines, p.History()

    def __call__(self, history: p.History) -> None:
        self.epochs -= 1
        if self.epochs >= 0:
            self.file(history)
            return
        self.history = history
        taken: Any = self
        try:
            self.file(taken)
        except OSError:
            with open(self.file.path, "ab") as torn:
                torn.write(b"99999@0 sa")
            raise

    def lines(self) -> Iterator[str]:
        yield from itertools.islice(self.history.lines(), self.left)
        raise OSError("no space left")


class Files(unittest.TestCase):
    def setUp(self) -> None:
        folder = tempfile.TemporaryDirectory()
        self.addCleanup(folder.cleanup)
        self.folder = Path(folder.name)
        self.path = self.folder / "history"

    def audit_all(self) -> list[str]:
        """The verdicts of the example's script."""
        if not AUDIT.exists():
            return []
        at = {**os.environ, "PATH": f"{AUDIT.parent}:{os.environ['PATH']}"}
        ran = subprocess.run([*BOUNDED, str(SCRIPT), str(self.path)], env=at, capture_output=True, text=True, check=False)
        self.assertEqual((ran.returncode, ran.stderr), (0, ""))
        return ran.stdout.splitlines()

    def test_files_rotate_by_size_with_names_that_sort(self) -> None:
        whole = self.folder / "whole"
        files = r.HistoryFile.rotating(self.path, 4_000)
        both = r.HistoryFile(whole)

        def sink(history: p.History) -> None:
            files(history)
            both(history)

        run = r.Runtime(going_on_every=50, archive=sink)
        flood(run, 1_000)
        summary = run.run()
        names = sorted(it.name for it in self.folder.iterdir() if it != whole)
        self.assertGreater(len(names), 8)
        self.assertEqual(names, [f"history.000001.{place:06}" for place in range(1, len(names) + 1)])
        self.assertEqual(files.paths, [str(self.folder / name) for name in names])
        self.assertEqual((files.path, both.paths), (files.paths[-1], [str(whole)]))
        texts = [(self.folder / name).read_text() for name in names]
        self.assertEqual("".join(texts), whole.read_text())
        self.assertEqual("".join(texts).count("\n"), summary.archived)
        # each has whole epochs, and as many bytes as it may, and one epoch more at most
        for text in texts[:-1]:
            self.assertTrue(4_000 <= len(text) < 4_000 + 10_000, len(text))
        audit(self, whole)
        verdicts = self.audit_all()
        if verdicts:
            self.assertEqual(len(verdicts), len(names) + 1)
            self.assertTrue(verdicts[-1].startswith(f"legal: {summary.archived} events, "), verdicts[-1])
            ran = subprocess.run([*BOUNDED, str(AUDIT), *files.paths], capture_output=True, text=True, check=False)
            self.assertEqual(ran.stdout.splitlines(), verdicts[-1:])

    def test_another_run_goes_on_with_other_files(self) -> None:
        archived = []
        for number in (1, 2, 3):
            run = r.Runtime(going_on_every=50, archive=r.HistoryFile.rotating(self.path, 3_000))
            flood(run, 100 * number)
            archived.append(run.run().archived)
        (self.folder / "history.other.000009.000001").touch()
        (self.folder / "history.000007").touch()
        names = sorted(it.name for it in self.folder.glob("history.00000?.00000?"))
        self.assertEqual({name[:14] for name in names}, {"history.000001", "history.000002", "history.000003"})
        self.assertEqual(r.HistoryFile.rotating(self.path, 1).path, f"{self.path}.000004.000001")
        os.remove(f"{self.path}.000004.000001")
        verdicts = self.audit_all()
        ends = [line for line in verdicts if any(line.startswith(f"legal: {count} events, ") for count in archived)]
        self.assertEqual(len(ends), 3 if verdicts else 0)

    def test_two_programs_never_have_one_file(self) -> None:
        files = [r.HistoryFile.rotating(str(self.path), 1) for _ in range(20)]
        self.assertEqual(len({it.path for it in files}), 20)
        os.chdir(self.folder)
        self.assertEqual(r.HistoryFile.rotating("history", 1).path, "history.000021.000001")
        with self.assertRaises(FileNotFoundError):
            r.HistoryFile.rotating(self.folder / "nowhere" / "history", 1)

    @quiet
    def test_a_run_that_halted_goes_on_where_the_file_was(self) -> None:
        for epochs in (1, 4):
            for lines in (1_000, 1_500, 2_000):
                run = r.Runtime(going_on_every=2_500, archive=Half(r.HistoryFile(self.path), epochs, lines))
                flood(run, 6_000)
                with self.assertRaises(OSError):
                    run.run()
                self.assertGreater(self.path.read_text().count("\n"), run.summary().archived)
                file = r.HistoryFile.append(self.path)
                self.assertEqual((repr(file), file.paths), (f"HistoryFile({str(self.path)!r})", [str(self.path)]))
                with self.assertRaises(TypeError):
                    run.with_archive(7)  # type: ignore[arg-type]
                summary = run.with_archive(file).run()
                self.assertEqual(self.path.read_text().count("\n"), summary.archived)
                audit(self, self.path)

    @quiet
    def test_a_run_that_halted_goes_on_with_other_files(self) -> None:
        run = r.Runtime(going_on_every=100, archive=Half(r.HistoryFile.rotating(self.path, 5_000), 4, 50))
        flood(run, 1_000)
        with self.assertRaises(OSError):
            run.run()
        rest = self.folder / "rest"
        summary = run.with_archive(r.HistoryFile(rest)).run()
        self.assertGreater(summary.archived, rest.read_text().count("\n"))

    @quiet
    def test_the_file_of_another_run_is_refused_and_stays(self) -> None:
        for text in (None, "1@0 born <0.0.1>\n", "no history\n", "7"):
            if text is None:
                first = r.Runtime(archive=r.HistoryFile(self.path))
                flood(first, 10)
                first.run()
            else:
                self.path.write_text(text)
            before = self.path.read_text()
            run = r.Runtime(archive=r.HistoryFile.append(self.path))
            flood(run, 10)
            with self.assertRaisesRegex(ValueError, f"^{self.path} (has no earlier epoch of this run|is no history)"):
                run.run()
            self.assertEqual(self.path.read_text(), before)
            run.with_archive(None).run()

    def test_a_file_that_is_empty_or_not_there_is_begun(self) -> None:
        for _ in range(2):
            run = r.Runtime(going_on_every=20, archive=r.HistoryFile.append(self.path))
            flood(run, 100)
            self.assertEqual(run.run().archived, self.path.read_text().count("\n"))
            audit(self, self.path)
            self.path.write_text("")

    def test_a_sink_is_not_changed_while_the_run_runs(self) -> None:
        refused: list[int] = []
        run = r.Runtime()

        def start(cx: r.Context) -> Any:
            with self.assertRaises(RuntimeError):
                run.with_archive(None)
            refused.append(1)
            return r.Next.stop()

        run.spawn(Doing(started=start))
        run.run()
        self.assertEqual(refused, [1])

    def test_the_end_of_the_epochs_before_is_found(self) -> None:
        draw = random.Random(3)
        for _ in range(300):
            stamps = sorted(draw.choices(range(1, 60), k=draw.randrange(1, 30)))
            lines = [f"{stamp}@{draw.randrange(3)} {'x' * draw.randrange(200)}\n" for stamp in stamps]
            text = "".join(lines)[:-draw.randrange(1, 5) if draw.random() < 0.3 else None]
            first = draw.randrange(stamps[0] + 1, 65)
            history: Any = [p.Event(first, 0, "born", p.Pid(0, 0, 1))]
            wanted = sum(len(line) for stamp, line in zip(stamps, lines) if stamp < first)
            if not text.endswith("\n"):
                wanted = min(wanted, text.rfind("\n") + 1)
            if wanted == 0:
                continue
            self.assertEqual(end_before(io.BytesIO(text.encode()), history, "it"), wanted)


if __name__ == "__main__":
    unittest.main()
