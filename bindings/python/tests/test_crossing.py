"""Tests of what crosses all the time: the module in C and ctypes do the same, and what is wrong is said."""

from __future__ import annotations

import logging
import os
import random
import shutil
import subprocess
import sys
import tempfile
import unittest
from pathlib import Path
from threading import get_ident
from typing import Any, Optional
from unittest import mock

import pundewo as p
from pundewo import _crossing, _engine, runtime as r
from pundewo._abi import CCall, CJob, CPid
from pundewo._behaviour import KILLS
from pundewo._library import c_next, lib
from pundewo.values import JOBS

x: Any = _crossing

NATIVE = Path(lib._name).with_name("pundewo_native.abi3.so")
# Python's headers, with which the source of the module in C is compared.
HEADERS = Path(sys.base_prefix) / "include" / f"python{sys.version_info.major}.{sys.version_info.minor}"
SOURCE = Path(__file__).resolve().parents[1] / "native.c"


class Plain:
    """The functions as they are without the module in C."""

    def __init__(self) -> None:
        self.has: dict[str, Any] = {"__name__": "pundewo._plain", "__package__": "pundewo"}
        text = Path(x.__file__).read_text().replace("native = load()\n", "native = None\n")
        exec(compile(text, x.__file__, "exec"), self.has)

    def __getattr__(self, name: str) -> Any:
        return self.has[name]


class Node:
    """A desk with a crew and some processes, that is used by one of both."""

    def __init__(self, by: Any, count: int = 4):
        (self.desk,) = p.open_node()
        self.by, self.crew, self.rows = by, p.Crew(self.desk), (CJob * 8)()
        self.way = by.way(self.desk, self.crew, self.rows)
        self.pids = [self.crew.spawn(self.desk, tag + 1) for tag in range(count)]

    def words(self, place: int) -> Any:
        return self.by.words_of(self.pids[place])

    def send(self, sender: int, to: int, kind: int, number: int) -> int:
        return int(self.by.send(self.way, self.words(sender), self.words(to), kind, number))

    def step(self) -> tuple[int, list[Any]]:
        jobs: list[Any] = []
        return self.by.step(self.way, jobs, 0), jobs

    def answer(self, *tags: int, does: p.Next = p.Next("wait", pick=p.ANY)) -> tuple[int, int]:
        words = bytes(c_next("does", does))
        answers = [x.start_of(CPid(*self.pids[tag - 1])) + words for tag in tags]
        return self.by.answer(self.way, answers), len(answers)

    def close(self) -> None:
        self.crew.close()
        self.desk.close()


class Same(unittest.TestCase):
    def test_both_do_the_same(self) -> None:
        draw = random.Random(5)
        for _ in range(30):
            seed = draw.randrange(2**32)
            said = [self.play(Node(by), random.Random(seed)) for by in (x, Plain())]
            self.assertEqual(said[0], said[1])
            self.assertTrue(any(jobs for _, jobs in said[0] if isinstance(jobs, list)))

    def play(self, node: Node, draw: random.Random) -> list[Any]:
        said: list[Any] = []
        for _ in range(60):
            kind = draw.choice([x.MESSAGE, 2, 3, 17])
            number = draw.choice([draw.randrange(1, 2**62), 1, -5])
            words = draw.randrange(4), draw.randrange(4), kind, number
            said.append((node.send(*words), "sent") if draw.random() < 0.7 else node.step())
            for _, tag, _, _ in said[-1][1] if isinstance(said[-1][1], list) else ():
                said.append(node.answer(tag))
            if draw.random() < 0.05:
                pid = node.pids[draw.randrange(4)]
                if node.desk.alive(pid):
                    node.desk.exit(pid, p.KILL)
        node.close()
        said.append((node.send(0, 1, 1, 1), "empty"))
        return said

    def test_what_is_asked_is_answered_and_heard(self) -> None:
        for by in (x, Plain()):
            node = Node(by, 2)
            node.step(), node.answer(1, 2)
            call = CCall()
            at = by.place_of(call)
            self.assertEqual(by.ask(node.way, at, node.words(0), node.words(1), x.REQUEST, 2**64 - 1), 0)
            (job,) = node.step()[1]
            self.assertEqual(job, (JOBS.index("item"), 2, x.request_key(0, call.monitor.number), 0))
            self.assertEqual((by.reply(node.way, at), node.answer(2)), (0, (0, 0)))
            (job,) = node.step()[1]
            self.assertEqual(job, (JOBS.index("item"), 1, x.answer_key(0, call.monitor.number), 0))
            self.assertEqual(x.number_of(job[2]), call.monitor.number)
            self.assertEqual(by.hear(node.way, at, by.place_of(node.rows[0].item)), 0)
            self.assertFalse(call.waits)
            self.assertEqual(by.ask(node.way, at, node.words(0), node.words(0), x.REQUEST, 0), p.Code.MYSELF)

    def test_an_answer_of_one_that_does_not_run_is_left_out(self) -> None:
        for by in (x, Plain()):
            node = Node(by)
            node.step()
            self.assertEqual([node.answer(1, 1, 2), node.answer(2), node.answer(*[3] * 300)], [(0, 1), (0, 0), (0, 298)])

    def test_a_desk_that_another_thread_uses_is_busy(self) -> None:
        for by in (x, Plain()):
            node = Node(by)
            with node.desk._lock:
                self.assertEqual((node.send(0, 1, 1, 1), node.step()[0]), (x.BUSY, x.FAILED + x.BUSY))
            with node.crew._lock:
                self.assertEqual((node.step()[0], node.answer(1)[0]), (x.FAILED + x.BUSY + 1, x.BUSY + 1))
            self.assertIsInstance(x.fault_of(node.desk, node.crew, "send", x.BUSY), p.Busy)

    def test_a_desk_of_another_crew_is_refused(self) -> None:
        here, there = p.open_node(2)
        with self.assertRaises(ValueError):
            x.way(here, p.Crew(there), (CJob * 1)())


class Player(r.Behaviour):
    """Does what a number draws that is its own, and notes what it is told."""

    def __init__(self, place: int, seed: int, notes: list[Any]) -> None:
        self.place, self.draw, self.notes = place, random.Random(100 * seed + place), notes
        self.others: list[r.Address] = []
        self.left = 40

    def handle(self, cx: r.Context, event: r.Event) -> Optional[r.Next]:
        said = type(event.fault).__name__ if isinstance(event, r.Answer) and event.fault else getattr(event, "value", None)
        self.notes.append((self.place, type(event).__name__, len(said) if isinstance(said, list) else said))
        if isinstance(event, r.Message) and isinstance(event.value, list):
            self.others = event.value
        if isinstance(event, r.Request) and self.draw.random() < 0.8:
            cx.reply(event, -event.value)
        for _ in range(self.draw.randrange(3)):
            self.act(cx)
        self.left -= 1
        kind = self.draw.random()
        if self.left == 0 or kind < 0.01:
            raise ValueError("the end")
        if kind > 0.9:
            return r.Next.only(r.Message, answers=True) if kind > 0.95 else r.Next.proceed()
        return r.Next.wait(60.0) if kind > 0.8 else None

    def act(self, cx: r.Context) -> None:
        other, number = self.draw.choice(self.others), self.draw.randrange(100)
        if self.draw.random() < 0.3 and other != cx.me:
            cx.call(other, number, 60.0)
        else:
            cx.send(other, number)


class Played(unittest.TestCase):
    def play(self, seed: int, desks: int) -> tuple[list[Any], list[str], list[Any]]:
        notes, lines = list[Any](), list[str]()
        run = r.Runtime(desks, archive=lambda history: lines.extend(history.lines()))
        players = [Player(place, seed, notes) for place in range(5)]
        addresses = [run.spawn(it) for it in players]
        for address in addresses:
            address.send(addresses)
        engine = run._engine
        engine.thread = get_ident()
        with self.assertLogs("pundewo"):
            logging.getLogger("pundewo").info("it begins")
            # (until nothing is to be done but what has a limit, which is far away)
            while engine.round():
                pass
            engine.end(KILLS)
            while engine.round():
                pass
        engine.finish()
        record = engine.record
        return notes, lines, [record.told, record.unheard, record.others, record.losses, engine.crashes]

    def test_a_run_is_the_same_with_the_module_in_c_and_without_it(self) -> None:
        """To the last event of its history, over messages, calls, crashes, and those who choose or wait until a time."""
        noted = 0
        for seed in range(12):
            for desks in (1, 2):
                with self.subTest(seed=seed, desks=desks):
                    one = self.play(seed, desks)
                    with mock.patch.object(_engine, "play", lambda *_: -1), mock.patch.object(_engine, "take_loss", lambda *_: 0):
                        self.assertEqual(one, self.play(seed, desks))
                    noted += len(one[0])
        self.assertGreater(noted, 500)


    def test_a_turn_that_stops_is_told_before_its_jobs(self) -> None:
        engine = r.Runtime(1)._engine
        jobs, job = engine._jobs[0], (JOBS.index("item"), 1, 0, 0)
        said = iter([2 * p.Code.MEMORY])

        def stops(*_: Any) -> int:
            jobs.append(job)
            return next(said)

        while engine.round():
            pass
        with mock.patch.object(_engine, "play", stops), self.assertRaises(p.Fault) as stopped:
            engine._step(0)
        self.assertEqual((stopped.exception.code, jobs), (p.Code.MEMORY, [job]))
        jobs.clear()
        engine.abandon()


@unittest.skipUnless(NATIVE.is_file() and sys.version_info >= (3, 10), "there is no module in C")
class Native(unittest.TestCase):
    def test_it_is_used_if_it_is_there(self) -> None:
        self.assertIsNotNone(x.native)

    def test_words_that_are_wrong_are_refused(self) -> None:
        node, native = Node(x), x.native
        assert native is not None
        words = node.words(0)
        for call, given, error in (
                ("send", (node.way,), TypeError), ("send", (7, words, words, 1, 1), ValueError),
                ("send", (node.way, "text", words, 1, 1), TypeError), ("send", (node.way, words[:5], words, 1, 1), ValueError),
                ("send", (node.way, words, words, "kind", 1), TypeError),
                ("send", (node.way, words, words, 1, 2**64), OverflowError), ("step", (node.way,), TypeError),
                ("step", (None, [], 0), ValueError), ("step", (node.way, [], -1), OverflowError), ("take_loss", (7,), ValueError),
                ("play", (node.way,), TypeError), ("play", ((), 0, 0.0), IndexError), ("play", ((node.way,) * 10, 0, 0.0), SystemError), ("answer", (node.way, (1,)), SystemError),
                ("answer", (node.way, [b"short"]), ValueError), ("answer", (node.way, [7]), TypeError),
                ("ask", (node.way, 0, words, words, 3, 0), ValueError), ("reply", (node.way, "text"), TypeError),
                ("hear", (node.way, 1), TypeError), ("use", (1, 2), TypeError), ("use", (0,) * 10, ValueError), ("way", (1,), TypeError)):
            with self.subTest(call=call, given=given), self.assertRaises(error):
                getattr(native, call)(*given)
        self.assertEqual(node.send(0, 1, 1, 1), 0)

    def test_one_of_another_build_is_refused(self) -> None:
        code = "import pundewo.runtime"
        with tempfile.TemporaryDirectory() as folder:
            shutil.copyfile(lib._name, Path(folder) / "libpundewo.so")
            content, mark = NATIVE.read_bytes(), f"pundewo {p.__version__}".encode()
            self.assertEqual(content.count(mark), 1)
            (Path(folder) / NATIVE.name).write_bytes(content.replace(mark, mark[:-1] + b"9"))
            at = {**os.environ, "PUNDEWO_SO": f"{folder}/libpundewo.so", "PYTHONPATH": str(Path(p.__file__).parent.parent)}
            done = subprocess.run([sys.executable, "-c", code], env=at, capture_output=True, text=True, check=False)
            self.assertRegex(done.stderr, f"ImportError: pundewo: .*{NATIVE.name} is of pundewo 0.1.9, .*, and the library is pundewo 0.1.0, ")
            (Path(folder) / NATIVE.name).unlink()
            done = subprocess.run([sys.executable, "-c", code], env=at, capture_output=True, text=True, check=False)
            self.assertEqual((done.returncode, done.stderr), (0, ""))

    @unittest.skipUnless(shutil.which("cc") and (HEADERS / "Python.h").is_file(), "there is no Python.h")
    def test_what_its_source_declares_of_python_is_so(self) -> None:
        flags = ["-std=c11", "-Wall", "-Wextra", "-Werror", "-fsyntax-only", "-DPUNDEWO_PYTHON_H", '-DPUNDEWO_BUILD=""']
        done = subprocess.run(["cc", *flags, "-I", str(SOURCE.parents[1] / "c"), "-I", str(HEADERS), str(SOURCE)], capture_output=True,
                              text=True, check=False)
        self.assertEqual((done.returncode, done.stderr), (0, ""))


if __name__ == "__main__":
    unittest.main()
