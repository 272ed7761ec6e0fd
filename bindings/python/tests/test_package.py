"""Tests of what a user of the package meets: faults in words, a desk on two threads, a library that is not there."""

from __future__ import annotations

import inspect
import os
import random
import re
import shutil
import subprocess
import sys
import tempfile
import threading
import unittest
from pathlib import Path
from types import SimpleNamespace
from typing import Any, Callable, Optional
from unittest import mock

import pundewo as p
from pundewo.supervisors import ChildSpec, SupervisorSpec


class Faults(unittest.TestCase):
    def test_a_fault_names_the_call_and_its_processes(self) -> None:
        (desk,) = p.open_node()
        a, b = desk.spawn(), desk.spawn()
        desk.exit(a)
        with self.assertRaises(p.Fault) as caught:
            desk.send(a, b, p.Body(1, 1))
        fault = caught.exception
        self.assertEqual((fault.code, fault.call, fault.pids), (p.Code.GONE, "send", (a, b)))
        self.assertEqual(str(fault), "send(<0.0.1>, <0.1.1>): gone")

    def test_each_fault_has_the_name_of_a_call_of_this_module(self) -> None:
        desks = p.open_node(2)
        desk, other = desks
        pid, ref, crew = desk.spawn(), p.Ref(0, 1), p.Crew(desk)
        gathered = p.gather(p.open_node())
        quiet = p.gather(p.open_node()).settle()
        history = quiet.history()
        for held in (desk, crew, gathered, quiet, history):
            held.close()
        words: dict[str, Any] = {
            "pid": pid, "parent": pid, "sender": pid, "to": pid, "p": pid, "peer": pid, "watcher": pid, "target": pid,
            "monitor": ref, "body": p.Body(1, 1), "reason": p.KILL, "slot": 0, "start": 0, "desk": desk, "tag": 1,
            "linked": False, "does": p.PROCEED, "answers": [], "now": 0, "spec": SupervisorSpec(), "children": [], "child": ChildSpec(1), "place": 0,
            "history": history}
        count = 0
        for held in (desk, crew, gathered, quiet, history):
            where = type(held).__name__
            for name, call in inspect.getmembers(type(held), inspect.isfunction):
                if name.startswith("_") and name != "__len__" or name in ("close", "begin_again"):
                    continue
                given = {word: words[word] for word, it in inspect.signature(call).parameters.items()
                         if word != "self" and (it.default is inspect.Parameter.empty or word == "desk")}
                with self.assertRaises(p.Fault, msg=f"{where}.{name}") as caught:
                    found = call(held, **given)
                    list(found) if inspect.isgenerator(found) else None
                wanted = {"answer_all": "answer", "lines": "events", "resume": "desks"}.get(name, name)
                self.assertEqual((caught.exception.code, caught.exception.call),
                                 (p.Code.EMPTY, wanted if where == "Desk" else f"{where}.{wanted}"))
                count += 1
        self.assertGreater(count, 60)

    def test_a_call_that_fails_without_a_process_names_itself(self) -> None:
        with self.assertRaises(p.Fault) as caught:
            p.open_node(0)
        self.assertEqual(str(caught.exception), "open_node(): bad_desks")


class Handles(unittest.TestCase):
    def test_a_handle_is_printed(self) -> None:
        here, there = p.open_node(2)
        gathered = p.gather([here, there])
        self.assertEqual((repr(here), repr(there)), ("<Desk 0 of 2, empty>", "<Desk 1 of 2, empty>"))
        quiet = gathered.settle()
        history = quiet.history()
        self.assertEqual([repr(it) for it in (gathered, quiet, history)], ["<Gathered, empty>", "<Quiet>", "<History>"])
        self.assertEqual([repr(it) for it in quiet.resume()], ["<Desk 0 of 2>", "<Desk 1 of 2>"])

    def test_a_history_is_gone_through(self) -> None:
        (desk,) = p.open_node()
        pids = [desk.spawn() for _ in range(3)]
        history = p.gather([desk]).history()
        self.assertEqual([event.pid for event in history], pids)
        self.assertEqual(list(history), list(history.events()))
        self.assertEqual(len(history), 3)
        self.assertEqual(list(history.lines()), [str(event) for event in history])

    def test_the_lines_of_a_history_are_the_texts_of_its_events(self) -> None:
        draw, kinds = random.Random(11), set[tuple[str, Optional[str]]]()
        for _ in range(20):
            desks = p.open_node(2, p.Config(lane=256, start=draw.choice([0, 2**40])))
            pids = [desk.spawn() for desk in desks for _ in range(3)]
            for _ in range(60):
                one, two = draw.choice(pids), draw.choice(pids)
                desk = desks[one.shard]
                who = draw.choice([None, two])
                works: list[Callable[[], object]] = [
                    lambda: desk.send(one, two, p.Body(draw.randrange(2**32), draw.randrange(-2**63, 2**63), who)),
                    lambda: desk.receive(one, draw.choice([p.ANY, p.Pick("from", two), p.Pick("exit-of", two)])),
                    lambda: desk.link(one, two), lambda: desk.unlink(one, two), lambda: desk.monitor(one, two),
                    lambda: desk.ask_alive(one, two), lambda: desk.trap(one, draw.random() < 0.5), desk.turn,
                    lambda: desk.exit_signal(one, two, p.Reason("other", draw.randrange(2**32))) if draw.random() < 0.2 else None]
                try:
                    draw.choice(works)()
                except p.Fault:
                    pass
            history = p.gather(desks).settle().history()
            self.assertEqual(list(history.lines()), [str(event) for event in history])
            kinds |= {(event.name, event.signal and event.signal.name) for event in history}
        self.assertGreater(len(kinds), 18)


class Threads(unittest.TestCase):
    def test_a_desk_that_another_thread_uses_is_busy(self) -> None:
        (desk,) = p.open_node()
        entered, leave = threading.Event(), threading.Event()

        def slow(*_: Any) -> Any:
            entered.set()
            leave.wait(60)
            return 0

        with mock.patch.object(p, "lib", SimpleNamespace(pt_clock=slow, pt_gather=slow)):
            other = threading.Thread(target=desk.clock)
            other.start()
            self.assertTrue(entered.wait(60))
            calls: list[Callable[[], object]] = [desk.clock, lambda: p.gather([desk])]
            for call in calls:
                with self.assertRaisesRegex(p.Busy, "^Desk 0 of 1 is in use by another thread"):
                    call()
            leave.set()
            other.join()
        self.assertEqual(desk.clock(), 0)

    def test_a_desk_may_change_threads(self) -> None:
        (desk,) = p.open_node()
        threads = [threading.Thread(target=lambda: pids.append(desk.spawn())) for _ in range(20)]
        pids: list[p.Pid] = []
        for thread in threads:
            thread.start()
            thread.join()
        self.assertEqual(sorted(pids), [p.Pid(0, slot, 1) for slot in range(20)])


class Package(unittest.TestCase):
    def test_another_library_is_refused(self) -> None:
        libraries = {"libc.so.6": "libc.so.6 does not say what it is"}
        with tempfile.TemporaryDirectory() as folder:
            other = Path(folder) / "libother.so"
            source = 'const char pundewo_build[] = "pundewo 0.0.9, proved";'
            if shutil.which("cc") is not None:
                subprocess.run(["cc", "-shared", "-x", "c", "-o", other, "-"], input=source, text=True, check=True)
                libraries[str(other)] = "libother.so is pundewo 0.0.9, proved, and has no call pt_open"
            for library, says in libraries.items():
                at = {**os.environ, "PUNDEWO_SO": library, "PYTHONPATH": str(Path(p.__file__).parent.parent)}
                ran = subprocess.run([sys.executable, "-c", "import pundewo"], env=at, capture_output=True, text=True, check=False)
                self.assertRegex(ran.stderr.splitlines()[-1], f"^ImportError: pundewo: .*{says}.*build.sh")

    def test_the_programs_of_the_readme_print_what_they_say(self) -> None:
        root = Path(p.__file__).parent.parent
        programs = re.findall(r"```python\n(.*?)```", (root / "README.md").read_text(), re.S)
        self.assertEqual(len(programs), 2)
        for program in programs:
            at = {**os.environ, "PYTHONPATH": str(root)}
            ran = subprocess.run([sys.executable, "-c", program], env=at, capture_output=True, text=True, check=True)
            says = re.findall(r"print\(.*\)  # (.*?)(?: \.\.)?$", program, re.M)
            self.assertGreater(len(says), 0)
            for line in says:
                self.assertIn(line, ran.stdout)

    def test_without_its_library_it_says_what_to_do(self) -> None:
        at = {**os.environ, "PUNDEWO_SO": "/nowhere/libpundewo.so", "PYTHONPATH": str(Path(p.__file__).parent.parent)}
        ran = subprocess.run([sys.executable, "-c", "import pundewo"], env=at, capture_output=True, text=True, check=False)
        self.assertEqual(ran.returncode, 1)
        self.assertRegex(ran.stderr.splitlines()[-1], "^ImportError: pundewo: the shared library does not load .*build.sh")

    def test_it_has_a_version_and_types(self) -> None:
        self.assertRegex(p.__version__, r"^\d+\.\d+\.\d+$")
        self.assertTrue(p.BUILD.startswith(f"pundewo {p.__version__}, "))
        self.assertTrue(Path(p.__file__).with_name("py.typed").exists())
        page = Path(p.__file__).with_name("observer.html")
        self.assertFalse(page.is_symlink())
        # (both packages have the page, and a checkout has both packages)
        of_rust = Path(__file__).resolve().parents[2] / "rust/src/runtime/observing/observer.html"
        self.assertEqual(page.read_bytes(), of_rust.read_bytes())
        for name in p.__all__:
            self.assertTrue(hasattr(p, name), name)
        self.assertEqual(p.__all__, sorted(p.__all__, key=lambda name: (not name.isupper(), name[0].islower(), name)))


if __name__ == "__main__":
    unittest.main()
