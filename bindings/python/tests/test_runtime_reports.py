"""Tests of what a run tells of itself and of what has exited: one hook, halts, and processes that are not there any more."""

from __future__ import annotations

import asyncio
import logging
import os
import pickle
import subprocess
import sys
import tempfile
import threading
import time
import unittest
from pathlib import Path
from typing import Any, Callable, Optional

import pundewo as p
from pundewo import runtime as r

from behaviours import PATIENCE, Doing, Echo, Running, audit, in_asyncio, log, quiet, until, wait_until


class Hook(logging.Handler):
    """The one hook: what a program does with the reports of a run."""

    def __init__(self) -> None:
        super().__init__()
        self.reports: list[r.Report] = []
        self.levels: list[int] = []

    def emit(self, record: logging.LogRecord) -> None:
        self.reports.append(getattr(record, "report"))
        self.levels.append(record.levelno)

    def __enter__(self) -> Hook:
        log.addHandler(self)
        log.setLevel(logging.INFO)
        log.propagate = False
        return self

    def __exit__(self, *_: object) -> None:
        log.removeHandler(self)
        log.setLevel(logging.NOTSET)
        log.propagate = True


class Reports(unittest.TestCase):
    @in_asyncio
    async def test_crashes_and_restarts_are_reported_by_one_hook(self) -> None:
        with Hook() as hook:
            async with r.Runtime(2) as run:
                tree = r.Supervisor.one_for_all().permanent(Echo, "first").permanent(Echo, "second", desk=1)
                supervisor = run.spawn(tree.limit(9, 5.0), 0)
                first, second = await supervisor.call(r.WHICH_CHILDREN)
                first.address.send("crash")
                await until(lambda: len(hook.reports) == 3)
                again, other = await supervisor.call(r.WHICH_CHILDREN)
                # (one that was ended and is started by hand is not started again)
                self.assertTrue(await supervisor.call(r.TerminateChild("first")))
                self.assertTrue(await supervisor.call(r.RestartChild("first")))
        self.assertEqual(hook.reports, [
            r.Crash(first.address.pid, "Echo", "ValueError: told to"),
            r.Restart(supervisor.pid, "first", again.address.pid, r.CRASH, 2),
            r.Restart(supervisor.pid, "second", other.address.pid, p.SHUTDOWN, 2)])
        self.assertEqual(hook.levels, [logging.ERROR, logging.WARNING, logging.INFO])
        self.assertEqual([str(it) for it in hook.reports], [
            f"{first.address.pid} of Echo crashed: ValueError: told to",
            f"{supervisor.pid} started its child first again, as {again.address.pid}, 2 times in all: "
            "the one before exited with other:4294967295",
            f"{supervisor.pid} started its child second again, as {other.address.pid}, 2 times in all: "
            "the one before exited with shutdown"])

    def test_a_halt_is_reported_by_the_same(self) -> None:
        error = OSError("no space left")

        def sink(history: p.History) -> None:
            raise error

        with Hook() as hook, Running(r.Runtime(archive=sink), False) as running:
            running.run.go_on()
            running.thread.join(60)
        self.assertEqual((hook.reports, hook.levels), ([r.Halt(error)], [logging.ERROR]))
        self.assertEqual(str(hook.reports[0]), "the run halted: OSError: no space left")

    def test_a_handler_that_holds_up_the_run_is_reported_by_the_same(self) -> None:
        with Hook() as hook, Running(r.Runtime()) as running:
            sleeper = running.run.spawn(Doing(lambda cx, event: time.sleep(1.2)))
            sleeper.send(1)
            wait_until(lambda: hook.reports)
        (holder,) = hook.reports
        assert isinstance(holder, r.Holder)
        self.assertEqual((holder.pid, holder.name, hook.levels), (sleeper.pid, "Doing", [logging.WARNING]))
        self.assertGreater(holder.seconds, 1)

    def test_a_hook_that_raises_harms_nobody(self) -> None:
        class Bad(logging.Handler):
            def emit(self, record: logging.LogRecord) -> None:
                raised.append(record)
                raise ValueError("in the hook")

        raised: list[logging.LogRecord] = []
        bad = Bad()
        log.addHandler(bad)
        log.propagate = False
        said, sys.stderr = sys.stderr, open(os.devnull, "w", encoding="utf-8")
        try:
            with Running(r.Runtime()) as running:
                echo = running.run.spawn(Echo())
                running.run.spawn(Echo()).send("crash")
                self.assertEqual(running.run.call(echo, 1, 50), ("echo", 1))
                wait_until(lambda: raised)
        finally:
            sys.stderr.close()
            sys.stderr = said
            log.removeHandler(bad)
            log.propagate = True
        self.assertEqual((len(raised), running.error), (1, []))


class Halts(unittest.TestCase):
    @quiet
    def test_all_who_wait_outside_are_told(self) -> None:
        full, entered, leave = [True], threading.Event(), threading.Event()

        def sink(history: p.History) -> None:
            entered.set()
            leave.wait(60)
            if full:
                raise OSError("no space left")

        run = r.Runtime(archive=sink, inbox=3)
        deaf, echo, told = run.spawn(Doing(started=lambda cx: r.Next.only(()))), run.spawn(Echo()), dict[str, Any]()

        def client(name: str, work: Callable[[], object]) -> threading.Thread:
            def works() -> None:
                try:
                    told[name] = work()
                except Exception as error:
                    told[name] = error

            thread = threading.Thread(target=works)
            thread.start()
            return thread

        async def reads() -> Optional[object]:
            async with run.mailbox() as mailbox:
                ready.set()
                return await mailbox.get(50)

        async def calls() -> object:
            return await echo.call(7, 50)

        ready = threading.Event()
        with Running(run, False) as running:
            clients = [client("mailbox", lambda: asyncio.run(reads()))]
            ready.wait(60)
            for number in range(3):
                deaf.send(number)
            run.go_on()
            entered.wait(60)
            # the thread of the run is in the sink, which will fail
            clients += [
                client("call", lambda: run.call(echo, 1, 50)), client("await", lambda: asyncio.run(calls())),
                client("spawn", lambda: run.spawn(Echo(), limit=50)), client("send", lambda: deaf.send(4)),
                client("send_async", lambda: asyncio.run(deaf.send_async(5))), client("wait", run.wait),
                client("wait for a time", lambda: run.wait(50))]
            time.sleep(0.2)
            self.assertEqual(told, {})
            leave.set()
            for thread in clients:
                thread.join(PATIENCE)
            running.thread.join(PATIENCE)
        self.assertEqual({name: type(it) for name, it in told.items()}, {
            "mailbox": r.RunOver, "call": r.RunOver, "await": r.RunOver, "spawn": r.RunOver, "send": bool, "send_async": bool,
            "wait": r.Halted, "wait for a time": r.Halted})
        self.assertEqual((told["send"], told["send_async"], str(told["wait"])), (False, False, "the run halted: OSError: no space left"))
        self.assertIs(told["wait"].why, running.error[0])
        self.assertIsInstance(told["wait"], r.NotEnded)
        self.assertEqual(str(pickle.loads(pickle.dumps(told["wait"]))), str(told["wait"]))
        # while it rests those who ask are told at once, and when it goes on it answers
        works: list[Callable[[], object]] = [lambda: run.call(echo, 1, 50), run.wait]
        for work in works:
            with self.assertRaises((r.RunOver, r.Halted)):
                work()
        full.clear()
        with Running(run) as running:
            wait_until(lambda: run._engine.thread is not None)
            self.assertEqual(run.call(echo, 2, 50), ("echo", 2))
            with self.assertRaises(r.NotEnded) as caught:
                run.wait(0.05)
            self.assertNotIsInstance(caught.exception, r.Halted)
        self.assertEqual((run.wait().crashes, running.error), (0, []))

    @quiet
    @in_asyncio
    async def test_a_thread_that_waits_for_an_asyncio_program_is_told(self) -> None:
        def sink(history: p.History) -> None:
            raise OSError("no space left")

        with self.assertRaises(OSError):
            async with r.Runtime(archive=sink) as run:
                waiting = asyncio.get_running_loop().run_in_executor(None, run.wait, 50)
                run.go_on()
                with self.assertRaises(r.Halted):
                    await waiting
                with self.assertRaises(OSError):
                    await run.ended()

    def test_a_full_disk(self) -> None:
        """A program whose file may have no more bytes: its clients are told, and once there is room it goes on."""
        with tempfile.TemporaryDirectory() as folder:
            file = Path(folder) / "history"
            at = {**os.environ, "PYTHONPATH": str(Path(p.__file__).parent.parent)}
            ran = subprocess.run([sys.executable, "-c", FULL_DISK, str(file)], env=at, capture_output=True, text=True, check=False,
                                 timeout=5 * PATIENCE)
            self.assertEqual((ran.returncode, ran.stdout.splitlines()), (0, ["halted: OSError", "RunOver", "7", "legal to the end"]),
                             ran.stderr)
            self.assertIn("the run halted: OSError: [Errno 27] File too large", ran.stderr)
            audit(self, file)


FULL_DISK = """
import resource, signal, sys, threading, time
from pundewo.runtime import Behaviour, CallFault, Halted, HistoryFile, Request, Runtime

signal.signal(signal.SIGXFSZ, signal.SIG_IGN)
resource.setrlimit(resource.RLIMIT_FSIZE, (20_000, resource.RLIM_INFINITY))

class Echo(Behaviour):
    def handle(self, cx, event):
        if isinstance(event, Request):
            cx.reply(event, event.value)

def runs():
    try:
        run.run(forever=True)
    except OSError:
        pass

run = Runtime(going_on_every=100, archive=HistoryFile(sys.argv[1]))
echo = run.spawn(Echo())
thread = threading.Thread(target=runs)
thread.start()
try:
    while True:
        run.call(echo, 1)
except CallFault as fault:
    clients = type(fault).__name__
try:
    run.wait(50)
except Halted as halted:
    print("halted:", type(halted.why).__name__)
print(clients)
thread.join()
resource.setrlimit(resource.RLIMIT_FSIZE, (resource.RLIM_INFINITY, resource.RLIM_INFINITY))
thread = threading.Thread(target=runs)
thread.start()
while True:
    try:
        print(run.call(echo, 7))
        break
    except CallFault:
        time.sleep(0.01)
run.stop()
run.wait(50)
thread.join()
print("legal to the end" if run.summary().archived == sum(1 for _ in open(sys.argv[1])) else "lines are missing")
"""


class Exited(unittest.TestCase):
    """To monitor a process that has exited, or to call it, is answered as if it exited now."""

    def test_a_process_is_told_of_one_that_has_exited(self) -> None:
        for desk in (0, 1):
            for epoch in (False, True):
                told: list[Any] = []

                def handle(cx: r.Context, event: Any) -> Any:
                    if isinstance(event, r.Message):
                        cx.monitor(dead)
                        cx.monitor(dead.pid)
                        cx.call(dead, "who", 50)
                        return None
                    told.append(event)
                    return None

                with Running(r.Runtime(2)) as running:
                    run = running.run
                    dead = run.spawn(Echo(), desk)
                    asks = run.spawn(Doing(handle), 0)
                    run.exit(dead, p.Reason("other", 3))
                    wait_until(lambda: not dead.is_alive())
                    if epoch:
                        run.go_on()
                    asks.send("ask")
                    wait_until(lambda: len(told) == 3)
                downs = [it for it in told if isinstance(it, r.Down)]
                (answer,) = [it for it in told if isinstance(it, r.Answer)]
                self.assertEqual([(it.pid, it.reason, it.crash) for it in downs], [(dead.pid, p.NOPROC, None)] * 2)
                assert isinstance(answer.fault, r.ServerDown)
                self.assertEqual((answer.fault.reason, answer.fault.crash), (p.NOPROC, None))

    @quiet
    def test_a_link_gets_its_exit_signal(self) -> None:
        for desk in (0, 1):
            for traps in (False, True, False, True):
                told: list[Any] = []

                def handle(cx: r.Context, event: Any) -> Any:
                    if isinstance(event, r.Message):
                        cx.trap(traps)
                        cx.link(dead if event.value else dead.pid)
                        return None
                    told.append(event)
                    return r.Next.stop()

                with Running(r.Runtime(2)) as running:
                    run = running.run
                    dead = run.spawn(Echo(), desk)
                    linked, watches = run.spawn(Doing(handle), 0), run.spawn(Doing(handle), 0)
                    run.exit(dead, p.Reason("other", 3))
                    wait_until(lambda: not dead.is_alive())
                    for value in (False, True):
                        linked.send(value)
                    wait_until(lambda: not linked.is_alive())
                    self.assertTrue(watches.is_alive())
                self.assertEqual(told, [r.Exit(dead.pid, p.NOPROC, None)] if traps else [])

    @quiet
    def test_such_an_exit_signal_is_chosen(self) -> None:
        told: list[Any] = []

        def handle(cx: r.Context, event: Any) -> Any:
            told.append(event)
            if len(told) == 1:
                cx.trap()
                cx.send(cx.me, "later")
                cx.link(one)
                cx.monitor(one)
                cx.link(two)
                cx.link(one)
                return r.Next.only(p.Pick("exit-of", two.pid))
            return [r.Next.only((), 0.02), r.Next.only((), exits=True), r.Next.only((), downs=True),
                    r.Next.only(p.Pick("exit-of", one.pid)), r.Next.only(p.Pick("exit-of", two.pid), 0.02), None,
                    r.Next.stop()][len(told) - 2]

        with Running(r.Runtime()) as running:
            run = running.run
            one, two, links = run.spawn(Echo()), run.spawn(Echo()), run.spawn(Doing(handle))
            for dead in (one, two):
                run.exit(dead, p.KILL)
                wait_until(lambda: not dead.is_alive())
            links.send("link")
            wait_until(lambda: not links.is_alive())
        signals = [r.Exit(it.pid, p.NOPROC, None) for it in (one, two)]
        self.assertEqual(told[1:4], [signals[1], r.TIMEOUT, signals[0]])
        self.assertEqual((told[4].pid, told[4].reason), (one.pid, p.NOPROC))
        self.assertEqual(told[5:7], [signals[0], r.TIMEOUT])
        self.assertEqual(told[7].value, "later")

    @quiet
    def test_such_an_exit_signal_is_trapped_in_time(self) -> None:
        told: list[Any] = []

        def handle(cx: r.Context, event: Any) -> Any:
            if isinstance(event, r.Exit):
                told.append(event)
                return None
            for dead in exited:
                cx.link(dead)
            cx.unlink(exited[1])
            cx.trap()
            # (while it traps, the signal is a message)
            cx.link(exited[1])
            cx.link(exited[0])
            cx.unlink(exited[1])
            return r.Next.only(p.Pick("exit-of", exited[2].pid))

        with Running(r.Runtime()) as running:
            run = running.run
            exited = [run.spawn(Echo()) for _ in range(3)]
            links = run.spawn(Doing(handle))
            for dead in exited:
                run.exit(dead, p.KILL)
                wait_until(lambda: not dead.is_alive())
            links.send("link")
            wait_until(lambda: len(told) == 3)
            run.exit(links, p.NOPROC)
            wait_until(lambda: len(told) == 4)
            run.exit(links, p.KILL)
            wait_until(lambda: not links.is_alive())
        self.assertEqual(told[:3], [r.Exit(exited[place].pid, p.NOPROC, None) for place in (2, 0, 0)])
        self.assertEqual(told[3].reason, p.NOPROC)
        self.assertNotIn(told[3].pid, [dead.pid for dead in exited])
        self.assertEqual(len(told), 4)

    @quiet
    @in_asyncio
    async def test_a_program_is_told_alike(self) -> None:
        async with r.Runtime(2) as run, run.mailbox() as mailbox:
            for dead in (run.spawn(Echo()), run.spawn(r.Supervisor.one_for_one()), run.spawn(Echo())):
                run.exit(dead, p.KILL)
                await until(lambda: not dead.is_alive())
                mailbox.monitor(dead)
                down: Any = await mailbox.get(50)
                self.assertEqual((type(down), down.pid, down.reason), (r.Down, dead.pid, p.NOPROC))
                with self.assertRaises(r.ServerDown) as caught:
                    await dead.call("who", 50)
                self.assertEqual(caught.exception.reason, p.NOPROC)
                self.assertFalse(dead.send(1))
                run.exit(dead, p.KILL)  # which is nothing to it
                self.assertFalse(run.register("dead", dead))


if __name__ == "__main__":
    unittest.main()
