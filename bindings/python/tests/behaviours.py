"""What the tests of the run of behaviours share."""

from __future__ import annotations

import asyncio
import logging
import subprocess
import threading
import time
import unittest
from pathlib import Path
from typing import Any, Awaitable, Callable, Optional

import pundewo as p
from pundewo import runtime as r

log = logging.getLogger("pundewo")
ROOT = Path(__file__).resolve().parents[3]
AUDIT = ROOT / "bin" / "pt_audit"
# (ends it after 100 seconds of a processor)
BOUNDED = [str(ROOT / ".ci" / "bounded"), "100"]
# For how many seconds it is waited for what has to come: a busy machine takes its time.
PATIENCE = 120.0


def audit(test: unittest.TestCase, file: Path) -> None:
    """Has the history judged, if the program that does is built."""
    if AUDIT.exists():
        with open(file, "rb") as history:
            judged = subprocess.run([*BOUNDED, str(AUDIT)], stdin=history, capture_output=True, check=False)
        test.assertTrue(judged.stdout.startswith(b"legal"), judged.stdout)


# (an event has the fields that the test knows it to have)
Handler = Callable[[r.Context, Any], Any]


def noted(notes: list[Any], value: Any) -> bool:
    """Notes a value. It returns False, for a lambda that goes on by `or`."""
    notes.append(value)
    return False


class Doing(r.Behaviour):
    """Does what it is given, and notes what it is told."""

    def __init__(self, handle: Optional[Handler] = None, started: Optional[Callable[[r.Context], Any]] = None,
                 notes: Optional[list[Any]] = None) -> None:
        self.does, self.starts = handle, started
        self.notes: list[Any] = [] if notes is None else notes

    def started(self, cx: r.Context) -> Any:
        return None if self.starts is None else self.starts(cx)

    def handle(self, cx: r.Context, event: Any) -> Any:
        if self.does is None:
            self.notes.append(event)
            return None
        return self.does(cx, event)

    def ended(self, why: p.Reason) -> None:
        self.notes.append(why)


class Counted:
    """A message that counts how many of it there are, and how often each was taken."""

    alive = 0

    def __init__(self) -> None:
        Counted.alive += 1
        self.taken = 0

    def __del__(self) -> None:
        Counted.alive -= 1


class Echo(r.Behaviour):
    """Answers with what it is asked, or behaves badly."""

    def handle(self, cx: r.Context, event: Any) -> Any:
        if isinstance(event, r.Request):
            if event.value == "crash":
                raise KeyError("asked to")
            if event.value == "exit":
                return r.Next.stop(p.Reason("other", 3))
            if event.value == "hold":
                self.held = event
            elif event.value != "drop":
                cx.reply(event, ("echo", event.value))
        elif isinstance(event, r.Message) and event.value == "crash":
            raise ValueError("told to")
        return None


Test = Callable[[Any], None]


def quiet(test: Test) -> Test:
    """What crashes says so in the log, which is no part of a test's output. (and what keeps the log keeps the exceptions)"""
    def run(self: Any) -> None:
        log.disabled = True
        try:
            test(self)
        finally:
            log.disabled = False
    run.__name__ = test.__name__
    return run


def in_asyncio(test: Callable[[Any], Awaitable[None]]) -> Test:
    """The test is an asyncio program."""
    def run(self: Any) -> None:
        asyncio.run(asyncio.wait_for(test(self), 3 * PATIENCE))
    run.__name__ = test.__name__
    return run


class Stubborn(Doing):
    """Does not exit for SHUTDOWN."""

    def started(self, cx: r.Context) -> None:
        cx.trap()
        self.notes.append("started")


class Running:
    """A run on a thread of its own, and the exception at which it stopped."""

    def __init__(self, run: r.Runtime, stops: bool = True) -> None:
        self.run, self.error, self.stops = run, list[BaseException](), stops
        self.thread = threading.Thread(target=self._work)

    def _work(self) -> None:
        try:
            self.run.run(forever=True)
        except BaseException as error:
            self.error.append(error)

    def __enter__(self) -> Running:
        self.thread.start()
        return self

    def __exit__(self, *_: object) -> None:
        if self.stops:
            self.run.stop()
        self.thread.join(PATIENCE)


def wait_until(holds: Callable[[], object]) -> None:
    """Waits on this thread until this holds, as long as there is patience."""
    over = time.monotonic() + PATIENCE
    while not holds() and time.monotonic() < over:
        time.sleep(0.005)


def run_and_stop(run: r.Runtime, holds: Callable[[], object]) -> r.Summary:
    """Runs it on this thread, and stops it from another one when this holds."""
    def stop() -> None:
        wait_until(holds)
        run.stop()

    stopper = threading.Thread(target=stop)
    stopper.start()
    summary = run.run(forever=True)
    stopper.join()
    return summary


async def until(holds: Callable[[], object]) -> None:
    """Waits in an asyncio program until this holds, as long as there is patience."""
    over = time.monotonic() + PATIENCE
    while not holds() and time.monotonic() < over:
        await asyncio.sleep(0.005)


def is_watched(run: r.Runtime, address: r.Address, count: int = 1) -> bool:
    """Whether so many monitors of the process have come to it."""
    return len(run._engine.desks[address.pid.shard].watchers(address.pid) or ()) >= count
