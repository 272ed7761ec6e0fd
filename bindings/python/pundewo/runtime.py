"""Processes that run code of Python, on one thread.

A `Behaviour` is what a process does with what it is told, and its state. A `Runtime` runs the handlers of all processes of
a node, rests while they have nothing to do, and goes on by itself: it empties the journals, and hands the history of each
epoch to a sink.

    from pundewo.runtime import Behaviour, Message, Request, Runtime

    class Counter(Behaviour):
        count = 0

        def handle(self, cx, event):
            if isinstance(event, Message):
                self.count += event.value
            elif isinstance(event, Request):
                cx.reply(event, self.count)

    async def main():
        async with Runtime() as runtime:
            counter = runtime.spawn(Counter())
            counter.send(3)
            counter.send(4)
            print(await counter.call("read"))

A message is any object. It is kept beside the table, under the number that the table carries, and given to its receiver
once. If nobody will ever take it, since its receiver has exited, the run drops it. A handler that raises an exception has
crashed its process, and no other.

Proved is what is below: the table; the crew that says which process is told what, and has the supervisors (`pundewo.Crew`);
timers; that a call ends once; how a node goes on; and what a desk tells of its losses. Not proved, since nothing checks Python,
but tested: this module, with the values beside the table, names, what comes from outside, what a process does not take now, and
what makes a child.
"""

from __future__ import annotations

import asyncio
import concurrent.futures
import logging
import threading
import weakref
from collections import deque
from time import monotonic
from typing import Any, Callable, Deque, NamedTuple, Optional, TypeVar

from . import Config
from ._archive import HistoryFile, Sink
from ._behaviour import (
    CRASH, GO_ON, KILLS, LOST, OVER, PROCEED, STOP, TIMEOUT, Answer, Behaviour, Call, CallFault, CallTimeout, Down, Event, Exit,
    InboxFull, Message, Next, Request, RunOver, ServerDown, SpawnTimeout, Tick, Unanswered, behaviour_of, held_up, seconds,
)
from ._bound import Bound
from ._engine import Engine
from ._group import Group
from ._process import Address, Context, Timer
from ._report import Crash, Halt, Holder, Report, Restart, report, text_of
from ._selection import ANSWER, FIRST_KIND, MESSAGE, REQUEST, Selection
from ._observer import Observer
from ._supervisor import (
    BRUTAL_KILL, INFINITY, WHICH_CHILDREN, Child, DeleteChild, RestartChild, StartChild, Supervisor, TerminateChild,
)
from ._tap import Behind, Tap
from ._view import ChildView, DeskView, First, ProcessView, SilentDesk, SupervisorView, View
from ._watched import Watched
from .values import NORMAL, SHUTDOWN, U8, U64, Pid, Reason, flag, number, of_type, shown

__all__ = [
    "ANSWER", "BRUTAL_KILL", "CRASH", "FIRST_KIND", "INFINITY", "LOST", "MESSAGE", "PROCEED", "REQUEST", "TIMEOUT",
    "WHICH_CHILDREN", "Address", "Answer", "Behaviour", "Behind", "Bound", "Call", "CallFault", "CallTimeout", "Child",
    "ChildView", "Context", "Crash", "DeleteChild", "DeskView", "Down", "Event", "Exit", "First", "Group", "Halt", "Halted",
    "HistoryFile", "Holder", "InboxFull", "Mailbox", "Message", "Next", "NotEnded", "Observer", "ProcessView", "Report",
    "Request", "Restart", "RestartChild", "RunOver", "Runtime", "Selection", "ServerDown", "SilentDesk", "Sink",
    "SpawnTimeout", "StartChild", "Summary", "Supervisor", "SupervisorView", "Tap", "TerminateChild", "Tick", "Timer",
    "Unanswered", "View",
]

T = TypeVar("T")

# For how many millionths of a second a run that is busy goes on before the rest of an asyncio program has its turn.
SLICE = 2_000


def is_late(future: concurrent.futures.Future[Any], limit: float) -> bool:
    """Waits for what is to come for so many seconds at most, and returns whether it is late. Then, and if this thread is
    interrupted, nobody waits for it any more: it is cancelled, unless it is coming just now."""
    try:
        future.exception(limit)
        return False
    except concurrent.futures.TimeoutError:
        return future.cancel()
    except BaseException:
        future.cancel()
        raise


def sink_of(value: Optional[Sink]) -> Optional[Sink]:
    """The value, which is a sink or None."""
    if value is not None and not callable(value):
        raise TypeError(f"archive is {shown(value)}, and must be callable with a History")
    return value


class Summary(NamedTuple):
    """What a run was: how many processes it had and how many crashed, how many epochs, how many events the sink got, and the
    processes that did not exit as they were told and were killed."""

    spawned: int
    crashes: int
    epochs: int
    archived: int
    killed: tuple[Pid, ...]


class NotEnded(Exception):
    """A run that is not over in time. `holder` is the process whose handler was running then, if one was."""

    def __init__(self, holder: Optional[Holder] = None):
        self.holder = holder
        super().__init__(held_up("the run is not over", holder))

    def __reduce__(self) -> tuple[Any, ...]:
        return type(self), (self.holder,)


class Halted(NotEnded):
    """A run that halted, and is not over: `why` is the exception. `Runtime.run` goes on, but in an asyncio program."""

    def __init__(self, why: BaseException):
        super().__init__()
        self.why = why
        self.args = (f"the run halted: {text_of(why)}",)

    def __reduce__(self) -> tuple[Any, ...]:
        return type(self), (self.why,)


class Runtime(Watched):
    """A node whose processes run on one thread: that of an asyncio program (`async with`), or the one that calls `run`.

    `desks` is 1 to 64, and `slots` how many processes each desk has at most at a time. The run goes on once a journal has
    more than `going_on_every` events. `inbox` is how many messages may wait before those outside wait for room: without it
    there is no bound. `archive` takes the history of each epoch. When the run is stopped, each process gets
    the exit signal SHUTDOWN, and those that have not exited `patience` seconds later are killed.
    """

    def __init__(self, desks: int = 1, *, slots: int = 1023, lane: int = 64, going_on_every: int = 20_000,
                 archive: Optional[Sink] = None, patience: float = 5.0, inbox: Optional[int] = None):
        archive = sink_of(archive)
        desks, every = number("desks", desks, 0, U8), number("going_on_every", going_on_every, 1, U64)
        most = None if inbox is None else number("inbox", inbox, 1, U64)
        # (each desk has one process more, which sends what comes from outside)
        config = Config(slots=number("slots", slots, 1, 65_535) + 1, lane=lane)
        self._engine = Engine(desks, config, every, archive, seconds("patience", patience))
        self._engine.most = most
        self._lock = threading.RLock()
        self._over = threading.Event()
        # set while it does not run, since it halted or is over, and why it halted
        self._rests = threading.Event()
        self._why: Optional[BaseException] = None
        # who waits for a spawn, and the mailboxes that are read
        self._spawning: set[concurrent.futures.Future[Any]] = set()
        self._mailboxes: weakref.WeakSet[Mailbox] = weakref.WeakSet()
        self._task: Optional[asyncio.Task[None]] = None
        self._next_desk = 0

    def __repr__(self) -> str:
        return f"<Runtime of {len(self._engine.crews)} desks{', over' if self._engine.order == OVER else ''}>"

    # What those outside do

    def spawn(self, behaviour: Behaviour, desk: Optional[int] = None, limit: float = 5.0) -> Address:
        """Spawns a process from any thread, on this desk or on each in turn. Another thread than that of the run waits for it
        for so many seconds at most.

        Fault: FULL if no slot is free, WORN, MEMORY. RunOver if the run is stopped. SpawnTimeout if the time is over, and then
        nothing is spawned.
        """
        engine, count = self._engine, len(self._engine.crews)
        behaviour_of(behaviour)
        limit = seconds("limit", limit)
        place = number("desk", self._next_desk if desk is None else desk, 0, count - 1)
        is_inside = engine.is_inside()
        if desk is None:
            self._next_desk = (place + 1) % count

        def spawn() -> Address:
            if engine.order != GO_ON or engine.drains and not is_inside:
                raise RunOver
            address = engine.spawn(behaviour, place)
            engine.touch()
            return address

        return self._here(spawn, limit)

    def _here(self, work: Callable[[], T], limit: float) -> T:
        """What this returns on the thread of the run. SpawnTimeout if it has not begun in time, and then it never does."""
        future: concurrent.futures.Future[T] = concurrent.futures.Future()
        with self._lock:
            if self._engine.thread is None:
                return work()
            if self._engine.halted:
                raise RunOver
            if not self._engine.is_here():
                self._spawning.add(future)
        if self._engine.is_here():
            return work()
        began = monotonic()

        def task() -> None:
            if not future.done() and future.set_running_or_notify_cancel():
                try:
                    future.set_result(work())
                except Exception as error:
                    future.set_exception(error)

        self._engine.post(task)
        try:
            if is_late(future, limit):
                raise SpawnTimeout(self._engine.blame(began))
            return future.result()
        finally:
            self._spawning.discard(future)

    def call(self, to: Address, value: Any, limit: float = 5.0) -> Any:
        """Asks a process of the run from another thread, and waits for its answer for so many seconds at most, whatever the
        handlers of the run do. `Address.call` is for an asyncio program, and fails in the same ways.

        RuntimeError on the thread of the run, which would wait for itself.
        """
        engine, limit = self._engine, seconds("limit", limit)
        engine.own("to", to)
        if engine.is_here():
            raise RuntimeError("this thread runs the processes: await Address.call, or take Context.call in a behaviour")
        future: concurrent.futures.Future[Answer] = concurrent.futures.Future()
        began = monotonic()

        def done(answer: Answer) -> None:
            if future.set_running_or_notify_cancel():
                future.set_result(answer)

        call = engine.ask(to, value, done)
        try:
            is_over = is_late(future, limit)
        finally:
            if future.cancelled():
                engine.give_up(call)
        if is_over:
            raise CallTimeout(engine.blame(began))
        return future.result().result()

    def mailbox(self, desk: Optional[int] = None) -> Mailbox:
        """A process whose messages an asyncio program reads: how it is sent to."""
        return Mailbox(self, desk)

    def stop(self) -> None:
        """Has all processes exit, and then the run end. It may be called on any thread, and waits for nothing."""
        self._engine.post(lambda: self._engine.end(STOP))

    def drain(self, limit: float = 30.0) -> None:
        """Has the run take nothing new in, handle all that waits, and then end, as `stop` does: so after so many seconds at
        the latest. It may be called on any thread, and waits for nothing.

        Messages, calls and spawns from outside are refused from then on. What processes send each other is handled, and so is
        an answer from outside. All is handled when nothing is to be done and no call is open; an alarm that is to come
        later is not waited for. `is_drained` says whether all was.
        """
        limit = seconds("limit", limit)
        self._engine.post(lambda: self._engine.drain(limit))

    def is_drained(self) -> Optional[bool]:
        """Whether all that waited was handled, as the run was drained; None if it was not, or not yet."""
        return self._engine.drained

    def exit(self, process: Address, reason: Reason = SHUTDOWN) -> None:
        """Sends an exit signal from any thread: Erlang's `exit/2`. It is nothing to a process that has exited. KILL ends any
        process."""
        engine, pid = self._engine, self._engine.own("process", process).pid
        of_type("reason", reason, Reason)
        if engine.is_porter(pid):
            raise ValueError(f"process is {pid}, which sends what comes from outside, and does not exit")

        def signal() -> None:
            if engine.order != OVER:
                engine.exit_signal(engine.porters[pid.shard].pid, pid, reason)
                engine.touch()

        engine.post(signal)

    def go_on(self) -> None:
        """Ends the epoch soon, from any thread: its history is handed out, and the journals are emptied. It waits for
        nothing."""
        self._engine.post(self._engine.end_epoch)

    def register(self, name: str, process: Address) -> bool:
        """Gives a process a name, from any thread: Erlang's `register`. It has it until it exits. False, and nothing changes,
        if a live process has the name, or if this one has exited.

        A child that registers itself as it starts (`Context.register`) has its name also when it is started again.
        """
        with self._engine.room:
            return self._engine.register(name, process)

    def whereis(self, name: str) -> Optional[Address]:
        """The process that has this name, or None."""
        return self._engine.whereis(name)

    def unregister(self, name: str) -> bool:
        """Takes a name from its process. False if no live process has it."""
        with self._engine.room:
            return self._engine.unregister(name)

    def wait(self, limit: Optional[float] = None) -> Summary:
        """Waits on another thread until the run is over. `Halted` if it halts. NotEnded if it is not over after so many seconds,
        with the process whose handler is running then."""
        until = None if limit is None else monotonic() + seconds("limit", limit)
        if self._engine.is_here():
            raise RuntimeError("this thread runs the processes, and would wait for itself")
        while self._rests.wait(None if until is None else max(0.0, until - monotonic())):
            if self._why is not None:
                raise Halted(self._why)
            if self._over.is_set():
                return self.summary()
        raise NotEnded(self._engine.holder(0.0))

    def group(self, name: str = "") -> Group:
        """A group of processes of this run, in which there is none yet. The name is for those who print it."""
        return Group(self._engine, of_type("name", name, str))

    def waiting(self) -> int:
        """How many messages nobody has taken yet. (with what else those outside want)"""
        return self._engine.waiting()

    def summary(self) -> Summary:
        """What the run was until now."""
        it = self._engine
        return Summary(it.spawned, it.crashes, it.epochs, it.archived, tuple(it.killed))

    # Without asyncio

    def run(self, forever: bool = False) -> Summary:
        """Runs the processes on this thread until none lives, or, `forever`, until the run is stopped.

        If it raises an exception (a Fault, that of the sink, KeyboardInterrupt), it may be called again and goes on, or
        `close` drops all.
        """
        engine, rung = self._engine, threading.Condition()
        forever, is_rung = flag("forever", forever), False

        def ring() -> None:
            nonlocal is_rung
            with rung:
                is_rung = True
                rung.notify()

        self._begin(ring)
        try:
            while True:
                busy = engine.round()
                if self._is_done(forever):
                    engine.finish()
                    self._over.set()
                    self._rests.set()
                    return self.summary()
                if not busy:
                    with rung:
                        if not is_rung:
                            rung.wait(engine.rest_time())
                        is_rung = False
        except BaseException as error:
            self._halt(error)
            raise
        finally:
            engine.thread = None

    def _begin(self, ring: Callable[[], None]) -> None:
        with self._lock:
            if self._engine.order == OVER:
                raise RunOver
            if self._engine.thread is not None:
                raise RuntimeError("this run is running")
            self._engine.thread, self._engine.ring = threading.get_ident(), ring
            self._engine.halted = False
            self._why = None
            self._rests.clear()

    def _halt(self, error: BaseException) -> None:
        """The run stops at an exception. All outside who wait for it are told so."""
        with self._lock:
            if self._engine.order == OVER:
                return
            self._why = error
            self._engine.halt()
            for future in list(self._spawning):
                if not future.done() and future.set_running_or_notify_cancel():
                    future.set_exception(RunOver())
            for mailbox in list(self._mailboxes):
                mailbox._tell(mailbox._wake)
        # (its hook is the program's own, and may ask the run something)
        report(logging.ERROR if isinstance(error, Exception) else logging.WARNING, Halt(error))
        self._rests.set()

    def _is_done(self, forever: bool) -> bool:
        engine = self._engine
        return (engine.order != GO_ON or not forever) and engine.is_empty()

    def with_archive(self, archive: Optional[Sink]) -> Runtime:
        """Hands the histories to another sink from now on, also the one that the last one did not take: for a run that halted,
        before `run` goes on. RuntimeError if it is running. It returns this run."""
        archive = sink_of(archive)
        with self._lock:
            if self._engine.thread is not None:
                raise RuntimeError("this run is running")
            self._engine.sink = archive
        return self

    def close(self) -> None:
        """Drops a run that is not running, with all that it has. Nothing more is handed out."""
        with self._lock:
            if self._engine.thread is not None:
                raise RuntimeError("this run is running: stop it")
            if self._engine.order != OVER:
                self._engine.abandon()
            self._why = None
        self._over.set()
        self._rests.set()

    # With asyncio

    async def __aenter__(self) -> Runtime:
        loop, rung = asyncio.get_running_loop(), asyncio.Event()
        here = threading.get_ident()

        def ring() -> None:
            if threading.get_ident() == here:
                rung.set()
            else:
                try:
                    loop.call_soon_threadsafe(rung.set)
                except RuntimeError:  # the loop is closed
                    pass

        self._begin(ring)
        self._task = loop.create_task(self._drive(loop, rung))
        return self

    async def __aexit__(self, *_: object) -> None:
        assert self._task is not None
        self.stop()
        try:
            await asyncio.shield(self._task)
        except asyncio.CancelledError:
            if not self._task.done():
                self._engine.post(lambda: self._engine.end(KILLS))
                await self._task
            raise

    async def ended(self) -> Summary:
        """Waits in the asyncio program until the run is over, by `stop` or since something halted it, which this raises."""
        if self._task is None:
            raise RuntimeError("this run is none of an asyncio program: take Runtime.wait")
        await asyncio.shield(self._task)
        return self.summary()

    async def _drive(self, loop: asyncio.AbstractEventLoop, rung: asyncio.Event) -> None:
        engine = self._engine
        try:
            while True:
                until = engine.now() + SLICE
                busy = engine.round()
                while busy and not self._is_done(True) and engine.now() < until:
                    busy = engine.round()
                if self._is_done(True):
                    engine.finish()
                    return
                if busy:
                    await asyncio.sleep(0)
                    continue
                rest = engine.rest_time()
                alarm = None if rest is None else loop.call_later(rest, rung.set)
                try:
                    await rung.wait()
                finally:
                    if alarm is not None:
                        alarm.cancel()
                rung.clear()
        except BaseException as error:
            self._halt(error)
            raise
        finally:
            if engine.order != OVER:
                engine.abandon()
            engine.thread = None
            self._over.set()
            self._rests.set()


class Mailbox:
    """A process whose messages an asyncio program reads, in order: `async for event in mailbox`, or `await mailbox.get()`.

    It ends when the process has exited, by `close`, by an exit signal, or since the run is over. `address` is where it is
    sent to. It gets `Message`, `Request` (which `Request.reply` answers) and `Down`.
    """

    def __init__(self, runtime: Runtime, desk: Optional[int] = None):
        self._engine = of_type("runtime", runtime, Runtime)._engine
        self._loop = asyncio.get_running_loop()
        self._events: Deque[Event] = deque()
        self._waiting: Deque[asyncio.Future[None]] = deque()
        self._is_closed = False
        self.address = runtime.spawn(_Reader(self), desk)
        with runtime._lock:
            runtime._mailboxes.add(self)

    def __repr__(self) -> str:
        return f"<Mailbox of {self.address.pid}{', closed' if self._is_closed else ''}>"

    async def __aenter__(self) -> Mailbox:
        return self

    async def __aexit__(self, *_: object) -> None:
        self.close()

    def __aiter__(self) -> Mailbox:
        return self

    async def __anext__(self) -> Event:
        event = await self._take()
        if event is None:
            raise StopAsyncIteration
        return event

    async def get(self, limit: Optional[float] = None) -> Event:
        """The next event. asyncio.TimeoutError if there is none for so many seconds; RunOver if none comes any more, or since the
        run halted."""
        limit = None if limit is None else seconds("limit", limit)
        event = await asyncio.wait_for(self._take(), limit)
        if event is None:
            raise RunOver
        return event

    async def _take(self) -> Optional[Event]:
        while not self._events:
            if self._is_closed:
                return None
            if self._engine.halted:
                raise RunOver
            waiting: asyncio.Future[None] = self._loop.create_future()
            self._waiting.append(waiting)
            await waiting
        return self._events.popleft()

    def monitor(self, target: Address) -> None:
        """Monitors a process, of which the mailbox gets a `Down`."""
        self._engine.own("target", target)
        self._post(lambda cx: cx.monitor(target))

    def close(self) -> None:
        """Ends the process. What has come may still be read."""
        engine, pid = self._engine, self.address.pid
        self._post(lambda cx: engine.desks[pid.shard].exit(pid, NORMAL))

    def _post(self, work: Callable[[Context], object]) -> None:
        def task() -> None:
            seat = self._engine.pids.get(self.address.pid)
            if seat is not None and self._engine.desks[self.address.pid.shard].alive(seat.pid):
                work(seat.cx)

        self._engine.post(task)

    def _tell(self, work: Callable[[], None]) -> None:
        """Does this on the thread of the program, in order."""
        try:
            self._loop.call_soon_threadsafe(work)
        except RuntimeError:  # its loop is closed
            pass

    def _wake(self) -> None:
        while self._waiting:
            waiting = self._waiting.popleft()
            if not waiting.done():
                waiting.set_result(None)

    def _came(self, event: Event) -> None:
        self._events.append(event)
        self._wake()

    def _ended(self) -> None:
        self._is_closed = True
        self._wake()


class _Reader(Behaviour):
    """The process of a mailbox."""

    def __init__(self, mailbox: Mailbox):
        self.mailbox = mailbox

    def handle(self, cx: Context, event: Event) -> None:
        mailbox = self.mailbox
        mailbox._tell(lambda: mailbox._came(event))

    def ended(self, why: Reason) -> None:
        self.mailbox._tell(self.mailbox._ended)
