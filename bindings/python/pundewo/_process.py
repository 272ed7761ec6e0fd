"""The processes of a run: how they are addressed, and what a handler may do."""

from __future__ import annotations

import asyncio
import logging
from collections import deque
from functools import lru_cache
from threading import get_ident
from time import monotonic
from typing import TYPE_CHECKING, Any, Deque, Generator, Optional, Union

from . import Desk, Fault
from . import Next as Does
from ._bound import Room
from ._crossing import start_of, words_of
from ._library import c_next
from ._behaviour import (
    GO_ON, OVER, Alarm, Answer, Behaviour, Call, CallTimeout, Down, Event, Exit, InboxFull, Message, Request,
    RunOver, Tick, seconds,
)
from ._group import Group
from ._report import Restart, report
from ._selection import MESSAGE
from .values import ANY, NOPROC, NORMAL, SHUTDOWN, Pid, Reason, Ref, flag, number, of_type, unchecked

if TYPE_CHECKING:
    from ._aside import Aside
    from ._engine import Engine
    from ._supervisor import StartChild


class Address:
    """A process of a run, to which anything can be sent. It stays valid when the process has exited."""

    __slots__ = ("pid", "name", "_engine", "_crossing", "_kind", "_room", "_desk", "_plain")

    def __init__(self, pid: Pid, engine: Engine, behaviour: type[Behaviour], room: Optional[Room]):
        self.pid, self.name, self._engine = pid, behaviour.__name__, engine
        # what waits for it, if its behaviour bounds that
        self._room = room
        # what gives a value its kind, if the behaviour does
        self._kind = None if behaviour.kind is Behaviour.kind else behaviour.kind
        # where it is sent to, as the library takes it, made once: itself, or the porter of a supervisor
        self._crossing = words_of(pid)
        self._desk = pid.shard
        # its run, if what it is sent has no kind and is not bounded
        self._plain = engine if self._room is None and self._kind is None else None

    def __repr__(self) -> str:
        return f"<Address {self.pid} of {self.name}>"

    def __eq__(self, other: object) -> bool:
        return isinstance(other, Address) and self.pid == other.pid and self._engine is other._engine

    def __hash__(self) -> int:
        return hash(self.pid)

    def is_alive(self) -> bool:
        """Whether the process has not exited, as far as the run has told."""
        return self._engine.is_known(self.pid)

    def send(self, value: Any) -> bool:
        """Sends a message from any thread. What one thread sends comes in order. It returns False, and the message is
        dropped, if the process is known to have exited or takes no more (`Bound.refuse`), or if the run is over or drains. In a
        behaviour take `Context.send`.

        If as many messages wait as may (`Runtime(inbox=..)`), it waits for room, but not on the thread of the run.
        """
        engine = self._engine
        if engine.most is None or engine.thread == get_ident() or self._is_closed() or engine.has_room():
            return self._send(value)
        turn = engine.take_turn()
        try:
            return turn.result() and self._send(value)
        finally:
            engine.leave_turn(turn)

    def try_send(self, value: Any) -> bool:
        """The same, but it never waits. InboxFull if as many messages wait as may, or others wait for room."""
        if self._is_closed():
            return False
        if not self._engine.has_room():
            raise InboxFull
        if self._room is not None and not self._room.enter():
            raise InboxFull(f"the mailbox of {self.pid}")
        return self._send_entered(value)

    async def send_async(self, value: Any) -> bool:
        """The same for an asyncio program of any thread, which waits for room."""
        engine = self._engine
        if self._is_closed() or engine.has_room():
            return self._send(value)
        turn = engine.take_turn()
        try:
            # (a task that is cancelled leaves the turn as it is)
            return await asyncio.shield(asyncio.wrap_future(turn)) and self._send(value)
        finally:
            engine.leave_turn(turn)

    def _is_closed(self) -> bool:
        """Whether what is sent from outside is dropped."""
        engine = self._engine
        return self.pid not in engine.pids or engine.order == OVER or engine.drains and not engine.is_inside()

    def _send(self, value: Any) -> bool:
        if self._is_closed() or self._room is not None and not self._room.enter():
            return False
        return self._send_entered(value)

    def _send_entered(self, value: Any) -> bool:
        """Sends what counts as waiting already, if that is counted."""
        engine = self._engine
        if engine.is_between():
            try:
                return engine.send_from_outside(self, value, True)
            except Fault:  # no memory, or the clock is at its end: the run halts with this
                pass
        engine.post(lambda: engine.send_from_outside(self, value, True))
        return True

    async def call(self, value: Any, limit: float = 5.0) -> Any:
        """Asks the process from an asyncio program, and returns what it answers. It may be of any thread.

        CallFault: `CallTimeout` if there is no answer for so many seconds, `ServerDown` with its reason if the process has
        exited, `Unanswered` if it dropped the request, `RunOver`. On another thread than that of the run the time is kept
        whatever the handlers of the run do.
        """
        engine, limit = self._engine, seconds("limit", limit)
        loop, here, began = asyncio.get_running_loop(), get_ident(), monotonic()
        future: asyncio.Future[Answer] = loop.create_future()

        def resolve(answer: Answer) -> None:
            if not future.done():
                future.set_result(answer)

        def done(answer: Answer) -> None:
            try:
                # (from another thread it costs calls of the system)
                if here == get_ident():
                    loop.call_soon(resolve, answer)
                else:
                    loop.call_soon_threadsafe(resolve, answer)
            except RuntimeError:  # that loop is closed
                pass

        def late() -> None:
            if not future.done():
                engine.give_up(call)
                future.set_result(Answer(call, None, CallTimeout(engine.blame(began))))

        call = engine.ask(self, value, done)
        alarm = loop.call_later(limit, late)
        try:
            return (await future).result()
        finally:
            alarm.cancel()
            if call.is_open:
                engine.give_up(call)


class Timer:
    """What is sent later, by which it is taken back."""

    __slots__ = ("_alarm", "_engine")

    def __init__(self, alarm: Alarm, engine: Engine):
        self._alarm, self._engine = alarm, engine

    def __repr__(self) -> str:
        return f"<Timer {self._alarm}>"


def bytes_of(name: str, **has: Any) -> bytes:
    """What a process does next, as the bytes that cross."""
    return bytes(c_next("does", Does(name, **has)))


# (a supervisor's child exits for the same reason again and again)
@lru_cache(maxsize=64)
def stops(reason: Reason) -> bytes:
    """The same of one that exits."""
    return bytes_of("stop", reason=reason)


WAITS = bytes_of("wait", pick=ANY)


class Seat:
    """A process with its behaviour."""

    __slots__ = ("pid", "tag", "behaviour", "cx", "calls", "monitors", "texts", "does", "told", "aside", "crossing", "waits",
                 "names", "family", "gone", "is_in_groups", "picks", "room", "born")

    def __init__(self, engine: Engine, address: Address, tag: int, behaviour: Behaviour, parent: Optional[Pid]):
        self.pid, self.tag, self.behaviour = address.pid, tag, behaviour
        self.cx = Context(engine, self, address, parent)
        # its open calls, by the numbers of their monitors
        self.calls: dict[int, Call] = {}
        # the numbers of its own monitors, of which it was told nothing yet
        self.monitors: set[int] = set()
        # the texts of crashes, beside the news of them: by monitor, and by linked process
        self.texts: dict[Union[Ref, Pid], str] = {}
        # what it was to do when it was told something
        self.does = WAITS
        self.told = GO_ON
        self.room = address._room
        # how many were spawned before it
        self.born = 0
        # what it was handed and does not take now, if it chooses
        self.aside: Optional[Aside] = None
        # the names that it was given
        self.names: list[str] = []
        # its pid, as an answer to a crew begins with it
        self.crossing = start_of(address._crossing)
        # the answer that it waits for whatever comes
        self.waits = self.crossing + WAITS
        # the children, if it is a supervisor
        self.family: Optional[Family] = None
        self.gone = NOBODY
        # whether it may be in a group
        self.is_in_groups = False
        # whether the library picks out what it takes, if it said what that is with its last answer
        self.picks = False

    def own_gone(self) -> Gone:
        """Those that had exited as it linked itself with them, where one more can be noted."""
        if self.gone is NOBODY:
            self.gone = Gone()
        return self.gone


class Gone:
    """Those that had exited as a process linked itself with them, whose exit signals have not come."""

    __slots__ = ("told", "signals")

    def __init__(self) -> None:
        # by the number of the message that is the signal, since the process trapped exits
        self.told: dict[int, Pid] = {}
        # in order, if the desk has sent the signal in their place. None if the link was taken away
        self.signals: Deque[Optional[Pid]] = deque()

    def __bool__(self) -> bool:
        return bool(self.told or self.signals)

    def __contains__(self, pid: object) -> bool:
        return pid in self.told.values() or pid in self.signals

    def unlink(self, pid: Pid) -> list[int]:
        """The link with this one is taken away. It returns the numbers of the messages that are nothing to the process now."""
        if not self:
            return []
        numbers = [number for number, of in self.told.items() if of == pid]
        for told in numbers:
            del self.told[told]
        self.signals = deque(None if of == pid else of for of in self.signals)
        return numbers


# (most processes never link themselves with one that had exited)
NOBODY = Gone()


class Kid:
    """A child of a supervisor, as it was asked for: its process, while it has one, and where that is sent to."""

    __slots__ = ("above", "family", "start", "tag", "made", "seat", "pid", "address", "runs", "why", "started")

    def __init__(self, above: Seat, family: Family, start: StartChild, tag: int):
        self.above, self.family, self.start, self.tag = above, family, start, tag
        # the behaviour of its next process, if that is made
        self.made: Optional[Behaviour] = None
        self.seat: Optional[Seat] = None
        # of the last process that its crew started, and where it is sent to, whether it runs or not
        self.pid: Optional[Pid] = None
        self.address: Optional[Address] = None
        self.runs = False
        # why the process before exited, if the supervisor starts it again by itself
        self.why: Optional[Reason] = None
        # how often it was started
        self.started = 0

    @property
    def desk(self) -> int:
        """The desk that it is on."""
        return self.above.pid.shard if self.start.desk is None else self.start.desk

    def is_elsewhere(self) -> bool:
        """Whether it is on another desk than its supervisor."""
        return self.desk != self.above.pid.shard

    def begin(self, address: Address) -> None:
        """Its process has begun."""
        self.family.running += not self.runs
        self.address, self.runs = address, True
        self.started += 1
        if self.why is not None:
            self.above.cx._engine.record.restarts[self.above.pid.shard] += 1
            level = logging.INFO if self.why in (NORMAL, SHUTDOWN) else logging.WARNING
            report(level, Restart(self.above.pid, self.start.name, address.pid, self.why, self.started))

    def end(self, why: Reason) -> None:
        """Its process has exited."""
        self.why = why
        if self.runs:
            self.runs = False
            self.family.running -= 1
        self.seat = None
        if self.start.restart == "temporary":
            self.family.gone.append(self)


class Family:
    """What a supervisor has: the process that it obeys, its children by name, and those that run."""

    __slots__ = ("obeys", "kids", "running", "gone", "requests", "work", "wanted", "coming")

    def __init__(self, obeys: Pid):
        self.obeys = obeys
        self.kids: dict[str, Kid] = {}
        self.running = 0
        # the temporary children that have exited
        self.gone: list[Kid] = []
        # what it was asked, and how far that is done
        self.requests: Deque[Request] = deque()
        self.work: Optional[Generator[bool, None, object]] = None
        # the child that it waits for and another desk has not started, and the one that was started there and has not begun
        self.wanted: Optional[Kid] = None
        self.coming: Optional[tuple[Kid, Pid]] = None


class Porter(Behaviour):
    """The process of a desk in whose name things are sent from outside, and which gets what supervisors are sent."""

    def started(self, cx: Context) -> None:
        cx.trap()

    def handle(self, cx: Context, event: Event) -> None:
        if isinstance(event, Request) and event._call is not None:
            cx._engine.serve(event, event._call)


class Context:
    """What a handler may do, in the name of its process. It belongs to the thread of the run. A call of it is refused as
    GONE when the process has exited."""

    __slots__ = ("_engine", "_seat", "me", "parent")

    def __init__(self, engine: Engine, seat: Seat, me: Address, parent: Optional[Pid]):
        self._engine, self._seat, self.me, self.parent = engine, seat, me, parent

    def __repr__(self) -> str:
        return f"<Context of {self.pid}>"

    @property
    def pid(self) -> Pid:
        """The name of the process in the table."""
        return self._seat.pid

    @property
    def desks(self) -> int:
        """How many desks the node has. A process is on the one that its pid names."""
        return len(self._engine.crews)

    def _here(self) -> Engine:
        engine = self._engine
        if engine.thread is not None and engine.thread != get_ident():
            raise RuntimeError("a Context is used on another thread than that of its run: take Address.send there")
        if engine.order == OVER:
            raise RunOver
        return engine

    def _pid_of(self, field: str, target: Union[Address, Pid]) -> Pid:
        return self._engine.own(field, target).pid if isinstance(target, Address) else of_type(field, target, Pid)

    def _mortal(self, field: str, target: Union[Address, Pid]) -> Pid:
        """The same of a process that may exit."""
        pid = self._pid_of(field, target)
        if self._engine.is_porter(pid):
            raise ValueError(f"{field} is {pid}, which sends what comes from outside, and does not exit")
        return pid

    def _desk(self) -> Desk:
        engine = self._here()
        engine.touch()
        return engine.desks[self.pid.shard]

    def send(self, to: Address, value: Any) -> bool:
        """Sends a message: Erlang's `!`. It comes after all that this process sent that one before.

        It returns False, and the message is dropped, if the receiver is known to have exited, or takes no more (`Bound.refuse`).
        If it exits later, the message is dropped then.
        """
        engine, me = self._engine, self.me
        if engine.thread != get_ident() or engine.order == OVER:
            self._here()
        # (most are neither bounded nor give their messages kinds)
        if type(to) is Address and to._plain is engine:
            return engine.carry(MESSAGE, me, to, unchecked(Message, (value, me.pid)))
        return engine.send(me, of_type("to", to, Address), value)

    def send_all(self, to: Group, value: Any) -> int:
        """Sends each member of a group a message, as `send`, and returns how many were sent. This process may be one of them.
        What it sends each comes after all that it sent that one before."""
        self._here()
        return sum(self.send(member, value) for member in of_type("to", to, Group).members())

    def send_after(self, time: float, to: Address, value: Any) -> Timer:
        """Sends a message after so many seconds: Erlang's `send_after`. It comes also if this process has exited."""
        engine, time = self._here(), seconds("time", time)
        of_type("to", to, Address)
        return Timer(engine.set_alarm(time, lambda: engine.send_from_outside(to, value)), engine)

    def cancel(self, timer: Timer) -> bool:
        """Takes back what was to be sent later. It returns False if that was sent or taken back before, or is another
        run's."""
        engine = self._here()
        return of_type("timer", timer, Timer)._engine is engine and engine.cancel_alarm(timer._alarm)

    def waiting(self) -> int:
        """How many items wait for this process, with those that it does not take now."""
        return len(self._here().desks[self.pid.shard].waiting(self.pid) or ()) + len(self._seat.aside or ())

    def postpone(self, event: Event) -> bool:
        """Puts what the handler is told back into its place: `postpone` of Erlang's `gen_statem`. It waits there, also if the
        process would take it, until `retry`. It returns False, and nothing is postponed, if the handler is not told this now,
        if it was postponed before, or if it is TIMEOUT, PROCEED or LOST, which did not wait."""
        if not isinstance(event, (Message, Request, Down, Exit, Answer)):
            of_type("event", event, Tick)
            return False
        return self._here().postpone(self._seat, event)

    def retry(self) -> None:
        """What was postponed may be taken from now on, in order, before what has come since: what `gen_statem` does as the
        state changes."""
        self._here()
        if self._seat.aside is not None:
            self._seat.aside.retry()

    def register(self, name: str, process: Optional[Address] = None) -> bool:
        """Gives a process, or this one, a name, as `Runtime.register` does."""
        return self._here().register(name, self.me if process is None else process)

    def whereis(self, name: str) -> Optional[Address]:
        """The process that has this name, as `Runtime.whereis`."""
        return self._here().whereis(name)

    def spawn(self, behaviour: Behaviour, linked: bool = False) -> Address:
        """Spawns a child on the same desk, which is linked with this process from the first if `linked` is set.

        Fault: FULL if no slot is free, WORN, MEMORY.
        """
        return self._here().spawn(behaviour, self.pid.shard, self.pid, flag("linked", linked))

    def spawn_on(self, desk: int, behaviour: Behaviour, linked: bool = False) -> Address:
        """Spawns a process on this desk of the node. On another desk it is no child, and the link is made next."""
        return self._here().spawn(behaviour, number("desk", desk, 0, self.desks - 1), self.pid, flag("linked", linked))

    def monitor(self, target: Union[Address, Pid]) -> Ref:
        """Monitors a process: Erlang's `monitor/2`. It gets one `Down`, when that exits or if it has exited.

        Fault: MYSELF, UNKNOWN, WORN, MEMORY.
        """
        engine, pid = self._here(), self._pid_of("target", target)
        monitor = engine.monitor(self._seat, pid)
        if monitor is not None:
            return monitor
        return engine.news(self._seat, lambda reference: Down(reference, pid, NOPROC, None))

    def demonitor(self, monitor: Ref) -> None:
        """Takes a monitor back. Nothing more is told of it."""
        self._here().demonitor(self._seat, of_type("monitor", monitor, Ref))

    def link(self, to: Union[Address, Pid]) -> None:
        """Links this process with another: Erlang's `link/1`. If that had exited before, its exit signal comes with NOPROC: this
        process exits by it, or gets an `Exit` if it traps exits.

        Fault: UNKNOWN, WORN, MEMORY.
        """
        engine, pid = self._here(), self._mortal("to", to)
        engine.link(self._seat, pid)

    def unlink(self, to: Union[Address, Pid]) -> None:
        """Takes the link with another process away: Erlang's `unlink/1`."""
        pid = self._pid_of("to", to)
        engine = self._here()
        engine.unlink(self._seat, pid)

    def exit(self, to: Union[Address, Pid], reason: Reason = SHUTDOWN) -> None:
        """Sends an exit signal: Erlang's `exit/2`. KILL ends any process. Any other reason but NORMAL ends a process that
        does not trap exits. To end this process itself, return `Next.stop`."""
        engine, pid = self._here(), self._mortal("to", to)
        engine.exit_signal(self.pid, pid, of_type("reason", reason, Reason))
        engine.touch()

    def trap(self, on: bool = True) -> bool:
        """Sets whether this process traps exits, which it gets as `Exit`, and returns whether it did before."""
        return self._desk().trap(self.pid, on)

    def call(self, to: Address, value: Any, limit: float = 5.0) -> Call:
        """Asks a process, which gets a `Request`. The call ends once, with an `Answer`: by its answer, by the exit of the
        process, or when there was no answer for so many seconds.

        Fault: MYSELF, UNKNOWN, WORN, MEMORY.
        """
        engine, limit = self._here(), seconds("limit", limit)
        engine.own("to", to)
        return engine.call(self._seat, to, value, limit, Call())

    def reply(self, request: Request, value: Any) -> bool:
        """Answers a request, after all that this process has sent the client. It returns False if that does not wait for
        the answer any more."""
        engine, call = self._here(), of_type("request", request, Request)._taken()
        if request._engine is not engine:
            request._engine.post(lambda: request._engine.answer(call, None, Answer(call, value, None)))
            return True
        return engine.answer(call, self.me, Answer(call, value, None))

    def now(self) -> float:
        """The time in seconds since the run was made."""
        return self._here().now() / 1e6
