"""What a process of a runtime does, and what it is told."""

from __future__ import annotations

from abc import ABC, abstractmethod
from functools import partial
from typing import TYPE_CHECKING, Any, Callable, NamedTuple, Optional, Union

from ._abi import CCall
from ._bound import Bound
from ._report import Holder
from ._selection import Selection, Wants
from .values import ANY, NORMAL, U32, Pick, Pid, Reason, Ref, _Checked, maybe, of_type, one_of, shown, unchecked

if TYPE_CHECKING:
    from ._process import Context, Seat
    from ._sending import Sending

# The reason of a process whose handler raised an exception. No behaviour should stop with it.
CRASH = Reason("other", U32)

# What those outside want: the run goes on, its processes are to exit, they are killed, it is over.
GO_ON, STOP, KILLS, OVER = range(4)

# What halts the run if a handler raises it, which is a crash too. The run may go on then.
HALTS = KeyboardInterrupt, SystemExit

# What is to be done at a time.
Alarm = int

# The longest time that a limit may be: some thirty years.
LONGEST = 1e9


def seconds(field: str, value: object) -> float:
    """The value as a time in seconds."""
    if not isinstance(value, (int, float)) or isinstance(value, bool):
        raise TypeError(f"{field} is {shown(value)}, and must be a number of seconds")
    if not 0 <= value <= LONGEST:
        raise ValueError(f"{field} is {shown(value)}, and must be from 0 to {LONGEST:.0f} seconds")
    return float(value)


class _Next(NamedTuple):
    name: str
    pick: Pick
    limit: Optional[float]
    reason: Reason
    selection: Optional[Selection]


NEXTS = ("wait", "proceed", "stop")


class Next(_Checked, _Next):
    """What a process does next. Make one by `wait`, `only`, `proceed` or `stop`; None in its place is `wait()`."""

    __slots__ = ()

    def __new__(cls, name: str, pick: Pick = ANY, limit: Optional[float] = None, reason: Reason = NORMAL,
                selection: Optional[Selection] = None) -> Next:
        return unchecked(cls, (
            one_of("Next.name", name, NEXTS), of_type("Next.pick", pick, Pick),
            None if limit is None else seconds("Next.limit", limit), of_type("Next.reason", reason, Reason),
            maybe("Next.selection", selection, Selection)))

    @classmethod
    def wait(cls, limit: Optional[float] = None, pick: Pick = ANY) -> Next:
        """It waits for what this pick takes; all else stays in its mailbox, in order. If nothing comes for so many
        seconds, it gets TIMEOUT."""
        limit = None if limit is None else seconds("limit", limit)
        return unchecked(cls, ("wait", of_type("pick", pick, Pick), limit, NORMAL, None))

    @classmethod
    def only(cls, wants: Union[Pick, Selection, Wants], limit: Optional[float] = None, *, downs: bool = False,
             exits: bool = False, answers: bool = False) -> Next:
        """It waits for what this wants, and all else waits, in order: Erlang's `receive Pattern`. If nothing of that comes for
        so many seconds, it gets TIMEOUT.

        `wants` is a pick of the library, a `Selection`, or what such a one is made of: a kind of messages, a type of their
        values, a tuple of these, or a function of a message, as `lambda message: message.value > 3`. News of monitors, exit
        signals and answers of calls wait too, unless `downs`, `exits` or `answers` is set.
        """
        limit = None if limit is None else seconds("limit", limit)
        if isinstance(wants, (Pick, Selection)):
            if downs or exits or answers:
                raise ValueError(f"wants is {shown(wants)}, which says itself whether it takes downs, exits and answers")
            pick, selection = (wants, None) if isinstance(wants, Pick) else (ANY, wants)
            return unchecked(cls, ("wait", pick, limit, NORMAL, selection))
        return unchecked(cls, ("wait", ANY, limit, NORMAL, Selection(wants, downs, exits, answers)))

    @classmethod
    def proceed(cls) -> Next:
        """It gets PROCEED as soon as the others of its desk have had their turn."""
        return unchecked(cls, ("proceed", ANY, None, NORMAL, None))

    @classmethod
    def stop(cls, reason: Reason = NORMAL) -> Next:
        """It exits with this reason."""
        return unchecked(cls, ("stop", ANY, None, of_type("reason", reason, Reason), None))


class Message(NamedTuple):
    """A message, and who sent it. What comes from outside is sent by a process that each desk has for that."""

    value: Any
    sender: Pid


class Down(NamedTuple):
    """The one news of a monitor: a process has exited. `crash` is the text of its exception, if that is how."""

    monitor: Ref
    pid: Pid
    reason: Reason
    crash: Optional[str]


class Exit(NamedTuple):
    """An exit signal that the process traps. `crash` is the text of its exception, if a linked process crashed."""

    pid: Pid
    reason: Reason
    crash: Optional[str]


class Tick(NamedTuple):
    """What no other process sent: TIMEOUT, the time is over for which the process waited; PROCEED, as it said; LOST, a message
    was dropped, since too many waited (`Bound.drop_oldest`)."""

    name: str


TIMEOUT, PROCEED, LOST = Tick("timeout"), Tick("proceed"), Tick("lost")


def held_up(text: str, holder: Optional[Holder]) -> str:
    """The text, with who holds up the run."""
    return text if holder is None else f"{text}: the run is held up by {holder}"


class CallFault(Exception):
    """Why a call has no answer."""


class ServerDown(CallFault):
    """The server exited for this reason, with the text of its exception if it crashed."""

    def __init__(self, reason: Reason, crash: Optional[str] = None):
        self.reason, self.crash = reason, crash
        super().__init__(f"the server exited: {reason}" if crash is None else f"the server crashed: {crash}")

    def __reduce__(self) -> tuple[Any, ...]:
        return type(self), (self.reason, self.crash)


class CallTimeout(CallFault, TimeoutError):
    """There was no answer in time. `holder` is whose handler held up the run meanwhile, if one did."""

    def __init__(self, holder: Optional[Holder] = None) -> None:
        self.holder = holder
        super().__init__(held_up("there was no answer in time", holder))

    def __reduce__(self) -> tuple[Any, ...]:
        return type(self), (self.holder,)


class SpawnTimeout(TimeoutError):
    """The run took no process in from another thread in time, and none is spawned. `holder` is whose handler held up the run
    meanwhile, if one did."""

    def __init__(self, holder: Optional[Holder] = None) -> None:
        self.holder = holder
        super().__init__(held_up("the process was not spawned in time", holder))

    def __reduce__(self) -> tuple[Any, ...]:
        return type(self), (self.holder,)


class Unanswered(CallFault):
    """The server dropped the request without an answer."""

    def __init__(self) -> None:
        super().__init__("the request was dropped unanswered")

    def __reduce__(self) -> tuple[Any, ...]:
        return type(self), ()


class InboxFull(Exception):
    """A message was not sent: as many as may wait do, in the run (`Runtime(inbox=..)`) or for its receiver
    (`Behaviour.most_waiting`)."""

    def __init__(self, of: str = "the inbox of the run") -> None:
        self.of = of
        super().__init__(f"the message is not sent: {of} is full")

    def __reduce__(self) -> tuple[Any, ...]:
        return type(self), (self.of,)


class RunOver(CallFault):
    """The run is over, halted or drains, or ends and takes nothing in any more."""

    def __init__(self) -> None:
        super().__init__("the run is over")

    def __reduce__(self) -> tuple[Any, ...]:
        return type(self), ()


class Call:
    """A call that a process has made, by which it knows the `Answer`."""

    __slots__ = ("client", "server", "asked", "at", "number", "alarm", "is_open", "done", "asked_at", "answered")

    def __init__(self, done: Optional[Callable[[Answer], None]] = None):
        self.client: Optional[Seat] = None
        self.server: Optional[Pid] = None
        # the call of the library, once it is made, as it crosses, and the number of its monitor
        self.asked: Optional[CCall] = None
        self.at: Any = None
        self.number = 0
        self.alarm: Optional[Alarm] = None
        # whether anybody wants its answer
        self.is_open = True
        # what is told of the answer to a call from outside
        self.done = done
        # the numbers of its request and of its answer, among those of messages
        self.asked_at = self.answered = 0

    def __repr__(self) -> str:
        return f"<Call of {self.server or 'nobody'}{'' if self.is_open else ', over'}>"


class Answer(NamedTuple):
    """How a call ended: `result` returns its value, or raises why there is none."""

    call: Call
    value: Any
    fault: Optional[CallFault]

    def result(self) -> Any:
        if self.fault is not None:
            raise self.fault
        return self.value


class Request:
    """A message that asks for an answer: give it by `Context.reply`, or by `reply` from outside of the behaviours.

    A request that is dropped without an answer tells its client so.
    """

    __slots__ = ("value", "sender", "_call", "_engine")

    def __init__(self, engine: Sending, call: Call, sender: Pid, value: Any):
        self._call: Optional[Call] = None
        self.value, self.sender, self._engine = value, sender, engine
        self._call = call

    def reply(self, value: Any) -> None:
        """Answers, from any thread. In a behaviour take `Context.reply`: then the answer comes after all that the
        process has sent the client."""
        call = self._taken()
        self._engine.post(lambda: self._engine.answer(call, None, Answer(call, value, None)))

    def _taken(self) -> Call:
        self._call, call = None, self._call
        if call is None:
            raise RuntimeError("the request was answered before")
        return call

    def __del__(self) -> None:
        call, self._call = self._call, None
        if call is not None:
            self._engine.post(partial(self._engine.unanswered, call))

    def __repr__(self) -> str:
        return f"Request({self.value!r}, sender={self.sender})"


Event = Union[Message, Request, Down, Exit, Answer, Tick]


class Behaviour(ABC):
    """What a process does with what it is told. Its state is the value itself.

    An exception in `started` or `handle` is a crash: the process exits with CRASH, its monitors and links hear of it,
    and the run goes on. A handler should not wait: while it does, all processes do. One that held up the run for a second is
    named in a warning of `logging`.
    """

    # how many messages and requests may wait for such a process, and what happens if one more comes. It is read as the process
    # is spawned
    most_waiting: Optional[Bound] = None

    # whether it ends the processes that it has spawned, when it is told to exit
    _ends_children = False

    @staticmethod
    def kind(value: Any) -> int:
        """The kind of what is sent to such a process, or asked, by which it can choose (`Next.only`): a number from 0 to 65535.
        Without this all have the kind 0. It is asked for each value once, as that is sent, on the thread of the run."""
        return 0

    def started(self, cx: Context) -> Optional[Next]:
        """It begins. It waits for whatever comes, unless this returns something else."""
        return None

    @abstractmethod
    def handle(self, cx: Context, event: Event) -> Optional[Next]:
        """It is told this, and returns what it does next."""

    def inspect(self) -> str:
        """A text of its state, for those who look at the run: see `Runtime.inspect`. It is asked on the thread of the run, and
        should be short."""
        return ""

    def ended(self, why: Reason) -> None:
        """The process has exited, in whatever way, for this reason."""


def behaviour_of(value: object) -> Behaviour:
    """The value, which is a behaviour."""
    if isinstance(value, Behaviour):
        maybe("Behaviour.most_waiting", value.most_waiting, Bound)
        return value
    raise TypeError(f"behaviour is {shown(value)}, and must be of type Behaviour")
