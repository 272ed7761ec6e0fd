"""Processes that start others, and start them again when they exit."""

from __future__ import annotations

from typing import Callable, NamedTuple, Optional, TypeVar, Union

from ._behaviour import Behaviour, Event, seconds
from ._process import Address, Context
from .supervisors import RESTARTS, STRATEGIES, SupervisorSpec
from .values import U8, U32, _Checked, Pid, number, of_type, one_of, shown, unchecked

# How many restarts a limit counts at most: the crew has memory for each from the first.
MOST = 1_000_000


class _Word:
    """A value that is only itself."""

    def __init__(self, name: str):
        self._name = name

    def __repr__(self) -> str:
        return self._name


# Asked this, a supervisor answers with a tuple of its children, in the order in which they are started.
WHICH_CHILDREN = _Word("WHICH_CHILDREN")
# How a child is ended: it is told to exit and has all the time that it takes, as befits a supervisor; it is killed.
INFINITY, BRUTAL_KILL = _Word("INFINITY"), _Word("BRUTAL_KILL")

# A time in seconds, INFINITY or BRUTAL_KILL.
Shutdown = Union[float, _Word]
Make = Callable[[], Behaviour]

T = TypeVar("T")


class Child(NamedTuple):
    """A child of a supervisor: where it is, or None while it does not run."""

    name: str
    address: Optional[Address]


class _StartChild(NamedTuple):
    make: Make
    name: str
    restart: str
    desk: Optional[int]
    shutdown: Optional[Shutdown]


class StartChild(_Checked, _StartChild):
    """Asked this, a supervisor starts one child more, behind the others, and answers with its `Child`. It answers None, and
    has no such child, if another has this name, or if this one does not start."""

    __slots__ = ()

    def __new__(cls, make: Make, name: str, restart: str = "permanent", desk: Optional[int] = None,
                shutdown: Optional[Shutdown] = None) -> StartChild:
        if not callable(make):
            raise TypeError(f"make is {shown(make)}, and must make a Behaviour: give a class or a function")
        name, restart = of_type("name", name, str), one_of("restart", restart, RESTARTS)
        desk = None if desk is None else number("desk", desk, 0, U8)
        if shutdown is not None and shutdown is not INFINITY and shutdown is not BRUTAL_KILL:
            shutdown = seconds("shutdown", shutdown)
        return unchecked(cls, (make, name, restart, desk, shutdown))


class _OfChild(NamedTuple):
    name: str


class _Named(_Checked, _OfChild):
    __slots__ = ()

    def __new__(cls: type[T], name: str) -> T:
        return unchecked(cls, (of_type("name", name, str),))


class TerminateChild(_Named):
    """Asked this, a supervisor ends this child, and answers True, or False if it has no such child. The child is not started
    again by itself; a temporary one is forgotten."""

    __slots__ = ()


class RestartChild(_Named):
    """Asked this, a supervisor starts this child. It answers False if it has no such child, if that runs, or if it does not
    start."""

    __slots__ = ()


class DeleteChild(_Named):
    """Asked this, a supervisor forgets this child. It answers False if it has no such child, or if that runs."""

    __slots__ = ()


class Supervisor(Behaviour):
    """A process that starts its children in order, linked, and starts them again when they exit: Erlang's `supervisor`.

        Supervisor.one_for_one().permanent(Line).transient(lambda: Call(3)).limit(3, 5.0)

    - A permanent child is started again however it exits, a transient one unless for NORMAL or SHUTDOWN, a temporary one
      never, and is forgotten. `one_for_one` starts that child again, `one_for_all` all children, `rest_for_one` that one and
      those behind it. The others of these are ended first, from the last to the first.
    - A child is told to exit for SHUTDOWN, and killed if it has not after `patience` seconds, or what `shutdown` says of it.
      A child that is a supervisor has all the time that it takes. Meanwhile its parent does nothing else.
    - If there are more restarts in some time than the limit, it ends its children, from the last to the first, and exits
      for SHUTDOWN. So it does if a child does not start at first: `make` raises, or no slot is free. If it does not start
      again, that counts as one restart more. A child that raises in `started` has crashed, as in any handler.
    - A child may be on another desk. It begins in its turn, once it is linked with its supervisor, and ends in its turn.
    - It ends its children and exits if its parent exits or tells it to, for the same reason; for SHUTDOWN, if the run is
      stopped; and for SHUTDOWN from any process if it has no parent. Other exit signals are nothing to it, but KILL.
    - It answers WHICH_CHILDREN, `StartChild`, `TerminateChild`, `RestartChild` and `DeleteChild`.

    Its strategy, its limit, whom it starts again and whom it ends, in which order and when, are those of the proved supervisor
    of its crew (`pundewo.Crew`). Not proved, but tested: what makes its children, spawns those of other desks as the crew asks for
    them, and answers.
    """

    _ends_children = True

    def __init__(self, strategy: str, patience: float = 5.0):
        self._strategy, self._patience = one_of("strategy", strategy, STRATEGIES), seconds("patience", patience)
        self._most, self._within = 3, 5.0
        # the children by name, in the order in which they are started
        self._specs: dict[str, StartChild] = {}

    def __repr__(self) -> str:
        return f"<Supervisor {self._strategy} of {len(self._specs)} children>"

    @classmethod
    def one_for_one(cls, patience: float = 5.0) -> Supervisor:
        return cls("one_for_one", patience)

    @classmethod
    def one_for_all(cls, patience: float = 5.0) -> Supervisor:
        return cls("one_for_all", patience)

    @classmethod
    def rest_for_one(cls, patience: float = 5.0) -> Supervisor:
        return cls("rest_for_one", patience)

    def limit(self, most: int, within: float) -> Supervisor:
        """How many restarts there are in so many seconds at most. More than a million count as a million."""
        self._most, self._within = number("most", most, 0, U32), seconds("within", within)
        return self

    def permanent(self, make: Make, name: str = "", desk: Optional[int] = None,
                  shutdown: Optional[Shutdown] = None) -> Supervisor:
        """Adds a child, which `make` makes each time, with a name of its own, on a desk of the node. `shutdown` is the time
        that it has to exit, INFINITY or BRUTAL_KILL."""
        return self._add(make, name, "permanent", desk, shutdown)

    def transient(self, make: Make, name: str = "", desk: Optional[int] = None,
                  shutdown: Optional[Shutdown] = None) -> Supervisor:
        """The same, started again unless it exits for NORMAL or SHUTDOWN."""
        return self._add(make, name, "transient", desk, shutdown)

    def temporary(self, make: Make, name: str = "", desk: Optional[int] = None,
                  shutdown: Optional[Shutdown] = None) -> Supervisor:
        """The same, never started again."""
        return self._add(make, name, "temporary", desk, shutdown)

    def _add(self, make: Make, name: str, restart: str, desk: Optional[int], shutdown: Optional[Shutdown]) -> Supervisor:
        name = of_type("name", name, str) or f"{len(self._specs)} {getattr(make, '__name__', 'child')}"
        start = StartChild(make, name, restart, desk, shutdown)
        if name in self._specs:
            raise ValueError(f"name is {shown(name)}, and another child has it")
        self._specs[name] = start
        return self

    def handle(self, cx: Context, event: Event) -> None:
        """Nothing: its crew handles what it gets."""

    def _spec(self, obeys: Pid) -> SupervisorSpec:
        """What its crew has to know of it. It exits with the process that it obeys."""
        return SupervisorSpec(self._strategy, min(self._most, MOST), int(self._within * 1e6), True, obeys)
