"""What a run is at a moment, and what its desks count of themselves."""

from __future__ import annotations

import ctypes as c
from itertools import islice
from time import monotonic
from typing import TYPE_CHECKING, Any, Callable, Generic, Iterable, NamedTuple, Optional, TypeVar, Union

from . import Desk
from ._abi import CIds, CItem, CPid, CRef
from ._behaviour import OVER
from ._library import item_of, lib, pid_of
from ._report import Holder
from ._selection import Selection
from ._supervisor import Supervisor
from .values import ANY, Item, Pick, Pid, of_type

if TYPE_CHECKING:
    from ._engine import Engine
    from ._process import Kid, Seat

T = TypeVar("T")


class First(Generic[T]):
    """How many there are, and the first of them."""

    __slots__ = ("count", "first")

    def __init__(self, count: int, first: Iterable[T]):
        self.count, self.first = count, tuple(first)

    def __repr__(self) -> str:
        return f"First({self.count}, {self.first!r})"

    def __eq__(self, other: object) -> bool:
        return isinstance(other, First) and (self.count, self.first) == (other.count, other.first)

    def __hash__(self) -> int:
        return hash((self.count, self.first))


class DeskView(NamedTuple):
    """A desk between two of its steps, and what it has done since the run began: how many messages its processes have taken,
    with requests and answers; how many handlers ran; how many restarts its supervisors have made; how many messages were lost,
    since their process had exited; the handler that ran longest of all in the run, if it was here. And what it has now:
    processes that may have something to do, signals that wait for room in a lane, and events in its journal."""

    desk: int
    processes: int
    supervisors: int
    messages: int
    handlers: int
    restarts: int
    losses: int
    longest: Optional[Holder]
    queue: int
    waiting_for_room: int
    journal: int
    clock: int


class SilentDesk(NamedTuple):
    """A desk that did not answer in time, and the process whose handler ran then, if one did."""

    desk: int
    running: Optional[Holder]


class ProcessView(NamedTuple):
    """A process between two steps of its desk.

    `waits_for` is what it waits for: a `Pick`, ANY for whatever comes, a `Selection`, or None if it has its turn soon. Its
    `time_left` is in seconds, if it waits for a time. `aside` is how many items it was handed and did not want, and `calls` how
    many calls of it have no answer yet.
    """

    pid: Pid
    behaviour: str
    parent: Optional[Pid]
    names: tuple[str, ...]
    waits_for: Union[Pick, Selection, None]
    time_left: Optional[float]
    mailbox: First[Item]
    aside: int
    calls: int
    links: First[Pid]
    monitors: First[Pid]
    watchers: First[Pid]
    traps_exits: bool


class ChildView(NamedTuple):
    """A child of a supervisor: its place among the children, its process, if that is alive, and how often it was started."""

    place: int
    name: str
    pid: Optional[Pid]
    behaviour: str
    restart: str
    started: int


class SupervisorView(NamedTuple):
    """A supervisor: the one that it is a child of, how many are above it, and how many restarts it has made of the children that
    it has now."""

    pid: Pid
    parent: Optional[Pid]
    depth: int
    strategy: str
    restarts: int
    children: First[ChildView]


class View(NamedTuple):
    """A run at a moment: what `Runtime.view` returns.

    Times are in seconds. `processes` is a page of the live processes, by birth, and `next` is where the next page begins, or
    None. `supervisors` is a tree: each supervisor is followed by those below it. `silent` are the desks that did not answer in
    time: all, if a handler runs for that long.
    """

    uptime: float
    took: float
    is_over: bool
    alive: int
    spawned: int
    crashes: int
    epochs: int
    archived: int
    desks: tuple[DeskView, ...] = ()
    silent: tuple[SilentDesk, ...] = ()
    processes: tuple[ProcessView, ...] = ()
    next: Optional[int] = None
    supervisors: tuple[SupervisorView, ...] = ()

    def process(self, pid: Pid) -> Optional[ProcessView]:
        """The process with this pid, if the page has it."""
        of_type("pid", pid, Pid)
        return next((it for it in self.processes if it.pid == pid), None)

    def supervisor(self, pid: Pid) -> Optional[SupervisorView]:
        """The supervisor with this pid."""
        of_type("pid", pid, Pid)
        return next((it for it in self.supervisors if it.pid == pid), None)


def outside(engine: Engine, began: float) -> View:
    """What is known of a run whose thread does not answer."""
    holder = engine.holder(0.0)
    here = None if holder is None else holder.pid.shard
    silent = tuple(SilentDesk(number, holder if number == here else None) for number in range(len(engine.crews)))
    return _view(engine, began)._replace(silent=silent)


def _view(engine: Engine, began: float) -> View:
    is_over = engine.order == OVER or engine.halted
    alive = max(0, len(engine.seats) - len(engine.porters))
    return View(engine.now() / 1e6, monotonic() - began, is_over, alive, engine.spawned, engine.crashes, engine.epochs,
                engine.archived)


class Look:
    """A look at a run, on its own thread."""

    def __init__(self, engine: Engine, after: Optional[int], processes: int, first: int):
        self.engine, self.after, self.most, self.first = engine, after, processes, first

    def view(self, began: float) -> View:
        engine = self.engine
        numbers = range(len(engine.desks))
        seats, is_cut = self._page()
        desks = tuple(self._desk(number) for number in numbers)
        processes = tuple(self._process(seat) for seat in seats)
        last = seats[-1].born if is_cut and seats else None
        supervisors = tuple(self._tree())
        view = _view(engine, began)
        return view._replace(desks=desks, processes=processes, next=last, supervisors=supervisors)

    def _desk(self, number: int) -> DeskView:
        engine, record = self.engine, self.engine.record
        desk, crew = engine.desks[number], engine.crews[number]
        supervisors = sum(pid.shard == number for pid in engine.births.supervisors)
        # (what was handed out and not told yet was counted)
        told, longest = record.told[number] - len(engine._jobs[number]), record.longest
        return DeskView(
            number, engine.births.on[number], supervisors, told - record.others[number],
            told - record.unheard[number], record.restarts[number], record.losses[number],
            longest if longest is not None and longest.pid.shard == number else None, crew.queued(), desk.pending(),
            desk.event_count(), desk.clock())

    def _page(self) -> tuple[list[Seat], bool]:
        """The processes of the page, and whether there are more."""
        desks = self.engine.desks
        living = (seat for seat in self.engine.births.after(self.after) if desks[seat.pid.shard].alive(seat.pid))
        page = list(islice(living, self.most + 1))
        return page[:self.most], len(page) > self.most

    def _process(self, seat: Seat) -> ProcessView:
        pid, desk, at = seat.pid, self.engine.desks[seat.pid.shard], CPid(*seat.pid)
        waits_for, time_left = self._waits(seat)
        return ProcessView(
            pid, seat.cx.me.name, seat.cx.parent, tuple(seat.names), waits_for, time_left,
            self._listed(desk, at, lib.pt_waiting, lib.pt_peek, CItem, (), item_of),
            0 if seat.aside is None else len(seat.aside), len(seat.calls),
            self._listed(desk, at, lib.pt_link_count, lib.pt_link_at, CIds, (CPid,), _peer),
            self._listed(desk, at, lib.pt_monitor_count, lib.pt_monitor_at, CPid, (CRef,), pid_of),
            self._listed(desk, at, lib.pt_watcher_count, lib.pt_watcher_at, CPid, (CRef,), pid_of), bool(desk.traps(pid)))

    def _listed(self, desk: Desk, at: CPid, count_of: Callable[..., int], read: Callable[..., int], out: type[Any],
                beside: tuple[type[Any], ...], of: Callable[..., T]) -> First[T]:
        """A list that the desk has of a process, of which no more is read than is shown."""
        count = desk._find(count_of, c.c_size_t(), at)
        if count is None:
            return First(0, ())
        items = []
        for place in range(min(count.value, self.first)):
            more = tuple(kind() for kind in beside)
            got = desk._give(read, out(), at, place, *(c.byref(it) for it in more))
            items.append(of(got, *more) if of is _peer else of(got))
        return First(count.value, items)

    def _waits(self, seat: Seat) -> tuple[Union[Pick, Selection, None], Optional[float]]:
        """What a process waits for, and for how long still."""
        does = self.engine.crews[seat.pid.shard].next(seat.pid)
        if does is None or not does.name.startswith("wait"):
            return None, None
        left = None if does.until is None else max(0.0, (does.until - self.engine.now()) / 1e6)
        return (does.pick if seat.aside is None else seat.aside.waits), left

    # Supervisors

    def _tree(self) -> list[SupervisorView]:
        """The supervisors, each before those below it."""
        supervisors = self.engine.births.supervisors
        below: dict[Optional[Pid], list[Seat]] = {}
        for seat in supervisors.values():
            parent = seat.cx.parent if seat.cx.parent in supervisors else None
            below.setdefault(parent, []).append(seat)
        self._left = self.most
        tree: list[SupervisorView] = []
        open_ = [(0, seat) for seat in reversed(below.get(None, []))]
        while open_:
            depth, seat = open_.pop()
            tree.append(self._supervisor(seat, seat.cx.parent if seat.cx.parent in supervisors else None, depth))
            open_ += [(depth + 1, child) for child in reversed(below.get(seat.pid, []))]
        return tree

    def _supervisor(self, seat: Seat, parent: Optional[Pid], depth: int) -> SupervisorView:
        kids = [] if seat.family is None else list(seat.family.kids.values())
        children = First(len(kids), (_child(place, kid) for place, kid in enumerate(kids[:self._left])))
        self._left -= len(children.first)
        strategy = seat.behaviour._strategy if isinstance(seat.behaviour, Supervisor) else ""
        return SupervisorView(seat.pid, parent, depth, strategy, sum(max(0, kid.started - 1) for kid in kids), children)


def _peer(_: Any, peer: CPid) -> Pid:
    return pid_of(peer)


def _child(place: int, kid: Kid) -> ChildView:
    runs, address = kid.runs, kid.address
    behaviour = "" if address is None else address.name
    pid = address.pid if runs and address is not None else None
    return ChildView(place, kid.start.name, pid, behaviour, kid.start.restart, kid.started)


def waits_text(waits: Union[Pick, Selection, None]) -> str:
    """What a process waits for, in words."""
    if waits is None:
        return "nothing"
    if isinstance(waits, Pick):
        return str(ANY) if waits == ANY else str(waits)
    wants = waits.wants if isinstance(waits.wants, tuple) else (waits.wants,)
    parts = [f"kind {it}" if isinstance(it, int) else getattr(it, "__name__", "a function") for it in wants]
    messages = ("all but " if waits.but else "") + ", ".join(parts)
    rest = [name for name in ("downs", "exits", "answers") if getattr(waits, name)]
    return ", ".join([messages, *rest] if messages else rest) or "nothing"
