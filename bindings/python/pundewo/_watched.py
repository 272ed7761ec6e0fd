"""What those do who look at a run while it runs."""

from __future__ import annotations

from time import monotonic
from typing import Callable, Optional, TypeVar

from ._behaviour import OVER, CallTimeout, RunOver, ServerDown, SpawnTimeout, seconds
from ._engine import Engine
from ._observer import Observer
from ._process import Address
from ._tap import Tap
from ._view import Look, View, outside
from .values import NOPROC, U32, U64, Pid, number, of_type

T = TypeVar("T")


class Watched:
    """A run, as those see it who look at it."""

    _engine: Engine

    def _here(self, work: Callable[[], T], limit: float) -> T:
        """What this returns on the thread of the run."""
        raise NotImplementedError

    def view(self, after: Optional[int] = None, processes: int = 1_000, first: int = 5, limit: float = 1.0) -> View:
        """What the run is now, from any thread: read between two steps. If that is not done in so many seconds, since a handler
        runs for longer, all desks are among `silent`.

        It has a page of so many processes at most: the first one, or that behind `View.next` of another. Of the items, links,
        monitors and watchers of each process it has the first few. An asyncio program on another thread takes
        `asyncio.to_thread`.
        """
        engine, limit, began = self._engine, seconds("limit", limit), monotonic()
        after = None if after is None else number("after", after, 0, U64)
        look = Look(engine, after, number("processes", processes, 0, U32), number("first", first, 0, U32))
        return self._looked(lambda: look.view(began), limit) or outside(engine, began)

    def _looked(self, work: Callable[[], T], limit: float) -> Optional[T]:
        """What this returns on the thread of the run. None if that is over, has halted, or does not come to it in time."""
        engine = self._engine
        if engine.order == OVER or engine.halted:
            return None
        try:
            return self._here(lambda: None if engine.order == OVER else work(), limit)
        except (RunOver, SpawnTimeout):
            return None

    def inspect(self, process: Address, limit: float = 1.0) -> str:
        """What a behaviour says of its own state: the text of `Behaviour.inspect`, asked between two steps, from any thread.

        ServerDown if the process has exited; CallTimeout; RunOver. What the behaviour raises as it is asked comes out here, and
        its process lives on.
        """
        return self._inspect(self._engine.own("process", process).pid, limit)

    def _inspect(self, pid: Pid, limit: float) -> str:
        engine, limit, began = self._engine, seconds("limit", limit), monotonic()
        if engine.order == OVER:
            raise RunOver

        def ask() -> str:
            seat = engine.pids.get(pid)
            if seat is None or engine.is_porter(pid) or not engine.desks[pid.shard].alive(pid):
                raise ServerDown(NOPROC, None)
            return of_type("inspect", seat.behaviour.inspect(), str)

        try:
            return self._here(ask, limit)
        except SpawnTimeout:
            raise CallTimeout(engine.blame(began)) from None

    def tap(self, process: Optional[Address] = None, most: int = 10_000) -> Tap:
        """The events of a process as they come, or of all, from soon on, from any thread. It keeps so many at most."""
        engine = self._engine
        of = None if process is None else engine.own("process", process).pid
        tap = Tap(of, number("most", most, 1, U64))

        def begin() -> None:
            if engine.order == OVER:
                tap.close()
            else:
                tap._begin(engine.desks)
                engine.taps.append(tap)

        engine.post(begin)
        return tap

    def observe(self, port: int = 0, host: str = "127.0.0.1") -> Observer:
        """Serves a page that shows the run, on a thread of its own, at this port, or at a free one for 0. Printed, the observer is
        the address of the page, which has a token that others do not know. There are GET requests and no other, and none changes
        anything. Another host than the loopback is one that others reach, over a connection that is not encrypted.

        OSError if the port is not free.
        """
        return Observer(self.view, self._inspect, number("port", port, 0, 65_535), of_type("host", host, str))
