"""The events of a run as they come."""

from __future__ import annotations

import threading
from collections import deque
from typing import TYPE_CHECKING, Deque, Iterable, NamedTuple, Optional, Union

from ._behaviour import seconds
from .values import Event, Pid

if TYPE_CHECKING:
    from . import Desk, History


class Behind(NamedTuple):
    """So many events were left out here, since nobody took them in time."""

    left_out: int


class Tap:
    """The events of a run as they come, of one process or of all: what `Runtime.tap` returns. Of each desk they come in order,
    from one moment on. It keeps so many at most; what comes while it is full is left out, and it tells how much was.

    It ends by `close`, and once the run is over. It may be read on any thread; an asyncio program takes
    `await asyncio.to_thread(tap.get, limit)`.
    """

    def __init__(self, of: Optional[Pid], most: int):
        self._of, self._most = of, most
        self._waiting: Deque[Event] = deque()
        self._left_out = 0
        # how many events of its journal each desk has passed on, once it has begun to
        self._passed: Optional[list[int]] = None
        self._is_ended = False
        self._came = threading.Condition()

    def __repr__(self) -> str:
        return f"<Tap of {'all' if self._of is None else self._of}{', ended' if self._is_ended else ''}>"

    def get(self, limit: float = 0.0) -> Union[Event, Behind, None]:
        """The next event, or how many were left out, for which this thread waits for so many seconds at most. None if none has
        come, or if none comes any more."""
        limit = seconds("limit", limit)
        with self._came:
            self._came.wait_for(lambda: self._waiting or self._left_out or self._is_ended, limit)
            if self._waiting:
                return self._waiting.popleft()
            left_out, self._left_out = self._left_out, 0
            return Behind(left_out) if left_out else None

    def is_ended(self) -> bool:
        """Whether no event comes any more but those that wait."""
        return self._is_ended

    def close(self) -> None:
        """Ends it. What waits may still be read."""
        with self._came:
            self._is_ended = True
            self._came.notify_all()

    # The run, on its own thread

    def _begin(self, desks: list[Desk]) -> None:
        self._passed = [desk.event_count() for desk in desks]

    def _pass_on(self, desks: list[Desk]) -> None:
        """Passes on what the journals have beyond that which was passed on."""
        passed = self._passed
        for number, desk in enumerate(desks if passed is not None else ()):
            assert passed is not None
            count = desk.event_count()
            if passed[number] < count:
                self._put(desk.events(passed[number]))
                passed[number] = count

    def _close_epoch(self, history: History) -> None:
        """Passes on what the history has beyond that, which came as the node was settled."""
        if self._passed is not None:
            seen, passed = [0] * len(self._passed), self._passed
            new = []
            for event in history:
                seen[event.desk] += 1
                if seen[event.desk] > passed[event.desk]:
                    new.append(event)
            self._put(new)
            self._passed = [0] * len(passed)

    def _put(self, events: Iterable[Event]) -> None:
        if self._is_ended:
            return
        with self._came:
            for event in events:
                if self._of is not None and event.pid != self._of:
                    continue
                if len(self._waiting) < self._most and not self._left_out:
                    self._waiting.append(event)
                else:
                    self._left_out += 1
            self._came.notify_all()
