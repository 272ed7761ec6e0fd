"""What the library has handed out to a process that does not take it now: it waits here, in order, until the process does."""

from __future__ import annotations

from bisect import insort
from collections import deque
from typing import Any, Callable, Deque, Iterable, Optional, Union

from ._behaviour import LOST, Answer, Down, Event, Exit, Message, Request
from ._selection import ANSWER, MESSAGE, REQUEST, Waits, Wants, is_function, letter
from .values import ANY, Pick, Pid, Ref

Asked = Union[Message, Request]


def is_of_library(waits: Waits) -> bool:
    """Whether the library chooses alone what comes. (an exit signal may be a message to it)"""
    return waits.name != "exit-of" if isinstance(waits, Pick) else waits.pick() is not None


def is_of(monitor: Ref, event: Event) -> bool:
    return isinstance(event, Down) and event.monitor == monitor


def sender_of(event: Event) -> object:
    """The process that has sent this, if it is a message, a request or an answer."""
    return event.call.server if isinstance(event, Answer) else event.sender if isinstance(event, (Message, Request)) else None


def first_asked(held: Iterable[tuple[int, Event]]) -> Optional[int]:
    """The place of the first message or request."""
    return next((place for place, (_, event) in enumerate(held) if isinstance(event, (Message, Request))), None)


def older(waiting: Iterable[tuple[object, Optional[int]]], sender: Pid, age: Optional[int]) -> int:
    """How many of the items that wait are to come before one that was picked out from among them, each with its sender and its
    age: those that the sender has sent before, and what is before these. Behind them what others have sent before comes first,
    too. (what has no age is news of an exit)"""
    count = 0
    for place, (other, its_age) in enumerate(waiting):
        is_older = other != sender if its_age is None else age is None or its_age < age
        if other == sender:
            if not is_older:
                break
            count = place + 1
        elif is_older and count == place:
            count += 1
    return count


class Aside:
    """What waits for one process, the oldest first."""

    __slots__ = ("waits", "_kind", "_kept", "_postponed", "_ready", "_told", "_count", "_seen", "_looked", "_has_lost")

    def __init__(self, kind: Callable[[Any], int]) -> None:
        # what the process waits for, and the kind that its behaviour gives a value
        self.waits: Waits = ANY
        self._kind = kind
        # each event with its number among those that were handed out; those that wait for `retry`
        self._kept: Deque[tuple[int, Event]] = deque()
        self._postponed: list[tuple[int, Event]] = []
        # what the process is told next, and the number of what it is told now
        self._ready: Optional[tuple[int, Event]] = None
        self._told = self._count = 0
        # how many of the first are not taken by what was looked for last
        self._seen = 0
        self._looked: Waits = ANY
        # whether there may be a LOST
        self._has_lost = False

    def __len__(self) -> int:
        return len(self._kept) + len(self._postponed) + (self._ready is not None)

    def messages(self) -> int:
        """How many messages and requests wait."""
        ready = () if self._ready is None else (self._ready,)
        return sum(isinstance(event, (Message, Request)) for _, event in (*self._kept, *self._postponed, *ready))

    def is_over(self) -> bool:
        """Whether nothing waits, and the library chooses what comes."""
        return not self and is_of_library(self.waits)

    def came(self, event: Event) -> bool:
        """The library has handed out an event. If the process does not take it, it waits; it returns whether it does."""
        self._count += 1
        if is_of_library(self.waits) or self._takes(event):
            self._told = self._count
            return True
        self._kept.append((self._count, event))
        return False

    def keep(self, event: Event) -> None:
        """Keeps what was taken out of the mailbox since it is older than what the process is told and postpones now."""
        self._kept.append((self._told, event))
        self._count += 1
        self._told = self._count

    def finds(self, waits: Waits) -> bool:
        """The process waits for this now. If something here is of that, the oldest is ready; it returns whether it is."""
        # (a function may choose otherwise than before)
        is_fixed = isinstance(waits, Pick) or not is_function(waits.wants)
        start = self._seen if is_fixed and waits == self._looked else 0
        self.waits = self._looked = waits
        for place in range(start, len(self._kept)):
            if self._takes(self._kept[place][1]):
                self._ready, self._seen = self._kept[place], place
                del self._kept[place]
                return True
        self._seen = len(self._kept)
        return False

    def take(self) -> Optional[Event]:
        """What is ready, which the process is told, or None if nothing is."""
        if self._ready is None:
            return None
        self._told, event = self._ready
        self._ready = None
        return event

    def postpone(self, event: Event) -> None:
        """Puts what the process is told back into its place, where it waits for `retry`."""
        insort(self._postponed, (self._told, event))

    def lose(self) -> bool:
        """Drops the oldest message or request that waits, and returns whether there was one. LOST comes in its place."""
        kept, postponed = first_asked(self._kept), first_asked(self._postponed)
        if kept is not None and (postponed is None or self._kept[kept][0] < self._postponed[postponed][0]):
            self._kept[kept] = self._kept[kept][0], LOST
            self._has_lost, self._seen = True, 0
        elif postponed is not None:
            self._postponed[postponed] = self._postponed[postponed][0], LOST
        return (kept, postponed) != (None, None)

    def takes_lost(self) -> bool:
        """Takes a LOST out, if one waits, and returns whether one did."""
        for place, (age, event) in enumerate(self._kept if self._has_lost else ()):
            if event is LOST:
                self._told = age
                del self._kept[place]
                self._seen = 0
                return True
        self._has_lost = False
        return False

    def retry(self) -> None:
        """All that was postponed may be taken."""
        self._has_lost |= any(event is LOST for _, event in self._postponed)
        self._kept = deque(sorted((*self._kept, *self._postponed), key=lambda it: it[0]))
        self._postponed.clear()
        self._seen = 0

    def forget(self, monitor: Ref) -> None:
        """Drops the news of a monitor that was taken back."""
        self._kept = deque(it for it in self._kept if not is_of(monitor, it[1]))
        self._postponed = [it for it in self._postponed if not is_of(monitor, it[1])]
        self._seen = 0

    def _takes(self, event: Event) -> object:
        """Whether the process waits for this event. (it always takes LOST)"""
        waits = self.waits
        if event is LOST:
            return True
        if isinstance(waits, Pick):
            return self._fits(waits, event)
        if isinstance(event, (Message, Request)):
            return bool(self._wants(waits.wants, event)) != waits.but
        if isinstance(event, Down):
            return waits.downs
        return waits.exits if isinstance(event, Exit) else waits.answers

    def _wants(self, wants: Wants, event: Asked) -> object:
        if not isinstance(wants, (int, type, tuple)):
            return wants(event)
        return any(self._is_of(part, event) for part in (wants if isinstance(wants, tuple) else (wants,)))

    def _is_of(self, part: Union[int, type], event: Asked) -> bool:
        """Whether a message or a request is of a kind or of a type."""
        if isinstance(part, int):
            return self._kind(event.value) == part
        return isinstance(event if part is Message or part is Request else event.value, part)

    def _fits(self, pick: Pick, event: Event) -> bool:
        """Whether a pick takes an event, as the library says of the items in its mailboxes."""
        name, what = pick.name, pick.what
        if name == "kind":
            if isinstance(event, (Message, Request)):
                return letter(self._kind(event.value), MESSAGE if isinstance(event, Message) else REQUEST) == what
            return isinstance(event, Answer) and what == ANSWER
        if name == "from":
            return sender_of(event) == what
        if name == "down-of":
            return isinstance(event, Down) and event.monitor == what
        return name == "any" or name == "exit-of" and isinstance(event, Exit) and event.pid == what
