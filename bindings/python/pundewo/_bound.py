"""How many messages may wait for a process, and what happens if one more comes."""

from __future__ import annotations

import threading
from typing import NamedTuple

from .values import U64, _Checked, number, one_of, unchecked

REFUSE, DROP_OLDEST, CRASH = FULL = ("refuse", "drop-oldest", "crash")

# What is kept in the place of a value that was dropped.
DROPPED = object()


class _Bound(NamedTuple):
    name: str
    most: int


class Bound(_Checked, _Bound):
    """How many messages and requests may wait for a process, and what happens if one more comes: `Behaviour.most_waiting`. Make
    one by `refuse`, `drop_oldest` or `crash`."""

    __slots__ = ()

    def __new__(cls, name: str, most: int) -> Bound:
        return unchecked(cls, (one_of("Bound.name", name, FULL), number("Bound.most", most, 1, U64)))

    @classmethod
    def refuse(cls, most: int) -> Bound:
        """One more is refused: `send` returns False, `try_send` raises InboxFull, and a call ends with `Unanswered`."""
        return cls(REFUSE, number("most", most, 1, U64))

    @classmethod
    def drop_oldest(cls, most: int) -> Bound:
        """The oldest is dropped for one more, and the process gets LOST in its place."""
        return cls(DROP_OLDEST, number("most", most, 1, U64))

    @classmethod
    def crash(cls, most: int) -> Bound:
        """With one more the process crashes, as if its handler had raised an exception."""
        return cls(CRASH, number("most", most, 1, U64))


class Room:
    """What waits for a process with a bound."""

    __slots__ = ("bound", "keys", "_count", "_lock")

    def __init__(self, bound: Bound) -> None:
        self.bound = bound
        # under which the values are kept that are on their way or in the mailbox, the oldest first
        self.keys: dict[int, None] = {}
        # how many wait, with those that other threads have posted
        self._count = 0
        self._lock = threading.Lock()

    def enter(self) -> bool:
        """One more waits. It returns False if that is refused. (on any thread)"""
        with self._lock:
            if self.bound.name == REFUSE and self._count >= self.bound.most:
                return False
            self._count += 1
            return True

    def come_back(self) -> None:
        """One that was taken waits again."""
        with self._lock:
            self._count += 1

    def leave(self) -> None:
        """One of them is taken, or dropped."""
        with self._lock:
            self._count -= 1

    def has_too_many(self) -> bool:
        return self._count > self.bound.most
