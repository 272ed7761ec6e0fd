"""Timers, names and groups: what comes back at a time, which process has which name, and which are in which group.

    timers = Timers()
    ring = timers.start(30, 1)
    timers.pop_due(30)          # Fired(timer=ring, body=1)

    names = Names()
    names.register("line_12", line, desk.monitor(keeper, line))
    names.whereis("line_12")    # line

    groups = Groups()
    groups.join(7, line, desk.monitor(keeper, line))
    list(groups.members(7))     # [line]
"""

from __future__ import annotations

import ctypes as c
from itertools import count
from typing import Iterator, NamedTuple, Optional

from . import _fault, _Held
from ._abi import CFired, CHolder, CName, CPid, CRef, CTimer
from ._library import CANCEL_TIMER, START_TIMER, c_pid, c_ref, lib, pid_of, ref_of
from .values import U64, Code, Pid, Ref, number, of_type

__all__ = ["Fired", "Groups", "Holder", "Left", "Names", "Timer", "Timers"]


class Timer(NamedTuple):
    """The name of a timer: when it is due, and the number of timers that were started before it. No other timer of its
    `Timers` has the same."""

    at: int
    number: int


class Fired(NamedTuple):
    """A timer that is due, and the number that it was started with."""

    timer: Timer
    body: int


class Holder(NamedTuple):
    """The process that has a name, and the monitor that it was registered with."""

    pid: Pid
    monitor: Ref


def _fired_of(fired: Optional[CFired]) -> Optional[Fired]:
    return None if fired is None else Fired(Timer(fired.timer.at, fired.timer.number), fired.body)


def _c_timer(field: str, timer: Timer) -> CTimer:
    at, place = of_type(field, timer, Timer)
    return CTimer(number(f"{field}.at", at, 0, U64), number(f"{field}.number", place, 0, U64))


class Timers(_Held):
    """Numbers of the program's own, each due at a time: Erlang's `send_after` and `cancel_timer` without the sending.

    No call reads a clock: the program passes the time, in a unit of its own and in any order. A timer that was started is
    pending, has fired or was cancelled, and the last two are for ever.
    """

    _give_up = "pt_timers_give_up"

    def __init__(self) -> None:
        """Timers, of which none is pending. Fault: MEMORY."""
        super().__init__()
        self._next = c.c_uint64()
        self._next_at = c.byref(self._next)
        self._must(lib.pt_timers_open)

    def start(self, at: int, body: int) -> Timer:
        """Starts a timer that is due at this time, which may have passed already, with this number. Fault: MEMORY; WORN
        after 2**64 - 1 timers."""
        out = self._start(number("at", at, 0, U64), number("body", body, 0, U64))
        return Timer(out.at, out.number)

    def _start(self, at: int, body: int) -> CTimer:
        out = CTimer()
        if not self._lock.acquire(False):
            raise self._busy()
        try:
            code = START_TIMER(self._at, c.c_uint64(at), c.c_uint64(body), c.byref(out))
        finally:
            self._lock.release()
        if code:
            raise _fault(lib.pt_timers_start, (), code)
        return out

    def cancel(self, timer: Timer) -> bool:
        """Cancels a timer, and returns whether it was pending. It never fires then."""
        return self._cancel(_c_timer("timer", timer))

    def _cancel(self, timer: CTimer) -> bool:
        code = self._call(CANCEL_TIMER, timer)
        if code and code != Code.NOTHING:
            raise _fault(lib.pt_timers_cancel, (), code)
        return not code

    def pop_due(self, now: int) -> Optional[Fired]:
        """Fires one timer that is due by `now`: the one with the earliest time, and the one started first among those.
        None if none is due."""
        return _fired_of(self._pop_due(number("now", now, 0, U64)))

    def _pop_due(self, now: int) -> Optional[CFired]:
        return self._find(lib.pt_timers_pop_due, CFired(), now)

    def peek_due(self, now: int) -> Optional[Fired]:
        """The timer that `pop_due` would fire. It stays pending."""
        return _fired_of(self._find(lib.pt_timers_peek_due, CFired(), number("now", now, 0, U64)))

    def next(self) -> Optional[int]:
        """The earliest time of a pending timer, or None if none is pending."""
        code = self._call(lib.pt_timers_next, self._next_at)
        if not code:
            return self._next.value
        if code == Code.NOTHING:
            return None
        raise _fault(lib.pt_timers_next, (), code)

    def get(self, timer: Timer) -> Optional[int]:
        """The number that a pending timer was started with, or None if the timer is not pending."""
        out = self._find(lib.pt_timers_get, c.c_uint64(), _c_timer("timer", timer))
        return None if out is None else out.value

    def __len__(self) -> int:
        return self._give(lib.pt_timers_len, c.c_size_t()).value


def _bytes(field: str, name: str) -> bytes:
    # (a text that is no name is refused by the library, whatever is in it)
    return of_type(field, name, str).encode("utf-8", "surrogatepass")


def _text_of(name: Optional[CName]) -> Optional[str]:
    return None if name is None else bytes(name.letters).rstrip(b"\0").decode("ascii")


class Names(_Held):
    """Which process has which name: Erlang's `register`, `whereis` and `unregister`.

    A name is 1 to 32 ASCII letters, digits and `_`, beginning with a letter. It is of one process, and a process has one
    name at most. Names know no desk: monitor each process that has one, and call `forget` for its DOWN.
    """

    _give_up = "pt_names_give_up"

    def __init__(self) -> None:
        """Names, of which no process has one. Fault: MEMORY."""
        super().__init__()
        self._must(lib.pt_names_open)

    def register(self, name: str, p: Pid, monitor: Ref) -> None:
        """Gives p the name, and keeps the monitor with it. Fault: BAD_NAME; TAKEN if a process has the name; HAS_NAME if p
        has a name; MEMORY."""
        text = _bytes("name", name)
        self._must(lib.pt_names_register, text, len(text), c_pid("p", p), c_ref("monitor", monitor))

    def check(self, name: str, p: Pid) -> None:
        """Fails as `register` would, but for MEMORY, and changes nothing."""
        text = _bytes("name", name)
        self._must(lib.pt_names_check, text, len(text), c_pid("p", p))

    def whereis(self, name: str) -> Optional[Pid]:
        """The process that has the name, or None if no process has it. Fault: BAD_NAME."""
        text = _bytes("name", name)
        out = self._find(lib.pt_names_whereis, CPid(), text, len(text))
        return None if out is None else pid_of(out)

    def unregister(self, name: str) -> Optional[Holder]:
        """Removes a name, and returns who had it, or None if no process has it. Fault: BAD_NAME."""
        text = _bytes("name", name)
        out = self._find(lib.pt_names_unregister, CHolder(), text, len(text))
        return None if out is None else Holder(pid_of(out.pid), ref_of(out.monitor))

    def forget(self, p: Pid) -> Optional[str]:
        """Removes the name of a process that has exited, and returns it, or None if it has none."""
        return _text_of(self._find(lib.pt_names_forget, CName(), c_pid("p", p)))

    def name_of(self, p: Pid) -> Optional[str]:
        """The name of a process, or None if it has none."""
        return _text_of(self._find(lib.pt_names_name_of, CName(), c_pid("p", p)))

    def __len__(self) -> int:
        return self._give(lib.pt_names_len, c.c_size_t()).value


class Left(NamedTuple):
    """That a process has left a group once: the monitor that it had if it is in no group any more, and otherwise None."""

    monitor: Optional[Ref]


class Groups(_Held):
    """Which process is in which group, as Erlang's `pg` keeps it.

    A group is a number to which the program gives a meaning. A process may be in many groups. It may join a group several
    times, and is in it until it has left as often, or has exited. Groups know no desk: monitor each process that is in a group,
    once, and call `forget` for its DOWN.
    """

    _give_up = "pt_groups_give_up"

    def __init__(self) -> None:
        """Groups, in which there is no process. Fault: MEMORY."""
        super().__init__()
        self._must(lib.pt_groups_open)

    def join(self, group: int, p: Pid, monitor: Ref) -> Ref:
        """Adds p to the group, once more if it is there already. It returns the monitor of p: the one that was passed if p was in
        no group, and otherwise the one that it had. Fault: MEMORY; FULL if p is in the group 2**64 - 1 times."""
        where, pid = number("group", group, 0, U64), c_pid("p", p)
        return ref_of(self._give(lib.pt_groups_join, CRef(), where, pid, c_ref("monitor", monitor)))

    def leave(self, group: int, p: Pid) -> Optional[Left]:
        """Takes p out of the group, once. None if it is not there."""
        where, pid, last, out = number("group", group, 0, U64), c_pid("p", p), c.c_bool(), CRef()
        code = self._call(lib.pt_groups_leave, where, pid, c.byref(last), c.byref(out))
        if code == Code.NOTHING:
            return None
        if code:
            raise _fault(lib.pt_groups_leave, (), code)
        return Left(ref_of(out) if last.value else None)

    def forget(self, p: Pid) -> Optional[Ref]:
        """Removes a process that has exited from all its groups, and returns its monitor, or None if it is in no group."""
        return _ref_of(self._find(lib.pt_groups_forget, CRef(), c_pid("p", p)))

    def monitor_of(self, p: Pid) -> Optional[Ref]:
        """The monitor of a process, or None if it is in no group."""
        return _ref_of(self._find(lib.pt_groups_monitor_of, CRef(), c_pid("p", p)))

    def times(self, group: int, p: Pid) -> int:
        """How often p is in the group: 0 if it is not."""
        return self._give(lib.pt_groups_times, c.c_uint64(), number("group", group, 0, U64), c_pid("p", p)).value

    def len(self, group: int) -> int:
        """How many processes are in the group, each counted once."""
        return self._give(lib.pt_groups_len, c.c_size_t(), number("group", group, 0, U64)).value

    def member_at(self, group: int, place: int) -> Optional[Pid]:
        """The member at a place, counted from 0, or None if there is none. The order means nothing, and may change with each call
        that changes the group."""
        where, at = number("group", group, 0, U64), number("place", place, 0, U64)
        out = self._find(lib.pt_groups_member_at, CPid(), where, at)
        return None if out is None else pid_of(out)

    def members(self, group: int) -> Iterator[Pid]:
        """The members of the group, each once."""
        for place in count():
            member = self.member_at(group, place)
            if member is None:
                return
            yield member

    def group_at(self, p: Pid, place: int) -> Optional[int]:
        """The group at a place of those that p is in, counted from 0, or None if there is none."""
        out = self._find(lib.pt_groups_group_at, c.c_uint64(), c_pid("p", p), number("place", place, 0, U64))
        return None if out is None else out.value

    def groups_of(self, p: Pid) -> Iterator[int]:
        """The groups that p is in, each once."""
        for place in count():
            group = self.group_at(p, place)
            if group is None:
                return
            yield group


def _ref_of(out: Optional[CRef]) -> Optional[Ref]:
    return None if out is None else ref_of(out)
