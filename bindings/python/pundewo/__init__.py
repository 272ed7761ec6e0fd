"""The proved process table of Pundewo, for Python.

A node is a set of desks. Each desk has processes, keeps a journal of what happened on it, and belongs to one thread at
a time. `open_node` makes the desks, `Desk.turn` moves letters between them, `gather` brings them together, and
`Gathered.settle` delivers the letters that are left over.

A call checks each argument before it calls the library. A value of a wrong type is a TypeError and a number out of its
range a ValueError, which name the argument: nothing has been called then. A call that fails is a `Fault`, which names
the call and its processes. A desk that another thread is using is a `Busy`.

Most calls may fail with MEMORY, and may be made again then, and with WORN once the clock of the desk is at 2^62. A call
with a target fails with UNKNOWN if the desk does not `know` it.
"""

from __future__ import annotations

import ctypes as c
import itertools
from contextlib import ExitStack, contextmanager
from threading import Lock
from typing import Any, Callable, Iterator, Optional, Sequence, TypeVar, Union

from ._abi import (
    CAccount, CAnswer, CBody, CChild, CChildCounts, CConfig, CEvent, CGaveUp, CHandle, CIds, CItem, CJob, CLeftOver, CLoss,
    CNext, CPid, CRef, CTurned,
)
from ._library import (
    BUILD, SET_TIME, c_body, c_next, c_pick, c_pid, c_reason, c_ref, event_of, ids_of, item_of, job_of, left_over_of, lib, next_of,
    other, own, pid_of, reason_of, ref_of, texts_of,
)
from .supervisors import (
    Child, ChildCounts, ChildSpec, GaveUp, SupervisorSpec, c_child, c_children, c_spec, cause_of, child_of, counts_of,
)
from .values import (
    ANY, EVENTS, ITEMS, JOBS, KILL, KILLED, NEXTS, NOPROC, NORMAL, PICKS, PROCEED, REASONS, RUNNING, SHUTDOWN, SIGNALS, U8,
    U16, U32, U64, Account, Body, Code, Config, Event, Ids, Item, Job, LeftOver, LinkId, Loss, Next, Pick, Pid, Reason, Ref,
    Signal, Turned, flag, number, of_type, shown, unchecked,
)

__version__ = "0.1.0"

# (the structs and the calls are those of this version alone)
if not BUILD.startswith(f"pundewo {__version__}, "):
    raise other(f"is {BUILD}, and this is pundewo {__version__}")

__all__ = [
    "ANY", "BUILD", "EVENTS", "ITEMS", "JOBS", "KILL", "KILLED", "NEXTS", "NOPROC", "NORMAL", "PICKS", "PROCEED", "REASONS",
    "RUNNING", "SHUTDOWN", "SIGNALS", "Account", "Body", "Busy", "Code", "Config", "Crew", "Desk", "Event", "Fault",
    "Gathered", "History", "Ids", "Item", "Job", "LeftOver", "LinkId", "Loss", "Next", "NotGoneOn", "Pick", "Pid", "Quiet",
    "Reason", "Ref", "Signal", "Turned", "Unsettled", "gather", "go_on", "open_node",
]

T = TypeVar("T")
V = TypeVar("V")
H = TypeVar("H", bound="_Held")


class Fault(Exception):
    """A call that failed, with its code. The call has changed nothing, but NOPROC is noted in the journal.

    `call` is the name of the call, and `pids` are the processes that it was given, in order.
    """

    def __init__(self, code: Code, call: str = "", pids: tuple[Pid, ...] = ()):
        self.code = of_type("code", code, Code)
        self.call = of_type("call", call, str)
        self.pids = tuple(of_type(f"pids[{place}]", pid, Pid) for place, pid in enumerate(of_type("pids", pids, tuple)))
        name = self.code.name.lower()
        super().__init__(f"{call}({', '.join(map(str, pids))}): {name}" if call else name)

    def __reduce__(self) -> tuple[Any, ...]:
        return type(self), (self.code, self.call, self.pids)


class Busy(RuntimeError):
    """A desk, or another handle, that another thread is using. The call was not made."""


# The calls of this module by those of the library that they make, where these have other names.
_CALLS = {
    "open": "open_node", "settle": "Gathered.settle", "settle_unlisted": "Gathered.settle_unlisted", "resume": "Quiet.resume",
    "event_at": "events", "next_woken": "woken", "link_count": "links", "link_at": "links",
    "monitor_count": "monitors", "monitor_at": "monitors", "watcher_count": "watchers", "watcher_at": "watchers",
    "peek": "waiting", "loss_at": "next_loss", "loss_item": "next_loss", "quiet_list": "Quiet.pids", "quiet_pid_at": "Quiet.pids",
    "history_at": "History.events", "history_left_at": "History.left_over", "history_count": "History.__len__",
    "crew_len": "Crew.__len__", "crew_open": "Crew", "crew_note_loss": "Crew.next_loss", "crews_go_on": "go_on",
    "ask_until": "ask", "door_open": "way_in", "way_in_take": "WayIn.take", "way_in_len": "WayIn.__len__",
    "timers_open": "Timers", "timers_len": "Timers.__len__", "names_open": "Names", "names_len": "Names.__len__",
    "groups_open": "Groups",
}


def _called(call: Callable[..., int]) -> str:
    """The name of the call of this module that makes this one of the library."""
    name = getattr(call, "__name__", "").removeprefix("pt_")
    where, _, rest = name.partition("_")
    is_of = where in ("crew", "gathered", "quiet", "history", "timers", "names", "groups", "door")
    return _CALLS.get(name) or (f"{where.capitalize()}.{rest}" if is_of else name)


def _fault(call: Callable[..., int], words: Sequence[Any], code: int, kind: type[Fault] = Fault) -> Fault:
    """The fault of a call of the library that returned this code."""
    pids = tuple(pid_of(word) for word in words if isinstance(word, CPid))
    return kind(Code(code), _called(call), pids)


class _Held:
    """A handle of the library, which is given up with this value. A call on an empty one fails as EMPTY."""

    _give_up = "pt_give_up"
    # the `open_node` that the node comes from, if it is one
    _opened: object = None

    def __init__(self) -> None:
        self._handle = CHandle()
        self._at = c.byref(self._handle)
        self._lock = Lock()

    def close(self) -> None:
        """Gives up what there is, and its memory; a second time it does nothing."""
        if getattr(self, "_lock", None) is not None and self._handle.at:
            self._call(getattr(lib, self._give_up))

    __del__ = close

    def __repr__(self) -> str:
        return f"<{self._called()}>" if self._handle.at else f"<{self._called()}, empty>"

    def _called(self) -> str:
        return type(self).__name__

    def __enter__(self: H) -> H:
        return self

    def __exit__(self, *_: object) -> None:
        self.close()

    def _call(self, call: Callable[..., int], *words: Any) -> int:
        """The code that a call returns. The library takes no lock, so a second thread is told here."""
        if not self._lock.acquire(False):
            raise self._busy()
        try:
            return call(self._at, *words)
        finally:
            self._lock.release()

    def _from(self: H, held: _Held) -> H:
        """The same, of the node that the other value has."""
        self._opened = held._opened
        return self

    def _busy(self) -> Busy:
        return Busy(f"{self._called()} is in use by another thread: wait until the call there has returned")

    @contextmanager
    def _held_alone(self) -> Iterator[None]:
        """The handle, kept from all other threads."""
        if not self._lock.acquire(blocking=False):
            raise self._busy()
        try:
            yield
        finally:
            self._lock.release()

    def _must(self, call: Callable[..., int], *words: Any) -> None:
        code = self._call(call, *words)
        if code:
            raise _fault(call, words, code)

    def _give(self, call: Callable[..., int], out: T, *words: Any) -> T:
        """The value that a call passes out, or a Fault."""
        code = self._call(call, *words, c.byref(out))  # type: ignore[arg-type]
        if code:
            raise _fault(call, words, code)
        return out

    def _find(self, call: Callable[..., int], out: T, *words: Any) -> Optional[T]:
        """The same, and None for NOTHING."""
        code = self._call(call, *words, c.byref(out))  # type: ignore[arg-type]
        if not code:
            return out
        if code == Code.NOTHING:
            return None
        raise _fault(call, words, code)

    def _each(self, call: Callable[..., int], kind: type[T], convert: Callable[[T], V], start: int = 0) -> Iterator[V]:
        # (the library writes the whole struct each time)
        out = kind()
        at = c.byref(out)  # type: ignore[arg-type]
        for place in itertools.count(start):
            code = self._call(call, place, at)
            if code == Code.NOTHING:
                return
            if code:
                raise _fault(call, (), code)
            yield convert(out)


class Desk(_Held):
    """A desk of a node. Use it on one thread at a time."""

    def __init__(self, handle: CHandle, node: object, number: int, count: int):
        super().__init__()
        self._handle.at = of_type("handle", handle, CHandle).at
        self._node, self.number, self._count = node, number, count

    def _called(self) -> str:
        return f"Desk {self.number} of {self._count}"

    def spawn(self) -> Pid:
        """Spawns a process without a parent: Erlang's `spawn/1`, called from outside of the desk.

        Fault: WORN, FULL if no slot is free, MEMORY.
        """
        return pid_of(self._give(lib.pt_spawn, CPid()))

    def spawn_child(self, parent: Pid, linked: bool = False) -> Pid:
        """Spawns a child of a process, and links both if `linked` is set: Erlang's `spawn/1` and `spawn_link/1`.

        Fault: GONE if the parent is not alive here, WORN, FULL if no slot is free, MEMORY.
        """
        return pid_of(self._give(lib.pt_spawn_child, CPid(), c_pid("parent", parent), flag("linked", linked)))

    def send(self, sender: Pid, to: Pid, body: Body) -> None:
        """Sends a message: Erlang's `!`. If the receiver is not alive when it arrives, it is lost.

        Fault: GONE if the sender is not alive here, UNKNOWN, NOPROC if the desk sees that the receiver has exited, WORN,
        MEMORY.
        """
        self._must(lib.pt_send, c_pid("sender", sender), c_pid("to", to), c_body("body", body))

    def exit_signal(self, sender: Pid, to: Pid, reason: Reason) -> None:
        """Sends an exit signal that no link carries: Erlang's `exit/2`.

        KILL makes its receiver exit with KILLED, whether it traps exits or not. A receiver that traps exits gets any other
        reason as an item. Any other receiver exits with it, except that NORMAL has this effect only on the sender itself.

        Fault: GONE if the sender is not alive here, UNKNOWN, WORN, MEMORY.
        """
        self._must(lib.pt_exit_signal, c_pid("sender", sender), c_pid("to", to), c_reason("reason", reason))

    def link(self, p: Pid, to: Pid) -> None:
        """Links p with another process: Erlang's `link/1`. Nothing happens if p holds a link with it, or is it.

        If the other is not alive when the link arrives, an exit signal with NOPROC goes back.

        Fault: GONE if p is not alive here, UNKNOWN; if there is a link to make, NOPROC if the desk sees that the other has
        exited, WORN, MEMORY.
        """
        self._must(lib.pt_link, c_pid("p", p), c_pid("to", to))

    def unlink(self, p: Pid, to: Pid) -> None:
        """Removes the link of p with another process: Erlang's `unlink/1`. Nothing happens if there is none.

        Fault: GONE if p is not alive here, UNKNOWN, WORN, MEMORY.
        """
        self._must(lib.pt_unlink, c_pid("p", p), c_pid("to", to))

    def monitor(self, watcher: Pid, target: Pid) -> Ref:
        """Monitors another process, and returns the reference that its one DOWN will have: Erlang's `monitor/2`.

        If the target is not alive when the monitor arrives, a DOWN with NOPROC goes back.

        Fault: GONE if the watcher is not alive here, UNKNOWN, MYSELF if it is the target, NOPROC if the desk sees that the
        target has exited, WORN, MEMORY.
        """
        return ref_of(self._give(lib.pt_monitor, CRef(), c_pid("watcher", watcher), c_pid("target", target)))

    def demonitor(self, watcher: Pid, monitor: Ref, flush: bool = False) -> bool:
        """Cancels a monitor, and returns whether it wrote an event: Erlang's `demonitor/2`. `flush` also removes a DOWN
        that waits.

        Fault: GONE if the watcher is not alive here; if there is an event to write, WORN, MEMORY.
        """
        return self._give(lib.pt_demonitor, c.c_bool(), c_pid("watcher", watcher), c_ref("monitor", monitor),
                          flag("flush", flush)).value

    def ask_alive(self, p: Pid, target: Pid) -> Ref:
        """Asks whether another process is alive, and returns the reference that the answer will have: Erlang's
        `is_process_alive/1`.

        Fault: GONE if p is not alive here, UNKNOWN, WORN, MEMORY.
        """
        return ref_of(self._give(lib.pt_ask_alive, CRef(), c_pid("p", p), c_pid("target", target)))

    def trap(self, p: Pid, on: bool = True) -> bool:
        """Sets whether p traps exits, and returns whether it did before: Erlang's `process_flag(trap_exit, On)`.

        Fault: GONE if p is not alive here, WORN, MEMORY.
        """
        return self._give(lib.pt_trap, c.c_bool(), c_pid("p", p), flag("on", on)).value

    def keep_losses(self, on: bool = True) -> None:
        """Sets whether what this desk loses from now on is kept until `next_loss` tells of it. It is not at first.

        A desk loses what waits in a mailbox as its process exits, and each message that comes to a process that is not
        alive. Each exit is a loss, also if nothing waited: its `items` are empty then. What was not told takes memory. A
        resumed desk goes on as it was set, with all that was not told.
        """
        self._must(lib.pt_keep_losses, flag("on", on))

    def next_loss(self) -> Optional[Loss]:
        """The oldest loss that was not told; None if there is none. Each is told once."""
        out = self._find(lib.pt_loss_at, CLoss(), 0)
        if out is None:
            return None
        items = tuple(item_of(self._give(lib.pt_loss_item, CItem(), 0, place)) for place in range(out.items))
        self._must(lib.pt_next_loss)
        return unchecked(Loss, (pid_of(out.pid), reason_of(out.reason) if out.has_exited else None, items))

    def receive(self, p: Pid, pick: Pick = ANY) -> Optional[Item]:
        """Takes the first item that matches out of the mailbox of p; None if none does: Erlang's `receive .. after 0`.

        Fault: GONE if p is not alive here; if an item matches, WORN, MEMORY.
        """
        out = self._receive(c_pid("p", p), pick)
        return None if out is None else item_of(out)

    def _receive(self, p: CPid, pick: Pick) -> Optional[CItem]:
        return self._find(lib.pt_receive, CItem(), p, c_pick("pick", pick))

    def exit(self, p: Pid, reason: Reason = NORMAL) -> None:
        """Makes p exit with this reason: Erlang's `exit/1`. Its links and monitors fire, and its mailbox is dropped.

        Fault: GONE if p is not alive here, WORN, MEMORY.
        """
        self._must(lib.pt_exit, c_pid("p", p), c_reason("reason", reason))

    def turn(self, budget: int = 64) -> Turned:
        """Posts the letters that wait, and then handles at most `budget` of those that came.

        `Turned.stopped` says why it stopped at a letter, which a later turn handles.
        """
        out = self._give(lib.pt_turn, CTurned(), number("budget", budget, 0, U32))
        return unchecked(Turned, (out.posted, out.handled, Code(out.stopped) if out.stopped else None))

    def clock(self) -> int:
        """The stamp of the newest event, or the start of the clock."""
        return self._give(lib.pt_clock, c.c_uint64()).value

    def alive(self, p: Pid) -> bool:
        """Whether p is alive on this desk."""
        return self._give(lib.pt_alive, c.c_bool(), c_pid("p", p)).value

    def knows(self, p: Pid) -> bool:
        """Whether p may be the target of a call. If it may not, the call fails with UNKNOWN."""
        return self._give(lib.pt_knows, c.c_bool(), c_pid("p", p)).value

    def pending(self) -> int:
        """The number of letters that wait in the outbox and the hold."""
        return self._give(lib.pt_pending, c.c_uint64()).value

    def vacant(self) -> Optional[Pid]:
        """The pid that the next spawn returns, or None if no slot is free."""
        out = self._find(lib.pt_vacant, CPid())
        return None if out is None else pid_of(out)

    def waiting(self, p: Pid) -> Optional[list[Item]]:
        """The items that wait in the mailbox of p, oldest first, or None if p is not alive here."""
        process = c_pid("p", p)
        count = self._find(lib.pt_waiting, c.c_size_t(), process)
        if count is None:
            return None
        return [item_of(self._give(lib.pt_peek, CItem(), process, place)) for place in range(count.value)]

    def _walk(self, p: CPid) -> Iterator[Item]:
        """The same, one by one."""
        place = 0
        while (item := self._find(lib.pt_peek, CItem(), p, place)) is not None:
            yield item_of(item)
            place += 1

    def linked(self, p: Pid, peer: Pid) -> Optional[Ids]:
        """The ids under which p is linked with another process, by p's own half of the link."""
        out = self._find(lib.pt_linked, CIds(), c_pid("p", p), c_pid("peer", peer))
        return None if out is None else ids_of(out)

    def links(self, p: Pid) -> Optional[list[tuple[Pid, Ids]]]:
        """The processes that p is linked with, oldest link first, each with the ids of the link; None if p is not alive
        here. This is p's own half of each."""
        process = c_pid("p", p)
        count = self._find(lib.pt_link_count, c.c_size_t(), process)
        if count is None:
            return None
        links = []
        for place in range(count.value):
            peer = CPid()
            ids = self._give(lib.pt_link_at, CIds(), process, place, c.byref(peer))
            links.append((pid_of(peer), ids_of(ids)))
        return links

    def monitors(self, p: Pid) -> Optional[list[tuple[Ref, Pid]]]:
        """The open monitors of p, oldest first, each with its target; None if p is not alive here."""
        return self._monitors(lib.pt_monitor_count, lib.pt_monitor_at, c_pid("p", p))

    def watchers(self, p: Pid) -> Optional[list[tuple[Ref, Pid]]]:
        """The monitors that others have of p, oldest first, each with its owner; None if p is not alive here."""
        return self._monitors(lib.pt_watcher_count, lib.pt_watcher_at, c_pid("p", p))

    def _monitors(self, count_of: Callable[..., int], at: Callable[..., int], p: CPid) -> Optional[list[tuple[Ref, Pid]]]:
        count = self._find(count_of, c.c_size_t(), p)
        if count is None:
            return None
        monitors = []
        for place in range(count.value):
            monitor = CRef()
            pid = self._give(at, CPid(), p, place, c.byref(monitor))
            monitors.append((ref_of(monitor), pid_of(pid)))
        return monitors

    def traps(self, p: Pid) -> Optional[bool]:
        """Whether p traps exits; None if p is not alive here."""
        out = self._find(lib.pt_traps, c.c_bool(), c_pid("p", p))
        return None if out is None else out.value

    def lives_in(self, slot: int) -> Optional[Pid]:
        """The live process in this slot, or None if there is none. `vacant` names the next slot that is used."""
        out = self._find(lib.pt_lives_in, CPid(), number("slot", slot, 0, U32))
        return None if out is None else pid_of(out)

    def event_count(self) -> int:
        """The number of events of the journal."""
        return self._give(lib.pt_event_count, c.c_size_t()).value

    def events(self, start: int = 0) -> Iterator[Event]:
        """The events of the journal from this place on, oldest first."""
        return self._each(lib.pt_event_at, CEvent, event_of, number("start", start, 0, U64))

    def woken(self, start: int) -> tuple[list[Pid], int]:
        """The processes that got a signal, or exited by their own call, from the event at this place on, and the place
        from which to ask again.

        No process that got an item or exited is missed. A returned one may have got no item: a signal that queues
        nothing, such as a link, names its receiver too.
        """
        at, pids = c.c_size_t(number("start", start, 0, U64)), []
        while (out := self._find(lib.pt_next_woken, CPid(), c.byref(at))) is not None:
            pids.append(pid_of(out))
        return pids, at.value


def _answers_of(answers: Sequence[tuple[Pid, Next]]) -> c.Array[CAnswer]:
    """The answers as they cross."""
    try:
        given = [(pid, does) for pid, does in answers]
    except (TypeError, ValueError):
        raise TypeError(f"answers is {shown(answers)}, and must be a sequence of pairs of Pid and Next") from None
    crossing = [CAnswer(c_pid(f"answers[{place}].pid", pid), c_next(f"answers[{place}].next", does))
                for place, (pid, does) in enumerate(given)]
    return (CAnswer * len(crossing))(*crossing)


class Crew(_Held):
    """The processes of one desk whose handlers are Python's, and their supervisors. Use it, and its desk, on one thread at a
    time.

    A loop is: `step`; for each job its handler, which makes calls of the desk as it likes; and for each job but "exit" an
    answer, then or later. A handler takes no item from the mailbox of a process of the crew by itself. What the handlers
    sent is on its way by the next step, whose turn posts it first.

    A supervisor handles what it gets itself (`pundewo.supervisors`): it is run by the step, and its only job is its "exit".
    A child that it starts may be answered that it is a supervisor, too (`supervise`).

    No wake-up is lost: a process of the crew that has something to do is in the queue, or the next step finds it. If the
    crew `is_idle` and no letter is `pending` on its desk, nothing is to be done before `next_time`, unless another desk
    sends something.

    Each call with a desk raises ValueError if that is not the crew's own.
    """

    _give_up = "pt_crew_give_up"

    def __init__(self, desk: Desk):
        """The crew of this desk, with no process and at the time 0. Fault: MEMORY."""
        super().__init__()
        self._node, self._number = of_type("desk", desk, Desk)._node, desk.number
        self._from(desk)._must(lib.pt_crew_open)

    def _called(self) -> str:
        return f"Crew of desk {self._number}"

    def _own(self, desk: Desk) -> Desk:
        """The desk, which is its own."""
        if of_type("desk", desk, Desk)._node is not self._node or desk.number != self._number:
            raise ValueError(f"desk is {shown(desk)} of a node, and must be that of the crew")
        return desk

    @contextmanager
    def _over(self, desk: Desk) -> Iterator[Any]:
        """The handle of its own desk, for one call."""
        with self._own(desk)._held_alone():
            yield desk._at

    def _call_over(self, desk: Desk, call: Callable[..., int], *words: Any) -> int:
        """The code that a call over its own desk returns. (in less time than by `_over`)"""
        if not self._own(desk)._lock.acquire(False):
            raise desk._busy()
        try:
            return self._call(call, desk._at, *words)
        finally:
            desk._lock.release()

    def _again(self, desk: Desk) -> object:
        """The node of the desk, which is that of its number in a node that was resumed."""
        if of_type("desk", desk, Desk)._opened is not self._opened or desk.number != self._number:
            raise ValueError(f"desk is {shown(desk)} of a node, and must be that of the crew in a node that was resumed")
        return desk._node

    def spawn(self, desk: Desk, tag: int, first: Next = PROCEED) -> Pid:
        """Spawns a process, as `Desk.spawn` does. It is of the crew, with this tag, and does `first` next: if that is
        PROCEED, its first job is "start".

        Fault: WORN, FULL if no slot is free, MEMORY.
        """
        words = number("tag", tag, 0, U64), c_next("first", first)
        with self._over(desk) as at:
            return pid_of(self._give(lib.pt_crew_spawn, CPid(), at, *words))

    def spawn_child(self, desk: Desk, parent: Pid, linked: bool, tag: int, first: Next = PROCEED) -> Pid:
        """The same of a child of a process, as `Desk.spawn_child`. The parent is no supervisor of the crew: a supervisor
        starts its children itself.

        Fault: GONE if the parent is not alive here, WORN, FULL if no slot is free, MEMORY.
        """
        words = c_pid("parent", parent), flag("linked", linked), number("tag", tag, 0, U64), c_next("first", first)
        with self._over(desk) as at:
            return pid_of(self._give(lib.pt_crew_spawn_child, CPid(), at, *words))

    def spawn_supervisor(self, desk: Desk, tag: int, spec: SupervisorSpec, children: Sequence[ChildSpec]) -> Pid:
        """Spawns a supervisor with this tag, which starts its children in the next step, in order.

        Fault: WORN, FULL if no slot is free, MEMORY.
        """
        kids = c_children(children)
        words = number("tag", tag, 0, U64), c_spec("spec", spec), kids, len(kids)
        with self._over(desk) as at:
            return pid_of(self._give(lib.pt_crew_spawn_supervisor, CPid(), at, *words))

    def supervise(self, p: Pid, spec: SupervisorSpec, children: Sequence[ChildSpec]) -> bool:
        """Answers for a running process, as for a child that was told "start", that it is a supervisor. Its own supervisor
        should be its `parent`, with which it exits then. Answer so each time it is started. Returns False, and nothing has
        changed, if p is not running. Fault: MEMORY, and then it is running still."""
        kids = c_children(children)
        words = c_pid("p", p), c_spec("spec", spec), kids, len(kids)
        code = self._call(lib.pt_crew_supervise, *words)
        if code not in (Code.OK, Code.NOT_RUNNING):
            raise _fault(lib.pt_crew_supervise, words, code)
        return code == Code.OK

    def step(self, desk: Desk, budget: int = 64, most: int = 64) -> tuple[list[Job], Turned]:
        """A turn of the desk with this budget; then it reads what is new, wakes whose time has come, and runs the
        processes in the queue, in order, until there are `most` jobs or each was come to once. Returns the jobs, and what
        the turn did.

        No process has two jobs, and a supervisor has one only of its exit. A process that was told anything but "exit" is
        running. If there was no memory or no stamp for a process it stays in the queue, and `refused` is true.
        """
        budget, most = number("budget", budget, 0, U32), number("most", most, 0, U16)
        jobs = (CJob * most)()
        count, turned = self._step(desk, budget, jobs)
        return [job_of(jobs[place]) for place in range(count)], turned

    def _step(self, desk: Desk, budget: int, jobs: c.Array[CJob]) -> tuple[int, Turned]:
        """The same, with the jobs in an array; returns how many there are, and what the turn did."""
        count, out = c.c_size_t(), CTurned()
        code = self._call_over(desk, lib.pt_crew_step, budget, jobs, len(jobs), c.byref(count), c.byref(out))
        if code:
            raise _fault(lib.pt_crew_step, (), code)
        return count.value, unchecked(Turned, (out.posted, out.handled, Code(out.stopped) if out.stopped else None))

    def answer(self, p: Pid, does: Next) -> bool:
        """What a running process does next. Returns False, and nothing has changed, if p is not running."""
        return self._answer((CAnswer * 1)(CAnswer(c_pid("p", p), c_next("does", does)))) == 1

    def answer_all(self, answers: Sequence[tuple[Pid, Next]]) -> int:
        """Takes the answers in order, up to the first of a process that is not running. Returns how many were taken."""
        return self._answer(_answers_of(answers))

    def _answer(self, answers: c.Array[CAnswer]) -> int:
        taken = c.c_size_t()
        code = self._call(lib.pt_crew_answer, answers, len(answers), c.byref(taken))
        if code not in (Code.OK, Code.NOT_RUNNING):
            raise _fault(lib.pt_crew_answer, (), code)
        return taken.value

    def next_loss(self, desk: Desk) -> Optional[Loss]:
        """The oldest loss of the desk that was not told, as `Desk.next_loss` returns it. The crew notes the reason of the
        exit that it tells. So a crew knows each reason if each loss is taken here before the step that tells of the exit:
        a `Desk.turn`, then this for each loss, and then a `step` with the budget 0.
        """
        code = self._call_over(desk, lib.pt_crew_note_loss, 0)
        if code == Code.NOTHING:
            return None
        if code:
            raise _fault(lib.pt_crew_note_loss, (), code)
        return desk.next_loss()

    def set_time(self, now: int) -> None:
        """Says what time it is in the calls that follow, in a unit of your own."""
        self._must(lib.pt_crew_set_time, number("now", now, 0, U64))

    def _set_time(self, now: int) -> None:
        """The same of a number of the run's own."""
        code = self._call(SET_TIME, c.c_uint64(now))
        if code:
            raise _fault(lib.pt_crew_set_time, (), code)

    def begin_again(self, desk: Desk) -> None:
        """Goes on over the desk of the same number in the node that was resumed. Each process is in the queue, supervisors
        too, and does next what it was to do. Each exit has to be told before the node is gathered, as it is where the crew
        is idle: `go_on` does not ask for that. Fault: MEMORY, and then it may be called again."""
        node = self._again(desk)
        self._must(lib.pt_crew_begin_again)
        self._node = node

    def go_on(self, desk: Desk, history: History) -> None:
        """Goes on over the desk of the same number in the node that was resumed, with the history of the node before:
        `gather`, `Gathered.settle_unlisted`, `Quiet.history`, `Quiet.resume`, and this for the crew of each desk. The
        reason of each exit in the history is told once the exit is. The function `go_on` does all of that in one call."""
        node = self._again(desk)
        with of_type("history", history, History)._held_alone():
            self._must(lib.pt_crew_go_on, history._at)
        self._node = node

    def next_time(self) -> Optional[int]:
        """The earliest time until which a process waits that is not in the queue, or None."""
        out = self._find(lib.pt_crew_next_time, c.c_uint64())
        return None if out is None else out.value

    def tag(self, p: Pid) -> Optional[int]:
        """The tag of p, or None if it is none of the crew."""
        out = self._find(lib.pt_crew_tag, c.c_uint64(), c_pid("p", p))
        return None if out is None else out.value

    def next(self, p: Pid) -> Optional[Next]:
        """What p does next, or None if it is none of the crew."""
        out = self._find(lib.pt_crew_next, CNext(), c_pid("p", p))
        return None if out is None else next_of(out)

    def children(self, p: Pid) -> Optional[list[Child]]:
        """The children of a supervisor in their places, or None if p is no supervisor of the crew."""
        who = c_pid("p", p)
        count = self._find(lib.pt_crew_children, c.c_size_t(), who)
        if count is None:
            return None
        return [child_of(self._give(lib.pt_crew_child, CChild(), who, place)) for place in range(count.value)]

    def child(self, p: Pid, place: int) -> Optional[Child]:
        """The child in a place of a supervisor, or None if p is no supervisor of the crew, or has fewer children."""
        out = self._find(lib.pt_crew_child, CChild(), c_pid("p", p), number("place", place, 0, U64))
        return None if out is None else child_of(out)

    def start_child(self, p: Pid, child: ChildSpec) -> int:
        """Asks a supervisor for one more child, behind the others, and returns its place: Erlang's start_child. Its tag is
        also what the calls below know it by. The supervisor is in the queue then, and the next step starts the child. If it
        ends another child just now, it starts this one once that has exited.

        Fault: NOTHING if p is no supervisor of the crew; CHILD_RUNNING or CHILD_PRESENT if it has a child with this tag,
        which is running or not; MEMORY.
        """
        return self._give(lib.pt_crew_start_child, c.c_size_t(), c_pid("p", p), c_child("child", child)).value

    def terminate_child(self, p: Pid, tag: int) -> None:
        """Asks a supervisor to end the child with this tag, as its `shutdown` says: Erlang's terminate_child. The next step
        tells it to exit. The child keeps its place, and is not started again unless `restart_child` asks for it, or a
        strategy names it. Fault: NOTHING if p is no supervisor of the crew, or has no such child."""
        self._must(lib.pt_crew_terminate_child, c_pid("p", p), number("tag", tag, 0, U64))

    def restart_child(self, p: Pid, tag: int) -> None:
        """Asks a supervisor to start the child with this tag, which it ended or which is done: Erlang's restart_child. The
        next step starts it. Fault: NOTHING if p is no supervisor of the crew, or has no such child; CHILD_RUNNING;
        CHILD_RESTARTING if it is to be started already."""
        self._must(lib.pt_crew_restart_child, c_pid("p", p), number("tag", tag, 0, U64))

    def child_to_start(self, p: Pid) -> Optional[int]:
        """Asks a supervisor for the child that it wants started on another desk, and returns its tag; or None if it wants
        none, or told of it before, or p is no supervisor of the crew. A supervisor comes to a child with `elsewhere` in its
        turn. It then starts and ends no other child, and does not exit, until `child_started` or `child_not_started`
        answers. So ask each supervisor that has such children after each step."""
        out = self._find(lib.pt_crew_child_to_start, c.c_uint64(), c_pid("p", p))
        return None if out is None else int(out.value)

    def child_started(self, p: Pid, tag: int, pid: Pid) -> None:
        """Tells a supervisor that the program has started the child with this tag on another desk, as this process. The
        next step links the two. If the process has exited by then, or is of the crew's desk, or is a child of it already,
        the child was not started. Fault: NOTHING if p is no supervisor of the crew, or does not wait for this child: then
        the program ends the process."""
        self._must(lib.pt_crew_child_started, c_pid("p", p), number("tag", tag, 0, U64), c_pid("pid", pid))

    def child_not_started(self, p: Pid, tag: int) -> None:
        """Tells a supervisor that the program has not started the child with this tag on another desk. It gives up if that was
        the first start of the child. A start after an exit counts as a restart, and it asks again. A child that `start_child`
        or `restart_child` asked for is not wanted any more. Fault: NOTHING as of `child_started`."""
        self._must(lib.pt_crew_child_not_started, c_pid("p", p), number("tag", tag, 0, U64))

    def delete_child(self, p: Pid, tag: int) -> int:
        """Has a supervisor forget the child with this tag, which it ended or which is done, and returns the place that it
        had: Erlang's delete_child. Those behind it move up. Fault: NOTHING if p is no supervisor of the crew, or has no such
        child; CHILD_RUNNING; CHILD_RESTARTING."""
        return self._give(lib.pt_crew_delete_child, c.c_size_t(), c_pid("p", p), number("tag", tag, 0, U64)).value

    def count_children(self, p: Pid) -> Optional[ChildCounts]:
        """How many children a supervisor has, or None if p is no supervisor of the crew."""
        out = self._find(lib.pt_crew_count_children, CChildCounts(), c_pid("p", p))
        return None if out is None else counts_of(out)

    def gave_up(self, p: Pid) -> Optional[GaveUp]:
        """Why a supervisor gave up, or None if it has not, or if p is no supervisor of the crew. It then ends its children and
        exits with SHUTDOWN. Once its exit is told it is none of the crew."""
        out = self._find(lib.pt_crew_gave_up, CGaveUp(), c_pid("p", p))
        return None if out is None else cause_of(out)

    def __len__(self) -> int:
        return self._give(lib.pt_crew_len, c.c_size_t()).value

    def queued(self) -> int:
        """How many processes may have something to do."""
        return self._give(lib.pt_crew_queued, c.c_size_t()).value

    def is_idle(self, desk: Desk) -> bool:
        """Whether no process is in the queue, and all that happened on the desk was read."""
        with self._over(desk) as at:
            return self._give(lib.pt_crew_is_idle, c.c_bool(), at).value

    def refused(self) -> bool:
        """Whether a process was refused memory or a stamp in the last step."""
        return self._give(lib.pt_crew_refused, c.c_bool()).value


class History(_Held):
    """The events of all desks of a node in one legal order, and the letters that are on their way at its end."""

    _give_up = "pt_history_give_up"

    def __len__(self) -> int:
        return self._give(lib.pt_history_count, c.c_size_t()).value

    def __iter__(self) -> Iterator[Event]:
        return self.events()

    def events(self) -> Iterator[Event]:
        """The events, the first one first."""
        return self._each(lib.pt_history_at, CEvent, event_of)

    def lines(self) -> Iterator[str]:
        """The text of each event, as `str` returns it, in less time."""
        events = (CEvent * 256)()
        pointers = [c.byref(event) for event in events]
        for start in itertools.count(0, len(pointers)):
            count = self._read(start, pointers)
            yield from texts_of(events, count)
            if count < len(pointers):
                return

    def _read(self, start: int, pointers: list[Any]) -> int:
        """Reads the events from this place on to where these point, and returns how many there were."""
        with self._held_alone():
            for count, pointer in enumerate(pointers):
                code = lib.pt_history_at(self._at, start + count, pointer)
                if code == Code.NOTHING:
                    return count
                if code:
                    raise _fault(lib.pt_history_at, (), code)
        return len(pointers)

    def left_over(self) -> Iterator[LeftOver]:
        """The letters left over, by sending desk, then by receiving desk."""
        return self._each(lib.pt_history_left_at, CLeftOver, left_over_of)


def _history(held: _Held, call: Callable[..., int]) -> History:
    history = History()
    held._must(call, history._at)
    return history


class Unsettled(Fault):
    """A node that was not settled: it has what was handled so far, and may be settled again."""


class Gathered(_Held):
    """The desks of a node at rest, and the letters left over."""

    _give_up = "pt_gathered_give_up"

    def desks(self) -> int:
        """How many desks the node has."""
        return self._give(lib.pt_gathered_desks, c.c_uint8()).value

    def history(self) -> History:
        """The events of all desks in one legal order, and the letters left over."""
        return _history(self, lib.pt_gathered_history)

    def settle(self) -> Quiet:
        """Delivers the letters left over; this value is empty afterwards. The settled node has the list of its pids.

        Unsettled: WORN if a clock is at its limit, MEMORY. The node has what was handled so far, and may be settled again.
        """
        quiet = Quiet()._from(self)
        code = self._call(lib.pt_settle, quiet._at)
        if code:
            raise _fault(lib.pt_settle, (), code, Unsettled)
        return quiet

    def settle_unlisted(self) -> Quiet:
        """The same without the list of all pids that ever were: a pause then costs what happened since the last one.
        `Quiet.pids` makes the list if it is asked for."""
        quiet = Quiet()._from(self)
        code = self._call(lib.pt_settle_unlisted, quiet._at)
        if code:
            raise _fault(lib.pt_settle_unlisted, (), code, Unsettled)
        return quiet


class Quiet(_Held):
    """A node in which no letter is left over, and what became of its processes."""

    _give_up = "pt_quiet_give_up"

    def history(self) -> History:
        """The events of all desks in one legal order."""
        return _history(self, lib.pt_quiet_history)

    def desks(self) -> int:
        """How many desks the node has."""
        return self._give(lib.pt_quiet_desks, c.c_uint8()).value

    def resume(self) -> list[Desk]:
        """Resumes the node: returns its desks, in order, with empty journals. This value is empty afterwards.

        A live process keeps its links, monitors, flag and waiting items. An exited one stays exited. Clocks and
        versions continue. Take the history before, if you want to keep it. Without memory nothing has changed.
        """
        handles = (CHandle * self.desks())()
        self._must(lib.pt_resume, handles, len(handles))
        return _desks_of(handles, self._opened)

    def handled(self) -> int:
        """How many letters settling handled."""
        return self._give(lib.pt_quiet_handled, c.c_uint64()).value

    def pids(self) -> Iterator[Pid]:
        """The pids of all processes that were ever spawned, by shard, slot and version.

        The list of them is made if the node has none (`Gathered.settle_unlisted`). Fault: MEMORY, and the node is as it was.
        """
        self._must(lib.pt_quiet_list)
        return self._each(lib.pt_quiet_pid_at, CPid, pid_of)

    def account(self, p: Pid) -> Optional[Account]:
        """What became of p, or None if it was never spawned."""
        out = self._find(lib.pt_quiet_account, CAccount(), c_pid("p", p))
        if out is None:
            return None
        ended = reason_of(out.ended) if out.has_ended else None
        return unchecked(Account, (ended, out.arrived, out.taken, out.waiting))

    def linked(self, p: Pid, peer: Pid) -> Optional[Ids]:
        """The ids under which p is linked with another process, or was just after its own end."""
        out = self._find(lib.pt_quiet_linked, CIds(), c_pid("p", p), c_pid("peer", peer))
        return None if out is None else ids_of(out)

    def kept(self, target: Pid, monitor: Ref) -> bool:
        """Whether a process keeps a watch of this reference, or did just after its own end."""
        return self._give(lib.pt_quiet_kept, c.c_bool(), c_pid("target", target), c_ref("monitor", monitor)).value

    def watching(self, watcher: Pid, monitor: Ref) -> bool:
        """Whether a process's monitor of this reference is open."""
        return self._give(lib.pt_quiet_watching, c.c_bool(), c_pid("watcher", watcher),
                          c_ref("monitor", monitor)).value


def _desks_of(handles: c.Array[CHandle], opened: object) -> list[Desk]:
    """The desks of a new node, each with one of these handles."""
    node = object()
    desks = [Desk(handle, node, number, len(handles)) for number, handle in enumerate(handles)]
    for desk in desks:
        desk._opened = opened
    return desks


def open_node(count: int = 1, config: Config = Config()) -> list[Desk]:
    """Opens a node: its desks, in order, on which nothing has happened. A count or a setting out of the table's own
    range is a Fault, as BAD_DESKS or BAD_SLOTS; a count that no desk's number can have is a ValueError."""
    count = number("count", count, 0, U8)
    settings = CConfig(*own("config", config, Config))
    handles = (CHandle * count)()
    code = lib.pt_open(handles, count, settings)
    if code:
        raise _fault(lib.pt_open, (), code)
    return _desks_of(handles, object())


def _all_of(name: str, values: Sequence[H], kind: type[H]) -> list[H]:
    """The values, each of this type."""
    try:
        given = iter(values)
    except TypeError:
        raise TypeError(f"{name} is {shown(values)}, and must be a sequence of type {kind.__name__}") from None
    return [of_type(f"{name}[{place}]", value, kind) for place, value in enumerate(given)]


def _whole(name: str, desks: Sequence[Desk]) -> list[Desk]:
    """The desks, if they are all desks of one node in order."""
    desks = _all_of(name, desks, Desk)
    whole = bool(desks) and len(desks) == desks[0]._count and all(
        desk._node is desks[0]._node and desk.number == number for number, desk in enumerate(desks))
    if not whole:
        raise ValueError("desks are not all desks of one node in order")
    return desks


def gather(desks: Sequence[Desk]) -> Gathered:
    """Brings all desks of one `open_node` or one `Quiet.resume` together, each once and in order; they are empty then.

    Raises ValueError if they are not that, Busy if another thread is using one, and Fault without memory. The desks are
    as they were then.
    """
    desks = _whole("desks", desks)
    gathered = Gathered()._from(desks[0])
    with ExitStack() as locks:
        for desk in desks:
            locks.enter_context(desk._held_alone())
        handles = (CHandle * len(desks))(*(desk._handle for desk in desks))
        code = lib.pt_gather(handles, len(desks), gathered._at)
        for desk, handle in zip(desks, handles):
            desk._handle.at = handle.at
    if code:
        raise _fault(lib.pt_gather, (), code)
    return gathered


class NotGoneOn(Fault):
    """A node that has not gone on. Nothing is lost: `go_on` with its `node` and the same crews does the rest."""

    # the desks, or the gathered or the settled node, with what was done
    node: Union[list[Desk], Gathered, Quiet]


def _crews_of(crews: Sequence[Crew], node: Union[list[Desk], Gathered, Quiet]) -> list[Crew]:
    """The crews, if they are those of the desks of the node, in order."""
    crews = _all_of("crews", crews, Crew)
    count = len(node) if isinstance(node, list) else node.desks()
    opened = node[0]._opened if isinstance(node, list) else node._opened
    fit = len(crews) == count and all(
        crew._number == number and crew._opened is opened and (not isinstance(node, list) or crew._node is node[0]._node)
        for number, crew in enumerate(crews))
    if not fit:
        raise ValueError("crews are not those of all desks of the node in order")
    return crews


def go_on(node: Union[Sequence[Desk], Gathered, Quiet], crews: Sequence[Crew]) -> tuple[list[Desk], History]:
    """Goes on with a whole node, at any time between two steps: gathers its desks, settles it, takes its history, and
    resumes it. Each crew goes on over the desk of its number, as by `Crew.go_on`. Returns the desks, with empty journals, and
    what happened since they had empty journals last. What was passed as `node` is empty then.

    Each process of the crews does next what it was to do, and running ones may be answered as before. Each is in the queue,
    supervisors too, so that the next steps find what it got, such as the exit of a supervisor's child. They tell of each
    exit that was not told, with its reason: also if it exited in settling, and a loss told the reason (`Crew.next_loss`).
    What the desks lost and keep, they keep.

    Raises ValueError if these are not all desks of one node and their crews, in order, and Busy if another thread is using
    one: nothing has changed then. NotGoneOn: MEMORY, or WORN if a clock is at its limit. It has the node, with what was
    done, and the crews are as they were.
    """
    if not isinstance(node, (Gathered, Quiet)):
        node = _whole("node", node)
    crews = _crews_of(crews, node)
    held: list[_Held] = [*node] if isinstance(node, list) else [node]
    gathered, settled, history = Gathered()._from(held[0]), Quiet()._from(held[0]), History()
    alone: list[_Held] = [*held, *crews]
    with ExitStack() as locks:
        for it in alone:
            locks.enter_context(it._held_alone())
        desks = (CHandle * len(crews))(*(it._handle for it in held if isinstance(it, Desk)))
        given = (CHandle * len(crews))(*(crew._handle for crew in crews))
        if not isinstance(node, list):
            (gathered if isinstance(node, Gathered) else settled)._handle.at = node._handle.at
        code = lib.pt_crews_go_on(given, len(crews), desks, len(crews), gathered._at, settled._at, history._at)
        for it in held:
            it._handle.at = None
        for crew, handle in zip(crews, given):
            crew._handle.at = handle.at
        if code and isinstance(node, list):
            for desk, handle in zip(node, desks):
                desk._handle.at = handle.at
    if code:
        fault = _fault(lib.pt_crews_go_on, (), code, NotGoneOn)
        assert isinstance(fault, NotGoneOn)
        fault.node = gathered if gathered._handle.at else settled if settled._handle.at else node
        raise fault
    resumed = _desks_of(desks, held[0]._opened)
    for crew, desk in zip(crews, resumed):
        crew._node = desk._node
    return resumed, history
