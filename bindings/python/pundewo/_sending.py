"""What processes send, what they wait for, and their times."""

from __future__ import annotations

import concurrent.futures
import logging
import threading
from collections import deque
from time import monotonic
from typing import Any, Callable, Deque, Optional

from . import Code, Desk, Fault
from ._behaviour import (
    GO_ON, OVER, Alarm, Answer, Call, CallTimeout, Event, Exit, Message, Request, ServerDown, Unanswered,
)
from ._abi import HEARD_CODES, CCall, CTimer
from ._bound import DROP_OLDEST, DROPPED, Room
from ._crossing import FAILED, answer_key, ask, fault_of, hear, place_of, reply, request_key, send
from ._process import Address, Seat
from ._report import Holder, report
from ._selection import ANSWER, MESSAGE, NEWS, REQUEST, letter
from ._record import Record
from .asking import AskFault, _expire
from .tools import Groups, Timers
from .values import NOPROC, U8, U32, U64, Pid, Ref, of_type, unchecked

Task = Callable[[], object]

# The turn of one who waits for room: True if there is some, False if the run is over, halts, or drains.
Turn = concurrent.futures.Future[bool]

# After how many seconds a handler holds up the run: it is named to those whose time is over, and it is logged.
HOLDS, SLOW = 0.1, 1.0

# What a table of groups is passed as the monitor of a process: the run hears of all exits by itself.
NO_MONITOR = Ref(0, 0)

HEARD_ANSWER, HEARD_DOWN = map(HEARD_CODES.index, ("answer", "server-down"))


def kind_of(number: int) -> int:
    """The kind of a piece of news, by which it can be waited for."""
    return NEWS + number % (U32 - NEWS)


class Sending:
    """What the processes of a run have sent, and nobody has taken yet."""

    def __init__(self, desks: list[Desk]):
        self.desks = desks
        # what is made of each desk and its crew for what is done all the time
        self.ways: list[Any] = []
        self.ring: Task = lambda: None
        self.order = GO_ON
        self.pids: dict[Pid, Seat] = {}
        # the process of each desk in whose name things are sent from outside
        self.porters: list[Address] = []
        # the messages that nobody has taken yet, by the numbers that the table carries
        self.payloads: dict[int, Any] = {}
        # how many were handed out to processes that do not take them now
        self.kept = 0
        # the open calls from outside, and those whose requests were dropped without an answer
        self._outside: set[Call] = set()
        self._dropped: list[Call] = []
        # the monitors of calls that have ended which could not be cancelled
        self.left_open: set[Ref] = set()
        self._number = 0
        # what is to be done later; the timers of those that the library has, and the times of those that it gets once one may be due,
        # in order, as most are cancelled before; and a time before which none is due
        self._alarms: dict[Alarm, Task] = {}
        self._started: dict[Alarm, CTimer] = {}
        self._fresh: dict[Alarm, int] = {}
        self._timers = Timers()
        self.due: Optional[int] = None
        self._inside = False
        # the process whose handler runs, what that is told, and since when; the last one that held up the run, and until when
        self.running: Optional[Seat] = None
        self.event: Optional[Event] = None
        self.since = self._began = monotonic()
        self._held: Optional[tuple[Holder, float]] = None
        # what the desks count, and the time of a handler beyond which it is noted
        self.record, self.mark = Record(len(desks)), 0.0
        # the handler of which was warned, by its beginning
        self._warned = 0.0
        # whether something came since the round began that is no step of a desk
        self.stirs = False
        # what those outside have posted, and nobody has done yet
        self.inbox: Deque[Task] = deque()
        # the processes that have a name
        self.names: dict[str, Address] = {}
        # which process is in which group, and what keeps that from other threads
        self._groups = Groups()
        self._grouping = threading.Lock()
        # nothing new comes in, so that the run comes to its end: whether all was handled, once that is known
        self.drains = False
        self.drained: Optional[bool] = None
        # how many messages may wait, who waits for room, and how many were told that there is some
        self.most: Optional[int] = None
        self.room = threading.Lock()
        self._turns: Deque[Turn] = deque()
        self._told = 0

    def post(self, task: Task) -> None:
        """Has the thread of the run do this, soon."""
        raise NotImplementedError

    # Room for what comes from outside, on any thread

    def waiting(self) -> int:
        """How many messages nobody has taken yet. (with what else those outside want)"""
        return len(self.payloads) + self.kept + len(self.inbox)

    def has_room(self) -> bool:
        return self.most is None or self.waiting() + self._told + len(self._turns) < self.most

    def take_turn(self) -> Turn:
        """What is done when there is room, or the run takes nothing in any more. It is to be left."""
        turn: Turn = concurrent.futures.Future()
        with self.room:
            if self.order == OVER or self.drains:
                turn.set_result(False)
            else:
                self._turns.append(turn)
                self.stirs = True
        # (the room may be there since it was looked for)
        self.ring()
        return turn

    def leave_turn(self, turn: Turn) -> None:
        """The one who waited has sent its message, or does not want to any more."""
        with self.room:
            if turn in self._turns:
                self._turns.remove(turn)
            elif turn.done() and turn.result():
                self._told -= 1
        if self._turns:
            self.ring()

    def tell_room(self, shut: bool = False) -> None:
        """Tells those who wait that there is room, the first one first, or that there will be none."""
        while self._turns:
            with self.room:
                if not self._turns or not shut and self.most is not None and self.waiting() + self._told >= self.most:
                    return
                turn = self._turns.popleft()
                self._told += not shut
                turn.set_result(not shut)

    def carry(self, kind: int, sender: Address, to: Address, value: Event) -> bool:
        """Sends what its receiver is to be told in the name of a process. It returns False, and this is dropped, if the receiver
        is known to have exited."""
        number = self._number = self._number + 1
        self.payloads[number] = value
        try:
            code = send(self.ways[sender._desk], sender._crossing, to._crossing, kind, number)
        except BaseException:
            del self.payloads[number]
            raise
        if code:
            del self.payloads[number]
            if code == Code.NOPROC:
                return False
            desk = self.desks[sender._desk]
            raise fault_of(desk, desk, "send", code, sender.pid, to.pid)
        if not self._inside:
            self.ring()
        return True

    def is_inside(self) -> bool:
        """Whether this is the thread of the run, in a round."""
        raise NotImplementedError

    def is_known(self, pid: Pid) -> bool:
        """Whether a process has not exited, as far as the run has told. (on any thread)"""
        return pid in self.pids

    # Names

    def register(self, name: str, process: Address) -> bool:
        """Gives a process a name; False if a live process has it, or this one has exited."""
        of_type("name", name, str)
        seat = self.pids.get(self.own("process", process).pid)
        if seat is None or self.whereis(name) is not None:
            return False
        self.names[name] = process
        seat.names.append(name)
        return True

    def whereis(self, name: str) -> Optional[Address]:
        process = self.names.get(of_type("name", name, str))
        return process if process is not None and process.is_alive() else None

    def unregister(self, name: str) -> bool:
        process = self.names.pop(of_type("name", name, str), None)
        seat = None if process is None else self.pids.get(process.pid)
        if seat is None:
            return False
        seat.names.remove(name)
        return True

    # Groups, on any thread: which process is in which says the library. (`pids` is read before the table and after it, so that
    # a process that exits meanwhile is in none)

    def join(self, group: int, pid: Pid) -> bool:
        """Adds a process to a group; False if it has exited."""
        with self._grouping:
            seat = self.pids.get(pid)
            if seat is None:
                return False
            self._groups.join(group, pid, NO_MONITOR)
            seat.is_in_groups = True
            if pid not in self.pids:
                self._groups.forget(pid)
                return False
            return True

    def leave(self, group: int, pid: Pid) -> bool:
        with self._grouping:
            return pid in self.pids and self._groups.leave(group, pid) is not None

    def times(self, group: int, pid: Pid) -> int:
        with self._grouping:
            return self._groups.times(group, pid) if pid in self.pids else 0

    def group_len(self, group: int) -> int:
        with self._grouping:
            return 0 if self.order == OVER else self._groups.len(group)

    def members(self, group: int) -> list[Address]:
        with self._grouping:
            pids = [] if self.order == OVER else list(self._groups.members(group))
        return [seat.cx.me for seat in map(self.pids.get, pids) if seat is not None]

    def _leave_groups(self, pid: Pid) -> None:
        """A process has exited."""
        with self._grouping:
            self._groups.forget(pid)

    def _close_groups(self) -> None:
        with self._grouping:
            self._groups.close()

    def is_porter(self, pid: Pid) -> bool:
        return pid.shard < len(self.porters) and self.porters[pid.shard].pid == pid

    def own(self, field: str, address: Address) -> Address:
        """The address, which is one of this run."""
        if of_type(field, address, Address)._engine is not self:
            raise ValueError(f"{field} is {address} of another run, which can only be sent to")
        return address

    def touch(self) -> None:
        """Something was done. If that was outside of a round, there has to be another."""
        if not self._inside:
            self.ring()

    def send(self, sender: Address, to: Address, value: Any) -> bool:
        if to._engine is not self:
            return to.send(value)
        if to._room is not None and not to._room.enter():
            return False
        return self.send_entered(sender, to, value)

    def send_entered(self, sender: Address, to: Address, value: Any) -> bool:
        """Sends what counts as waiting already, if that is counted."""
        sent, room = False, to._room
        try:
            kind = MESSAGE if to._kind is None else letter(to._kind(value), MESSAGE)
            sent = self.carry(kind, sender, to, unchecked(Message, (value, sender.pid)))
        finally:
            if room is not None and not sent:
                room.leave()
        if room is not None and sent:
            room.keys[self._number] = None
            self.look_at(to.pid, room)
        return sent

    def look_at(self, of: Pid, room: Room) -> None:
        """One more waits for a process. If that is too many, the oldest is dropped, or the process crashes."""
        if not room.has_too_many():
            return
        seat = self.pids.get(of)
        if room.bound.name != DROP_OLDEST:
            self.post(lambda: self.overflow(of))
        elif seat is not None and seat.aside is not None and seat.aside.lose():
            self.kept -= 1
            room.leave()
        elif room.keys:
            oldest = next(iter(room.keys))
            del room.keys[oldest]
            self.payloads[oldest] = DROPPED
            room.leave()

    def overflow(self, of: Pid) -> None:
        """More wait for a process than may: it crashes, unless it has exited."""
        raise NotImplementedError

    def news(self, seat: Seat, make: Callable[[Ref], Event]) -> Ref:
        """Tells a process at once what would have come if its target had exited later. The reference is of no desk."""
        reference = Ref(U8, self._number + 1)
        me = seat.cx.me
        self.carry(kind_of(reference.number), me, me, make(reference))
        return reference

    def monitor(self, seat: Seat, target: Pid) -> Optional[Ref]:
        """Monitors a process; None if it is known to have exited."""
        try:
            monitor = self.desks[seat.pid.shard].monitor(seat.pid, target)
            seat.monitors.add(monitor.number)
            return monitor
        except Fault as fault:
            if fault.code == Code.NOPROC:
                return None
            raise
        finally:
            self.touch()

    def link(self, seat: Seat, to: Pid) -> None:
        """Links a process with another. If that is known to have exited, its exit signal comes."""
        desk, me = self.desks[seat.pid.shard], seat.pid
        try:
            desk.link(me, to)
        except Fault as fault:
            if fault.code != Code.NOPROC:
                raise
            if desk.traps(me):
                news = self.news(seat, lambda _: Exit(to, NOPROC, None))
                seat.own_gone().told[news.number] = to
            else:
                desk.exit_signal(self.porters[me.shard].pid, me, NOPROC)
                # (it may trap exits before the signal comes)
                seat.own_gone().signals.append(to)
        finally:
            self.touch()

    def unlink(self, seat: Seat, to: Pid) -> None:
        """Takes a link away. If that process had exited before the link, its exit signal is nothing to this one now."""
        self.desks[seat.pid.shard].unlink(seat.pid, to)
        seat.texts.pop(to, None)
        for number in seat.gone.unlink(to):
            self.payloads.pop(number, None)
        self.touch()

    def demonitor(self, seat: Seat, monitor: Ref) -> None:
        seat.texts.pop(monitor, None)
        if seat.aside is not None:
            seat.aside.forget(monitor)
        if monitor.desk == U8:
            self.payloads.pop(monitor.number, None)
        else:
            self.desks[seat.pid.shard].demonitor(seat.pid, monitor, True)
            seat.monitors.discard(monitor.number)
        self.touch()

    # Calls: that each ends once, and by what, says the library

    def call(self, seat: Seat, to: Address, value: Any, limit: Optional[float], call: Call) -> Call:
        """Asks a process in the name of another. Without a limit its end is the client's own."""
        call.client, call.server, me, room = seat, to.pid, seat.cx.me, to._room
        if room is not None and not room.enter():
            self.news(seat, lambda _: Answer(call, None, Unanswered()))
            return call
        began, until = monotonic(), U64 if limit is None else self._at(limit)
        try:
            kind = REQUEST if to._kind is None else letter(to._kind(value), REQUEST)
            self._ask(call, me, to, kind, until)
        except BaseException as fault:
            if room is not None:
                room.leave()
            if not isinstance(fault, AskFault):
                raise
            if fault.left_open is not None:
                self.left_open.add(fault.left_open)
            if fault.code != Code.NOPROC:
                raise
            self.news(seat, lambda _: Answer(call, None, ServerDown(NOPROC)))
            return call
        seat.calls[call.number] = call
        call.asked_at = self._number = self._number + 1
        request = request_key(me._desk, call.number)
        self.payloads[request] = Request(self, call, seat.pid, value)
        if room is not None:
            room.keys[request] = None
            self.look_at(to.pid, room)
        if limit is not None:
            try:
                call.alarm = self.set_alarm_at(
                    until, lambda: self.tell(call, Answer(call, None, CallTimeout(self.blame(began)))))
            except BaseException:  # what was asked goes to nobody
                del self.payloads[request]
                if room is not None and room.keys.pop(request, self) is None:
                    room.leave()
                self.close(call)
                raise
        self.touch()
        return call

    def _ask(self, call: Call, me: Address, to: Address, kind: int, until: int) -> None:
        """Makes the call of the library."""
        asked = CCall()
        at = place_of(asked)
        code = ask(self.ways[me._desk], at, me._crossing, to._crossing, kind, until)
        if code:
            desk, left_open = self.desks[me._desk], Ref(me._desk, asked.monitor.number) if asked.left_open else None
            fault = fault_of(desk, desk, "ask_until", code, me.pid, to.pid)
            raise AskFault(fault.code, fault.call, fault.pids, left_open) if isinstance(fault, Fault) else fault
        call.asked, call.at, call.number = asked, at, asked.monitor.number

    def answer(self, call: Call, sender: Optional[Address], answer: Answer) -> bool:
        """Sends the client an answer, in the name of the server if no process sends it. Returns False if the client does not
        wait for it any more."""
        if not self._is_awaited(call):
            return False
        if call.asked is None or sender is not None and sender.pid != call.server:
            return self.tell(call, answer, sender)
        assert call.client is not None and call.server is not None
        key = answer_key(call.client.cx.me._desk, call.number)
        call.answered = self._number = self._number + 1
        self.payloads[key] = answer
        code = reply(self.ways[call.server.shard], call.at)
        if code:
            del self.payloads[key]
            # (if the server has exited, there is the news of that)
            if code in (Code.NOPROC, Code.GONE):
                return False
            desk = self.desks[call.server.shard]
            raise fault_of(desk, desk, "reply", code, call.server)
        self.touch()
        return True

    def tell(self, call: Call, answer: Answer, sender: Optional[Address] = None) -> bool:
        """Tells the client of a call by a message how it ends, in the name of another process than the server."""
        seat = call.client
        if seat is None or not self._is_awaited(call):
            return False
        return self.carry(ANSWER, sender or self.porters[seat.pid.shard], seat.cx.me, answer)

    def _is_awaited(self, call: Call) -> bool:
        return call.client is not None and call.is_open and call.client.pid in self.pids and self.order != OVER

    def hear(self, seat: Seat, call: Call, item: Any) -> bool:
        """Whether an item, as it crosses, is the end of an open call, its answer or the exit of its server: then it has ended."""
        assert call.asked is not None
        heard = hear(self.ways[seat.pid.shard], call.at, item)
        if heard >= FAILED:
            desk = self.desks[seat.pid.shard]
            raise fault_of(desk, desk, "hear", heard - FAILED)
        if heard not in (HEARD_ANSWER, HEARD_DOWN):
            return False
        self._ended(seat, call, call.asked)
        return True

    def expire(self, call: Call, now: int) -> bool:
        """Ends a call without its answer, if its deadline is not above this. Returns whether anybody waited for that."""
        seat, asked = call.client, call.asked
        if seat is not None and asked is not None and asked.waits and seat.pid in self.pids and self.order != OVER:
            if not _expire(self.desks[seat.pid.shard], asked, now):
                return False
            self._ended(seat, call, asked)
        return call.is_open

    def close(self, call: Call) -> None:
        """Ends a call: nothing more comes of it."""
        self.expire(call, U64)
        self._quiet(call)
        call.is_open = False
        if call.done is not None and self.order != OVER:
            self._outside.discard(call)

    def _ended(self, seat: Seat, call: Call, asked: CCall) -> None:
        """A call has ended, and its monitor was cancelled, or is left open."""
        number = call.number
        seat.calls.pop(number, None)
        if asked.left_open:
            self.left_open.add(Ref(seat.pid.shard, number))
        if seat.texts:
            seat.texts.pop(Ref(seat.pid.shard, number), None)
        self._quiet(call)

    def _quiet(self, call: Call) -> None:
        """Takes back what was to come at the deadline of a call."""
        if call.alarm is not None:
            self.cancel_alarm(call.alarm)
            call.alarm = None

    def unanswered(self, call: Call) -> None:
        """A request was dropped. Its client is told so after the next step, by which the server may have exited."""
        self._dropped.append(call)

    def _tell_dropped(self, call: Call) -> None:
        # (if its server has exited, there is the news of that)
        if call.server is not None and self.desks[call.server.shard].alive(call.server):
            self.tell(call, Answer(call, None, Unanswered()))

    # Who holds up the run

    def holder(self, least: float) -> Optional[Holder]:
        """The process whose handler has run for so many seconds at least. (another thread may ask: then the process is read
        before the time, which is later if another handler has begun meanwhile)"""
        seat, since = self.running, self.since
        seconds = monotonic() - since
        return None if seat is None or seconds < least else Holder(seat.pid, seat.cx.me.name, seconds)

    def _returned(self, seat: Seat) -> None:
        """A handler has returned, and the next one begins."""
        self.running = self.event = None
        now = monotonic()
        if now - self.since > self.mark:
            self.note_holder(seat, now)
        self.since = now

    def note_holder(self, seat: Seat, now: float) -> None:
        """A handler has returned that ran longer than all before, or held up the run."""
        holder = Holder(seat.pid, seat.cx.me.name, now - self.since)
        self.record.returned(holder)
        self.mark = min(HOLDS, max(self.mark, holder.seconds))
        if holder.seconds <= HOLDS:
            return
        self._held = holder, now
        if holder.seconds > SLOW:
            report(logging.WARNING, holder, "the run was held up by %s")

    def blame(self, began: float) -> Optional[Holder]:
        """Who holds up the run, or did since then, on any thread. A handler that still runs is warned of once."""
        since, holder, held = self.since, self.holder(HOLDS), self._held
        if holder is None:
            return held[0] if held is not None and held[1] > began else None
        if self._warned != since:
            self._warned = since
            report(logging.WARNING, holder, "the run is held up by %s")
        return holder

    # Times

    def now(self) -> int:
        """The time, in millionths of a second since the run was made."""
        return int((monotonic() - self._began) * 1e6)

    def _at(self, limit: float) -> int:
        return self.now() + int(limit * 1e6) + 1

    def set_alarm(self, limit: float, task: Task) -> Alarm:
        return self.set_alarm_at(self._at(limit), task)

    def set_alarm_at(self, at: int, task: Task) -> Alarm:
        """The same at a point in time."""
        alarm = self._number = self._number + 1
        self._alarms[alarm], self._fresh[alarm] = task, at
        if self.due is None or at < self.due:
            self.due, self.stirs = at, True
        self.touch()
        return alarm

    def cancel_alarm(self, alarm: Alarm) -> bool:
        is_pending = self._alarms.pop(alarm, None) is not None
        if is_pending and self._fresh.pop(alarm, None) is None:
            self._timers._cancel(self._started.pop(alarm))
        return is_pending

    def next_alarm(self) -> Optional[int]:
        """The time of the first alarm that is pending. The library has all of them then."""
        # (not one after the other from the front of a dict, which is looked for behind all that were taken)
        for alarm, at in list(self._fresh.items()):
            self._started[alarm] = self._timers._start(at, alarm)
            del self._fresh[alarm]
        return self._timers.next()

    def _go_off(self) -> bool:
        """Does what was to be done by now."""
        some, now = False, self.now()
        while self.due is not None and self.due <= now:
            self.due = self.next_alarm()
            fired = self._timers._pop_due(now)
            if fired is not None:
                some = True
                del self._started[fired.body]
                task = self._alarms.pop(fired.body)
                try:
                    task()
                except Fault:  # no memory, or the clock is at its end: it is done first when the run goes on
                    self.inbox.appendleft(task)
                    raise
                self.due = self.next_alarm()
        return some
