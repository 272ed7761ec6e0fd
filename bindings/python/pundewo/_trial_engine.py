"""What runs the processes of a trial: the engine of a run, one choice at a time."""

from __future__ import annotations

import logging
from collections import deque
from contextlib import contextmanager
from functools import partial
from threading import get_ident
from time import monotonic
from typing import Any, Callable, Deque, Iterator, NamedTuple, Optional, Union

from . import Code, Config, Fault, History
from ._abi import CAnswer, CJob
from ._behaviour import GO_ON, HALTS, STOP, Alarm, Answer, Behaviour, Call, Event, Message, Request
from ._crossing import ITEM, JOB, Job, job_at
from ._engine import EXITED, Engine
from ._process import Address, Seat
from ._report import Holder, text_of
from ._sending import Task
from .asking import letters_out, look_from, next_from
from .values import KILL, U64, Pid, Reason, Ref

# The threads that run a trial now. What its behaviours do is told by the trial alone.
IN_TRIAL: set[int] = set()


class _Quiet(logging.Filter):
    def filter(self, record: logging.LogRecord) -> bool:
        return record.thread not in IN_TRIAL


@contextmanager
def quiet() -> Iterator[None]:
    """Nothing is logged of the run of this thread."""
    log, here = logging.getLogger("pundewo"), get_ident()
    if here in IN_TRIAL:
        yield
        return
    silent = _Quiet()
    log.addFilter(silent)
    IN_TRIAL.add(here)
    try:
        yield
    finally:
        IN_TRIAL.discard(here)
        log.removeFilter(silent)


class Crashed(NamedTuple):
    """A behaviour has raised an exception."""

    pid: Pid
    behaviour: str
    text: str

    def __str__(self) -> str:
        return f"{self.pid}, a {self.behaviour}: {self.text}"


class TrialCrash(Exception):
    """The exception that a schedule has a handler raise."""


# What tells a move of a desk from its others as long as it is not made: the desk, and the lane or the process.
Key = tuple[int, Union[int, Pid]]


class Choice(NamedTuple):
    """What may come next: its word in a schedule, the desk whose move it is, what tells it from others, and what does it."""

    word: str
    desk: Optional[int]
    key: Optional[Key]
    take: Callable[[], None]


class Effect:
    """What a move did, as far as its order with another one may matter."""

    __slots__ = ("own", "lane", "writes", "to", "exits", "spawns", "shares", "is_all", "rested")

    def __init__(self, key: Optional[Key], rested: int = 0):
        # how often all desks have rested before
        self.rested = rested
        self.own, self.lane = (None, None) if key is None else (key[0], key[1] if isinstance(key[1], int) else None)
        # the lanes into which it posted, and the processes of its own desk to which it sent
        self.writes: set[Union[str, Pid, tuple[int, int]]] = set()
        # the desks of the processes to which it sent, a bit for each
        self.to = 0
        self.exits = self.spawns = self.shares = False
        self.is_all = key is None

    def meets(self, other: Effect) -> bool:
        """Whether the order of two moves may matter."""
        if self.is_all or other.is_all or self.shares and other.shares or self.writes & other.writes:
            return True
        if self._changes(other) or other._changes(self):
            return True
        if self.own != other.own:
            return False
        both_take = self.lane is not None and other.lane is not None
        return both_take or (self.exits or self.spawns) and (other.exits or other.spawns)

    def _changes(self, other: Effect) -> bool:
        """Whether this ends a process to which the other may send, or brings something to a lane or a desk where the other
        does, too."""
        assert self.own is not None and other.own is not None
        if self.exits and other.to >> self.own & 1:
            return True
        if self.lane is None:
            return False
        return (self.lane, self.own) in other.writes or self.own == other.own and (other.exits or bool(other.to >> self.own & 1))


class Handed(NamedTuple):
    """What a process is to be told, and has not been told yet."""

    row: CJob
    job: Job
    pid: Pid


def pid_of_row(row: CJob) -> Pid:
    return Pid(row.pid.shard, row.pid.slot, row.pid.version)


class TrialEngine(Engine):
    """The engine of a run, whose time stands still, and which does only what is chosen."""

    _time = rested = 0

    def __init__(self, desks: int, config: Config, patience: float) -> None:
        self.lines: list[str] = []
        # what the move does that is made now, and whether a call is made
        self.effect = Effect(None)
        self._calls = False
        # what the processes of each desk are to be told: whose handler comes next is a choice
        self.handed: list[list[Handed]] = [[] for _ in range(desks)]
        # what the scenario has posted, which comes at any time, in order
        self.outside: Deque[Task] = deque()
        self.crashed: list[Crashed] = []
        super().__init__(desks, config, U64, self._keep, patience)

    def _keep(self, history: History) -> None:
        self.lines.extend(history.lines())

    # The clock

    def now(self) -> int:
        return self._time

    def blame(self, began: float) -> Optional[Holder]:
        return None

    def next_time(self) -> Optional[int]:
        """The time of the next timer, after now."""
        times = [crew.next_time() for crew in self.crews] + [self.next_alarm()]
        return min((at for at in times if at is not None and at > self._time), default=None)

    def advance(self) -> None:
        """Lets time go on until the next timer is due."""
        at = self.next_time()
        assert at is not None
        self._time = at
        self._go_off()

    # What nobody has to choose

    def begin(self, seat: Seat) -> None:
        super().begin(seat)
        self._flush(seat.pid.shard)

    def begin_trial(self) -> None:
        """The scenario is done: what it has posted comes at any time from here on."""
        self.outside.extend(self.inbox)
        self.inbox.clear()
        self.thread = get_ident()
        self.settle()

    def settle(self) -> None:
        """Posts, handles what comes to a desk from its own processes, and finds out who has something to do. None of it is seen
        by a process."""
        self._inside = True
        try:
            busy = True
            while busy:
                busy = self._perform()
                self._tell_order()
                dropped = len(self._dropped)
                for number in range(len(self.desks)):
                    busy |= self._step(number)
                for _ in range(dropped):
                    self._tell_dropped(self._dropped[0])
                    del self._dropped[0]
                busy |= dropped > 0 or bool(self.inbox)
        finally:
            self._inside = False

    def _step(self, number: int) -> bool:
        desk, crew, rows = self.desks[number], self.crews[number], self._rows[number]
        self._note_lanes(number)
        turned, own = desk.turn(0), self._take_own(number)
        self._take_losses(number)
        crew.set_time(self._time)
        count, posted = crew._step(desk, 0, rows)
        if turned.stopped is not None or crew.refused():
            raise Fault(turned.stopped or Code.MEMORY, "turn")
        for place, row in enumerate(JOB.iter_unpack(memoryview(rows).cast("B")[:count * JOB.size])):
            self._hand(number, rows[place], job_at(place, row))
        self._flush(number)
        some = count + turned.posted + posted.posted > 0 or own or self.families > 0 and crew.queued() > 0
        # (what supervisors do is not told)
        self.effect.is_all |= posted.posted > 0 or self.families > 0
        return self._serve_families(number) or some

    def _note_lanes(self, number: int) -> None:
        """Notes the lanes into which the desk posts now."""
        out = letters_out(self.desks[number]) & ~(1 << number)
        while out:
            to = out.bit_length() - 1
            self.effect.writes.add((number, to))
            self.effect.to |= 1 << to
            out &= ~(1 << to)

    def _take_own(self, number: int) -> bool:
        """Handles the letters of a desk to itself: they come in the order in which they were sent."""
        desk, some = self.desks[number], False
        look_from(desk, number)
        while next_from(desk) == number:
            some = True
            if desk.turn(1).stopped is not None:
                raise Fault(Code.MEMORY, "turn")
            look_from(desk, number)
        return some

    def _hand(self, number: int, row: CJob, job: Job) -> None:
        """A process is to be told this. What the run has to do itself, and exits, it does at once."""
        pid = pid_of_row(row)
        if job[0] == EXITED:
            self.effect.exits = self.effect.shares = True
            for handed in [it for it in self.handed[number] if it.pid == pid]:
                self._drop(number, handed)
        if job[0] == EXITED or self.is_porter(pid):
            self._tell(number, job)
        else:
            self.handed[number].append(Handed(CJob.from_buffer_copy(row), (*job[:3], 0), pid))

    def _drop(self, number: int, handed: Handed) -> None:
        """A process is never told this, since it has exited."""
        self.handed[number].remove(handed)
        seat = self.pids.get(handed.pid)
        if handed.job[0] == ITEM and seat is not None:
            event = self._event_of(seat, handed.row.item)
            if seat.room is not None and isinstance(event, (Message, Request)):
                seat.room.leave()

    def _flush(self, number: int) -> None:
        """Tells the crew what those do next who were told something."""
        answers, crew = self._answers[number], self.crews[number]
        while answers:
            taken = crew._answer((CAnswer * len(answers)).from_buffer_copy(b"".join(answers)))
            del answers[:taken + 1]

    def _serve_families(self, number: int) -> bool:
        some = bool(self._early) and self._begin_held(number)
        if self._abroad:
            some |= self._send_children(number)
        if self.asked:
            some |= self._serve(number)
        self._flush(number)
        return some

    # What is chosen

    def choices(self) -> list[Choice]:
        """The next moves of each desk, and the next one of those outside."""
        found: list[Choice] = []
        for number in range(len(self.desks)):
            takes: list[tuple[Union[int, Pid], Callable[[], None]]] = []
            takes += [(lane, partial(self._take_letters, number, lane)) for lane in self._lanes(number)]
            takes += [(handed.pid, partial(self._take_job, number, handed)) for handed in self.handed[number]]
            for place, (what, take) in enumerate(takes):
                found.append(Choice(f"{number}{chr(39) * place}", number, (number, what), take))
        if self.outside:
            found.append(Choice("o", None, None, self._take_outside))
        return found

    def _lanes(self, number: int) -> list[int]:
        """The desks whose letters have come to this one."""
        desk, lanes, start, count = self.desks[number], [], 0, len(self.desks)
        while 1 < count and start < count:
            look_from(desk, start)
            at = next_from(desk)
            if at is None or at < start:
                break
            lanes.append(at)
            start = at + 1
        return lanes

    def _take_letters(self, number: int, lane: int) -> None:
        """Handles the letters of a lane up to the first one by which somebody has something to do."""
        desk, self._inside = self.desks[number], True
        try:
            comes = True
            while comes:
                look_from(desk, lane)
                if desk.turn(1).stopped is not None:
                    raise Fault(Code.MEMORY, "turn")
                look_from(desk, lane)
                comes = not self._step(number) and next_from(desk) == lane
        finally:
            self._inside = False

    def _take_job(self, number: int, handed: Handed) -> None:
        """Runs the handler of a process."""
        self.handed[number].remove(handed)
        self._rows[number][0] = handed.row
        self._inside, self.since = True, monotonic()
        try:
            self._tell(number, handed.job)
        finally:
            self._inside = False
        self._flush(number)

    def _take_outside(self) -> None:
        self.outside.popleft()()

    def take_kill(self, pid: Pid) -> None:
        self.exit_signal(self.porters[pid.shard].pid, pid, KILL)

    def handed_to(self, pid: Pid) -> Optional[Handed]:
        """What a process is to be told."""
        return next((it for it in self.handed[pid.shard] if it.pid == pid), None)

    def take_crash(self, pid: Pid) -> None:
        """The next handler of a process raises an exception as it begins."""
        handed, seat = self.handed_to(pid), self.pids.get(pid)
        assert handed is not None and seat is not None
        self._drop(pid.shard, handed)
        self._crash(seat, TrialCrash("a choice of the schedule"))
        self._flush(pid.shard)

    def ends_drained(self) -> bool:
        """Whether the run was to end once all is handled, which it is now: then it ends."""
        if not self.drains or self.order != GO_ON or not self._is_drained():
            return False
        self.drained = True
        self.end(STOP)
        return True

    def _crash(self, seat: Seat, error: BaseException) -> None:
        if not isinstance(error, (*HALTS, TrialCrash)):
            self.crashed.append(Crashed(seat.pid, seat.cx.me.name, text_of(error)))
        super()._crash(seat, error)

    def events(self) -> int:
        """How many events there were."""
        return sum(desk.event_count() for desk in self.desks)

    def living(self) -> list[tuple[Pid, str]]:
        """The processes that live, each with the name of the type of its behaviour."""
        return [(pid, seat.cx.me.name) for pid, seat in self.pids.items() if not self.is_porter(pid)]

    def end_trial(self, with_history: bool) -> list[str]:
        """Ends the run, and returns its history, if that is wanted."""
        self._inside = False
        if with_history:
            self.finish()
        else:
            self.abandon()
        return self.lines



    # What a move does

    def take(self, choice: Choice) -> Effect:
        """Makes a move, and returns what it did."""
        self.effect = Effect(choice.key, self.rested)
        choice.take()
        self.settle()
        return self.effect

    def _note(self, desk: int, to: Pid) -> None:
        """Something is sent on a desk to a process."""
        self.effect.to |= 1 << to.shard
        if desk == to.shard:
            self.effect.writes.add(to)

    def carry(self, kind: int, sender: Address, to: Address, value: Event) -> bool:
        self._note(sender.pid.shard, to.pid)
        return super().carry(kind, sender, to, value)

    def call(self, seat: Seat, to: Address, value: Any, limit: Optional[float], call: Call) -> Call:
        self._note(seat.pid.shard, to.pid)
        self._calls = True
        try:
            return super().call(seat, to, value, limit, call)
        finally:
            self._calls = False

    def answer(self, call: Call, sender: Optional[Address], answer: Answer) -> bool:
        if call.client is not None and call.server is not None:
            self._note(call.server.shard, call.client.pid)
        return super().answer(call, sender, answer)

    def monitor(self, seat: Seat, target: Pid) -> Optional[Ref]:
        self._note(seat.pid.shard, target)
        return super().monitor(seat, target)

    def link(self, seat: Seat, to: Pid) -> None:
        self._note(seat.pid.shard, to)
        super().link(seat, to)

    def unlink(self, seat: Seat, to: Pid) -> None:
        self._note(seat.pid.shard, to)
        super().unlink(seat, to)

    def exit_signal(self, sender: Pid, to: Pid, reason: Reason) -> None:
        self._note(sender.shard, to)
        super().exit_signal(sender, to, reason)

    def spawn(self, behaviour: Behaviour, desk: int, parent: Optional[Pid] = None, linked: bool = False) -> Address:
        self.effect.spawns = True
        self.effect.is_all |= desk != self.effect.own
        return super().spawn(behaviour, desk, parent, linked)

    def set_alarm_at(self, at: int, task: Task) -> Alarm:
        # (that a call is over is told to its client alone)
        if not self._calls:
            self.effect.writes.add("timers")
        return super().set_alarm_at(at, task)

    def is_known(self, pid: Pid) -> bool:
        self.effect.shares = True
        return super().is_known(pid)

    def register(self, name: str, process: Address) -> bool:
        self.effect.shares = True
        return super().register(name, process)

    def whereis(self, name: str) -> Optional[Address]:
        self.effect.shares = True
        return super().whereis(name)

    def unregister(self, name: str) -> bool:
        self.effect.shares = True
        return super().unregister(name)

    def join(self, group: int, pid: Pid) -> bool:
        self.effect.shares = True
        return super().join(group, pid)

    def leave(self, group: int, pid: Pid) -> bool:
        self.effect.shares = True
        return super().leave(group, pid)

    def times(self, group: int, pid: Pid) -> int:
        self.effect.shares = True
        return super().times(group, pid)

    def group_len(self, group: int) -> int:
        self.effect.shares = True
        return super().group_len(group)

    def members(self, group: int) -> list[Address]:
        self.effect.shares = True
        return super().members(group)
