"""What runs the processes of all desks on one thread."""

from __future__ import annotations

import logging
from functools import partial
from threading import get_ident
from time import monotonic
from typing import Any, Callable, Optional, Union

from . import Code, Config, Desk, Fault, Gathered, History, NotGoneOn, Quiet, go_on, open_node
from ._archive import Sink
from ._behaviour import (
    CRASH, GO_ON, HALTS, KILLS, LOST, OVER, PROCEED, STOP, TIMEOUT, Answer, Behaviour, Call, CallFault, CallTimeout, Down, Event, Exit,
    Message, Next, Request, RunOver, ServerDown, behaviour_of,
)
from ._aside import Aside, older
from ._bound import DROPPED, Room
from ._abi import CItem, CJob, CPid
from ._births import Births
from ._crossing import FAILED, Game, Job, answer, answer_key, fault_of, item_at, number_of, place_of, play, request_key, step, take_loss, way, words_of
from ._family import Supervising
from ._library import pid_of, reason_from, reason_of, ref_of
from ._process import WAITS, Address, Family, Porter, Seat, bytes_of, stops
from ._sending import Task, kind_of
from ._report import Crash, report, text_of
from ._selection import ANSWER, Waits
from ._supervisor import Supervisor
from ._tap import Tap
from .values import ANY, ITEMS, JOBS, KILL, NOPROC, SHUTDOWN, U8, U64, Body, Item, Pick, Pid, Reason, Ref, unchecked

log = logging.getLogger("pundewo")

# How many jobs a step has at most.
MOST = 256
# After how many steps it is asked what was lost and whether memory was missing, if there is something to do all the time. It is
# asked before the run rests, and as an exit is told.
SELDOM = 64
# After how many steps a round has no more, and after how many seconds, while they have something to do and nothing else is to be
# done.
MANY, BRIEF = 1024, 0.001

START, ITEM, TIMES_OUT, EXITED = map(JOBS.index, ("start", "item", "timeout", "exit"))
USER, EXIT, DOWN = map(ITEMS.index, ("user", "exit", "down"))
PROCEEDS = bytes_of("proceed")
ANYTHING = Next.wait()


class Engine(Supervising):
    """All processes of a run. Only `post`, `ask` and reading are for other threads."""

    def __init__(self, desks: int, config: Config, every: int, sink: Optional[Sink], patience: float):
        super().__init__(open_node(desks, config))
        for desk in self.desks:
            desk.keep_losses()
        self.every, self.sink, self.patience = every, sink, patience
        # the thread that runs the processes, once there is one; whether it stopped at an exception
        self.thread: Optional[int] = None
        self.halted = False
        # what each desk's processes are told in this round: as the library wrote it, and what was read of that
        self._rows = [(CJob * MOST)() for _ in self.desks]
        self._jobs: list[list[Job]] = [[] for _ in self.desks]
        self.cross()
        self._untold = self.goes_on = False
        # up to when a round makes steps
        self._until = 0.0
        # whether a process may wait until a time: else the crews need not be told what time it is
        self._timed = False
        # of each desk the exits that its losses have told since its last step, which its crew may not know
        self._exits: list[dict[Pid, Reason]] = [{} for _ in self.desks]
        # how many steps there were, and after how many what is to be looked at seldom is looked at next
        self._steps = self._look_at = 0
        # what each desk and what all have told, and after how much that was sent and told the journals are looked at next
        self._handed_out = self.record.told
        self._full_at = 0
        # at which step each desk was asked last what it had lost
        self._asked_at = [0] * desks
        # the place of the job of the handler that runs now, among those of its desk
        self._place = 0
        # the node, if going on stopped within; the history of the last epoch, if nobody has it yet
        self._node: Union[None, list[Desk], Gathered, Quiet] = None
        self._history: Optional[History] = None
        self.crashes = self.epochs = self.archived = 0
        # who gets the events as they come
        self.taps: list[Tap] = []
        self.killed: list[Pid] = []
        # its processes by birth, but for the porters
        self.births = Births(desks)
        for number in range(desks):
            self.porters.append(self.spawn(Porter(), number))
        self.spawned = 0
        self.births = Births(desks)

    # What those outside want

    def post(self, task: Task) -> None:
        """Has the thread of the run do this, soon. If the run is over, it is done here, and finds that."""
        self.inbox.append(task)
        self.stirs = True
        if self.order == OVER:
            self._perform()
        else:
            self.ring()

    def is_here(self) -> bool:
        """Whether this is the thread of the run."""
        return self.thread == get_ident()

    def is_inside(self) -> bool:
        return self._inside and self.thread == get_ident()

    def is_between(self) -> bool:
        """Whether this is the thread of the run, which is in no round, and nothing that came before is to be done first."""
        return not self._inside and not self.inbox and self.thread == get_ident()

    def send_from_outside(self, to: Address, value: Any, is_entered: bool = False) -> bool:
        """Sends in the name of those outside. It may count as waiting already."""
        if self.order == OVER:
            return False
        send = self.send_entered if is_entered else self.send
        return send(self.porters[to.pid.shard if to._engine is self else 0], to, value)

    def ask(self, to: Address, value: Any, done: Callable[[Answer], None]) -> Call:
        """A call from outside. Whoever makes it waits as long as it likes, and then takes `give_up`."""
        call = Call(done)
        if self.halted or self.drains:
            self._resolve(Answer(call, None, RunOver()))
        else:
            self._outside.add(call)
            self.post(lambda: self._begin_ask(call, to, value))
            # (it may have halted since it was asked whether it has)
            if self.halted:
                self._refuse(call)
        return call

    def _refuse(self, call: Call) -> None:
        """The run halts, and who has made this call from outside is told so, once. (on any thread)"""
        with self.room:
            is_open, call.is_open = call.is_open, False
        if is_open:
            self._resolve(Answer(call, None, RunOver()))

    def give_up(self, call: Call) -> None:
        """A call from outside has ended without its answer: from now on an answer is refused, as one that comes too late."""
        call.is_open = False
        self.post(lambda: self.close(call))

    def _begin_ask(self, call: Call, to: Address, value: Any) -> None:
        # (also a call that was given up: what was asked is asked, in order)
        if self.order == OVER:
            self._resolve(Answer(call, None, RunOver()))
        else:
            self._outside.add(call)
            if self.is_served(to.pid):
                call.client, call.server = self.pids[self.porters[to.pid.shard].pid], to.pid
                self.serve(Request(self, call, self.porters[to.pid.shard].pid, value), call)
                return
            try:
                self.call(self.pids[self.porters[to.pid.shard].pid], to, value, None, call)
            except Fault as fault:
                self._resolve(Answer(call, None, CallFault(f"the server was not asked: {fault}")))

    def _resolve(self, answer: Answer) -> None:
        """Tells the one outside who has made the call."""
        call = answer.call
        call.is_open = False
        self._outside.discard(call)
        if call.done is not None:
            call.done(answer)

    def drain(self, limit: float) -> None:
        """Takes nothing new in, and ends the run when all that waits is handled, or the time is over."""
        if self.order != GO_ON or self.drains:
            return
        self.drains = True
        self.tell_room(True)

        def late() -> None:
            if self.order == GO_ON:
                self.drained = False
                self.end(STOP)

        self.set_alarm(limit, late)

    def end_epoch(self) -> None:
        """Goes on at the end of this round."""
        self.goes_on = self.stirs = True

    def _is_drained(self) -> bool:
        """Whether all that waits is handled, after a round in which nothing was to be done, and no call is open."""
        return not self.inbox and not self._outside and not any(seat.calls for seat in self.seats.values())

    def halt(self) -> None:
        """The run stops at an exception, and those outside who wait for an answer are told so. It may go on."""
        self.halted = True
        for call in list(self._outside):
            self._refuse(call)
            # (what was asked is asked all the same if the run goes on, and nothing comes of it)
            self.inbox.append(partial(self.close, call))
        self.tell_room(True)

    def end(self, order: int) -> None:
        """Has all processes exit, or be killed, now and from now on."""
        if order > self.order:
            self.order, self._untold, self.stirs = order, True, True
            if order == STOP:
                self.set_alarm(self.patience, lambda: self.end(KILLS))

    # A round

    def round(self) -> bool:
        """Does what is to be done now, and returns whether anything was."""
        self._inside, self.stirs = True, False
        try:
            if self._node is not None:
                self._go_on()
            self._hand_out()
            busy = self._perform() | (self.due is not None and self._go_off())
            self._tell_order()
            dropped = len(self._dropped)
            busy |= self._do_steps()
            for tap in self.taps:
                tap._pass_on(self.desks)
            for _ in range(dropped):
                self._tell_dropped(self._dropped[0])
                del self._dropped[0]
            if self.goes_on:
                self.goes_on = False
                self._go_on()
                busy = True
            if self._turns:
                self.tell_room()
            busy |= bool(self.inbox)
            if self.drains and self.order == GO_ON and not busy and self._is_drained():
                self.drained = True
                self.end(STOP)
                busy = True
            return busy
        finally:
            self._inside = False

    def _do_steps(self) -> bool:
        """Steps of all desks, and returns whether they did anything. If they did, there are some more, unless something else is
        to be done."""
        numbers, some, last = range(len(self.desks)), False, self._steps + MANY
        until = monotonic() + BRIEF
        # (what is due meanwhile is done as it is)
        self._until = until if self.due is None else min(until, self._began + self.due / 1e6)
        while self._steps < last:
            does = False
            for number in numbers:
                if self._step(number):
                    does = True
            if self._number + sum(self._handed_out) >= self._full_at:
                self.goes_on = self.goes_on or self._is_full()
            if not does:
                return some
            some = True
            if self.since > until or self.inbox or self._dropped or self._turns or self.goes_on or self._has_else():
                return True
        return True

    def _has_else(self) -> bool:
        """Whether something is to be done that is no step."""
        if self.taps or self.order != GO_ON:
            return True
        return self.due is not None and (self.since - self._began) * 1e6 >= self.due

    def _is_full(self) -> bool:
        """Whether a journal has more events than it may. (it is looked at once some share of these was sent and told)"""
        self._full_at = self._number + sum(self._handed_out) + -(-self.every // 64)
        return any(desk.event_count() > self.every for desk in self.desks)

    def rest_time(self) -> Optional[float]:
        """For how many seconds nothing is to be done, unless something comes in. (if nothing was in the last round)"""
        times = [crew.next_time() for crew in self.crews]
        # (those who wait until a time have a timer of their crew, as nobody is in its queue)
        self._timed = any(at is not None for at in times)
        times.append(self.due)
        known = [at for at in times if at is not None]
        return max(0.0, (min(known) - self.now()) / 1e6) if known else None

    def is_empty(self) -> bool:
        """Whether no process lives but those of the run itself."""
        return len(self.seats) == len(self.porters) and not self.inbox

    def finish(self) -> None:
        """Ends the run: hands out its last history, and drops all that is left."""
        if self.order != OVER:
            self._hand_out()
            self._go_on()
            self.abandon()

    def abandon(self) -> None:
        """Ends the run as it is: nothing is handed out any more."""
        self.order = OVER
        self.tell_room(True)
        for seat in list(self.seats.values()):
            self._leave(seat, KILL)
        for call in list(self._outside):
            self._resolve(Answer(call, None, RunOver()))
        for tap in self.taps:
            tap.close()
        self.payloads.clear()
        self._early.clear()
        self._alarms.clear()
        self._fresh.clear()
        self._timers.close()
        self._close_groups()
        self._perform()
        for crew in self.crews:
            crew.close()
        for desk in self.desks:
            desk.close()
        for held in (self._node, self._history):
            if held is not None and not isinstance(held, list):
                held.close()

    def _perform(self) -> bool:
        """Does what those outside wanted by now."""
        some = False
        for _ in range(len(self.inbox)):
            try:
                task = self.inbox.popleft()
            except IndexError:  # another thread has done it, since the run is over
                break
            some = True
            try:
                task()
            except Fault:  # no memory, or the clock is at its end: it is done first when the run goes on
                self.inbox.appendleft(task)
                raise
        return some

    def _tell_order(self) -> None:
        """Tells each process that was not told yet what those outside want."""
        if self.order == GO_ON or not self._untold:
            return
        for seat in [seat for seat in self.seats.values() if seat.told < self.order]:
            if self.order == STOP and self._is_supervised(seat):
                continue
            if not self.is_porter(seat.pid):
                self.exit_signal(self.porters[seat.pid.shard].pid, seat.pid, KILL if self.order == KILLS else SHUTDOWN)
                if self.order == KILLS:
                    self.killed.append(seat.pid)
            seat.told = self.order
        self._untold = False

    def _is_supervised(self, seat: Seat) -> bool:
        """Whether a live process will end it, so that it ends in its turn."""
        above = None if seat.cx.parent is None else self.pids.get(seat.cx.parent)
        return above is not None and above.behaviour._ends_children

    def _step(self, number: int) -> bool:
        """A turn of a desk, and the handlers of those of it who have something to do."""
        game = self._games[number]
        jobs, answers, way = game[4], game[5], game[0]
        some = True
        if not jobs:
            said = step(way, jobs, self.now() if self._timed or self.families > 0 else 0)
            count = len(jobs)
            self._handed_out[number] += count
            self._steps = steps = self._steps + 1
            if said > 1 or not count or steps >= self._look_at:
                some = self._look_after(number, said)
        said = self._play(game)
        if said >= 0:
            self._look_after(number, said)
        if self._early:
            some |= self._begin_held(number)
        while answers:
            code = answer(way, answers)
            if code:
                raise fault_of(self.desks[number], self.crews[number], "crew_answer", code)
        return some if self.supervised == 0 else self._serve_all(number) or some

    def _serve_all(self, number: int) -> bool:
        """Does what the crew does not do for the supervisors of a desk, and returns whether there was anything to do."""
        some = bool(self._abroad) and self._send_children(number)
        return bool(self.asked) and self._serve(number) or some

    def _look_after(self, number: int, said: int) -> bool:
        """Looks at what a step says, at what was lost, and whether memory was missing. It returns whether the step did
        anything."""
        desk, crew = self.desks[number], self.crews[number]
        if said >= FAILED:
            raise fault_of(desk, crew, "crew_step", said - FAILED)
        # (what supervisors do is in no job. The step has read all events at its end)
        some = bool(self._jobs[number]) or said > 0 or self.families > 0 and crew.queued() + desk.pending() > 0
        if said > 1:
            raise Fault(Code(said >> 1), "turn")
        if not some or self.most is not None or self._steps >= self._look_at:
            self._take_losses(number)
            if crew.refused():
                raise Fault(Code.MEMORY, "crew_step")
        self._look_at = 0 if self.most is not None else self._steps + SELDOM
        return some

    def _take_losses(self, number: int) -> None:
        """Drops what the desk has lost. No letter can ask for it any more."""
        desk, crew, exits = self.desks[number], self.crews[number], self._exits[number]
        if self._asked_at[number] != self._steps:
            self._asked_at[number] = self._steps
            exits.clear()
        way = self.ways[number]
        while (lost := take_loss(way)) is not None:
            # (most have no items)
            if isinstance(lost, tuple):
                if lost[3]:
                    exits[unchecked(Pid, lost[:3])] = reason_from(lost[4], lost[5])
                continue
            loss = crew.next_loss(desk)
            if loss is None:
                return
            if loss.reason is not None:
                exits[loss.pid] = loss.reason
            for item in loss.items:
                if item.body is not None:
                    self.record.losses[number] += 1
                    self.payloads.pop(self._key_of(loss.pid, item.pid, item.body), None)

    def _key_of(self, to: Pid, sender: Pid, body: Body) -> int:
        """Under which the value of a message is kept."""
        if body.who is None:
            return body.num
        return answer_key(to.shard, body.num) if body.kind == ANSWER else request_key(sender.shard, body.num)

    # The processes

    def cross(self) -> None:
        """The desks of this epoch are used from now on."""
        self.ways = [way(desk, crew, rows) for desk, crew, rows in zip(self.desks, self.crews, self._rows)]
        fields, told = vars(self), self.record.told
        self._games: list[Game] = [
            (way, fields, self.seats, self.payloads, jobs, answers, WAITS, told, number, self._comes)
            for number, (way, jobs, answers) in enumerate(zip(self.ways, self._jobs, self._answers))]

    def spawn(self, behaviour: Behaviour, desk: int, parent: Optional[Pid] = None, linked: bool = False) -> Address:
        """Spawns a process on a desk. It is a child if its parent is of the same desk."""
        behaviour_of(behaviour)
        tag = self._number = self._number + 1
        if parent is not None and parent.shard == desk:
            pid = self.crews[desk].spawn_child(self.desks[desk], parent, linked, tag)
        else:
            pid = self.crews[desk].spawn(self.desks[desk], tag)
        address = self.take_in(pid, tag, behaviour, parent, parent if linked else None).cx.me
        if linked and parent is not None and parent.shard != desk:
            try:
                self.desks[parent.shard].link(parent, pid)
            except Fault:
                self.desks[desk].exit(pid, KILL)
                raise
        return address

    def take_in(self, pid: Pid, tag: int, behaviour: Behaviour, parent: Optional[Pid], obeys: Optional[Pid] = None) -> Seat:
        # (what a supervisor is sent goes to a process of the run)
        bound = None if behaviour._ends_children else behaviour.most_waiting
        room = None if bound is None else Room(bound)
        seat = Seat(self, Address(pid, self, type(behaviour), room), tag, behaviour, parent)
        self.seats[tag] = self.pids[pid] = seat
        if behaviour._ends_children and isinstance(behaviour, Supervisor):
            porter = self.porters[pid.shard]
            seat.family, seat.cx.me._crossing = Family(obeys or porter.pid), porter._crossing
            self.families += 1
            self.supervised += 1
            self.stirs = True
        self.spawned += 1
        seat.born = self.spawned
        self.births.enter(seat)
        self._untold = True
        return seat

    def _play(self, game: Game) -> int:
        """Tells all of a desk what they are to be told, in order, and returns what a later step has said of which more is to be
        done. (most are told messages, which the module in C does, with the steps in between)"""
        jobs, number = game[4], game[8]
        while True:
            if jobs and jobs[-1][0] != ITEM:
                self.since = monotonic()
                self._tell(number, jobs.pop())
                continue
            seat, came = None, None  # type: Optional[Seat], Any
            try:
                came = play(game, self._free_steps(), self._until)
                seat = self.running
                if seat is not None:
                    self._will(number, seat, self._does(seat, came))
            except BaseException as error:
                seat = self.running
                self._failed(error)
            finally:
                if seat is not None:
                    self._returned(seat)
            if seat is None:
                # (what has stopped a turn is told before its jobs are, which stay)
                if not jobs or came > 1:
                    said: int = came
                    return said
                self.since = monotonic()
                self._tell(number, jobs.pop())

    def _free_steps(self) -> int:
        """How many steps may be made of the one desk before something else is to be done. (what comes meanwhile stirs)"""
        if len(self.desks) > 1 or self._early or self._abroad or self.asked or self._dropped or self._turns or self._has_else():
            return 0
        return self._look_at - self._steps - 1

    def _tell(self, number: int, job: Job) -> None:
        """Tells a process what it is to be told."""
        code, tag, _, place = job
        seat = self.seats[tag] if code == ITEM else self._seat_of(code, tag, self._rows[number][place])
        if seat is None:
            self.record.unheard[number] += 1
        else:
            self._tell_seat(number, seat, job)

    def begin(self, seat: Seat) -> None:
        self._tell_seat(seat.pid.shard, seat, (START, seat.tag, 0, 0))

    def _tell_seat(self, number: int, seat: Seat, job: Job) -> None:
        """Runs the handler of a process."""
        code, _, num, place = job
        self.running, self._place = seat, place
        try:
            self._will(number, seat, self._run(seat, code, num, place))
        except BaseException as error:
            self._failed(error)
        finally:
            self._returned(seat)

    def _will(self, number: int, seat: Seat, does: bytes) -> None:
        """A process does this next. (for a supervisor it is answered)"""
        seat.does = does
        if does is WAITS:
            self._answers[number].append(seat.waits)
        elif does:
            self._answers[number].append(seat.crossing + does)

    def _failed(self, error: BaseException) -> None:
        """The handler that runs has raised this."""
        if self.running is None:
            raise error
        self._crash(self.running, error)
        if isinstance(error, HALTS):
            raise error

    def _seat_of(self, code: int, tag: int, job: CJob) -> Optional[Seat]:
        """Who is told anything but an item. One that has exited is not."""
        self.record.others[job.pid.shard] += 1
        if code == EXITED:
            self._tell_exit(tag, job)
            return None
        seat = self.seats.get(tag)
        if code == START and (seat is None or tag in self.kids):
            return self.begin_child(tag, pid_of(job.pid))
        return seat

    def _came(self, seat: Seat, key: int, place: int) -> Optional[Event]:
        """What an item is to the handler. (what is kept is found by its key alone)"""
        if key > 0 or key & 1:
            sent: Optional[Event] = self._value_at(seat, key)
            return sent
        rows = self._rows[seat.pid.shard]
        if key == 0:
            item = rows[place].item
            self.record.others[seat.pid.shard] += item.code != USER
            return self._event_of(seat, item)
        answer = self._answer_of(seat, key, item_at(rows, place))
        return self._result(answer) if isinstance(answer, Answer) else answer

    def _comes(self, seat: Seat, key: int, place: int) -> Optional[Event]:
        """The same, for the module in C. A process to which it is nothing does what it did."""
        came = self._came(seat, key, place)
        if came is None:
            number = seat.pid.shard
            self.record.unheard[number] += 1
            self._will(number, seat, seat.does)
        return came

    def _run(self, seat: Seat, code: int, key: int, place: int) -> bytes:
        """Tells a process what it is to be told, and returns what it does next."""
        event: Event = PROCEED
        if code == START:
            if seat.family is not None and isinstance(seat.behaviour, Supervisor):
                self.supervise(seat, seat.behaviour, seat.family)
                self.record.unheard[seat.pid.shard] += 1
                return b""
            self.event = None
            return self._does(seat, seat.behaviour.started(seat.cx))
        if code == TIMES_OUT:
            event = TIMEOUT
        elif code == ITEM:
            came = self._came(seat, key, place)
            self.record.unheard[seat.pid.shard] += came is None
            if came is None or seat.aside is not None:
                return seat.does if came is None else self._offer(seat, came)
            self._takes(seat, came)
            next_ = seat.behaviour.handle(seat.cx, came)
            return WAITS if next_ is None and seat.aside is None else self._does(seat, next_)
        elif seat.aside is not None:
            event = self._taken_from_aside(seat.aside) or PROCEED
        return self._tells(seat, event)

    def _tells(self, seat: Seat, event: Event) -> bytes:
        """Runs the handler of a process, and returns what it does next."""
        self._takes(seat, event)
        return self._does(seat, seat.behaviour.handle(seat.cx, event))

    def _takes(self, seat: Seat, event: Event) -> None:
        """A process takes this."""
        self.event = event
        if seat.room is not None and isinstance(event, (Message, Request)):
            seat.room.leave()

    def _offer(self, seat: Seat, event: Event) -> bytes:
        """The same of what the library has handed out, if the process takes that now. If not, it waits."""
        if seat.aside is not None and not seat.aside.came(event):
            self.kept += isinstance(event, (Message, Request))
            if not seat.aside.takes_lost():
                self.record.unheard[seat.pid.shard] += 1
                return seat.does
            event = LOST
        return self._tells(seat, event)

    def _taken_from_aside(self, aside: Aside) -> Optional[Event]:
        """What a process takes first of all that it did not take before."""
        event = aside.take()
        self.kept -= isinstance(event, (Message, Request))
        return event

    def postpone(self, seat: Seat, event: Event) -> bool:
        """Puts what the handler is told back into its place. False if it is told another thing, or this was put back."""
        if event is not self.event or seat is not self.running:
            return False
        self.event = None
        if seat.aside is None:
            seat.aside = Aside(type(seat.behaviour).kind)
        job = self._rows[seat.pid.shard][self._place]
        if seat.picks and seat.does is not WAITS and job.code == ITEM:
            self._keep_older(seat, seat.aside, event, job.item)
        seat.aside.postpone(event)
        if isinstance(event, (Message, Request)):
            self.kept += 1
            if seat.room is not None:
                seat.room.come_back()
                self.look_at(seat.pid, seat.room)
        return True

    def _keep_older(self, seat: Seat, aside: Aside, event: Event, picked: CItem) -> None:
        """Keeps what waits and is older than what the library has picked out, so that it comes first later."""
        desk, crossing = self.desks[seat.pid.shard], CPid(*seat.pid)
        waiting = ((item.pid, self._age_of(seat, item)) for item in desk._walk(crossing))
        for _ in range(older(waiting, pid_of(picked.pid), self._age_of_told(event, picked))):
            taken = desk._receive(crossing, ANY)
            self.record.others[seat.pid.shard] -= taken is not None and taken.code == USER
            came = None if taken is None else self._event_of(seat, taken)
            if came is not None:
                aside.keep(came)
                self.kept += isinstance(came, (Message, Request))

    def _age_of(self, seat: Seat, item: Item) -> Optional[int]:
        """The age of an item that waits: what was sent later has a greater one. None if it is the news of an exit."""
        body = item.body
        if body is None or body.who is None:
            return None if body is None else body.num
        event = self.payloads.get(self._key_of(seat.pid, item.pid, body))
        return self._age_of_asked(event)

    def _age_of_told(self, event: Event, item: CItem) -> Optional[int]:
        """The same of what the handler is told now."""
        if item.code != USER or not item.body.has_who:
            return None if item.code != USER else int(item.body.num)
        return self._age_of_asked(event)

    def _age_of_asked(self, event: object) -> int:
        """The age of a request or of an answer. (one that is nothing to anybody any more has none)"""
        if isinstance(event, Answer):
            return event.call.answered
        return event._call.asked_at if isinstance(event, Request) and event._call is not None else 0

    def _does(self, seat: Seat, next_: Optional[Next]) -> bytes:
        """What a handler has returned, for a crew, whose times are points in time."""
        if next_ is None:
            if seat.aside is None:
                return WAITS
            next_ = ANYTHING
        if not isinstance(next_, Next):
            raise TypeError(f"a handler returned {next_!r}, and must return None or a Next")
        if next_.name == "stop":
            return stops(next_.reason)
        if next_.name == "proceed":
            return PROCEEDS
        pick = next_.pick
        if seat.aside is not None or next_.selection is not None or seat.gone:
            chosen = self._chosen(seat, next_.selection or pick)
            if chosen is None:
                return PROCEEDS
            pick = chosen
        if pick.name == "down-of" and isinstance(pick.what, Ref) and pick.what.desk == U8:
            pick = Pick("kind", kind_of(pick.what.number))
        seat.picks = pick != ANY
        if next_.limit is None:
            return WAITS if pick is ANY else bytes_of("wait", pick=pick)
        self._timed = True
        return bytes_of("wait-until", pick=pick, until=self._at(next_.limit))

    def _chosen(self, seat: Seat, waits: Waits) -> Optional[Pick]:
        """What the library is to hand out for what a process waits for. None if it is told first what it did not take before."""
        chosen = waits if isinstance(waits, Pick) else waits.pick()
        # (the exit signal of one that had exited is a message to the library, or another's)
        if chosen is not None and chosen.name == "exit-of" and chosen.what in seat.gone:
            chosen = None
        if chosen is None and seat.aside is None:
            seat.aside = Aside(type(seat.behaviour).kind)
        if seat.aside is not None:
            if seat.aside.finds(waits):
                return None
            if seat.aside.is_over():
                seat.aside = None
        return ANY if chosen is None else chosen

    def _event_of(self, seat: Seat, item: CItem) -> Optional[Event]:
        """What an item is to the handler, or None if it is nothing to it, such as an answer that comes too late."""
        if item.code == USER:
            event = self._value_of(seat, item)
            return self._result(event) if isinstance(event, Answer) else event
        pid, reason = pid_of(item.pid), reason_of(item.reason)
        if item.code == EXIT:
            return self._exit_of(seat, pid, reason)
        if item.code != DOWN:
            return None
        reference = ref_of(item.reference)
        text, call = seat.texts.pop(reference, None), seat.calls.get(reference.number)
        if call is not None and self.hear(seat, call, place_of(item)):
            return self._result(Answer(call, None, ServerDown(reason, text)))
        if reference in self.left_open:
            self.left_open.remove(reference)
            return None
        if reference.number not in seat.monitors:
            # (of a call that has ended: as it did, the exit of its server was in the mailbox already)
            return None
        seat.monitors.remove(reference.number)
        return Down(reference, pid, reason, text)

    def _exit_of(self, seat: Seat, pid: Pid, reason: Reason) -> Optional[Exit]:
        """An exit signal, of an exited process if the desk has sent it in the place of that. None if the link with that was taken
        away."""
        if seat.gone.signals and reason == NOPROC and pid == self.porters[pid.shard].pid:
            gone = seat.gone.signals.popleft()
            return None if gone is None else Exit(gone, reason, None)
        return Exit(pid, reason, seat.texts.pop(pid, None))

    def _value_of(self, seat: Seat, item: CItem) -> Optional[Event]:
        """The value of a message, or None if it was taken back, or nobody waits for it any more."""
        body = item.body
        if not body.has_who:
            value = self._value_at(seat, body.num)
            event: Optional[Event] = value
            if isinstance(event, Exit):
                del seat.gone.told[body.num]
            if not isinstance(event, Answer):
                return event
            # (an answer that the server has not sent itself, or that its time is over)
            is_late = isinstance(event.fault, CallTimeout)
            return event if self.expire(event.call, self.now() if is_late else U64) else None
        if body.kind != ANSWER:
            asked: Optional[Event] = self._value_at(seat, request_key(item.pid.shard, body.num))
            return asked
        return self._answer_of(seat, answer_key(seat.pid.shard, body.num), place_of(item))

    def _answer_of(self, seat: Seat, key: int, item: Any) -> Optional[Event]:
        """The answer that is kept under this, if the process waits for it. (the item as `hear` takes it)"""
        answer: Optional[Event] = self.payloads.pop(key, None)
        call = seat.calls.get(number_of(key))
        return answer if call is not None and self.hear(seat, call, item) else None

    def _value_at(self, seat: Seat, key: int) -> Any:
        """What is kept under this for a process: LOST if it was dropped."""
        value = self.payloads.pop(key, None)
        if seat.room is not None:
            seat.room.keys.pop(key, None)
        return LOST if value is DROPPED else value

    def _result(self, answer: Answer) -> Optional[Event]:
        """A call has ended by this: what its client is told, if it is a process, and waits for it."""
        call = answer.call
        if call.done is None:
            call.is_open = False
            return answer
        if call.is_open:
            self._resolve(answer)
        return None

    def _crash(self, seat: Seat, error: BaseException) -> None:
        """A handler has raised: its process exits at once, and those who hear of it find the text."""
        text = text_of(error)
        self.crashes += 1
        desk = self.desks[seat.pid.shard]
        for monitor, owner in desk.watchers(seat.pid) or ():
            self._leave_text(owner, monitor, text)
        for peer, _ in desk.links(seat.pid) or ():
            self._leave_text(peer, seat.pid, text)
        try:
            desk.exit(seat.pid, CRASH)
        except Fault:  # no memory: the crew tries again
            self._answers[seat.pid.shard].append(seat.crossing + stops(CRASH))
        report(logging.ERROR, Crash(seat.pid, seat.cx.me.name, text), error=error)

    def overflow(self, of: Pid) -> None:
        seat = self.pids.get(of)
        if seat is not None and self.desks[of.shard].alive(of):
            self._crash(seat, OverflowError("more messages wait than may"))

    def _leave_text(self, of: Pid, key: Union[Ref, Pid], text: str) -> None:
        """Keeps the text of a crash for a process that gets news of it. (a supervisor of a crew reads none)"""
        seat = self.pids.get(of)
        if seat is not None and seat.family is None:
            seat.texts[key] = text

    def _tell_exit(self, tag: int, job: CJob) -> None:
        """A process has exited. One that a supervisor started may not have begun."""
        seat, kid, why, pid = self.seats.get(tag), self.kids.get(tag), reason_of(job.reason), pid_of(job.pid)
        # (a loss of this step tells what its crew did not know yet. What waited for the process is dropped)
        self._take_losses(pid.shard)
        if why == NOPROC:
            why = self._exits[pid.shard].get(pid, why)
        if kid is not None:
            # (the child may have another process by now)
            seat = self.pids.get(pid)
        self._forget_coming(pid, kid)
        if seat is not None:
            self._leave(seat, why)
        elif kid is not None:
            self.end_unborn(kid, why)

    def _leave(self, seat: Seat, why: Reason) -> None:
        """A process has exited: all that it had goes."""
        del self.pids[seat.pid]
        if not self.is_porter(seat.pid):
            self.births.leave(seat)
        if seat.is_in_groups:
            self._leave_groups(seat.pid)
        if self.seats.get(seat.tag) is seat:
            del self.seats[seat.tag]
        kid = self.kids.get(seat.tag)
        if kid is not None and kid.seat is seat:
            kid.end(why)
        if seat.family is not None:
            seat.cx.me._crossing = words_of(seat.pid)
            self.end_family(seat, seat.family, why)
        for name in seat.names:
            if self.names.get(name) == seat.cx.me:
                del self.names[name]
        if seat.behaviour._ends_children:
            # (those that it has not ended are told themselves)
            self._untold = True
        for call in list(seat.calls.values()):
            self.close(call)
        if seat.aside is not None:
            self.kept -= seat.aside.messages()
            seat.aside = None
        self.since, self.running = monotonic(), seat
        try:
            seat.behaviour.ended(why)
        except BaseException as error:
            log.exception("%s of %s raised as it ended", seat.pid, seat.cx.me.name)
            if isinstance(error, HALTS):
                raise
        finally:
            self._returned(seat)
            # (a context refers to its seat, so what the behaviour has would else stay until Python looks for cycles)
            del seat.behaviour

    # Its epochs

    def _go_on(self) -> None:
        """Empties the journals, and hands the history out. What fails may be done again."""
        try:
            desks, self._history = go_on(self._node or self.desks, self.crews)
        except NotGoneOn as fault:
            self._node = fault.node
            raise
        self.desks, self._node = desks, None
        self.cross()
        self.epochs += 1
        # in settling all news came: a text beside news that does not wait is beside none
        for seat in [seat for seat in self.seats.values() if seat.texts]:
            items = desks[seat.pid.shard].waiting(seat.pid) or ()
            news = {it.reference if it.name == "down" else it.pid for it in items if it.name in ("down", "exit")}
            seat.texts = {key: text for key, text in seat.texts.items() if key in news}
        self._hand_out()

    def _hand_out(self) -> None:
        """Gives the sink the history that it has not taken yet."""
        if self._history is not None:
            if self.sink is not None:
                self.sink(self._history)
                self.archived += len(self._history)
            self.taps = [tap for tap in self.taps if not tap.is_ended()]
            for tap in self.taps:
                tap._close_epoch(self._history)
            self._history.close()
            self._history = None
