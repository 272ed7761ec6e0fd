"""The supervisors of a run: what makes their children, and what they answer.

A supervisor is that of its crew (`Crew.supervise`), which is proved: it starts its children, starts them again and ends them.
Here is what it cannot do, as it runs no code of Python: the behaviours of its children are made, requests are answered, and its
children on other desks are spawned there as it asks for them. Such a child begins once its supervisor has linked with it, and those
behind it begin after it.
"""

from __future__ import annotations

import logging
from functools import partial
from time import monotonic
from typing import Any, Generator, Optional, Union

from . import Code, Crew, Desk, Fault
from ._behaviour import (
    CRASH, HALTS, OVER, Answer, Behaviour, Call, CallFault, Request, ServerDown, Unanswered, behaviour_of,
)
from ._abi import CPid
from ._crossing import start_of
from ._process import Family, Kid, Seat, stops
from ._sending import Sending
from ._supervisor import (
    INFINITY, WHICH_CHILDREN, Child, DeleteChild, RestartChild, Shutdown, StartChild, Supervisor, TerminateChild,
)
from .supervisors import ChildSpec
from .values import ANY, KILL, NOPROC, SHUTDOWN, Pid, Reason, number

log = logging.getLogger("pundewo")

# What a supervisor does that has started and ended all that it is to.
SETTLED = "wait", ANY
# The answer to a request that it does not know: none.
UNKNOWN = object()

# What a supervisor was asked, as it is done: it yields whether there is something to do at once.
Work = Generator[bool, None, Any]


def time_of(start: StartChild, behaviour: Behaviour, patience: float) -> Shutdown:
    """How long a child has to exit."""
    if start.shutdown is not None:
        return start.shutdown
    return INFINITY if isinstance(behaviour, Supervisor) else patience


class Supervising(Sending):
    """The supervisors of a run, and their children."""

    def __init__(self, desks: list[Desk]):
        super().__init__(desks)
        self.crews = [Crew(desk) for desk in desks]
        self.seats: dict[int, Seat] = {}
        # what those who were told something do next, by desk
        self._answers: list[list[bytes]] = [[] for _ in desks]
        # how many processes were spawned, and how many supervisors live
        self.spawned = self.families = 0
        # how many supervisors there were in all
        self.supervised = 0
        # the children of supervisors by their tags, and the supervisors that were asked something
        self.kids: dict[int, Kid] = {}
        self.asked: list[Seat] = []
        # the supervisors that have children on other desks, and the tags of processes that are to begin and wait for another
        self._abroad: list[Seat] = []
        self._early: dict[Pid, int] = {}

    def begin(self, seat: Seat) -> None:
        """Runs what a process does first."""
        raise NotImplementedError

    def take_in(self, pid: Pid, tag: int, behaviour: Behaviour, parent: Optional[Pid], obeys: Optional[Pid] = None) -> Seat:
        """A process was spawned, which has this behaviour. A supervisor obeys a process, or else those outside."""
        raise NotImplementedError

    # How it begins and ends

    def supervise(self, seat: Seat, behaviour: Supervisor, family: Family) -> None:
        """A supervisor begins. Its crew starts its children, and handles what it gets from now on."""
        desk, porter = self.desks[seat.pid.shard], self.porters[seat.pid.shard].pid
        if not desk.alive(seat.pid):
            return
        is_whole = all(self._adopt(seat, family, start) for start in behaviour._specs.values())
        if not is_whole:
            family.obeys = porter
        specs = [self._spec_of(kid, behaviour) for kid in family.kids.values()]
        desk.trap(seat.pid)
        if not is_whole:
            # (which it gets once it has started those that were made)
            desk.exit_signal(porter, seat.pid, SHUTDOWN)
        self.crews[seat.pid.shard].supervise(seat.pid, behaviour._spec(family.obeys), specs)

    def _adopt(self, seat: Seat, family: Family, start: StartChild) -> bool:
        """Makes a new child of a supervisor, and returns whether that did not fail."""
        tag = self._number = self._number + 1
        kid = Kid(seat, family, start, tag)
        if self._make(kid):
            self.kids[tag] = family.kids[start.name] = kid
            if kid.is_elsewhere() and seat not in self._abroad:
                self._abroad.append(seat)
        return kid.made is not None

    def _make(self, kid: Kid) -> bool:
        """Makes the behaviour of the next process of a child, and returns whether that did not fail."""
        start = kid.start
        self.running, self.since = kid.above, monotonic()
        try:
            made = behaviour_of(start.make())
            if kid.is_elsewhere() and self.desks[number("desk", kid.desk, 0, len(self.crews) - 1)].vacant() is None:
                raise Fault(Code.FULL, "spawn")
            kid.made = made
        except BaseException as error:
            log.exception("%s of %s: its child %s does not start", kid.above.pid, kid.above.cx.me.name, start.name)
            if isinstance(error, HALTS):
                raise
        finally:
            self._returned(kid.above)
        return kid.made is not None

    def _spec_of(self, kid: Kid, supervisor: Supervisor) -> ChildSpec:
        """What the crew has to know of a child that was made."""
        assert kid.made is not None
        time = time_of(kid.start, kid.made, supervisor._patience)
        word: Union[str, int] = "infinity" if time is INFINITY else "brutal_kill"
        return ChildSpec(kid.tag, kid.start.restart, int(time * 1e6) if isinstance(time, float) else word, kid.is_elsewhere())

    # Children on other desks

    def _want(self, seat: Seat, family: Family) -> None:
        """Asks a supervisor which child it wants on another desk, unless one is being started there. It tells of each once."""
        if family.wanted is None and family.coming is None:
            tag = self.crews[seat.pid.shard].child_to_start(seat.pid)
            family.wanted = None if tag is None else self.kids[tag]

    def _send_children(self, shard: int) -> bool:
        """Starts the children that the supervisors of a desk want on other desks, and returns whether there was one."""
        some = False
        for seat in [it for it in self._abroad if it.pid.shard == shard]:
            family = seat.family
            assert family is not None
            if family.running < len(family.kids):
                self._want(seat, family)
            if family.wanted is not None and self._may_start(seat, family, family.wanted):
                self._start_elsewhere(seat, family, family.wanted)
                some = True
        return some

    def _may_start(self, seat: Seat, family: Family, kid: Kid) -> bool:
        """Whether all is told of the last process of a child, and those in front of it have begun."""
        in_front = [it for it in family.kids.values() if it.tag < kid.tag]
        return not kid.runs and all(self._is_told(seat, place, it) for place, it in enumerate(in_front))

    def _start_elsewhere(self, seat: Seat, family: Family, kid: Kid) -> None:
        """Spawns the process of a child on another desk, and tells its supervisor so."""
        crew, pid = self.crews[seat.pid.shard], None
        if kid.made is not None or self._make(kid):
            try:
                pid = self.crews[kid.desk].spawn(self.desks[kid.desk], kid.tag)
            except Fault as fault:  # without memory or a stamp the run halts, and this is done again
                if fault.code is not Code.FULL:
                    raise
        family.wanted = None
        try:
            if pid is None:
                crew.child_not_started(seat.pid, kid.tag)
            else:
                crew.child_started(seat.pid, kid.tag, pid)
                family.coming = kid, pid
        except Fault:  # the supervisor has exited
            if pid is not None:
                self._kill(pid)

    def _kill(self, pid: Pid) -> None:
        """Kills a process that has not begun. (if there is no memory for it then, that is done when the run goes on)"""
        self.post(lambda: self.desks[pid.shard].exit_signal(self.porters[pid.shard].pid, pid, KILL))

    def _is_early(self, kid: Kid, pid: Pid) -> bool:
        """Whether a child may not begin yet: its supervisor has not linked with it, or one in front of it has not begun."""
        if pid.shard != kid.above.pid.shard:
            links = self.desks[pid.shard].links(pid) or ()
            return all(peer != kid.above.pid for peer, _ in links)
        return kid.family.coming is not None and kid.family.coming[0].tag < kid.tag

    def _begin_held(self, shard: int) -> bool:
        """The children of a desk begin that had to wait and may now. It returns whether any did."""
        some = False
        for pid, tag in [it for it in self._early.items() if it[0].shard == shard]:
            kid = self.kids.get(tag)
            if kid is None or not self._is_early(kid, pid):
                del self._early[pid]
                seat, some = self.begin_child(tag, pid), True
                if seat is not None:
                    self.begin(seat)
        return some

    def _forget_coming(self, pid: Pid, kid: Optional[Kid]) -> None:
        """A process begins, or exits before that."""
        self._early.pop(pid, None)
        if kid is not None and kid.family.coming == (kid, pid):
            kid.family.coming = None

    def begin_child(self, tag: int, pid: Pid) -> Optional[Seat]:
        """A child was spawned, and begins, unless it has to wait. If it cannot be made, it exits again."""
        kid = self.kids.get(tag)
        if kid is not None and self._is_early(kid, pid):
            self._early[pid] = tag
            return None
        self._forget_coming(pid, kid)
        try:
            if kid is not None and kid.made is None:
                self._make(kid)
        finally:
            if kid is None or kid.made is None:
                self._answers[pid.shard].append(start_of(CPid(*pid)) + stops(CRASH))
        if kid is None or kid.made is None:
            return None
        seat = kid.seat = self.take_in(pid, tag, kid.made, kid.above.pid, kid.above.pid)
        kid.pid = pid
        kid.begin(seat.cx.me)
        kid.made = None
        return seat

    def end_family(self, seat: Seat, family: Family, why: Reason) -> None:
        """A supervisor has exited. Its children hear of it by their links, and who asks it by an answer."""
        self.families -= 1
        if seat in self._abroad:
            self._abroad.remove(seat)
        if family.coming is not None and self.order != OVER:
            self._kill(family.coming[1])
        family.wanted = family.coming = None
        for kid in family.kids.values():
            del self.kids[kid.tag]
            kid.made = None
        if seat in self.asked:
            self.asked.remove(seat)
        for request in family.requests:
            self._say(request, None, ServerDown(why))
        family.requests.clear()
        if family.work is not None:
            family.work.close()

    def _say(self, request: Request, value: object, fault: Optional[CallFault]) -> None:
        """Answers a request in the next round. (if there is no memory for it then, that is done when the run goes on)"""
        call = request._taken()
        self.post(partial(self.tell, call, Answer(call, value, fault)))

    def end_unborn(self, kid: Kid, why: Reason) -> None:
        """A behaviour was made, and its process exited before it began."""
        made, kid.made = kid.made, None
        try:
            if made is not None:
                made.ended(why)
        except Exception:
            log.exception("%s of %s raised as it ended", kid.start.name, kid.above.cx.me.name)

    def exit_signal(self, sender: Pid, to: Pid, reason: Reason) -> None:
        """Sends an exit signal. A supervisor of a crew obeys one process, and one of a run those outside too, or, without a
        parent, each that tells it SHUTDOWN: so what they tell it is sent in the name of the one that it obeys."""
        seat = self.pids.get(to)
        if seat is not None and seat.family is not None and reason != KILL:
            parent, obeys = seat.cx.parent, seat.family.obeys
            if self.is_porter(sender) and reason != SHUTDOWN:
                return
            counts = self.is_porter(sender) or sender == parent or parent is None and reason == SHUTDOWN
            above = self.pids.get(obeys)
            if counts and above is not None and above.family is None and self.desks[sender.shard].alive(sender):
                sender = obeys
        self.desks[sender.shard].exit_signal(sender, to, reason)

    # What it answers

    def serve(self, request: Request, call: Call) -> None:
        """A supervisor was asked something. It answers when it has started and ended all that it is to."""
        seat = None if call.server is None else self.pids.get(call.server)
        if seat is None or seat.family is None:
            self._say(request, None, ServerDown(NOPROC))
            return
        seat.family.requests.append(request)
        if seat not in self.asked:
            self.asked.append(seat)
            self.stirs = True

    def is_served(self, pid: Pid) -> bool:
        """Whether this is a supervisor that lives."""
        seat = self.pids.get(pid)
        return seat is not None and seat.family is not None

    def _serve(self, shard: int) -> bool:
        """Goes on with what the supervisors of a desk were asked, and returns whether there is more to do at once."""
        some = False
        for seat in [it for it in self.asked if it.pid.shard == shard]:
            family = seat.family
            assert family is not None
            if family.work is None:
                family.work = self._answer_all(seat, family)
            try:
                some |= next(family.work)
            except StopIteration:
                family.work, some = None, True
                # (there are some if a handler that halts the run was in between)
                if not family.requests:
                    self.asked.remove(seat)
        return some

    def _answer_all(self, seat: Seat, family: Family) -> Work:
        while family.requests:
            while not self._is_settled(seat, family):
                yield False
            self._forget(seat, family)
            # (it stays in front until it is answered, so that it is if the supervisor exits)
            request = family.requests[0]
            answer = yield from self._answer_one(seat, family, request.value)
            family.requests.popleft()
            self._say(request, answer, Unanswered() if answer is UNKNOWN else None)

    def _is_settled(self, seat: Seat, family: Family) -> bool:
        """Whether a supervisor waits for whatever comes, and all that it has heard and done of its children was told."""
        crew = self.crews[seat.pid.shard]
        if seat in self._abroad:
            self._want(seat, family)
            if family.wanted is not None or family.coming is not None:
                return False
        does, counts = crew.next(seat.pid), crew.count_children(seat.pid)
        if does is None or does[:2] != SETTLED or counts is None:
            return False
        # (a child that took its link away may have exited, of which the supervisor does not hear)
        return counts.active == family.running or all(
            self._is_told(seat, place, kid) for place, kid in enumerate(family.kids.values()))

    def _is_told(self, seat: Seat, place: int, kid: Kid) -> bool:
        """Whether all that the supervisor has heard and done of a child was told."""
        child = self.crews[seat.pid.shard].child(seat.pid, place)
        return child is not None and (child.pid == kid.pid if child.pid is not None else not kid.runs)

    def _settles(self, seat: Seat, family: Family, kid: Optional[Kid] = None) -> Work:
        """Waits until the supervisor has done what it was just asked, or this child has begun."""
        yield True
        while (kid is None or kid.address is None) and not self._is_settled(seat, family):
            yield False

    def _forget(self, seat: Seat, family: Family) -> None:
        """Forgets the temporary children that have exited, as far as the supervisor has heard of it."""
        family.gone = [kid for kid in family.gone if not self._delete(seat, family, kid)]

    def _delete(self, seat: Seat, family: Family, kid: Kid) -> bool:
        """Forgets a child, and returns whether it does not run."""
        try:
            self.crews[seat.pid.shard].delete_child(seat.pid, kid.tag)
        except Fault:
            return False
        kid.made = None
        del self.kids[kid.tag], family.kids[kid.start.name]
        return True

    def _answer_one(self, seat: Seat, family: Family, asked: object) -> Work:
        """Does what the supervisor is asked, and returns the answer."""
        if asked is WHICH_CHILDREN:
            return tuple(Child(name, kid.address if kid.runs else None) for name, kid in family.kids.items())
        if isinstance(asked, StartChild):
            return (yield from self._start_child(seat, family, asked))
        if not isinstance(asked, (TerminateChild, RestartChild, DeleteChild)):
            return UNKNOWN
        kid = family.kids.get(asked.name)
        if kid is None:
            return False
        if isinstance(asked, DeleteChild):
            return self._delete(seat, family, kid)
        if isinstance(asked, RestartChild):
            return (yield from self._restart_child(seat, family, kid))
        self.crews[seat.pid.shard].terminate_child(seat.pid, kid.tag)
        yield from self._settles(seat, family)
        return True

    def _start_child(self, seat: Seat, family: Family, asked: StartChild) -> Work:
        supervisor = seat.behaviour
        assert isinstance(supervisor, Supervisor)
        if asked.name in family.kids or not self._adopt(seat, family, asked):
            return None
        kid = family.kids[asked.name]
        try:
            self.crews[seat.pid.shard].start_child(seat.pid, self._spec_of(kid, supervisor))
        except Fault:  # no memory
            del self.kids[kid.tag], family.kids[asked.name]
            return None
        yield from self._settles(seat, family, kid)
        if kid.address is None:
            self._delete(seat, family, kid)
            return None
        return Child(asked.name, kid.address)

    def _restart_child(self, seat: Seat, family: Family, kid: Kid) -> Work:
        crew = self.crews[seat.pid.shard]
        try:
            crew.restart_child(seat.pid, kid.tag)
        except Fault:  # it runs
            return False
        kid.address = kid.why = None
        if not self._make(kid):
            crew.terminate_child(seat.pid, kid.tag)
        yield from self._settles(seat, family, kid)
        kid.made = None
        return kid.address is not None
