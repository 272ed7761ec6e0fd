"""One run of a scenario, under choices that are made as it goes."""

from __future__ import annotations

import gc
from functools import partial
from typing import TYPE_CHECKING, Any, Callable, Generic, NamedTuple, Optional, TypeVar

from . import Config, Desk
from ._behaviour import STOP, Answer, Behaviour, Call
from ._group import Group
from ._process import Address
from ._report import text_of
from ._trial_engine import Choice, Crashed, Effect, Key, TrialEngine, quiet
from ._trial_tokens import Counts, Token, Tokens
from .values import SHUTDOWN, Pid, Reason, number, of_type

if TYPE_CHECKING:
    from .trial import Trial

S = TypeVar("S")
B = TypeVar("B", bound=Behaviour)


class Settings(NamedTuple):
    """What a run is made with, and how far it goes."""

    desks: int = 1
    slots: int = 32
    lane: int = 64
    steps: int = 10_000
    limit: int = 100_000
    times: int = 0
    kills: int = 0
    crashes: int = 0
    no_crashes: bool = False
    all_end: bool = False
    all_rest: bool = True
    none_kept: bool = False
    none_lost: bool = False
    reduced: bool = False
    shares: bool = False


class Later:
    """The answer of a call from outside, which is read once the run is at rest: what `World.ask` returns."""

    def __init__(self) -> None:
        self._answer: Optional[Answer] = None

    def __repr__(self) -> str:
        return "Later(..)"

    def _end(self, answer: Answer) -> None:
        self._answer = answer

    def is_over(self) -> bool:
        """Whether the call has ended."""
        return self._answer is not None

    def get(self) -> Any:
        """What the process answered. CallFault if the call ended in another way; LookupError if it has not ended."""
        if self._answer is None:
            raise LookupError("the call has not ended")
        return self._answer.result()


class World:
    """A run of a scenario. A scenario spawns its processes here, and the functions of a `Trial` look at them.

    It has the words of a `Runtime` for those outside, but for what waits: `call`, `mailbox`, `wait`. `ask` asks a process, and its
    answer is read once the run is at rest.
    """

    def __init__(self, settings: Settings):
        config = Config(slots=2 * settings.slots, lane=settings.lane)
        self._engine = TrialEngine(settings.desks, config, 5.0)
        self._times, self._kills, self._crashes = settings.times, settings.kills, settings.crashes
        self._mortal: list[Pid] = []
        self._fragile: list[Pid] = []
        self._next_desk = 0
        self._counts = Counts()

    def __repr__(self) -> str:
        return f"<World of {len(self._engine.desks)} desks>"

    # What a scenario does

    def spawn(self, behaviour: Behaviour, desk: Optional[int] = None) -> Address:
        """Spawns a process, on this desk or on one after the other. Fault: FULL if no slot is free."""
        count = len(self._engine.crews)
        place = number("desk", self._next_desk if desk is None else desk, 0, count - 1)
        if desk is None:
            self._next_desk = (place + 1) % count
        return self._engine.spawn(behaviour, place)

    def ask(self, to: Address, value: Any) -> Later:
        """Asks a process from outside. The answer is read once the run is at rest."""
        engine, later = self._engine, Later()
        engine.own("to", to)
        call = Call(later._end)
        engine._outside.add(call)
        engine.post(lambda: engine._begin_ask(call, to, value))
        return later

    def token(self) -> Token:
        """A value that is counted. In a message it says whether that was handled once, or dropped."""
        return Token(self._counts)

    def may_be_killed(self, process: Address) -> None:
        """Says that this process may be killed at any step: see `Trial.kills`."""
        self._mortal.append(self._engine.own("process", process).pid)

    def may_crash(self, process: Address) -> None:
        """Says that a handler of this process may raise an exception: see `Trial.crashes`."""
        self._fragile.append(self._engine.own("process", process).pid)

    def exit(self, process: Address, reason: Reason = SHUTDOWN) -> None:
        """Sends an exit signal, as `Runtime.exit`."""
        engine, pid = self._engine, self._engine.own("process", process).pid
        of_type("reason", reason, Reason)
        engine.post(lambda: engine.exit_signal(engine.porters[pid.shard].pid, pid, reason))

    def stop(self) -> None:
        """Has all processes exit, as `Runtime.stop`."""
        self._engine.post(lambda: self._engine.end(STOP))

    def drain(self, limit: float = 30.0) -> None:
        """Ends the run once all that waits is handled, as `Runtime.drain`."""
        self._engine.post(lambda: self._engine.drain(limit))

    def register(self, name: str, process: Address) -> bool:
        """Gives a process a name, as `Runtime.register`."""
        return self._engine.register(name, process)

    def whereis(self, name: str) -> Optional[Address]:
        """The process that has this name, or None."""
        return self._engine.whereis(name)

    def unregister(self, name: str) -> bool:
        """Takes a name from its process."""
        return self._engine.unregister(name)

    def group(self, name: str = "") -> Group:
        """A group of processes of this run, in which there is none yet."""
        return Group(self._engine, of_type("name", name, str))

    # What is seen of a run

    def behaviour(self, process: Address, kind: type[B]) -> Optional[B]:
        """The behaviour of a process, of this type. None if it has exited, or has another one."""
        seat = self._engine.pids.get(self._engine.own("process", process).pid)
        found = None if seat is None else seat.behaviour
        return found if isinstance(found, kind) else None

    def living(self) -> list[tuple[Pid, str]]:
        """The processes that live, each with the name of the type of its behaviour."""
        return self._engine.living()

    def is_alive(self, process: Address) -> bool:
        """Whether a process lives, by the table."""
        pid = self._engine.own("process", process).pid
        return self._engine.desks[pid.shard].alive(pid)

    def desk(self, process: Address) -> Desk:
        """The desk of a process, which says its links, its monitors and what waits in its mailbox."""
        return self._engine.desks[self._engine.own("process", process).pid.shard]

    def crashes(self) -> list[Crashed]:
        """The exceptions of behaviours so far, without those of the schedule."""
        return list(self._engine.crashed)

    def names(self, process: Address) -> list[str]:
        """The names that a process has, in the order in which they were given: none if it has exited."""
        seat = self._engine.pids.get(self._engine.own("process", process).pid)
        return [] if seat is None else list(seat.names)

    def lost(self) -> int:
        """How many messages and answers were lost so far: they waited for a process as it exited, or came after that."""
        return sum(self._engine.record.losses)

    def tokens(self) -> Tokens:
        """What became of the tokens."""
        return self._counts.tokens()

    def now(self) -> float:
        """The time in seconds since the run began. It goes on once nothing is to be done before the next timer is due."""
        return self._engine.now() / 1e6

    # What a trial does with it

    def _choices(self) -> list[Choice]:
        """What may come next. If nothing is to be done, time goes on until the next timer is due."""
        engine = self._engine
        found = engine.choices()
        while not found and self._goes_on():
            engine.settle()
            found = engine.choices()
        if found:
            self._add_faults(found)
        return found

    def _goes_on(self) -> bool:
        """Ends a run that drains, or lets time go on. False if there is nothing to wait for."""
        engine = self._engine
        engine.rested += 1
        if engine.ends_drained():
            return True
        if engine.next_time() is None:
            return False
        engine.advance()
        return True

    def _add_faults(self, found: list[Choice]) -> None:
        """Adds what else may be chosen while something is to be done."""
        engine = self._engine
        if self._times > 0 and engine.next_time() is not None:
            found.append(Choice("t", None, None, self._take_time))
        if self._kills > 0:
            alive = [pid for pid in self._mortal if engine.desks[pid.shard].alive(pid)]
            found += [Choice(f"k{pid}", None, None, partial(self._take_kill, pid)) for pid in alive]
        if self._crashes > 0:
            told = [pid for pid in self._fragile if engine.handed_to(pid) is not None and pid in engine.pids]
            found += [Choice(f"c{pid}", None, None, partial(self._take_crash, pid)) for pid in told]

    def _take_time(self) -> None:
        self._times -= 1
        self._engine.advance()

    def _take_kill(self, pid: Pid) -> None:
        self._kills -= 1
        self._engine.take_kill(pid)

    def _take_crash(self, pid: Pid) -> None:
        self._crashes -= 1
        self._engine.take_crash(pid)


class Wrong(NamedTuple):
    """What is wrong with a run: of what kind, and the text."""

    kind: str
    text: str

    def __str__(self) -> str:
        return self.text


class Point(NamedTuple):
    """What may come next."""

    words: list[str]
    keys: list[Optional[Key]]
    # the place of the one that comes where nobody chooses
    usual: int
    # the desk of the last move, if it may go on, and the desks of all
    goes_on: Optional[int]
    desks: list[Optional[int]]

    def preempts(self, place: int) -> bool:
        """Whether a move takes the turn of a desk that could go on."""
        return self.goes_on is not None and self.desks[place] not in (None, self.goes_on)


def point_of(choices: list[Choice], last: Optional[int]) -> Point:
    """What may come next, behind a move of this desk."""
    words, desks = [it.word for it in choices], [it.desk for it in choices]
    goes_on = last if last is not None and last in desks else None
    return Point(words, [it.key for it in choices], 0 if goes_on is None else desks.index(goes_on), goes_on, desks)


class Chooser:
    """Who chooses."""

    def choose(self, point: Point) -> Optional[int]:
        """The place of the next move. None gives the run up."""
        raise NotImplementedError

    def took(self, word: str, events: int, effect: Effect) -> None:
        """The move was made, and so many events there were."""


class Ended:
    """A run that has ended."""

    def __init__(self) -> None:
        self.outcome: Optional[str] = None
        self.wrong: Optional[Wrong] = None
        self.words: list[str] = []
        # how many of these have to be said: behind them each move is the usual one
        self.said = 0
        self.prints: list[int] = []
        self.history: list[str] = []
        self.crashes: list[str] = []
        self.was_cut = False

    def schedule(self) -> str:
        return " ".join(self.words[:self.said])


def wrong_of_kept(counts: Counts) -> Optional[Wrong]:
    """What is wrong if tokens are kept though all that the run had is dropped."""
    if counts.tokens().kept():
        # (what refers to itself is dropped as Python looks for it)
        gc.collect()
    kept = counts.tokens().kept()
    return Wrong("kept", f"{kept} tokens were neither handled nor dropped") if kept else None


class Run(Generic[S]):
    """A run of a scenario."""

    def __init__(self, trial: Trial[S], chooser: Chooser):
        self.trial, self.chooser, self.ended = trial, chooser, Ended()

    def make(self, with_history: bool) -> Ended:
        with quiet():
            counts = self.make_in(World(self.trial._settings), with_history)
            if self.trial._settings.none_kept and self.ended.outcome is not None:
                self.ended.wrong = wrong_of_kept(counts)
        return self.ended

    def make_in(self, world: World, with_history: bool) -> Counts:
        """Makes the run, and returns what became of its tokens."""
        try:
            state = self.trial._scenario(world)
            world._engine.begin_trial()
            self.go(world, state)
        except BaseException:
            world._engine.end_trial(False)
            raise
        self.ended.crashes = [str(crash) for crash in world._engine.crashed]
        self.ended.history = world._engine.end_trial(with_history)
        return world._counts

    def go(self, world: World, state: S) -> None:
        """Takes moves until the run is at rest, is given up, or something is wrong."""
        ended, last = self.ended, None
        while choices := world._choices():
            if len(ended.words) >= self.trial._settings.steps:
                ended.was_cut = True
                break
            point = point_of(choices, last)
            place = self.chooser.choose(point)
            if place is None:
                return
            last = self.take(world, choices[place], last, place == point.usual)
            ended.wrong = self.wrong_now(world, state)
            if ended.wrong is not None:
                return
        self.rest(world, state)

    def take(self, world: World, choice: Choice, last: Optional[int], is_usual: bool) -> Optional[int]:
        """Makes a move, and returns the desk of the last one."""
        effect = world._engine.take(choice)
        ended, events = self.ended, world._engine.events()
        ended.words.append(choice.word)
        ended.prints.append(events)
        ended.said = ended.said if is_usual else len(ended.words)
        self.chooser.took(choice.word, events, effect)
        return last if choice.desk is None else choice.desk

    def wrong_now(self, world: World, state: S) -> Optional[Wrong]:
        if self.trial._settings.no_crashes and world._engine.crashed:
            return Wrong("crashed", f"a behaviour raised an exception: {world._engine.crashed[0]}")
        if world._counts.again:
            return Wrong("handled again", "a token was handled twice")
        return self.looked("always", "what is always to hold does not", self.trial._always, world, state)

    def looked(self, kind: str, text: str, looks: tuple[Callable[[World, S], object], ...], world: World,
               state: S) -> Optional[Wrong]:
        try:
            for look in looks:
                look(world, state)
        except Exception as error:
            return Wrong(kind, f"{text}: {text_of(error)}")
        return None

    def rest(self, world: World, state: S) -> None:
        """The run is at rest, or was cut off."""
        ended, tell = self.ended, self.trial._outcome
        ended.wrong = self.wrong_at_rest(world, state)
        if ended.wrong is not None:
            return
        try:
            outcome = "" if tell is None else str(tell(world, state))
        except Exception as error:
            ended.wrong = Wrong("rest", f"what is to hold at rest does not: {text_of(error)}")
            return
        ended.outcome = f"cut off: {outcome}" if ended.was_cut else outcome

    def wrong_at_rest(self, world: World, state: S) -> Optional[Wrong]:
        settings = self.trial._settings
        if self.ended.was_cut:
            text = f"the run does not come to rest in {settings.steps} moves"
            return Wrong("no rest", text) if settings.all_rest else None
        if settings.all_end and world.living():
            who = "; ".join(f"{pid}, a {name}" for pid, name in world.living())
            return Wrong("waits", f"all processes are to end, and there wait for ever: {who}")
        if settings.none_lost and world.lost():
            return Wrong("lost", f"{world.lost()} messages were lost: their receivers had exited")
        return self.looked("rest", "what is to hold at rest does not", self.trial._at_rest, world, state)
