"""Every schedule of a program: the behaviours of `pundewo.runtime`, under schedules that are chosen.

A `Trial` has a scenario, which spawns processes and sends to them. It runs the same behaviours over the same table and crews as a
`Runtime` does, and a schedule says what comes next: whose handler runs, which letter comes to a desk, whether a time is over first,
whether a process is killed, or raises an exception.

    from pundewo.runtime import Behaviour, Message
    from pundewo.trial import Trial

    class First(Behaviour):
        word = None

        def handle(self, cx, event):
            if isinstance(event, Message) and self.word is None:
                self.word = event.value

    class Says(Behaviour):
        def __init__(self, to, word):
            self.to, self.word = to, word

        def started(self, cx):
            cx.send(self.to, self.word)

        def handle(self, cx, event):
            pass

    def scenario(world):
        first = world.spawn(First())
        world.spawn(Says(first, "one"))
        world.spawn(Says(first, "two"))
        return first

    found = Trial(scenario).outcome(lambda world, first: world.behaviour(first, First).word).every()
    found.expect("one", "two")
    assert found.is_whole()

A schedule is a text: `0 1 0' t k<0.1.1> c<0.2.1> o`. Behind its last move the usual ones come: the desk of the last move goes on
while it can, and then the first desk that can.

- `1`: the next move of desk 1: a letter of another desk, or a handler. `1'` is another next move of it, and `1''` a third.
- `o`: what the scenario has sent from outside, the next of it.
- `t`: time goes on until the next timer is due, though something is to be done.
- `k<0.1.1>`: this process is killed. `c<0.1.1>`: its handler raises an exception as it begins.

Nothing in a behaviour changes between a trial and a run. Not varied: what processes of one desk send each other comes in the order
in which it was sent; an exit is told at once to those outside (names, groups, `ended`); a handler is one move. Not proved, but
tested: this module.
"""

from __future__ import annotations

import functools
from pathlib import Path
from typing import Any, Callable, Generic, NamedTuple, Optional, TypeVar, Union

from ._trial_engine import Crashed, TrialCrash
from ._trial_run import Chooser, Ended, Later, Run, Settings, World, Wrong
from ._trial_tokens import Token, Tokens
from ._trial_ways import Chance, Follow, Priorities, Tally, Wanted, by_chance, compare, every, follow, shortest
from .values import U32, U64, number

__all__ = [
    "Crashed", "Failure", "Found", "Later", "NotSchedule", "Replay", "Token", "Tokens", "Trial", "TrialCrash", "TrialFailed",
    "World", "tried",
]

S = TypeVar("S")
Look = Callable[[World, S], object]


class NotSchedule(ValueError):
    """A text that is no schedule."""


class TrialFailed(AssertionError):
    """What was asked of the runs of a trial does not hold. `failure` is the run that shows it, if one does."""

    def __init__(self, text: str, failure: Optional[Failure] = None):
        self.failure = failure
        super().__init__(text)


class Failure(NamedTuple):
    """A run with which something is wrong: the shortest that was found.

    `wrong` says what, `replay` of the trial takes the `schedule`, and `history` has what happened, a line an event. It is a legal
    history, as `pt_audit` reads it. `crashes` has the exceptions of behaviours.
    """

    wrong: str
    schedule: str
    history: tuple[str, ...]
    # the exceptions of behaviours, a line each: the process, its behaviour, and the text
    crashes: tuple[str, ...] = ()

    def save(self, file: Union[str, Path]) -> None:
        """Writes the history to a file, which `pt_audit` judges, and of which `pt_audit --print chart` draws an SVG."""
        Path(file).write_text("".join(f"{line}\n" for line in self.history))

    def __str__(self) -> str:
        history = "".join(f"  {line}\n" for line in self.history)
        # (one that is what is wrong is told already)
        others = (it for it in self.crashes if it not in self.wrong)
        crashes = "".join(f"a behaviour raised an exception: {it}\n" for it in others)
        return (f"{self.wrong}\n{crashes}the shortest schedule found: {self.schedule}\nits history:\n{history}"
                f'to run it again: .replay("{self.schedule}")')


class Replay(NamedTuple):
    """One run, as `Trial.replay` makes it: its outcome if nothing is wrong, what is wrong with it, all its moves, and what
    happened, a line an event."""

    outcome: Optional[str]
    wrong: Optional[str]
    schedule: str
    history: tuple[str, ...]


def words_of(schedule: str) -> list[str]:
    """The moves of a schedule."""
    words = schedule.split()
    for word in words:
        desk = word.rstrip("'")
        if word not in ("t", "o") and not desk.isdigit() and not (word[0] in "kc" and word[1:2] == "<" and word[-1] == ">"):
            raise NotSchedule(f"'{word}' is no move of a schedule, such as 0, 1', t, o, k<0.1.1> or c<0.1.1>")
    return words


class Trial(Generic[S]):
    """A scenario, and what is asked of its runs. Each run makes the scenario anew.

    The scenario spawns the processes of a run and sends to them. What it returns is given to the functions that look at the run.
    Each word returns another trial, and this one stays as it is.
    """

    def __init__(self, scenario: Callable[[World], S]):
        self._scenario, self._settings = scenario, Settings()
        self._outcome: Optional[Look[S]] = None
        self._always: tuple[Look[S], ...] = ()
        self._at_rest: tuple[Look[S], ...] = ()

    def _with(self, **words: Any) -> Trial[S]:
        other = Trial(self._scenario)
        other.__dict__.update(self.__dict__)
        settings = {name: value for name, value in words.items() if name in Settings._fields}
        other._settings = self._settings._replace(**settings)
        other.__dict__.update({name: value for name, value in words.items() if name not in settings})
        return other

    def desks(self, desks: int) -> Trial[S]:
        """How many desks there are: 1 to 64. Without this 1."""
        return self._with(desks=number("desks", desks, 1, 64))

    def slots(self, slots: int) -> Trial[S]:
        """How many processes each desk has at most at a time, less one of its own. Without this 32."""
        return self._with(slots=number("slots", slots, 1, 32_768))

    def lane(self, lane: int) -> Trial[S]:
        """How many letters a lane holds: a power of two. Without this 64."""
        return self._with(lane=number("lane", lane, 1, U32))

    def steps(self, most: int) -> Trial[S]:
        """How many moves a run has at most. Without this 10,000. With one more to come something is wrong with the run."""
        return self._with(steps=number("most", most, 0, U32))

    def may_be_cut_off(self) -> Trial[S]:
        """A run may be cut off at its last move: then its outcome is `cut off: ` and what the outcome says there."""
        return self._with(all_rest=False)

    def limit(self, runs: int) -> Trial[S]:
        """How many runs are made at most by `every` and `bounded`. Without this 100,000."""
        return self._with(limit=number("runs", runs, 1, U64))

    def time_goes_on(self, most: int) -> Trial[S]:
        """Time goes on at any step until the next timer is due, so many times at most in a run. Without this it does only once
        nothing else is to be done, so no timeout races with a message."""
        return self._with(times=number("most", most, 0, U32))

    def kills(self, most: int) -> Trial[S]:
        """Processes are killed at any step: of those that `World.may_be_killed` names, so many at most in a run."""
        return self._with(kills=number("most", most, 0, U32))

    def crashes(self, most: int) -> Trial[S]:
        """Handlers raise a `TrialCrash` as they begin: those of processes that `World.may_crash` names, so many at most in a
        run."""
        return self._with(crashes=number("most", most, 0, U32))

    def reduced(self) -> Trial[S]:
        """Leaves out schedules that differ from one that `every` runs only by the order of moves that do not meet (source sets and
        sleep sets). So each outcome is found by fewer runs, and the numbers of runs are those that were made.

        It is right if behaviours share nothing but what the runtime shares for them: messages, calls, exits, names, groups, timers;
        and if none asks how many messages wait. A scenario whose behaviours share a value says `shares`. `always` and
        `may_be_cut_off` look between moves: with one of them nothing is left out.
        """
        return self._with(reduced=True)

    def shares(self) -> Trial[S]:
        """Behaviours share something of their own: `reduced` leaves nothing out."""
        return self._with(shares=True)

    def no_crashes(self) -> Trial[S]:
        """No behaviour may raise an exception, but those of `crashes`."""
        return self._with(no_crashes=True)

    def all_end(self) -> Trial[S]:
        """All processes end: one that lives at rest waits for ever."""
        return self._with(all_end=True)

    def none_kept(self) -> Trial[S]:
        """Each token of `World.token` is handled or dropped, once all that the run had is dropped."""
        return self._with(none_kept=True)

    def none_lost(self) -> Trial[S]:
        """No message and no answer is lost: see `World.lost`."""
        return self._with(none_lost=True)

    def outcome(self, tell: Look[S]) -> Trial[S]:
        """What the outcome of a run is, at rest. Outcomes are counted by their texts."""
        return self._with(_outcome=tell)

    def always(self, look: Look[S]) -> Trial[S]:
        """What holds after each move: the function raises an exception if it does not."""
        return self._with(_always=(*self._always, look))

    def at_rest(self, look: Look[S]) -> Trial[S]:
        """What holds at rest: the function raises an exception if it does not."""
        return self._with(_at_rest=(*self._at_rest, look))

    # Ways through the schedules

    def _make(self, chooser: Chooser, with_history: bool) -> Ended:
        return Run(self, chooser).make(with_history)

    def every(self) -> Found[S]:
        """Runs every schedule, each once, up to the limit. The first run is made twice, and the beginning of each schedule is
        compared with the runs before that began so."""
        settings = self._settings
        is_reduced = settings.reduced and settings.all_rest and not settings.shares and not self._always
        return Found(self, every(self._make, self._settings.limit, None, is_reduced))

    def bounded(self, preemptions: int) -> Found[S]:
        """The same, but only the schedules in which at most so many desks lose their turn while they could go on."""
        most = number("preemptions", preemptions, 0, U32)
        return Found(self, every(self._make, self._settings.limit, most))

    def random(self, runs: int, seed: int) -> Found[S]:
        """So many runs, each move of which is drawn by chance from those that may come. The same seed gives the same runs."""
        runs, seed = number("runs", runs, 1, U64), number("seed", seed, 0, U64)
        return Found(self, by_chance(self._make, runs, lambda run: Chance(seed, run)))

    def priorities(self, runs: int, seed: int, depth: int) -> Found[S]:
        """So many runs in which the moves have priorities that are drawn by chance and change at `depth - 1` places (PCT). The
        same seed gives the same runs.

        A fault that shows wherever `depth` moves come in a certain order is of this depth. If there are `n` words of moves in a
        run of `k` moves, one run finds it with a probability of at least `1 / (n * k**(depth - 1))`.
        """
        runs, seed = number("runs", runs, 1, U64), number("seed", seed, 0, U64)
        depth, length = number("depth", depth, 1, U32), len(self._make(Follow([], False), False).words)
        return Found(self, by_chance(self._make, runs, lambda run: Priorities(Chance(seed, run), depth, length)))

    def replay(self, schedule: str) -> Replay:
        """Runs one schedule, twice. Behind its last move the usual ones come. NotSchedule if the text is none."""
        ended = follow(self._make, words_of(schedule), True)
        wrong = ended.wrong
        if wrong is None or wrong.kind != "no move":
            wrong = compare(self._make, ended) or wrong
        text = None if wrong is None else str(wrong)
        return Replay(ended.outcome, text, " ".join(ended.words), tuple(ended.history))


class Found(Generic[S]):
    """What the runs of a scenario came to: ask it what is expected, by `passes`, `expect_one` or `expect`."""

    def __init__(self, trial: Trial[S], tally: Tally):
        self._trial, self._tally = trial, tally
        self.failure: Optional[Failure] = None if tally.wrong is None else self._failure(*tally.wrong)
        """The first run with which something is wrong, after which no run was made, shortened."""

    def __str__(self) -> str:
        """A line of counts, and two lines an outcome: how many runs had it, and the first of them."""
        lines = [f"runs {self.runs} outcomes {len(self._tally.outcomes)}"]
        for outcome, (count, first) in sorted(self._tally.outcomes.items()):
            lines.append(f"{count} runs: {outcome}\n  first {' '.join(first)}")
        return "\n".join([*lines, *([] if self.failure is None else [str(self.failure)])])

    @property
    def runs(self) -> int:
        """How many runs were made."""
        return self._tally.runs

    @property
    def given_up(self) -> int:
        """How many runs the reduction gave up, since all that they could still do is in others."""
        return self._tally.given_up

    @property
    def moves(self) -> int:
        """How many moves all these runs had."""
        return self._tally.moves

    def is_whole(self) -> bool:
        """Whether no schedule was left out: those of `every` were not more than its limit."""
        return self._tally.is_whole and self.failure is None

    def outcomes(self) -> dict[str, int]:
        """Each outcome, and how many runs had it."""
        return {outcome: count for outcome, (count, _) in sorted(self._tally.outcomes.items())}

    def of(self, outcome: str) -> Optional[Failure]:
        """A run with this outcome, shortened, if one was found."""
        found = self._tally.outcomes.get(outcome)
        return None if found is None else self._failure(Wrong("outcome", f"this outcome was not expected: {outcome}"), found[1])

    # (`__tracebackhide__` is for pytest, which shows the test and not what is here)

    def passes(self) -> Found[S]:
        """Nothing is wrong with any run. TrialFailed with the failure, if there is one."""
        __tracebackhide__ = True
        if self.failure is not None:
            raise TrialFailed(str(self.failure), self.failure)
        return self

    def expect_one(self) -> Found[S]:
        """Nothing is wrong with any run, and all have one outcome. TrialFailed with the failure, or with a run of the rarest
        outcome."""
        __tracebackhide__ = True
        outcomes = self.passes().outcomes()
        if len(outcomes) > 1:
            self._refuse(min(outcomes, key=lambda it: outcomes[it]))
        return self

    def expect(self, *expected: object) -> Found[S]:
        """Nothing is wrong with any run, and the outcomes are these: no other one, and each of them. TrialFailed with the failure,
        with a run of another outcome, or with the outcome that no run had."""
        __tracebackhide__ = True
        outcomes, texts = self.passes().outcomes(), [str(it) for it in expected]
        for other in outcomes:
            if other not in texts:
                self._refuse(other)
        for missing in texts:
            if missing not in outcomes:
                raise TrialFailed(f"no run had the outcome {missing}, of {self.runs} runs")
        return self

    def _refuse(self, outcome: str) -> None:
        __tracebackhide__ = True
        failure = self.of(outcome)
        every_one = "".join(f"  {count} runs: {it}\n" for it, count in self.outcomes().items())
        raise TrialFailed(f"{failure}\nall outcomes:\n{every_one}", failure)

    def _failure(self, wrong: Wrong, words: list[str]) -> Failure:
        """The shortest run that is found with the same fault."""
        if wrong.kind in ("differs", "no move"):
            return Failure(str(wrong), " ".join(words), ())
        is_outcome = wrong.kind == "outcome"
        outcome = next((it for it, (_, first) in self._tally.outcomes.items() if first is words), None)
        wanted = Wanted(None if is_outcome else wrong.kind, outcome if is_outcome else None)
        ended = shortest(self._trial._make, wanted, words)
        if ended is None:
            return Failure("a second run of the same schedule ends in another way", " ".join(words), ())
        return Failure(str(ended.wrong or wrong), ended.schedule(), tuple(ended.history), tuple(ended.crashes))


def told(world: World, tell: Optional[Callable[[], Any]]) -> Any:
    """The outcome that a scenario tells by what it has returned."""
    return "" if tell is None else tell()


Way = Callable[[Trial[Any]], Found[Any]]
Tested = Callable[..., None]


def tried(by: Way = Trial.every, outcomes: Union[None, str, tuple[object, ...]] = None, **words: Any) -> Callable[..., Tested]:
    """Makes a test of a scenario, for `pytest` and for a method of a `unittest.TestCase`.

        @tried(desks=3, kills=1)
        def test_no_update_is_lost(world):
            cell = world.spawn(Cell(), 0)
            ..
            return lambda: world.behaviour(cell, Cell).value

    The scenario is run under every schedule, or as `by` says, such as `lambda trial: trial.random(1000, 7)`. It returns a function
    that tells the outcome at rest, which may raise an exception; or None. All runs have one outcome, or `outcomes` has all of them.
    The other words are those of a `Trial`, each with its number, or True for one that takes none.
    """
    def make(scenario: Callable[..., Any]) -> Tested:
        @functools.wraps(scenario)
        def test(*me: Any) -> None:
            def run(world: World) -> Any:
                return scenario(*me, world)

            trial: Trial[Any] = Trial(run).outcome(told)
            for word, value in words.items():
                trial = getattr(trial, word)(*(() if value is True else (value,)))
            found = by(trial).passes()
            if outcomes is None:
                found.expect_one()
            else:
                found.expect(*((outcomes,) if isinstance(outcomes, str) else outcomes))

        # (else a test would be asked for what the scenario takes)
        del test.__wrapped__  # type: ignore[attr-defined]
        return test

    return make
