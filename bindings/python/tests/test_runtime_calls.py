"""Properties of the calls of a run: each parameter takes its range and nothing else, and a refused call has changed nothing."""

from __future__ import annotations

import asyncio
import decimal
import fractions
import inspect
import os
import random
import tempfile
import unittest
from pathlib import Path
from typing import Any, Callable, Iterator

import pundewo as p
from pundewo import runtime as r
from pundewo.values import shown

from behaviours import Doing, Echo, in_asyncio, until
from domains import PICK, PID, REASON, REF, WORD, Domain, Flag, Ints, Only, Small

# What is no value of a type of the run.
OTHERS: tuple[Any, ...] = (None, 0, 1, -1, 2**70, True, 1.5, float("nan"), "", "x", b"x", (), (1, 2), [], {}, object(), int, p.ANY)


class Anything(Domain):
    """Any object."""

    def bad(self, draw: random.Random) -> Iterator[Any]:
        return iter(())


class Option(Domain):
    """None, or what another domain has."""

    def __init__(self, of: Domain):
        self.of = of

    def bounds(self) -> list[Any]:
        return [None, *self.of.bounds()]

    def bad(self, draw: random.Random) -> Iterator[Any]:
        return (value for value in self.of.bad(draw) if value is not None)


class Seconds(Domain):
    """Times from 0 to some thirty years."""

    def bounds(self) -> list[Any]:
        return [0, 0.0, -0.0, 5e-324, Small.ONE, 10**9, 1e9]

    def bad(self, draw: random.Random) -> Iterator[Any]:
        yield from (-1, -5e-324, -1e300, 1e9 + 1, 10**9 + 1, 2**70, -(2**70), 10**400, -(10**400))
        yield from (float("nan"), float("inf"), -float("inf"))
        yield from (True, False, None, "1", "", b"1", 1j, fractions.Fraction(1), decimal.Decimal(1), (), [1.0], object(), float)


class Things(Domain):
    """What the test has one of, and these besides the others are not."""

    def __init__(self, *wrong: Any, but: type = type(None)):
        self.wrong, self.but = wrong, but

    def bad(self, draw: random.Random) -> Iterator[Any]:
        yield from (value for value in OTHERS if self.but is type(None) or not isinstance(value, self.but))
        yield from (make() if inspect.isfunction(make) else make for make in self.wrong)


class Callables(Domain):
    def bad(self, draw: random.Random) -> Iterator[Any]:
        yield from (value for value in OTHERS if not callable(value))
        yield Echo()


class Chosen(Domain):
    """What a selection wants."""

    def bounds(self) -> list[Any]:
        return [0, 2**16 - 1, (), (0, int), int, Echo, r.Request, lambda message: True]

    def bad(self, draw: random.Random) -> Iterator[Any]:
        yield from (None, True, 1.5, "", "kind", b"x", -1, 2**16, 2**70, (True,), (1, "x"), ((),), [], [1], {}, object())


class Ends(Seconds):
    """A time, INFINITY or BRUTAL_KILL."""

    def bounds(self) -> list[Any]:
        return [*super().bounds(), r.INFINITY, r.BRUTAL_KILL]

    def bad(self, draw: random.Random) -> Iterator[Any]:
        yield from super().bad(draw)
        yield from (r.WHICH_CHILDREN, "infinity", "brutal_kill")


class Paths(Domain):
    def bad(self, draw: random.Random) -> Iterator[Any]:
        yield from (0, 1, -1, True, 2**70, 1.5, None, (), [], object(), int)


def elsewhere() -> r.Address:
    """A process of another run."""
    return r.Runtime().spawn(Echo())


WANTS, EVENT, SELECTION = Chosen(), Things(), Things()
FLAG, VALUE, SECONDS, MAYBE_SECONDS = Flag(), Anything(), Seconds(), Option(Seconds())
DESK, MAYBE_DESK, ANY_DESK = Ints(0, 1), Option(Ints(0, 1)), Option(Ints(0, 255))
BEHAVIOUR, MAKE, NAME = Things(Echo, r.TIMEOUT), Callables(), Things(but=str)
ANY_ADDRESS, ADDRESS = Things(p.Pid(0, 0, 1)), Things(p.Pid(0, 0, 1), elsewhere)
TARGET, TIMER, REQUEST, RUN = Things(elsewhere), Things(7), Things(r.Call), Things(r.Runtime)
GROUP = Things(r.Runtime)
SINK, PATH, BOUND, MAYBE_ADDRESS = Option(Callables()), Paths(), Option(Ints(1, 2**64 - 1)), Option(ADDRESS)
STRATEGY, RESTART = Only("one_for_one", "one_for_all", "rest_for_one"), Only("permanent", "transient", "temporary")
CHILD = {"make": MAKE, "name": NAME, "desk": ANY_DESK, "shutdown": Option(Ends())}
CALL: dict[str, Domain] = {"to": ADDRESS, "value": VALUE, "limit": SECONDS}

APART = {"downs": FLAG, "exits": FLAG, "answers": FLAG}

# Each public call of each class, with its parameters; the call "" makes a value.
CALLS: dict[str, dict[str, dict[str, Domain]]] = {
    "Runtime": {
        "": {"desks": Ints(0, 255), "slots": Ints(1, 65_535), "lane": WORD, "going_on_every": Ints(1, 2**64 - 1), "archive": SINK,
             "patience": SECONDS, "inbox": BOUND},
        "spawn": {"behaviour": BEHAVIOUR, "desk": MAYBE_DESK, "limit": SECONDS}, "call": CALL,
        "mailbox": {"desk": MAYBE_DESK}, "wait": {"limit": MAYBE_SECONDS}, "run": {"forever": FLAG},
        "stop": {}, "waiting": {}, "summary": {}, "close": {}, "ended": {}, "drain": {"limit": SECONDS}, "is_drained": {}, "go_on": {},
        "exit": {"process": ADDRESS, "reason": REASON}, "register": {"name": NAME, "process": ADDRESS},
        "whereis": {"name": NAME}, "unregister": {"name": NAME}, "with_archive": {"archive": SINK},
        "group": {"name": NAME},
        "view": {"after": Option(Ints(0, 2**64 - 1)), "processes": WORD, "first": WORD, "limit": SECONDS},
        "inspect": {"process": ADDRESS, "limit": SECONDS}, "tap": {"process": MAYBE_ADDRESS, "most": Ints(1, 2**64 - 1)},
        "observe": {"port": Ints(0, 65_535), "host": NAME},
    },
    "View": {"process": {"pid": PID}, "supervisor": {"pid": PID}},
    "Tap": {"get": {"limit": SECONDS}, "is_ended": {}, "close": {}}, "Observer": {"close": {}},
    "Group": {"join": {"process": ADDRESS}, "leave": {"process": ADDRESS}, "times": {"process": ADDRESS}, "members": {},
              "send_all": {"value": VALUE}},
    "Address": {
        "is_alive": {}, "send": {"value": VALUE}, "try_send": {"value": VALUE}, "send_async": {"value": VALUE},
        "call": {"value": VALUE, "limit": SECONDS},
    },
    "Context": {
        "send": {"to": ANY_ADDRESS, "value": VALUE}, "send_all": {"to": GROUP, "value": VALUE}, "send_after": {"time": SECONDS, "to": ANY_ADDRESS, "value": VALUE},
        "cancel": {"timer": TIMER}, "spawn": {"behaviour": BEHAVIOUR, "linked": FLAG},
        "spawn_on": {"desk": DESK, "behaviour": BEHAVIOUR, "linked": FLAG}, "monitor": {"target": TARGET},
        "demonitor": {"monitor": REF}, "link": {"to": TARGET}, "unlink": {"to": TARGET},
        "exit": {"to": TARGET, "reason": REASON}, "trap": {"on": FLAG}, "call": CALL,
        "reply": {"request": REQUEST, "value": VALUE}, "now": {}, "waiting": {},
        "register": {"name": NAME, "process": MAYBE_ADDRESS}, "whereis": {"name": NAME}, "postpone": {"event": EVENT}, "retry": {},
    },
    "Mailbox": {"": {"runtime": RUN, "desk": MAYBE_DESK}, "get": {"limit": MAYBE_SECONDS}, "monitor": {"target": ADDRESS},
                "close": {}},
    "Next": {
        "": {"name": Only("wait", "proceed", "stop"), "pick": PICK, "limit": MAYBE_SECONDS, "reason": REASON,
             "selection": Option(SELECTION)},
        "wait": {"limit": MAYBE_SECONDS, "pick": PICK}, "proceed": {}, "stop": {"reason": REASON},
        "only": {"wants": WANTS, "limit": MAYBE_SECONDS, **APART},
    },
    "Bound": {"": {"name": Only("refuse", "drop-oldest", "crash"), "most": Ints(1, 2**64 - 1)},
              **{name: {"most": Ints(1, 2**64 - 1)} for name in ("refuse", "drop_oldest", "crash")}},
    "Selection": {"": {"wants": WANTS, **APART, "but": FLAG}, "all_but": {"wants": WANTS, **APART}, "pick": {}},
    "Supervisor": {
        "": {"strategy": STRATEGY, "patience": SECONDS}, "one_for_one": {"patience": SECONDS},
        "one_for_all": {"patience": SECONDS}, "rest_for_one": {"patience": SECONDS},
        "limit": {"most": WORD, "within": SECONDS}, "permanent": CHILD, "transient": CHILD, "temporary": CHILD,
    },
    "StartChild": {"": {"make": MAKE, "name": NAME, "restart": RESTART, "desk": ANY_DESK, "shutdown": Option(Ends())}},
    "TerminateChild": {"": {"name": NAME}}, "RestartChild": {"": {"name": NAME}}, "DeleteChild": {"": {"name": NAME}},
    "HistoryFile": {"": {"path": PATH}, "append": {"path": PATH}, "rotating": {"path": PATH, "most": Ints(1, 2**64 - 1)}},
    "Request": {"reply": {"value": VALUE}}, "Answer": {"result": {}},
}
# What the run makes and a program reads, and what a program writes itself.
READ = {"Behind", "ChildView", "DeskView", "First", "ProcessView", "SilentDesk", "SupervisorView", "Call", "CallFault", "CallTimeout", "Child", "Crash", "Down", "Exit", "Halt", "Halted", "Holder",
        "InboxFull", "Message", "NotEnded", "Restart", "RunOver", "ServerDown", "SpawnTimeout", "Summary", "Tick", "Timer", "Unanswered"}
WRITTEN = {"Behaviour"}


def public_calls(where: str) -> set[str]:
    """The public calls of a class of the run."""
    of = getattr(r, where)
    return {name for name, call in inspect.getmembers(of, lambda it: inspect.isfunction(it) or inspect.ismethod(it))
            if not name.startswith("_") and not (issubclass(of, r.Behaviour) and hasattr(r.Behaviour, name))}


class Case:
    """A run with processes that are linked, watched, written to and wait, and what is said of it."""

    def __init__(self, run: r.Runtime) -> None:
        self.run, self.notes, self.ready = run, list[Any](), False
        self.group, self.tap = run.group("group"), run.tap()
        self.file = r.HistoryFile(Path(tempfile.mkdtemp()) / "history")

        def start(cx: r.Context) -> None:
            self.cx = cx
            cx.trap()
            self.child = cx.spawn(Doing(self.hold), linked=True)
            self.other = cx.spawn_on(1, Echo())
            self.monitor = cx.monitor(self.other)
            self.timer = cx.send_after(1000, self.child, "late")
            cx.call(self.child, "hold", 1000)
            self.mailbox = run.mailbox(1)

        self.parent = run.spawn(Doing(started=start), 0)

    def hold(self, cx: r.Context, event: Any) -> None:
        self.request, self.ready = event, True

    def of(self, where: str, name: str) -> Callable[..., Any]:
        """The call."""
        if not name:
            made: Callable[..., Any] = getattr(r, where)
            return made
        at: dict[str, Any] = {
            "Runtime": self.run, "Address": self.child, "Context": self.cx, "Mailbox": self.mailbox, "Next": r.Next,
            "Selection": r.Selection(1), "Bound": r.Bound, "HistoryFile": r.HistoryFile,
            "Supervisor": r.Supervisor.one_for_one(), "Group": self.group, "View": self.run.view(), "Tap": self.tap}
        call: Callable[..., Any] = getattr(at[where], name)
        return self.begun(call) if inspect.iscoroutinefunction(call) else call

    def begun(self, call: Callable[..., Any]) -> Callable[..., None]:
        """The call up to where it waits."""
        def begin(**words: Any) -> None:
            coroutine = call(**words)
            try:
                coroutine.send(None)
            finally:
                coroutine.close()
        return begin

    def good(self, words: dict[str, Domain]) -> dict[str, Any]:
        values: dict[Domain, Any] = {
            FLAG: True, VALUE: 1, SECONDS: 1.0, MAYBE_SECONDS: 1.0, DESK: 1, MAYBE_DESK: 1, ANY_DESK: 1, BEHAVIOUR: Echo(),
            MAKE: Echo, NAME: "name", ANY_ADDRESS: self.child, ADDRESS: self.child, MAYBE_ADDRESS: self.child, TARGET: self.child, TIMER: self.timer,
            REQUEST: self.request, RUN: self.run, GROUP: self.group, SINK: self.file, PATH: self.file.path, REF: self.monitor,
            WANTS: 7, EVENT: r.TIMEOUT, SELECTION: r.Selection(int),
            REASON: p.Reason("other", 3), PICK: p.ANY, WORD: 8}
        return {word: values[domain] if domain in values else domain.bounds()[-1] for word, domain in words.items()}

    def told(self) -> list[Any]:
        """All that there is."""
        engine = self.run._engine
        desks = [(desk.clock(), desk.event_count(), desk.pending(), desk.vacant()) for desk in engine.desks]
        return [desks, list(engine.seats), list(engine.pids), list(engine.payloads), list(engine._alarms), [len(engine._timers)],
                len(engine.inbox), engine._number, engine.order, self.run.summary(), self.run._next_desk, len(self.mailbox._waiting),
                dict(engine.names), self.group.members(), engine.drains, self.request._call is None, os.path.getsize(self.file.path)]


class Calls(unittest.TestCase):
    def test_each_parameter_of_each_call_has_a_row(self) -> None:
        classes = {name for name in r.__all__ if inspect.isclass(getattr(r, name))}
        self.assertEqual(classes, set(CALLS) | READ | WRITTEN)
        for where, calls in CALLS.items():
            self.assertEqual(public_calls(where), set(calls) - {""}, where)
            for name, words in calls.items():
                call = getattr(r, where) if not name else getattr(getattr(r, where), name)
                has = [word for word in inspect.signature(call).parameters if word != "self"]
                self.assertEqual(has, list(words), f"{where}.{name}")
        for where in READ:
            self.assertEqual(public_calls(where), set(), where)

    @in_asyncio
    async def test_what_is_out_of_range_is_refused_and_changes_nothing(self) -> None:
        draw, count = random.Random(8), 0
        async with r.Runtime(2) as run:
            case = Case(run)
            await until(lambda: case.ready and not run._engine.inbox)
            await asyncio.sleep(0.05)
            before = case.told()
            for where, calls in CALLS.items():
                for name, words in calls.items():
                    for word, domain in words.items():
                        for bad in domain.bad(draw):
                            given, said = {**case.good(words), word: bad}, f"{where}.{name}: {word} {shown(bad)}"
                            with self.assertRaises((TypeError, ValueError), msg=said) as caught:
                                case.of(where, name)(**given)
                            if word != "path":
                                self.assertIn(word, str(caught.exception), said)
                            self.assertEqual(case.told(), before, said)
                            count += 1
            self.assertGreater(count, 1_000)
            # and all is as it was: what is well said is done
            self.assertTrue(case.cx.cancel(case.timer))
            self.assertTrue(case.cx.reply(case.request, "answer"))
            self.assertEqual(await case.other.call(3), ("echo", 3))

    def test_what_is_in_range_is_taken(self) -> None:
        for field, domain in (("patience", SECONDS), ("slots", Ints(1, 65_535)), ("going_on_every", Ints(1, 2**64 - 1)),
                              ("inbox", BOUND)):
            for value in domain.bounds():
                settings: dict[str, Any] = {field: value}
                r.Runtime(**settings).close()
        for value in MAYBE_SECONDS.bounds():
            self.assertEqual(r.Next.wait(value), r.Next("wait", limit=value))
        for strategy in STRATEGY.bounds():
            r.Supervisor(strategy).limit(0, 0).limit(2**32 - 1, 1e9)
        for restart in RESTART.bounds():
            for end in Option(Ends()).bounds():
                asked = r.StartChild(Echo, "name", restart, None, end)
                self.assertEqual((asked.restart, asked.shutdown), (restart, end))
                self.assertEqual(asked._replace(desk=1).desk, 1)

    def test_what_a_supervisor_is_asked_is_checked_in_each_way_to_make_it(self) -> None:
        asked = r.StartChild(Echo, "name")
        wrong: list[dict[str, Any]] = [
            {"desk": -1}, {"desk": True}, {"name": 1}, {"restart": "never"}, {"shutdown": "brutal_kill"}, {"make": 1}]
        for words in wrong:
            with self.assertRaises((TypeError, ValueError)):
                asked._replace(**words)
        with self.assertRaises(TypeError):
            r.TerminateChild._make([7])


if __name__ == "__main__":
    unittest.main()
