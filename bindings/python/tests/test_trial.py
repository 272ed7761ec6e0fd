"""Every schedule of a program: `pundewo.trial`."""

from __future__ import annotations

import inspect
import itertools
import os
import random
import subprocess
import sys
import tempfile
import time
import unittest
from pathlib import Path
from typing import Any, Callable, Optional

import pundewo as p
from behaviours import AUDIT, BOUNDED, audit
from pundewo import runtime as r
from pundewo.trial import NotSchedule, Trial, TrialFailed, World, tried

Handler = Callable[[r.Context, Any], Any]


class Does(r.Behaviour):
    """Does what it is given, and keeps what it was told."""

    def __init__(self, handle: Optional[Handler] = None, started: Optional[Callable[[r.Context], Any]] = None) -> None:
        self.does, self.starts = handle, started
        self.told: list[Any] = []
        self.why: Optional[p.Reason] = None

    def started(self, cx: r.Context) -> Any:
        return None if self.starts is None else self.starts(cx)

    def handle(self, cx: r.Context, event: Any) -> Any:
        self.told.append(event.value if isinstance(event, r.Message) else event)
        return None if self.does is None else self.does(cx, event)

    def ended(self, why: p.Reason) -> None:
        self.why = why


class Cell(r.Behaviour):
    """Keeps a number."""

    value = 0

    def handle(self, cx: r.Context, event: r.Event) -> None:
        if isinstance(event, r.Request):
            cx.reply(event, self.value)
        elif isinstance(event, r.Message):
            word, number = event.value
            self.value = number if word == "put" else self.value + number


class Client(r.Behaviour):
    """Reads a cell, and writes it one higher."""

    def __init__(self, cell: r.Address) -> None:
        self.cell = cell

    def started(self, cx: r.Context) -> None:
        cx.call(self.cell, "get")

    def handle(self, cx: r.Context, event: r.Event) -> r.Next:
        if isinstance(event, r.Answer):
            cx.send(self.cell, ("put", event.result() + 1))
        return r.Next.stop()


class Adder(Client):
    """The same, mended: it asks the cell to add."""

    def started(self, cx: r.Context) -> r.Next:  # type: ignore[override]
        cx.send(self.cell, ("add", 1))
        return r.Next.stop()


def cell_of(world: World, client: type[Client], desks: tuple[int, int, int] = (0, 0, 0)) -> r.Address:
    cell = world.spawn(Cell(), desks[0])
    world.spawn(client(cell), desks[1])
    world.spawn(client(cell), desks[2])
    return cell


def value_of(world: World, cell: r.Address) -> int:
    found = world.behaviour(cell, Cell)
    assert found is not None
    return found.value


def clients(kind: type[Client], spread: bool = False) -> Trial[r.Address]:
    places = (0, 1, 2) if spread else (0, 0, 0)
    return Trial(lambda world: cell_of(world, kind, places)).desks(3 if spread else 1).outcome(value_of)


class RaceTest(unittest.TestCase):
    def test_a_lost_update_is_found_and_mended(self) -> None:
        trial = clients(Client)
        found = trial.every()
        found.expect("1", "2")
        self.assertTrue(found.is_whole() and found.runs > 10 and found.moves > found.runs)
        with self.assertRaises(TrialFailed) as failed:
            found.expect_one()
        text = str(failed.exception)
        self.assertIn("this outcome was not expected: 2\nthe shortest schedule found: ", text)
        self.assertIn("its history:\n  1@0 born <0.0.1>\n", text)
        self.assertIn("\nto run it again: .replay(\"", text)
        self.assertIn("\nall outcomes:\n", text)
        lost = found.of("1")
        assert lost is not None and failed.exception.failure is not None
        self.assertEqual(trial.replay(lost.schedule).outcome, "1")
        self.assertEqual(trial.replay(failed.exception.failure.schedule)[:2], ("2", None))
        clients(Adder).every().expect_one()
        self.assertEqual(clients(Adder).every().outcomes(), {"2": 10})

    def test_its_history_is_legal(self) -> None:
        failure = clients(Client, True).reduced().every().of("1")
        assert failure is not None
        with tempfile.TemporaryDirectory() as folder:
            file = Path(folder, "history")
            failure.save(file)
            self.assertEqual(tuple(file.read_text().splitlines()), failure.history)
            audit(self, file)
            if AUDIT.exists():
                chart = subprocess.run([*BOUNDED, str(AUDIT), "--print", "chart", str(file)], capture_output=True, check=False)
                self.assertEqual((chart.returncode, chart.stdout[:4]), (0, b"<svg"))

    def test_it_is_found_by_chance_by_priorities_and_with_few_preemptions(self) -> None:
        for trial in (clients(Client), clients(Client, True)):
            one, other = trial.random(100, 7), trial.random(100, 7)
            self.assertEqual(one.outcomes(), other.outcomes())
            self.assertEqual(set(one.outcomes()), {"1", "2"})
            self.assertFalse(one.is_whole())
            self.assertIn("1", trial.priorities(40, 7, 3).outcomes())
        few, whole = clients(Adder, True).bounded(0), clients(Adder, True).every()
        self.assertTrue(few.is_whole() and 1 < few.runs < whole.runs)

    def test_a_reduction_finds_the_same_outcomes_by_fewer_runs(self) -> None:
        whole, fewer = clients(Client).every(), clients(Client).reduced().every()
        self.assertEqual(set(whole.outcomes()), set(fewer.outcomes()))
        self.assertLess(fewer.runs, whole.runs)
        spread = clients(Client, True).reduced().every()
        self.assertTrue(spread.is_whole() and spread.runs < 100 and spread.given_up > 0)
        spread.expect("1", "2")
        always = clients(Client).reduced().always(lambda world, cell: None).every()
        self.assertEqual((always.runs, always.given_up), (whole.runs, 0))

    def test_a_limit_ends_it(self) -> None:
        found = clients(Client).limit(3).every()
        self.assertEqual((found.runs, found.is_whole()), (3, False))


class FaultTest(unittest.TestCase):
    """What is chosen besides: times, kills, exceptions."""

    def test_a_timeout_races_with_an_answer_if_time_goes_on(self) -> None:
        def scenario(world: World) -> r.Address:
            server = world.spawn(Cell())
            return world.spawn(Does(started=lambda cx: cx.call(server, "get", 1.0) and None))

        def told(world: World, client: r.Address) -> str:
            answer = one(world, client).told[0]
            return "late" if isinstance(answer.fault, r.CallTimeout) else str(answer.value)

        Trial(scenario).outcome(told).every().expect("0")
        Trial(scenario).time_goes_on(1).outcome(told).every().expect("0", "late")

    def test_time_goes_on_where_nothing_else_is_to_be_done(self) -> None:
        began = time.monotonic()
        trial = Trial(lambda world: world.spawn(Does(lambda cx, event: r.Next.stop(), lambda cx: r.Next.wait(3600.0))))
        trial.all_end().outcome(lambda world, one: round(world.now())).every().expect("3600")
        self.assertLess(time.monotonic() - began, 1_000)

    def test_a_process_is_killed_at_any_step(self) -> None:
        def scenario(world: World) -> r.Address:
            cell = cell_of(world, Adder)
            world.may_be_killed(cell)
            return cell

        def told(world: World, cell: r.Address) -> str:
            return str(value_of(world, cell)) if world.is_alive(cell) else "killed"

        found = Trial(scenario).kills(1).outcome(told).every()
        found.expect("2", "killed")
        failure = found.of("killed")
        assert failure is not None
        self.assertEqual(failure.schedule, "k<0.1.1>")
        Trial(scenario).outcome(told).every().expect("2")

    def test_a_handler_raises_at_any_step(self) -> None:
        def scenario(world: World) -> r.Address:
            cell = world.spawn(Cell())
            watcher = world.spawn(Does(started=lambda cx: cx.monitor(cell) and None))
            cell.send(("add", 1))
            world.may_crash(cell)
            return watcher

        def told(world: World, watcher: r.Address) -> list[Any]:
            return [it.crash and it.crash.split(":")[0] for it in one(world, watcher).told]

        found = Trial(scenario).crashes(1).outcome(told).every()
        # (it may have crashed before it is monitored)
        found.expect([], [None], ["pundewo._trial_engine.TrialCrash"])

    def test_exceptions_are_named_if_none_may_be(self) -> None:
        def scenario(world: World) -> None:
            world.spawn(Does(started=lambda cx: 1 // 0))

        failure = Trial(scenario).no_crashes().every().failure
        assert failure is not None
        self.assertIn("a behaviour raised an exception: <0.1.1>, a Does: ZeroDivisionError", failure.wrong)
        Trial(scenario).outcome(lambda world, _: [it.behaviour for it in world.crashes()]).every().expect(["Does"])

    def test_processes_that_wait_for_ever_and_runs_without_rest_are_named(self) -> None:
        failure = Trial(lambda world: world.spawn(Does())).all_end().every().failure
        assert failure is not None
        self.assertIn("there wait for ever: <0.1.1>, a Does", failure.wrong)
        spins = Trial(lambda world: world.spawn(Does(lambda cx, event: r.Next.proceed(), lambda cx: r.Next.proceed())))
        failure = spins.steps(20).every().failure
        assert failure is not None
        self.assertIn("does not come to rest in 20 moves", failure.wrong)
        spins.steps(20).may_be_cut_off().outcome(lambda world, it: "on").every().expect("cut off: on")

    def test_what_is_always_to_hold_is_looked_at_after_each_move(self) -> None:
        def never_one(world: World, cell: r.Address) -> None:
            assert value_of(world, cell) != 1, "it is one"

        failure = clients(Adder).always(never_one).every().failure
        assert failure is not None
        self.assertEqual(failure.wrong, "what is always to hold does not: AssertionError: it is one")
        clients(Adder).at_rest(never_one).every().passes()
        with self.assertRaises(TrialFailed) as failed:
            clients(Client).at_rest(never_one).every().expect_one()
        self.assertIn("what is to hold at rest does not: AssertionError: it is one", str(failed.exception))

    def test_a_run_that_differs_is_named(self) -> None:
        count = itertools.count()

        def scenario(world: World) -> None:
            other = world.spawn(Does())
            world.spawn(Does(started=lambda cx: [cx.send(other, 1) for _ in range(next(count) % 2)] and None))

        failure = Trial(scenario).every().failure
        assert failure is not None
        self.assertIn("a second run of the same schedule differs from move", failure.wrong)
        self.assertRaises(TrialFailed, Trial(scenario).random(3, 1).passes)

    def test_bad_words_are_refused(self) -> None:
        trial = clients(Client)
        for bad in ("x", "-1", "k", "k1", "'", "0 ''", "kk<0.1.1>"):
            self.assertRaises(NotSchedule, trial.replay, bad)
        replay = trial.replay("7")
        self.assertEqual((replay.outcome, replay.wrong), (None, "move 1 of the schedule, 7, is not there: there are 0 0' 0''"))
        for word, low in (("desks", 0), ("slots", 0), ("lane", 0), ("steps", -1), ("limit", 0), ("kills", -1)):
            self.assertRaises((TypeError, ValueError), getattr(trial, word), low)
        self.assertRaises((TypeError, ValueError), trial.random, 0, 1)
        self.assertRaises(RuntimeError, Trial(fails).every)
        with self.assertRaises(TrialFailed) as failed:
            trial.every().expect("1", "2", "3")
        self.assertEqual(str(failed.exception), "no run had the outcome 3, of 68 runs")
        self.assertIsNone(trial.every().of("3"))


def fails(world: World) -> None:
    raise RuntimeError("the scenario")


def one(world: World, process: r.Address) -> Does:
    found = world.behaviour(process, Does)
    assert found is not None
    return found


class RuntimeTest(unittest.TestCase):
    """What the runtime has, within a trial."""

    def test_calls_from_outside_are_read_at_rest(self) -> None:
        def scenario(world: World) -> Any:
            cell = world.spawn(Cell())
            later = world.ask(cell, "get")
            cell.send(("add", 1))
            last = world.ask(cell, "get")
            self.assertFalse(later.is_over())
            self.assertRaises(LookupError, later.get)
            return later, last

        trial = Trial(scenario).outcome(lambda world, it: (it[0].get(), it[1].get()))
        trial.every().expect((0, 1))
        world_of: list[World] = []

        def down(world: World) -> Any:
            world_of.append(world)
            cell = world.spawn(Cell())
            world.exit(cell)
            return world.ask(cell, "get")

        def fault(world: World, later: Any) -> str:
            try:
                return str(later.get())
            except r.CallFault as error:
                return type(error).__name__

        Trial(down).outcome(fault).every().expect("ServerDown")

    def test_names_and_groups_are_of_those_that_live(self) -> None:
        def scenario(world: World) -> Any:
            group = world.group("all")
            members = [world.spawn(Does(lambda cx, event: r.Next.stop())) for _ in range(2)]
            for number, member in enumerate(members):
                group.join(member)
                world.register(f"member {number}", member)
            world.spawn(Does(started=lambda cx: (cx.send_all(group, "end"), None)[1]))
            return group

        def left(world: World, group: r.Group) -> Any:
            return len(group), world.whereis("member 0"), world.unregister("member 1"), len(world.living())

        for reduced in (False, True):
            trial = Trial(scenario).outcome(left)
            (trial.reduced() if reduced else trial).every().expect((0, None, False, 1))

    def test_a_child_is_started_again_under_every_order(self) -> None:
        def scenario(world: World) -> r.Address:
            notes = world.spawn(Does())

            def child(name: str) -> Callable[[], Does]:
                return lambda: Does(started=lambda cx: (cx.register(name), cx.send(notes, name), None)[2])

            world.spawn(r.Supervisor.one_for_one().permanent(child("a"), "a").permanent(child("b"), "b"))
            world.spawn(Does(started=lambda cx: crash_named(cx, "a")))
            return notes

        def told(world: World, notes: r.Address) -> Any:
            return sorted(one(world, notes).told), world.whereis("a") is not None

        found = Trial(scenario).outcome(told).every()
        self.assertTrue(found.is_whole())
        found.expect((["a", "a", "b"], True), (["a", "b"], True))

    def test_a_stop_and_a_drain_end_all(self) -> None:
        def stops(world: World) -> None:
            world.spawn(Does())
            world.spawn(Does(started=lambda cx: (cx.trap(), None)[1]), 1)
            world.stop()

        Trial(stops).desks(2).all_end().every().passes()

        def drains(world: World) -> r.Address:
            cell = cell_of(world, Client)
            world.drain()
            return cell

        Trial(drains).all_end().every().passes()

    def test_small_lanes_fill(self) -> None:
        def scenario(world: World) -> r.Address:
            to = world.spawn(Does(), 1)
            world.spawn(Does(started=lambda cx: [cx.send(to, number) for number in range(5)] and None), 0)
            return to

        trial = Trial(scenario).desks(2).lane(1).outcome(lambda world, to: one(world, to).told)
        trial.every().expect([0, 1, 2, 3, 4])

    def test_letters_of_several_desks_come_in_each_order(self) -> None:
        def scenario(world: World) -> r.Address:
            to = world.spawn(Does(), 0)
            tells = world.spawn(Does(lambda cx, event: (cx.send(to, "second"), None)[1]), 1)
            world.spawn(Does(started=lambda cx: (cx.send(to, "first"), cx.send(tells, "go"), None)[2]), 2)
            return to

        trial = Trial(scenario).desks(3).outcome(lambda world, to: one(world, to).told)
        for found in (trial.every(), trial.reduced().every()):
            found.expect(["first", "second"], ["second", "first"])

    def test_nothing_is_logged_of_a_trial(self) -> None:
        with self.assertLogs("pundewo") as logs:
            Trial(lambda world: world.spawn(Does(started=lambda cx: 1 // 0))).every().passes()
            self.assertEqual(logs.records, [])
            runtime = r.Runtime()
            runtime.spawn(Does(started=lambda cx: 1 // 0))
            runtime.run()


def crash_named(cx: r.Context, name: str) -> r.Next:
    found = cx.whereis(name)
    if found is not None:
        cx.exit(found, p.Reason("other", 7))
    return r.Next.stop()


class Scripted(r.Behaviour):
    """Does what its script says for each word that it is told, and keeps the words."""

    def __init__(self, scripts: dict[str, list[tuple[str, int]]], peers: list[r.Address], group: r.Group) -> None:
        self.scripts, self.peers, self.group = scripts, peers, group
        self.told: list[str] = []

    def started(self, cx: r.Context) -> Optional[r.Next]:
        return self.act(cx, "start")

    def handle(self, cx: r.Context, event: r.Event) -> Optional[r.Next]:
        word = str(event.value) if isinstance(event, r.Message) else type(event).__name__
        if isinstance(event, r.Request):
            word = "asked"
            cx.reply(event, len(self.told))
        elif isinstance(event, r.Answer):
            word = "answer" if event.fault is None else type(event.fault).__name__
        self.told.append(word)
        return self.act(cx, word) if len(self.told) < 4 else None

    def act(self, cx: r.Context, word: str) -> Optional[r.Next]:
        for what, number in self.scripts.get(word, ()):
            peer = self.peers[number % len(self.peers)]
            if what == "stop":
                return r.Next.stop(p.Reason("other", number))
            if what == "monitor" and peer != cx.me:
                cx.monitor(peer)
            elif what == "call" and peer != cx.me:
                cx.call(peer, "how many")
            elif what == "join":
                self.group.join(cx.me)
            elif what == "all":
                cx.send_all(self.group, f"all {cx.pid.slot}")
            elif what == "alive":
                self.told.append(f"{peer.is_alive()}")
            elif what == "later":
                cx.send_after(0.001, peer, f"later {cx.pid.slot}")
            elif what == "send":
                cx.send(peer, f"{cx.pid.shard}.{cx.pid.slot}")
        return None


WHATS = ("send", "send", "send", "later", "monitor", "call", "stop", "join", "all", "alive")


def script(chance: random.Random) -> dict[str, list[tuple[str, int]]]:
    words = ["start", *(f"{desk}.{slot}" for desk in range(2) for slot in (1, 2)), "answer", "asked"]
    return {word: [(chance.choice(WHATS), chance.randrange(4)) for _ in range(chance.randrange(3))]
            for word in words if word == "start" or chance.random() < 0.3}


def scripted(seed: int) -> Trial[Any]:
    """A scenario by chance: a few processes on one or two desks. In some of them time goes on, or a process is killed or crashes."""
    chance = random.Random(seed)
    desks, count = chance.randint(1, 2), chance.randint(2, 3)
    scripts = [script(chance) for _ in range(count)]

    def scenario(world: World) -> list[tuple[r.Address, Scripted]]:
        peers: list[r.Address] = []
        group = world.group()
        found = []
        for number in range(count):
            behaviour = Scripted(scripts[number], peers, group)
            found.append((world.spawn(behaviour, number % desks), behaviour))
        peers += [address for address, _ in found]
        world.may_be_killed(peers[0])
        world.may_crash(peers[1])
        return found

    def told(world: World, found: list[tuple[r.Address, Scripted]]) -> Any:
        return [(world.is_alive(address), behaviour.told) for address, behaviour in found]

    times, kills, crashes = (int(seed % 4 == rest) for rest in (1, 2, 3))
    return Trial(scenario).desks(desks).time_goes_on(times).kills(kills).crashes(crashes).outcome(told)


class ReductionTest(unittest.TestCase):
    def test_its_outcomes_are_those_of_all_schedules(self) -> None:
        count, runs, fewer = int(os.environ.get("PUNDEWO_TRIALS", "40")), 0, 0
        for seed in itertools.count():
            whole = scripted(seed).limit(400).every()
            if not whole.is_whole():
                continue
            found = scripted(seed).limit(400).reduced().every()
            self.assertEqual(set(found.outcomes()), set(whole.outcomes()), seed)
            self.assertLessEqual(found.runs + found.given_up, whole.runs, seed)
            runs, fewer, count = runs + whole.runs, fewer + found.runs, count - 1
            if count == 0:
                break
        self.assertLess(2 * fewer, runs)


@tried(outcomes=("1", "2"))
def lost_update(world: World) -> Callable[[], int]:
    """As a test of pytest."""
    cell = cell_of(world, Client)
    return lambda: value_of(world, cell)


class TriedTest(unittest.TestCase):
    def test_a_scenario_is_a_test(self) -> None:
        lost_update()
        self.assertEqual([it.kind for it in inspect.signature(lost_update).parameters.values()], [inspect.Parameter.VAR_POSITIONAL])
        self.assertEqual((lost_update.__name__, lost_update.__doc__), ("lost_update", "As a test of pytest."))

    @tried(desks=3, reduced=True)
    def test_a_scenario_is_a_method(self, world: World) -> Callable[[], int]:
        cell = cell_of(world, Adder, (0, 1, 2))
        return lambda: value_of(world, cell)

    @tried(lambda trial: trial.random(20, 1), kills=1)
    def test_one_without_an_outcome(self, world: World) -> None:
        world.may_be_killed(world.spawn(Cell()))

    def test_it_fails_with_the_schedule(self) -> None:
        fails = tried()(lambda world: lambda: value_of(world, cell_of(world, Client)) or self.fail("nothing"))
        self.assertRaisesRegex(TrialFailed, "AssertionError: nothing", fails)

        def races(world: World) -> Callable[[], int]:
            cell = cell_of(world, Client)
            return lambda: value_of(world, cell)

        self.assertRaisesRegex(TrialFailed, r"(?s)not expected: 2\n.*\.replay\(", tried()(races))


def python_with_pytest() -> Optional[str]:
    """A Python that has pytest: this one, or that of the system, as Debian's package gives it to that one alone."""
    for python in (sys.executable, "/usr/bin/python3"):
        there = Path(python).exists() and subprocess.run([python, "-c", "import pytest"], capture_output=True, check=False)
        if there and there.returncode == 0:
            return python
    return None


PYTEST = python_with_pytest()

# A module of tests, as a user writes it.
MODULE = '''
from pundewo.runtime import Answer, Behaviour, Message, Next, Request
from pundewo.trial import tried

class Cell(Behaviour):
    value = 0

    def handle(self, cx, event):
        if isinstance(event, Request):
            cx.reply(event, self.value)
        elif isinstance(event, Message):
            self.value = event.value

class Client(Behaviour):
    def __init__(self, cell):
        self.cell = cell

    def started(self, cx):
        cx.call(self.cell, "get")

    def handle(self, cx, event):
        if isinstance(event, Answer):
            cx.send(self.cell, event.result() + 1)
        return Next.stop()

@tried(desks=2)
def test_one_client(world):
    """A test with a scenario."""
    cell = world.spawn(Cell(), 0)
    world.spawn(Client(cell), 1)
    return lambda: world.behaviour(cell, Cell).value

class TestClients:
    @tried(outcomes=("1", "2"))
    def test_two_clients(self, world):
        cell = world.spawn(Cell())
        world.spawn(Client(cell))
        world.spawn(Client(cell))
        return lambda: world.behaviour(cell, Cell).value

    @tried()
    def test_no_update_is_lost(self, world):
        cell = world.spawn(Cell())
        world.spawn(Client(cell))
        world.spawn(Client(cell))
        return lambda: world.behaviour(cell, Cell).value
'''


@unittest.skipUnless(PYTEST, "there is no pytest: apt-get install python3-pytest")
class PytestTest(unittest.TestCase):
    def pytest(self, *words: str) -> subprocess.CompletedProcess[str]:
        assert PYTEST is not None
        environment = {**os.environ, "PYTHONPATH": str(Path(p.__file__).parent.parent), "PYTHONDONTWRITEBYTECODE": "1"}
        with tempfile.TemporaryDirectory() as folder:
            Path(folder, "test_cells.py").write_text(MODULE)
            command = [PYTEST, "-m", "pytest", "-p", "no:cacheprovider", "--rootdir", folder, "--color=no", *words, folder]
            return subprocess.run(command, check=False, capture_output=True, text=True, cwd=folder, env=environment)

    def test_pytest_runs_scenarios(self) -> None:
        done = self.pytest("-v", "-k", "one_client or two_clients")
        self.assertEqual(done.returncode, 0, done.stdout + done.stderr)
        passed = r"(?s)::test_one_client PASSED.*::TestClients::test_two_clients PASSED.*2 passed, 1 deselected"
        self.assertRegex(done.stdout, passed)

    def test_pytest_tells_the_schedule_and_the_history(self) -> None:
        done = self.pytest("-q")
        self.assertEqual(done.returncode, 1, done.stdout + done.stderr)
        failed = "FAILED test_cells.py::TestClients::test_no_update_is_lost"
        for told in ("TrialFailed: this outcome was not expected: 2", "the shortest schedule found: ",
                     'to run it again: .replay("', "1@0 born <0.0.1>", failed, "1 failed, 2 passed"):
            self.assertIn(told, done.stdout)


if __name__ == "__main__":
    unittest.main()
