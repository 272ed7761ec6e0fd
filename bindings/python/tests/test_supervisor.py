"""Tests of supervisors: who is started again, who is ended, in which order, and when it is too much."""

from __future__ import annotations

import asyncio
import logging
import random
import tempfile
import time
import unittest
from functools import partial
from pathlib import Path
from typing import Any, Awaitable, Callable, Optional

import pundewo as p
from pundewo import runtime as r

from behaviours import PATIENCE, Doing, audit, is_watched, run_and_stop, until

CRASHED = f"{r.CRASH}"


class Worker(r.Behaviour):
    """Notes when it begins and ends, and ends as it is told."""

    def __init__(self, name: str, notes: list[str], traps: bool = False):
        self.name, self.notes, self.traps = name, notes, traps

    def started(self, cx: r.Context) -> None:
        self.notes.append(f"+{self.name}")
        if self.traps:
            cx.trap()

    def handle(self, cx: r.Context, event: r.Event) -> Optional[r.Next]:
        if isinstance(event, r.Message):
            if event.value == "crash":
                raise ValueError(self.name)
            if event.value == "unlink":
                assert cx.parent is not None
                cx.unlink(cx.parent)
                return None
            return r.Next.stop(event.value)
        if isinstance(event, r.Exit):
            self.notes.append(f"{self.name} {event.reason}")
        return None

    def ended(self, why: p.Reason) -> None:
        self.notes.append(f"-{self.name} {why}")


class Failing(r.Behaviour):
    """Crashes as it begins."""

    def started(self, cx: r.Context) -> None:
        raise ValueError("at once")

    def handle(self, cx: r.Context, event: r.Event) -> None:
        pass


def supervised(test: Callable[[Any], Awaitable[None]]) -> Callable[[Any], None]:
    """Runs the test on a run, without what crashes say in the log."""
    def run(self: Any) -> None:
        async def main() -> None:
            self.notes = []
            async with r.Runtime(2, patience=PATIENCE) as run:
                self.runtime = run
                await asyncio.wait_for(test(self), 3 * PATIENCE)
            self.assertEqual(run.summary().killed, ())

        logging.getLogger("pundewo").disabled = True
        try:
            asyncio.run(main())
        finally:
            logging.getLogger("pundewo").disabled = False
    run.__name__ = test.__name__
    return run


class Case(unittest.TestCase):
    notes: list[str]
    runtime: r.Runtime

    def worker(self, name: str, **words: Any) -> Callable[[], Worker]:
        return lambda: Worker(name, self.notes, **words)

    async def started(self, supervisor: r.Supervisor) -> r.Address:
        """The address of the supervisor, once all of its children have begun."""
        address = self.runtime.spawn(supervisor)
        await until(lambda: len(self.notes) == len(supervisor._specs))
        self.notes.clear()
        return address

    async def child(self, supervisor: r.Address, name: str) -> r.Address:
        children: tuple[r.Child, ...] = await supervisor.call(r.WHICH_CHILDREN)
        address = {it.name: it.address for it in children}[name]
        assert address is not None
        return address

    async def names(self, supervisor: r.Address) -> list[tuple[str, bool]]:
        return [(it.name, it.address is not None) for it in await supervisor.call(r.WHICH_CHILDREN)]

    async def crash(self, supervisor: r.Address, name: str, why: object = "crash") -> None:
        (await self.child(supervisor, name)).send(why)

    async def noted(self, *notes: str) -> None:
        """Waits until there are as many notes, and compares them."""
        await until(lambda: len(self.notes) >= len(notes))
        self.assertEqual(self.notes, list(notes))
        self.notes.clear()

    def three(self, supervisor: r.Supervisor, **words: Any) -> r.Supervisor:
        for name in "abc":
            supervisor.permanent(self.worker(name, **words), name)
        return supervisor

    async def ends(self, address: r.Address, reason: p.Reason, work: Callable[[], object]) -> None:
        """Does this, and looks whether the process exits with this reason."""
        async with self.runtime.mailbox() as mailbox:
            mailbox.monitor(address)
            await until(lambda: is_watched(self.runtime, address))
            work()
            down = await mailbox.get(20)
            assert isinstance(down, r.Down)
            self.assertEqual((down.pid, down.reason), (address.pid, reason))

    def tells(self, address: r.Address, reason: p.Reason) -> None:
        """Has another process send an exit signal."""
        def start(cx: r.Context) -> r.Next:
            cx.exit(address, reason)
            return r.Next.stop()

        self.runtime.spawn(Doing(started=start), address.pid.shard)


class Restarts(Case):
    @supervised
    async def test_one_for_one_starts_that_child_again(self) -> None:
        supervisor = await self.started(self.three(r.Supervisor.one_for_one()))
        before = await supervisor.call(r.WHICH_CHILDREN)
        await self.crash(supervisor, "b")
        await self.noted(f"-b {CRASHED}", "+b")
        after = await supervisor.call(r.WHICH_CHILDREN)
        self.assertEqual([it.name for it in after], ["a", "b", "c"])
        self.assertEqual([one == two for one, two in zip(before, after)], [True, False, True])
        self.assertFalse(before[1].address.is_alive())
        self.assertTrue(after[1].address.is_alive())

    @supervised
    async def test_one_for_all_starts_all_again(self) -> None:
        supervisor = await self.started(self.three(r.Supervisor.one_for_all()))
        await self.crash(supervisor, "b")
        await self.noted(f"-b {CRASHED}", "-c shutdown", "-a shutdown", "+a", "+b", "+c")

    @supervised
    async def test_rest_for_one_starts_those_behind_it_again(self) -> None:
        supervisor = await self.started(self.three(r.Supervisor.rest_for_one()))
        await self.crash(supervisor, "b")
        await self.noted(f"-b {CRASHED}", "-c shutdown", "+b", "+c")

    @supervised
    async def test_a_child_comes_again_as_its_kind_says(self) -> None:
        supervisor = r.Supervisor.one_for_one().limit(10, 60)
        supervisor.permanent(self.worker("permanent"), "permanent").transient(self.worker("transient"), "transient")
        supervisor.temporary(self.worker("temporary"), "temporary")
        address = await self.started(supervisor)
        for why in (p.NORMAL, p.SHUTDOWN, p.Reason("other", 1)):
            await self.crash(address, "permanent", why)
            await self.noted(f"-permanent {why}", "+permanent")
        await self.crash(address, "transient", p.Reason("other", 1))
        await self.noted("-transient other:1", "+transient")
        await self.crash(address, "temporary")
        await self.noted(f"-temporary {CRASHED}")
        await self.crash(address, "transient", p.SHUTDOWN)
        await self.noted("-transient shutdown")
        self.assertEqual(await self.names(address), [("permanent", True), ("transient", False)])

    @supervised
    async def test_all_again_are_those_too_that_had_exited_and_none_that_is_temporary(self) -> None:
        supervisor = r.Supervisor.one_for_all().transient(self.worker("t"), "t").temporary(self.worker("x"), "x")
        address = await self.started(supervisor.permanent(self.worker("a"), "a"))
        await self.crash(address, "t", p.NORMAL)
        await self.noted("-t normal")
        await self.crash(address, "a")
        await self.noted(f"-a {CRASHED}", "-x shutdown", "+t", "+a")
        self.assertEqual(await self.names(address), [("t", True), ("a", True)])

    @supervised
    async def test_too_many_restarts_end_the_supervisor(self) -> None:
        for strategy in (r.Supervisor.one_for_one, r.Supervisor.one_for_all, r.Supervisor.rest_for_one):
            supervisor = strategy().limit(3, 60).permanent(self.worker("a"), "a").permanent(Failing, "b")
            holder = self.runtime.spawn(r.Supervisor.one_for_one().temporary(lambda: supervisor, "s").limit(0, 60))
            while await self.names(holder):
                await asyncio.sleep(0.005)
            self.assertEqual(self.notes[-1], "-a shutdown")
            self.assertEqual(self.notes.count("+a"), sum(it.startswith("-a") for it in self.notes))
            self.notes.clear()
        self.assertEqual(self.runtime.summary().crashes, 12)

    @supervised
    async def test_restarts_of_long_ago_do_not_count(self) -> None:
        # (a span that two crashes meet on a busy machine, too)
        supervisor = await self.started(self.three(r.Supervisor.one_for_one().limit(1, 2.0)))
        for _ in range(2):
            await self.crash(supervisor, "a")
            await self.noted(f"-a {CRASHED}", "+a")
            await asyncio.sleep(2.1)
        self.assertTrue(supervisor.is_alive())
        await self.crash(supervisor, "a")
        await self.noted(f"-a {CRASHED}", "+a")
        address = await self.child(supervisor, "a")
        await self.ends(supervisor, p.SHUTDOWN, lambda: address.send("crash"))
        await self.noted(f"-a {CRASHED}", "-c shutdown", "-b shutdown")


class Starts(Case):
    def fails(self, name: str, times: list[bool]) -> Callable[[], Worker]:
        """What makes a worker, or does not, as the list says."""
        def make() -> Worker:
            if times.pop(0):
                return Worker(name, self.notes)
            raise OSError("it cannot be made")
        return make

    @supervised
    async def test_a_child_that_does_not_start_at_first_ends_all(self) -> None:
        class No:
            pass

        wrong: list[Callable[[], Any]] = [self.fails("x", [False]), No, lambda: 1 / 0]
        for make in wrong:
            supervisor = r.Supervisor.one_for_one().permanent(self.worker("a"), "a").permanent(self.worker("b"), "b")
            supervisor.permanent(make, "x").permanent(self.worker("c"), "c")
            self.runtime.spawn(supervisor)
            # (those that had no time to begin have no `+`)
            await until(lambda: len(self.notes) >= 2 and self.notes[-1].startswith("-a"))
            self.assertEqual([it for it in self.notes if it.startswith("-")], ["-b shutdown", "-a shutdown"])
            self.notes.clear()

    @supervised
    async def test_a_desk_without_a_place_is_no_start(self) -> None:
        async with r.Runtime(slots=3) as run:
            supervisor = run.spawn(self.three(r.Supervisor.one_for_one()))
            await until(lambda: not supervisor.is_alive())
            self.assertEqual([it for it in self.notes if it.startswith("-")], ["-b shutdown", "-a shutdown"])

    @supervised
    async def test_a_child_that_does_not_start_again_is_tried_up_to_the_limit(self) -> None:
        for strategy in (r.Supervisor.one_for_one, r.Supervisor.one_for_all, r.Supervisor.rest_for_one):
            times = [True, False, False, True, False, False]
            supervisor = strategy().limit(4, 60).permanent(self.worker("a"), "a").permanent(self.fails("x", times), "x")
            address = await self.started(supervisor)
            await self.crash(address, "x")
            await until(lambda: "+x" in self.notes)
            self.assertEqual(len(times), 2)  # three restarts, of which one did
            self.notes.clear()
            child = await self.child(address, "x")
            await self.ends(address, p.SHUTDOWN, lambda: child.send("crash"))
            self.assertEqual(len(times), 1)  # the fourth one did not, and a fifth is too much
            self.assertEqual(self.notes[-1], "-a shutdown")
            self.notes.clear()

    def test_a_child_has_a_name_of_its_own(self) -> None:
        supervisor = r.Supervisor.one_for_one().permanent(Failing, "a")
        with self.assertRaisesRegex(ValueError, "name is 'a', and another child has it"):
            supervisor.temporary(Failing, "a")


class Ends(Case):
    @supervised
    async def test_a_sibling_that_does_not_exit_is_killed(self) -> None:
        supervisor = await self.started(self.three(r.Supervisor.one_for_all(patience=0.3), traps=True))
        await self.crash(supervisor, "a")
        await self.noted(f"-a {CRASHED}", "c shutdown", "-c killed", "b shutdown", "-b killed", "+a", "+b", "+c")
        supervisor.send("what it does not know")
        await self.ends(supervisor, p.SHUTDOWN, lambda: self.tells(supervisor, p.SHUTDOWN))

    @supervised
    async def test_a_child_has_the_time_that_its_shutdown_says(self) -> None:
        supervisor = r.Supervisor.one_for_one(patience=50).permanent(self.worker("a", traps=True), "a", shutdown=0.3)
        supervisor.permanent(self.worker("b", traps=True), "b", shutdown=r.BRUTAL_KILL)
        supervisor.permanent(self.worker("c", traps=True), "c", shutdown=r.INFINITY)
        address = await self.started(supervisor)
        last = await self.child(address, "c")

        def work() -> None:
            self.tells(address, p.SHUTDOWN)
            asyncio.get_running_loop().call_later(0.1, last.send, p.NORMAL)

        await self.ends(address, p.SHUTDOWN, work)
        await self.noted("c shutdown", "-c normal", "-b killed", "a shutdown", "-a killed")

    @supervised
    async def test_a_supervisor_has_all_the_time_that_its_children_take(self) -> None:
        def branch() -> r.Supervisor:
            return r.Supervisor.one_for_one().permanent(self.worker("leaf", traps=True), "leaf", shutdown=0.5)

        root = r.Supervisor.one_for_one(patience=0.01).permanent(branch, "branch")
        address = self.runtime.spawn(root)
        await self.noted("+leaf")
        await self.ends(address, p.SHUTDOWN, lambda: self.tells(address, p.SHUTDOWN))
        await self.noted("leaf shutdown", "-leaf killed")

    @supervised
    async def test_a_child_that_took_its_link_away_is_ended_too(self) -> None:
        for traps in (False, True):
            supervisor = await self.started(self.three(r.Supervisor.one_for_one(patience=0.3), traps=traps))
            for name in "abc":
                await self.crash(supervisor, name, "unlink")
            await asyncio.sleep(0.02)
            await self.ends(supervisor, p.SHUTDOWN, lambda: self.tells(supervisor, p.SHUTDOWN))
            ends = [it for it in self.notes if it.startswith("-")]
            self.assertEqual(ends, [f"-{it} {'killed' if traps else 'shutdown'}" for it in "cba"])
            self.notes.clear()

    @supervised
    async def test_a_tree_is_started_again_and_ends_with_its_parent(self) -> None:
        def branch() -> r.Supervisor:
            supervisor = r.Supervisor.one_for_one().limit(0, 60).permanent(self.worker("leaf"), "leaf", desk=1)
            return supervisor.permanent(self.worker("next"), "next")

        root = r.Supervisor.one_for_one().permanent(branch, "branch").permanent(self.worker("other"), "other")
        address = self.runtime.spawn(root, 0)
        await until(lambda: len(self.notes) == 3)
        leaf = await self.child(await self.child(address, "branch"), "leaf")
        self.assertEqual(leaf.pid.shard, 1)
        leaf.send("crash")
        await until(lambda: self.notes.count("+leaf") == 2 and self.notes.count("+next") == 2)
        branches = await self.child(address, "branch")
        self.notes.clear()
        self.tells(branches, p.SHUTDOWN)  # it has a parent, and this is not it
        self.tells(branches, p.Reason("other", 1))
        await asyncio.sleep(0.05)
        self.assertTrue(branches.is_alive())
        await self.ends(address, p.SHUTDOWN, lambda: self.tells(address, p.SHUTDOWN))
        await self.noted("-other shutdown", "-next shutdown", "-leaf shutdown")

    @supervised
    async def test_a_supervisor_exits_for_the_reason_of_its_parent(self) -> None:
        supervisors: list[r.Address] = []

        def start(cx: r.Context) -> None:
            supervisors.append(cx.spawn(self.three(r.Supervisor.one_for_one()), linked=True))

        for why in (p.Reason("other", 8), p.NORMAL):
            parent = self.runtime.spawn(Doing(lambda cx, event: r.Next.stop(event.value), start))
            await until(lambda: len(self.notes) == 3)
            self.notes.clear()
            await self.ends(supervisors[-1], why, lambda: parent.send(why))
            await self.noted("-c shutdown", "-b shutdown", "-a shutdown")

    @supervised
    async def test_a_killed_supervisor_takes_its_children_along(self) -> None:
        address = await self.started(self.three(r.Supervisor.one_for_one()))
        self.tells(address, p.KILL)
        await until(lambda: len(self.notes) == 3)
        self.assertEqual(set(self.notes), {f"-{it} killed" for it in "abc"})

    @supervised
    async def test_a_run_stops_its_supervisors_and_they_their_children_in_turn(self) -> None:
        async with r.Runtime(2) as run:
            self.runtime, supervisor = run, r.Supervisor.one_for_all()
            for name in "abcde":
                supervisor.permanent(self.worker(name), name, desk="abcde".index(name) % 2)
            await self.started(supervisor)
        await self.noted(*(f"-{name} shutdown" for name in "edcba"))
        self.assertEqual(run.summary().killed, ())

    @supervised
    async def test_a_run_ends_what_a_killed_supervisor_left(self) -> None:
        async with r.Runtime() as run:
            self.runtime = run
            supervisor = await self.started(self.three(r.Supervisor.one_for_one(), traps=True))
            a = await self.child(supervisor, "a")
            self.tells(supervisor, p.KILL)
            await until(lambda: len(self.notes) == 3)
            run.stop()
            await until(lambda: self.notes.count("a shutdown") == 1)
            for name in ("b", "c"):
                self.assertEqual(self.notes.count(f"{name} shutdown"), 1)
            run._engine.end(2)
            await until(lambda: not a.is_alive())


class Asks(Case):
    @supervised
    async def test_children_are_ended_started_and_forgotten_when_it_is_asked(self) -> None:
        address = await self.started(self.three(r.Supervisor.one_for_one()).temporary(self.worker("x"), "x"))

        async def asks(asked: object, answer: object, *notes: str) -> None:
            self.assertEqual(await address.call(asked), answer)
            await self.noted(*notes)

        await asks(r.TerminateChild("b"), True, "-b shutdown")
        await asks(r.TerminateChild("b"), True)
        await asks(r.TerminateChild("x"), True, "-x shutdown")
        await asks(r.TerminateChild("x"), False)
        self.assertEqual(await self.names(address), [("a", True), ("b", False), ("c", True)])
        await asks(r.RestartChild("b"), True, "+b")
        await asks(r.RestartChild("b"), False)
        await asks(r.RestartChild("nobody"), False)
        await asks(r.DeleteChild("c"), False)
        await asks(r.TerminateChild("c"), True, "-c shutdown")
        await asks(r.DeleteChild("c"), True)
        await asks(r.DeleteChild("c"), False)
        self.assertIsNone(await address.call(r.StartChild(self.worker("a"), "a")))
        self.assertIsNone(await address.call(r.StartChild(self.worker("d"), "d", desk=63)))
        child = await address.call(r.StartChild(self.worker("d"), "d", "transient", 1, r.BRUTAL_KILL))
        await self.noted("+d")
        self.assertEqual((child.name, child.address.pid.shard), ("d", 1))
        await self.crash(address, "d")
        await self.noted(f"-d {CRASHED}", "+d")
        await asks(r.TerminateChild("d"), True, "-d killed")
        self.assertEqual(await self.names(address), [("a", True), ("b", True), ("d", False)])
        with self.assertRaises(r.Unanswered):
            await address.call("what it does not know")

    @supervised
    async def test_a_child_that_was_ended_is_no_crash(self) -> None:
        address = await self.started(self.three(r.Supervisor.one_for_one().limit(0, 60), traps=False))
        b = await self.child(address, "b")
        b.send("crash")  # (it crashes before, while or after it is told to exit)
        asked = asyncio.ensure_future(address.call(r.TerminateChild("b")))
        try:
            self.assertTrue(await asked)
            self.assertTrue(address.is_alive())
        except r.ServerDown:  # the crash came first, and was one too much
            self.assertIn("-a shutdown", self.notes)


    @supervised
    async def test_what_does_not_start_when_it_is_asked_is_not_tried_again(self) -> None:
        address = await self.started(self.three(r.Supervisor.one_for_one()))
        times = [True, False]

        def make() -> Worker:
            if times.pop(0):
                return Worker("d", self.notes)
            raise OSError("it cannot be made")

        self.assertIsNone(await address.call(r.StartChild(lambda: 1 / 0, "d")))  # type: ignore[arg-type, return-value]
        self.assertEqual((await address.call(r.StartChild(make, "d"))).name, "d")
        self.assertTrue(await address.call(r.TerminateChild("d")))
        self.assertFalse(await address.call(r.RestartChild("d")))
        self.assertEqual((times, (await self.names(address))[-1]), ([], ("d", False)))
        async with r.Runtime(slots=2) as run:
            full = run.spawn(r.Supervisor.one_for_one().permanent(self.worker("a"), "a"))
            self.assertIsNone(await full.call(r.StartChild(self.worker("b"), "b")))
            self.assertEqual(await self.names(full), [("a", True)])
            self.assertTrue(await full.call(r.TerminateChild("a")))
            other = run.spawn(Worker("other", self.notes))
            self.assertFalse(await full.call(r.RestartChild("a")))
            self.assertEqual(await self.names(full), [("a", False)])
            run.exit(other)
            await until(lambda: not other.is_alive())
            self.assertTrue(await full.call(r.RestartChild("a")))

    @supervised
    async def test_a_behaviour_asks_and_hears_of_its_exit(self) -> None:
        answers: list[Any] = []
        address = await self.started(self.three(r.Supervisor.one_for_one(), traps=True))

        def start(cx: r.Context) -> None:
            for asked in (r.WHICH_CHILDREN, "what it does not know", r.TerminateChild("b"), r.WHICH_CHILDREN):
                cx.call(address, asked, 30)
            self.assertTrue(cx.send(address, "a message"))

        def handle(cx: r.Context, event: r.Event) -> None:
            assert isinstance(event, r.Answer)
            answers.append(event.fault or event.value)
            if len(answers) == 4:
                cx.call(address, "after its exit", 30)

        self.runtime.spawn(Doing(handle, start), 1)
        # (the child does not exit until the supervisor is killed)
        await until(lambda: len(answers) == 2 and "b shutdown" in self.notes)
        self.assertEqual([it.name for it in answers[0]], ["a", "b", "c"])
        asked = asyncio.ensure_future(address.call(r.WHICH_CHILDREN))
        await asyncio.sleep(0.01)
        self.runtime.exit(address, p.KILL)
        await until(lambda: len(answers) == 5)
        self.assertEqual([type(it) for it in answers[1:]], [r.Unanswered, r.ServerDown, r.ServerDown, r.ServerDown])
        self.assertEqual([it.reason for it in answers[2:]], [p.KILLED, p.KILLED, p.NOPROC])
        with self.assertRaises(r.ServerDown):
            await asked
        self.assertFalse(address.send("too late"))
        for pid in list(self.runtime._engine.pids):
            self.tells(self.runtime._engine.pids[pid].cx.me, p.KILL) if pid.slot else None

    @supervised
    async def test_exit_signals_of_others_end_it_as_its_parent_says(self) -> None:
        for linked in (True, False):
            begun: list[r.Address] = []

            def start(cx: r.Context, linked: bool = linked) -> None:
                begun.append(cx.spawn(self.three(r.Supervisor.one_for_one()), linked))

            parent = self.runtime.spawn(Doing(lambda cx, event: cx.exit(begun[0], event.value), start))
            await until(lambda: len(self.notes) == 3)
            self.notes.clear()
            self.tells(begun[0], p.SHUTDOWN)
            self.runtime.exit(begun[0], p.Reason("other", 1))
            await asyncio.sleep(0.02)
            self.assertTrue(begun[0].is_alive())
            await self.ends(begun[0], p.Reason("other", 2), lambda: parent.send(p.Reason("other", 2)))
            await self.noted("-c shutdown", "-b shutdown", "-a shutdown")
            self.runtime.exit(parent)
        alone = await self.started(self.three(r.Supervisor.one_for_one()))
        await self.ends(alone, p.SHUTDOWN, lambda: self.runtime.exit(alone))
        await self.noted("-c shutdown", "-b shutdown", "-a shutdown")

    @supervised
    async def test_a_run_stops_a_supervisor_whose_parent_has_exited_or_stays(self) -> None:
        for linked, stays in ((False, False), (False, True), (True, True)):
            async with r.Runtime(patience=PATIENCE) as run:
                def start(cx: r.Context, linked: bool = linked, stays: bool = stays) -> Optional[r.Next]:
                    cx.trap()
                    supervisor.append(cx.spawn(self.three(r.Supervisor.one_for_one()), linked))
                    return None if stays else r.Next.stop()

                supervisor: list[r.Address] = []
                run.spawn(Doing(lambda cx, event: r.Next.wait() if supervisor[0].is_alive() else r.Next.stop(), start))
                await until(lambda: len(self.notes) == 3)
                self.notes.clear()
                run.stop()
                await until(lambda: not supervisor[0].is_alive())
                for seat in list(run._engine.pids.values()):
                    run.exit(seat.cx.me, p.KILL) if seat.pid.slot else None
            await self.noted("-c shutdown", "-b shutdown", "-a shutdown")


class Elsewhere(Case):
    """Children on another desk than their supervisor's."""

    @supervised
    async def test_they_are_started_again_and_end_in_turn(self) -> None:
        supervisor = r.Supervisor.rest_for_one().permanent(self.worker("a"), "a", desk=1)
        supervisor.transient(self.worker("b"), "b", desk=1)
        address = await self.started_on(supervisor.permanent(self.worker("c"), "c"), 3)
        await self.crash(address, "a")
        await self.noted(f"-a {CRASHED}", "-c shutdown", "-b shutdown", "+a", "+b", "+c")
        await self.crash(address, "b", p.NORMAL)
        await self.noted("-b normal")
        self.assertEqual(await self.names(address), [("a", True), ("b", False), ("c", True)])
        self.assertTrue(await address.call(r.RestartChild("b")))
        await self.noted("+b")
        self.assertTrue(await address.call(r.TerminateChild("a")))
        await self.noted("-a shutdown")
        await self.ends(address, p.SHUTDOWN, lambda: self.tells(address, p.SHUTDOWN))
        await self.noted("-c shutdown", "-b shutdown")

    @supervised
    async def test_they_have_their_time_and_are_killed(self) -> None:
        supervisor = r.Supervisor.one_for_one(patience=0.3).permanent(self.worker("a", traps=True), "a", desk=1)
        supervisor.permanent(self.worker("b", traps=True), "b", desk=1, shutdown=r.BRUTAL_KILL)
        supervisor.permanent(self.worker("c", traps=True), "c", desk=1, shutdown=r.INFINITY)
        address = await self.started_on(supervisor, 3)
        last = await self.child(address, "c")

        def work() -> None:
            self.tells(address, p.SHUTDOWN)
            asyncio.get_running_loop().call_later(0.1, last.send, p.NORMAL)

        await self.ends(address, p.SHUTDOWN, work)
        await self.noted("c shutdown", "-c normal", "-b killed", "a shutdown", "-a killed")

    @supervised
    async def test_a_killed_supervisor_takes_them_along(self) -> None:
        supervisor = r.Supervisor.one_for_one().permanent(self.worker("a"), "a", desk=1)
        address = await self.started_on(supervisor.permanent(self.worker("b"), "b", desk=1), 2)
        self.tells(address, p.KILL)
        await until(lambda: len(self.notes) == 2)
        self.assertEqual(set(self.notes), {"-a killed", "-b killed"})
        await until(lambda: len(self.runtime._engine.pids) == 2)

    @supervised
    async def test_a_desk_without_a_place_is_no_start(self) -> None:
        async with r.Runtime(2, slots=3) as run:
            self.runtime, others = run, [run.spawn(Worker("other", self.notes), 1) for _ in range(3)]
            supervisor = r.Supervisor.one_for_one().permanent(self.worker("a"), "a").permanent(self.worker("b"), "b", desk=1)
            address = run.spawn(supervisor, 0)
            await until(lambda: not address.is_alive())
            self.assertEqual([it for it in self.notes if it.startswith("-")], ["-a shutdown"])
            self.notes.clear()
            run.exit(others[0])
            await until(lambda: not others[0].is_alive())
            self.notes.clear()
            await self.started_on(supervisor, 2)
        self.assertEqual(run.summary().spawned, 8)

    @supervised
    async def test_children_of_three_desks_start_in_order_and_end_from_the_last_to_the_first(self) -> None:
        async with r.Runtime(3, going_on_every=20) as run:
            self.runtime, supervisor = run, r.Supervisor.one_for_all().limit(100, 60)
            for name, desk in zip("abcde", (1, 0, 2, 1, None)):
                supervisor.permanent(self.worker(name), name, desk=desk)
            address = run.spawn(supervisor, 0)
            await self.noted(*(f"+{it}" for it in "abcde"))
            for _ in range(20):
                await self.crash(address, "c")
                await self.noted(f"-c {CRASHED}", *(f"-{it} shutdown" for it in "edba"), *(f"+{it}" for it in "abcde"))
            children = await address.call(r.WHICH_CHILDREN)
            self.assertEqual([it.address.pid.shard for it in children], [1, 0, 2, 1, 0])
        await self.noted(*(f"-{it} shutdown" for it in "edcba"))
        self.assertEqual(run.summary().spawned, 1 + 21 * 5)

    @supervised
    async def test_one_that_is_not_made_is_tried_again_and_counts(self) -> None:
        for strategy in ("one_for_one", "one_for_all", "rest_for_one"):
            tried = 0

            def make() -> r.Behaviour:
                nonlocal tried
                tried += 1
                if tried in (2, 3, 4, 6):
                    raise ValueError("not made")
                return Worker("a", self.notes)

            supervisor = r.Supervisor(strategy).limit(5, 60).permanent(make, "a", desk=1)
            address = await self.started_on(supervisor, 1)
            # (an exit, and three starts that fail: one restart is left)
            await self.crash(address, "a")
            await self.noted(f"-a {CRASHED}", "+a")
            await self.ends(address, p.SHUTDOWN, lambda: self.post(address, "crash"))
            self.assertEqual((self.notes, tried), ([f"-a {CRASHED}"], 6))
            self.notes.clear()

    @supervised
    async def test_one_that_is_done_as_it_begins_has_started(self) -> None:
        class Done(r.Behaviour):
            def started(_, cx: r.Context) -> r.Next:
                self.notes.append("+done")
                return r.Next.stop(p.NORMAL)

            def handle(self, cx: r.Context, event: r.Event) -> None:
                pass

        supervisor = r.Supervisor.one_for_all().transient(Done, "done", desk=1).permanent(self.worker("a"), "a")
        address = self.runtime.spawn(supervisor, 0)
        await self.noted("+done", "+a")
        for _ in range(20):
            self.assertTrue(await address.call(r.RestartChild("done")))
            await self.noted("+done")
        self.assertEqual(await self.names(address), [("done", False), ("a", True)])
        self.notes.clear()

    @supervised
    async def test_a_tree_over_desks_ends_from_its_leaves(self) -> None:
        def branch() -> r.Supervisor:
            supervisor = r.Supervisor.one_for_one().permanent(self.worker("b"), "b", desk=0)
            return supervisor.permanent(self.worker("c"), "c", desk=2).permanent(self.worker("d"), "d")

        async with r.Runtime(3) as run:
            self.runtime, root = run, r.Supervisor.one_for_one().limit(1000, 60).permanent(self.worker("a"), "a", desk=2)
            address = run.spawn(root.permanent(branch, "branch", desk=1), 0)
            await self.noted("+a", "+b", "+c", "+d")
            for _ in range(20):
                self.tells(await self.child(address, "branch"), p.KILL)
                await until(lambda: len(self.notes) == 6)
                self.assertEqual(sorted(self.notes), [*(f"+{it}" for it in "bcd"), *(f"-{it} killed" for it in "bcd")])
                self.notes.clear()
        await self.noted("-d shutdown", "-c shutdown", "-b shutdown", "-a shutdown")

    def post(self, supervisor: r.Address, value: object) -> None:
        """Sends the only child of a supervisor this."""
        child, = (kid for kid in self.runtime._engine.kids.values() if kid.above.pid == supervisor.pid)
        assert child.address is not None
        child.address.send(value)

    async def started_on(self, supervisor: r.Supervisor, count: int) -> r.Address:
        """The address of the supervisor on the first desk, once so many children have begun."""
        address = self.runtime.spawn(supervisor, 0)
        await until(lambda: sum(it.startswith("+") for it in self.notes) == count)
        self.notes.clear()
        return address


class Halts(Case):
    def test_a_make_that_is_interrupted_halts_the_run_and_it_goes_on(self) -> None:
        self.notes, raises = [], [False, True, False, True]

        def make() -> Worker:
            if raises.pop(0):
                raise KeyboardInterrupt
            return Worker("a", self.notes)

        run = r.Runtime()
        address = run.spawn(r.Supervisor.one_for_one().permanent(make, "a"))

        def start(cx: r.Context, event: r.Event) -> Optional[r.Next]:
            found = run._engine.pids[address.pid].family
            assert found is not None
            child = found.kids["a"].address
            if isinstance(event, r.Answer):
                return r.Next.stop()
            if len(raises) == 3 and child is not None:
                cx.send(child, "crash")
            if len(raises) == 1 and child is not None and child.is_alive():
                cx.call(address, r.StartChild(make, "b"), 30)
                return r.Next.wait()
            return r.Next.wait(0.005)

        asks = run.spawn(Doing(start, lambda cx: r.Next.wait(0.005)))
        logging.getLogger("pundewo").disabled = True
        try:
            for _ in range(2):
                with self.assertRaises(KeyboardInterrupt):
                    run.run()
            raises.append(False)
            run_and_stop(run, lambda: not asks.is_alive())
        finally:
            logging.getLogger("pundewo").disabled = False
        self.assertEqual((raises, self.notes.count("+a")), ([], 3))


class Crashes(Case):
    """Thousands of crashes in a tree, by chance: all that is to live lives, and nothing is kept of what has gone."""

    def test_thousands_of_crashes_are_thousands_of_restarts(self) -> None:
        for seed, (crashes, desks, every) in enumerate([(2000, 1, 20_000), (1000, 3, 500)]):
            with self.subTest(desks=desks):
                self.storm(random.Random(seed), crashes, desks, every, None)

    def test_a_history_of_crashes_is_legal(self) -> None:
        with tempfile.TemporaryDirectory() as folder:
            file = Path(folder) / "history"
            self.storm(random.Random(9), 60, 2, 200, r.HistoryFile(file))
            audit(self, file)

    def storm(self, chance: random.Random, crashes: int, desks: int, every: int, archive: Optional[r.HistoryFile]) -> None:
        alive: dict[str, int] = {}
        begun: list[str] = []

        class Child(r.Behaviour):
            def __init__(self, name: str):
                self.name = name
                alive[name] = alive.get(name, 0) + 1

            def started(self, cx: r.Context) -> None:
                begun.append(self.name)

            def handle(self, cx: r.Context, event: r.Event) -> Optional[r.Next]:
                if isinstance(event, r.Message) and event.value == "crash":
                    raise ValueError(self.name)
                return r.Next.stop(p.Reason("other", 5))

            def ended(self, why: p.Reason) -> None:
                alive[self.name] -= 1

        def branch(number: int, strategy: str) -> r.Supervisor:
            supervisor = r.Supervisor(strategy).limit(10**6, 60)
            for child in range(6):
                name = f"{number}.{child}"
                supervisor.permanent(partial(Child, name), name, desk=chance.randrange(desks))
            return supervisor

        async def main() -> r.Summary:
            async with r.Runtime(desks, going_on_every=every, archive=archive, patience=PATIENCE) as run:
                strategies = ["one_for_one", "one_for_all", "rest_for_one", "one_for_one"]
                root = r.Supervisor.one_for_one().limit(10**6, 60)
                for number, strategy in enumerate(strategies):
                    root.permanent(partial(branch, number, strategy), f"{number}")
                address = run.spawn(root)
                told, lists = 0, [await self.branches(address)]
                while told < crashes:
                    # (half of the time they are told while others are started again)
                    if chance.random() < 0.5:
                        lists.append(await self.branches(address))
                    for child in chance.sample(lists[-1], 4):
                        told += child.send("crash" if chance.random() < 0.8 else "stop")
                over = time.monotonic() + PATIENCE
                while time.monotonic() < over:
                    children = await self.branches(address)
                    if run.waiting() == 0 and len(children) == 24 and all(it.is_alive() for it in children):
                        break
                self.assertEqual(sorted(set(alive.values())), [1])
                seats = run._engine.pids.values()
                self.assertEqual(len(seats), 24 + 4 + 1 + desks)
                self.assertEqual(len(run._engine.kids), 24 + 4)
                self.assertEqual((len(run._engine.payloads), len(run._engine._alarms)), (0, 0))
            return run.summary()

        logging.getLogger("pundewo").disabled = True
        try:
            summary = asyncio.run(main())
        finally:
            logging.getLogger("pundewo").disabled = False
        self.assertGreater(summary.crashes, crashes // 3)
        self.assertGreaterEqual(len(begun), summary.crashes + 24)
        self.assertEqual(sorted(set(alive.values())), [0])
        self.assertEqual(summary.killed, ())

    async def branches(self, root: r.Address) -> list[r.Address]:
        """The children of the branches that run."""
        found = []
        for branch in await root.call(r.WHICH_CHILDREN):
            children: tuple[r.Child, ...] = await branch.address.call(r.WHICH_CHILDREN)
            found += [child.address for child in children if child.address is not None]
        return found


if __name__ == "__main__":
    unittest.main()
