"""Tests of the limits of calls and spawns from other threads, while handlers hold up the run: they are kept, the process that
holds it up is named, and nothing is lost or answered twice."""

from __future__ import annotations

import asyncio
import pickle
import random
import threading
import time
import unittest
from typing import Any, Callable, Optional
from unittest import mock

import pundewo as p
from pundewo import _sending, runtime as r, tools

from behaviours import PATIENCE, Doing, Echo, in_asyncio, log, noted, quiet, run_and_stop, until, wait_until

NAMED = r"^{}: the run is held up by <0\.1\.1> of Stuck, in its handler for \d+\.\d s$"


class Stuck(r.Behaviour):
    """Its handler returns as the test lets it."""

    def __init__(self) -> None:
        self.entered, self.leave = threading.Event(), threading.Event()

    def handle(self, cx: r.Context, event: Any) -> None:
        self.entered.set()
        self.leave.wait(60)


class Server(r.Behaviour):
    """Answers with twice what it is asked, and notes what it was asked and whether the answer was waited for."""

    def __init__(self) -> None:
        self.asked: list[Any] = []
        self.told: list[bool] = []

    def handle(self, cx: r.Context, event: Any) -> None:
        if isinstance(event, r.Request):
            self.asked.append(event.value)
            self.told.append(cx.reply(event, 2 * event.value))


def in_threads(count: int, work: Callable[[int], None]) -> None:
    """Does this in so many threads, and waits for all."""
    faults: list[BaseException] = []

    def do(number: int) -> None:
        try:
            work(number)
        except BaseException as fault:
            faults.append(fault)

    threads = [threading.Thread(target=do, args=(number,)) for number in range(count)]
    for thread in threads:
        thread.start()
    for thread in threads:
        thread.join()
    if faults:
        raise faults[0]


class Held:
    """A run on a thread of its own, which a handler holds up."""

    def __init__(self) -> None:
        self.run, self.stuck, self.server = r.Runtime(), Stuck(), Server()
        self.holder, self.asked = self.run.spawn(self.stuck), self.run.spawn(self.server)
        self.thread = threading.Thread(target=self.run.run, args=(True,))
        self.thread.start()

    def hold(self) -> None:
        self.holder.send("hold")
        wait_until(self.stuck.entered.is_set)
        # (from then on it is named)
        time.sleep(0.15)

    def go_on(self) -> None:
        self.stuck.leave.set()

    def end(self) -> r.Summary:
        self.go_on()
        self.run.stop()
        summary = self.run.wait(PATIENCE)
        self.thread.join()
        return summary


class Limits(unittest.TestCase):
    def setUp(self) -> None:
        self.held = Held()
        self.addCleanup(self.held.end)

    def is_clean(self) -> bool:
        """Whether nothing is kept of any call or message."""
        engine = self.held.run._engine
        kept = len(engine.payloads), len(engine._outside), len(engine._alarms), len(engine.inbox)
        return kept == (0, 0, 0, 0) and not any(seat.calls for seat in engine.seats.values())

    def test_a_call_ends_at_its_limit_whatever_the_handlers_do(self) -> None:
        held, run = self.held, self.held.run
        self.assertEqual(run.call(held.asked, 1, 30), 2)
        with self.assertLogs(log, "WARNING") as logged:
            held.hold()
            for number in (2, 3):
                began = time.monotonic()
                with self.assertRaisesRegex(r.CallTimeout, NAMED.format("there was no answer in time")) as caught:
                    run.call(held.asked, number, 0.05)
                self.assertGreaterEqual(time.monotonic() - began, 0.05)
                holder = caught.exception.holder
                assert holder is not None
                self.assertEqual(holder[:2], (held.holder.pid, "Stuck"))
                self.assertGreater(holder.seconds, 0.15)
        self.assertEqual(len(logged.output), 1)
        self.assertRegex(logged.output[0], r"^WARNING:pundewo:the run is held up by <0\.1\.1> of Stuck, in its handler for ")
        # what was asked is asked, and the late answers are refused
        self.assertEqual(held.server.asked, [1])
        held.go_on()
        self.assertEqual(run.call(held.asked, 4, 30), 8)
        self.assertEqual((held.server.asked, held.server.told), ([1, 2, 3, 4], [True, False, False, True]))
        wait_until(self.is_clean)
        self.assertTrue(self.is_clean())

    def test_a_spawn_ends_at_its_limit_and_then_spawns_nothing(self) -> None:
        held, run = self.held, self.held.run
        self.assertTrue(run.spawn(Echo(), None, 30).is_alive())
        with self.assertLogs(log, "WARNING") as logged:
            held.hold()
            with self.assertRaisesRegex(r.SpawnTimeout, NAMED.format("the process was not spawned in time")) as caught:
                run.spawn(Echo(), limit=0.05)
            assert caught.exception.holder is not None
            self.assertEqual(caught.exception.holder.pid, held.holder.pid)
            with self.assertRaises(r.SpawnTimeout):
                run.spawn(Echo(), limit=0)
            with self.assertRaisesRegex(r.NotEnded, NAMED.format("the run is not over")):
                run.wait(0)
        self.assertEqual(len(logged.output), 1)
        held.go_on()
        self.assertTrue(run.spawn(Echo(), limit=30).is_alive())
        self.assertEqual(held.end().spawned, 4)

    def test_an_asyncio_program_of_another_thread_keeps_its_limit(self) -> None:
        held = self.held

        async def call(number: int) -> Any:
            return await held.asked.call(number, 0.05)

        async def calls() -> None:
            for caught in await asyncio.gather(*(call(it) for it in range(20)), return_exceptions=True):
                self.assertRegex(str(caught), NAMED.format("there was no answer in time"))

        held.hold()
        with self.assertLogs(log, "WARNING"):
            asyncio.run(calls())
        held.go_on()
        self.assertEqual(held.run.call(held.asked, 20, 30), 40)
        self.assertEqual((held.server.asked, held.server.told), ([*range(21)], [False] * 20 + [True]))
        wait_until(self.is_clean)
        self.assertTrue(self.is_clean())

    def test_nobody_is_named_who_does_not_hold_up(self) -> None:
        silent = self.held.run.spawn(Doing(lambda cx, event: kept.append(event)))
        kept: list[Any] = []
        with self.assertRaisesRegex(r.CallTimeout, "^there was no answer in time$") as caught:
            self.held.run.call(silent, 1, 0.02)
        self.assertIsNone(caught.exception.holder)
        self.held.go_on()

    def test_limits_hold_under_load(self) -> None:
        """Threads call and spawn while handlers sleep off and on. Each request is asked once, a value that comes is that of
        its request, and what was spawned has an address."""
        held, run = self.held, self.held.run
        held.go_on()
        naps = random.Random(7)
        napper = run.spawn(Doing(lambda cx, event: time.sleep(naps.choice((0, 0.001, 0.004, 0.03)))))
        counts = {"value": 0, "late": 0, "spawned": 0, "not spawned": 0}
        lock, over = threading.Lock(), threading.Event()

        def count(what: str) -> None:
            with lock:
                counts[what] += 1

        def nap() -> None:
            while not over.is_set():
                napper.send("nap")
                over.wait(0.01)

        def client(number: int) -> None:
            draw = random.Random(number)
            for turn in range(60):
                value, limit = 1000 * number + turn, draw.choice((0, 0.001, 0.003, 0.02, 30))
                began = time.monotonic()
                try:
                    if run.call(held.asked, value, limit) != 2 * value:
                        raise AssertionError("the answer of another request")
                    count("value")
                except r.CallTimeout:
                    if limit == 30 or time.monotonic() - began < limit:
                        raise
                    count("late")
                try:
                    run.spawn(Doing(started=lambda cx: r.Next.stop()), limit=limit)
                    count("spawned")
                except r.SpawnTimeout:
                    if limit == 30:
                        raise
                    count("not spawned")

        nagger = threading.Thread(target=nap)
        nagger.start()
        in_threads(8, client)
        over.set()
        nagger.join()
        self.assertEqual(counts["value"] + counts["late"], 480)
        self.assertGreater(min(counts.values()), 20)
        wait_until(lambda: len(held.server.asked) == 480 and self.is_clean())
        self.assertEqual(sorted(held.server.asked), [1000 * number + turn for number in range(8) for turn in range(60)])
        # (a client whose time is over as the answer is on its way counts as one that waited)
        self.assertGreaterEqual(held.server.told.count(True), counts["value"])
        self.assertTrue(self.is_clean())
        self.assertEqual(held.end().spawned, 3 + counts["spawned"])

    def test_many_threads_wait_for_a_handler_that_never_returns(self) -> None:
        held, run = self.held, self.held.run
        held.hold()
        late: list[str] = []

        def client(number: int) -> None:
            with self.assertRaises(r.CallTimeout):
                run.call(held.asked, number, 0.05)
            with self.assertRaises(r.SpawnTimeout):
                run.spawn(Echo(), limit=0.05)
            self.assertTrue(held.asked.send("a message"))
            late.append("both")

        with self.assertLogs(log, "WARNING") as logged:
            in_threads(40, client)
        self.assertEqual((len(late), held.server.asked), (40, []))
        # (once, but for threads that find it at the same time)
        self.assertLessEqual(len(logged.output), 40)
        held.go_on()
        self.assertEqual(run.call(held.asked, 40, 30), 80)
        self.assertEqual((sorted(held.server.asked), held.server.told.count(True)), ([*range(41)], 1))
        self.assertEqual(held.end().spawned, 2)


class OneThread(unittest.TestCase):
    @in_asyncio
    async def test_a_program_whose_own_handler_holds_it_up_hears_of_it(self) -> None:
        async with r.Runtime() as run:
            server = Server()
            asked, slow = run.spawn(server), run.spawn(Doing(lambda cx, event: time.sleep(0.8)))
            client = Doing(lambda cx, event: late.append(event.fault), lambda cx: cx.call(slow, "a request", 0.3) and None)
            late: list[Any] = []
            run.spawn(client)
            await until(lambda: len(late) == 1)
            self.assertRegex(str(late[0]), r"in time: the run is held up by <0\.2\.1> of Doing, in its handler for \d+\.\d s$")
            slow.send("sleep")
            with self.assertRaises(r.CallTimeout) as caught:
                await asyncio.sleep(0)
                await slow.call("no answer", 0.3)
            assert caught.exception.holder is not None
            self.assertEqual(caught.exception.holder[:2], (slow.pid, "Doing"))
            self.assertEqual(await asked.call(3, 30), 6)
            self.assertEqual(server.told, [True])

    @quiet
    def test_a_handler_that_was_slow_is_logged_as_it_returns(self) -> None:
        log.disabled = False
        run = r.Runtime()

        class Slow(r.Behaviour):
            def handle(self, cx: r.Context, event: Any) -> r.Next:
                time.sleep(event.value)
                return r.Next.wait() if event.value < 1 else r.Next.stop()

            def ended(self, why: p.Reason) -> None:
                time.sleep(1.05)

        slow = run.spawn(Slow())
        slow.send(0.1)
        slow.send(1.05)
        with self.assertLogs(log, "WARNING") as logged:
            run.run()
        self.assertEqual(len(logged.output), 2)
        for line in logged.output:
            self.assertRegex(line, r"^WARNING:pundewo:the run was held up by <0\.1\.1> of Slow, in its handler for \d+\.\d s$")

    def test_a_run_that_nobody_runs_answers_nothing_in_time(self) -> None:
        run, server = r.Runtime(), Server()
        asked = run.spawn(server)
        with self.assertRaisesRegex(r.CallTimeout, "^there was no answer in time$"):
            run.call(asked, 1, 0.02)
        run_and_stop(run, lambda: server.told)
        self.assertEqual((server.asked, server.told), ([1], [False]))
        with self.assertRaises(r.RunOver):
            run.call(asked, 2, 0)
        run.close()


class Refused(unittest.TestCase):
    def test_of_a_call_that_is_refused_nothing_is_kept(self) -> None:
        """The desk has no memory for the request."""
        def start(cx: r.Context) -> r.Next:
            with mock.patch.object(_sending, "ask", lambda *_: p.Code.MEMORY), self.assertRaises(p.Fault):
                cx.call(server, 1, 0.01)
            self.assertEqual((len(cx._engine.payloads), len(cx._seat.calls)), (0, 0))
            return r.Next.wait(0.1)

        run, told = r.Runtime(), list[Any]()
        server = run.spawn(Echo())
        client = run.spawn(Doing(lambda cx, event: told.append(event), start))
        run_and_stop(run, lambda: told)
        engine = run._engine
        self.assertEqual((told, client.is_alive()), ([r.TIMEOUT, *told[1:]], False))
        self.assertFalse(any(isinstance(it, r.Answer) for it in told))
        self.assertEqual((len(engine.payloads), len(engine._alarms)), (0, 0))

    def test_without_memory_for_a_timer_the_run_halts_and_what_was_to_be_done_is_done_as_it_goes_on(self) -> None:
        """The library gets a timer once one may be due. Two are due at the same time, and come in the order in which they were set."""
        def start(cx: r.Context) -> None:
            cx.send_after(0.01, cx.me, "first")
            cx.send_after(0.01, cx.me, "second")
            cx.call(server, 1, 0.02)

        def handle(cx: r.Context, event: Any) -> Optional[r.Next]:
            told.append(event.value if isinstance(event, r.Message) else type(event.fault))
            return r.Next.stop() if len(told) == 3 else None

        run, told = r.Runtime(), list[Any]()
        server = run.spawn(Doing(lambda cx, event: kept.append(event)))
        kept: list[Any] = []
        run.spawn(Doing(handle, start))
        with mock.patch.object(tools, "START_TIMER", lambda *_: p.Code.MEMORY), self.assertRaises(p.Fault):
            run.run()
        self.assertEqual((told, len(run._engine._alarms), len(run._engine._timers)), ([], 3, 0))
        run_and_stop(run, lambda: len(told) == 3)
        self.assertEqual(told, ["first", "second", r.CallTimeout])
        self.assertEqual((len(run._engine._alarms), run._engine._fresh, run._engine._started), (0, {}, {}))

    def test_a_timer_that_is_cancelled_before_any_is_due_never_goes_to_the_library(self) -> None:
        def start(cx: r.Context) -> r.Next:
            timers = [cx.send_after(100.0, cx.me, number) for number in range(9)]
            self.assertEqual(([cx.cancel(it) for it in timers], cx.cancel(timers[0])), ([True] * 9, False))
            self.assertEqual((len(cx._engine._timers), cx._engine._fresh, cx._engine._alarms), (0, {}, {}))
            return r.Next.stop()

        run, notes = r.Runtime(), list[Any]()
        run.spawn(Doing(None, start, notes))
        run.run()
        self.assertEqual(notes, [p.NORMAL])


    def test_many_timers_go_to_the_library_in_a_time_for_each(self) -> None:
        engine, times = r.Runtime(1)._engine, []
        for count in (8_000, 80_000):
            for number in range(count):
                engine.set_alarm_at(2**60 + number, list)
            began = time.process_time()
            self.assertEqual((engine.next_alarm(), engine._fresh), (2**60, {}))
            times.append(time.process_time() - began)
        # (ten times as long is wanted, and it would be a hundred times if each were looked for behind all before it)
        self.assertLess(times[1], 40 * times[0])
        engine.abandon()


class Faults(unittest.TestCase):
    def test_they_go_to_other_programs(self) -> None:
        holder = r.Holder(p.Pid(0, 1, 1), "Stuck", 1.25)
        faults = [r.CallTimeout(), r.CallTimeout(holder), r.SpawnTimeout(), r.SpawnTimeout(holder), r.Unanswered(), r.RunOver(),
                  r.NotEnded(), r.NotEnded(holder), r.ServerDown(p.KILLED), r.ServerDown(r.CRASH, "ValueError")]
        for fault in faults:
            back: BaseException = pickle.loads(pickle.dumps(fault))
            self.assertEqual((type(back), str(back), vars(back)), (type(fault), str(fault), vars(fault)))
        said = "the run is not over: the run is held up by <0.1.1> of Stuck, in its handler for 1.2 s"
        self.assertEqual(str(r.NotEnded(holder)), said)


class OtherRuns(unittest.TestCase):
    def test_a_timer_of_another_run_is_not_taken_back(self) -> None:
        runs = r.Runtime(), r.Runtime()
        contexts: list[r.Context] = []
        got: list[Any] = []
        for run in runs:
            run.spawn(Doing(lambda cx, event: noted(got, event.value) or r.Next.stop(), contexts.append))
            run._engine.round()
        one, other = (cx.send_after(0.01, cx.me, "late") for cx in contexts)
        self.assertEqual((one._alarm, contexts[0].cancel(other)), (other._alarm, False))
        self.assertTrue(contexts[1].cancel(other))
        runs[0].run()
        runs[1].close()
        self.assertEqual(got, ["late"])

    def test_an_address_of_another_run_can_only_be_sent_to(self) -> None:
        here, there = r.Runtime(), r.Runtime()
        notes: tuple[list[Any], list[Any]] = ([], [])
        foreign = there.spawn(Doing(notes=notes[1]))
        own = here.spawn(Doing(notes=notes[0]))
        self.assertEqual(own.pid, foreign.pid)

        def start(cx: r.Context) -> r.Next:
            works: list[Callable[[], object]] = [
                lambda: cx.monitor(foreign), lambda: cx.link(foreign), lambda: cx.unlink(foreign), lambda: cx.call(foreign, 1),
                lambda: cx.exit(foreign, p.KILL), lambda: here.call(foreign, 1)]
            for work in works:
                with self.assertRaisesRegex(ValueError, "of another run, which can only be sent to$"):
                    work()
            self.assertTrue(cx.send(foreign, "sent"))
            cx.send_after(0, foreign, "sent later")
            return r.Next.stop()

        here.spawn(Doing(started=start))
        run_and_stop(here, lambda: len(there._engine.inbox) == 2)
        run_and_stop(there, lambda: len(notes[1]) == 2)
        self.assertEqual(([it.value for it in notes[1][:2]], notes[0]), (["sent", "sent later"], [p.SHUTDOWN]))


if __name__ == "__main__":
    unittest.main()
