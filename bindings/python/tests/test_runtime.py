"""Tests of the run of behaviours, as a program uses it: handlers, their times, epochs, and how a run stops."""

from __future__ import annotations

import asyncio
import gc
import tempfile
import threading
import unittest
import weakref
from pathlib import Path
from typing import Any, Callable
from unittest import mock

import pundewo as p
from pundewo import _engine, _sending, runtime as r

from behaviours import PATIENCE, Counted, Doing, Echo, Stubborn, audit, in_asyncio, noted, quiet, run_and_stop, until


class Handlers(unittest.TestCase):
    def test_messages_come_once_and_in_order(self) -> None:
        for desks in (1, 3):
            got: list[Any] = []

            def take(cx: r.Context, event: Any) -> Any:
                got.append(event.value)
                return r.Next.stop() if len(got) == 1000 else None

            run = r.Runtime(desks)
            receiver = run.spawn(Doing(take), desks - 1)

            def start(cx: r.Context) -> Any:
                for number in range(1000):
                    self.assertTrue(cx.send(receiver, number))
                return r.Next.stop()

            run.spawn(Doing(started=start), 0)
            summary = run.run()
            self.assertEqual(got, list(range(1000)))
            self.assertEqual((summary.spawned, summary.crashes, summary.killed), (2, 0, ()))

    def test_a_process_waits_picks_proceeds_and_stops(self) -> None:
        told: list[Any] = []

        def handle(cx: r.Context, event: Any) -> Any:
            told.append(event)
            if event is r.TIMEOUT:
                return r.Next.proceed()
            if event is r.PROCEED:
                cx.send(cx.me, "to itself")
                return r.Next.wait(pick=p.Pick("from", cx.pid))
            if event.value == "to itself":
                return r.Next.wait()
            return r.Next.stop(p.Reason("other", 9))

        run = r.Runtime()
        behaviour = Doing(handle, lambda cx: r.Next.wait(0.01, p.Pick("from", cx.pid)))
        run.spawn(behaviour).send("early")
        run.run()
        self.assertEqual([getattr(it, "value", it) for it in told], [r.TIMEOUT, r.PROCEED, "to itself", "early"])
        self.assertEqual(behaviour.notes, [p.Reason("other", 9)])

    @quiet
    def test_a_crash_is_one_down_and_one_exit_with_its_text(self) -> None:
        for desks in (1, 2):
            watcher, linked, other = Doing(), Doing(), Doing()
            run = r.Runtime(desks, patience=0.05)
            victim, begun = Echo(), []

            def start(cx: r.Context) -> None:
                address = cx.spawn_on(desks - 1, victim, linked=False)
                cx.monitor(address)

                def ready(it: Any, traps: bool = False) -> None:
                    it.link(address)
                    it.send(address, "both are linked")
                    begun.append(traps)
                    if len(begun) == 2:
                        it.send(address, "crash")

                cx.spawn_on(0, Doing(linked.handle, lambda it: ready(it, it.trap())))
                cx.spawn_on(0, Doing(other.handle, ready, other.notes))

            def handle(cx: r.Context, event: Any) -> Any:
                watcher.handle(cx, event)
                return r.Next.wait(0.2) if isinstance(event, r.Down) else run.stop()

            run.spawn(Doing(handle, start), 0)
            summary = run.run()
            self.assertEqual([type(it) for it in watcher.notes], [r.Down, r.Tick])
            self.assertEqual((watcher.notes[0].reason, watcher.notes[0].crash), (r.CRASH, "ValueError: told to"))
            self.assertEqual((linked.notes[0].reason, linked.notes[0].crash), (r.CRASH, "ValueError: told to"))
            self.assertEqual(other.notes, [r.CRASH])  # it does not trap exits
            self.assertEqual(summary.crashes, 1)

    def test_what_a_handler_must_not_return_is_a_crash(self) -> None:
        run = r.Runtime()
        behaviour = Doing(lambda cx, event: 7)
        address = run.spawn(behaviour)
        address.send(0)
        with self.assertLogs("pundewo", "ERROR") as logs:
            self.assertEqual(run.run().crashes, 1)
        text = "TypeError: a handler returned 7, and must return None or a Next"
        self.assertEqual(logs.records[0].getMessage(), f"{address.pid} of Doing crashed: {text}")
        self.assertEqual(behaviour.notes, [r.CRASH])

    @quiet
    def test_what_is_raised_at_the_end_stops_nothing(self) -> None:
        class Bad(Doing):
            def ended(self, why: p.Reason) -> None:
                raise ValueError("at the end")

        run = r.Runtime()
        run.spawn(Bad(lambda cx, event: r.Next.stop())).send(0)
        self.assertEqual(run.run().spawned, 1)

    def test_the_reason_of_each_exit_is_told(self) -> None:
        killed, told, late = Doing(), Doing(), Doing()
        run = r.Runtime(2)

        def start(cx: r.Context) -> Any:
            cx.exit(cx.spawn(killed), p.KILL)
            cx.exit(cx.spawn_on(1, told), p.Reason("other", 4))
            cx.exit(cx.spawn_on(1, late))
            return r.Next.stop()

        run.spawn(Doing(started=start), 0)
        run.run()
        self.assertEqual([killed.notes, told.notes, late.notes], [[p.KILLED], [p.Reason("other", 4)], [p.SHUTDOWN]])

    def test_a_process_that_has_exited_is_monitored_and_sent_to(self) -> None:
        for same in (True, False):
            told: list[Any] = []
            monitors: list[p.Ref] = []

            def handle(cx: r.Context, event: Any) -> Any:
                told.append(event)
                if isinstance(event, r.Down) and event.monitor == monitors[-1]:
                    return r.Next.stop()
                if event.value == "monitor":
                    self.assertFalse(cx.send(dead, 1))
                    cx.demonitor(cx.monitor(dead))
                    monitors.extend([cx.monitor(dead), cx.monitor(dead)])
                    return r.Next.wait(pick=p.Pick("down-of", monitors[-1]))

            run = r.Runtime(2)
            dead = run.spawn(Doing(started=lambda cx: r.Next.stop()), 0)
            watcher = run.spawn(Doing(handle), 0 if same else 1)

            def start(cx: r.Context) -> Any:
                cx.send_after(0.05, watcher, "monitor")
                return r.Next.stop()

            run.spawn(Doing(started=start))
            run.run()
            # the second monitor was waited for, so its news came before that of the first
            self.assertEqual([it for it in told if isinstance(it, r.Down)],
                             [r.Down(monitors[-1], dead.pid, p.NOPROC, None)])
            self.assertFalse(dead.send(1))

    @quiet
    @in_asyncio
    async def test_no_exception_of_a_handler_but_an_interrupt_halts_the_run(self) -> None:
        class Strange(Exception):
            def __str__(self) -> str:
                raise ValueError("no text")

        async with r.Runtime() as run, run.mailbox() as mailbox:
            for raised in (asyncio.CancelledError(), GeneratorExit(), RecursionError("deep"), StopIteration(), Strange()):
                def handle(cx: r.Context, event: Any, raised: Any = raised) -> None:
                    raise raised

                address = run.spawn(Doing(handle))
                mailbox.monitor(address)
                await asyncio.sleep(0.01)
                address.send(0)
                down: Any = await mailbox.get(PATIENCE)
                self.assertEqual(down.reason, r.CRASH)
                self.assertIn(type(raised).__name__, down.crash)

    def test_runs_send_each_other_messages_and_nothing_else(self) -> None:
        one, two = r.Runtime(), r.Runtime(2)
        got: list[Any] = []
        refused: list[Any] = []
        far = two.spawn(Doing(lambda cx, event: noted(got, event.value) or (r.Next.stop() if len(got) == 2 else None)), 1)

        def start(cx: r.Context) -> Any:
            cx.send(far, "at once")
            cx.send_after(0.01, far, "later")
            works: list[Callable[[r.Address], object]] = [
                cx.monitor, cx.link, cx.unlink, cx.exit, lambda it: cx.call(it, 1)]
            for work in works:
                with self.assertRaises(ValueError):
                    work(far)
                refused.append(work)
            return r.Next.wait(0.05)

        one.spawn(Doing(lambda cx, event: r.Next.stop(), start))
        one.run()
        two.run()
        self.assertEqual((got, len(refused)), (["at once", "later"], 5))

    def test_links_are_taken_away(self) -> None:
        one, two = Doing(), Doing()
        run = r.Runtime()

        def start(cx: r.Context) -> None:
            child = cx.spawn(two, linked=True)
            cx.unlink(child)
            cx.exit(child)
            cx.send_after(0.05, cx.me, "still here")

        run.spawn(Doing(lambda cx, event: noted(one.notes, event.value) or r.Next.stop(), start))
        run.run()
        self.assertEqual((one.notes, two.notes), (["still here"], [p.SHUTDOWN]))

    @quiet
    def test_what_a_behaviour_has_goes_with_its_process(self) -> None:
        gone: list[Any] = []

        class Having(Echo):
            def __init__(self) -> None:
                self.has = Counted()
                weakref.finalize(self, gone.append, 1)

        Counted.alive = 0
        run = r.Runtime()

        def start(cx: r.Context) -> Any:
            cx.send(cx.spawn(Having()), "crash")
            cx.exit(cx.spawn(Having()), p.KILL)
            cx.call(cx.spawn(Having()), "exit")
            return r.Next.wait(0.05, p.Pick("from", cx.pid))

        def handle(cx: r.Context, event: Any) -> Any:
            if len(gone) < 3:
                return r.Next.wait(0.05, p.Pick("from", cx.pid))
            gone.append(Counted.alive)
            return r.Next.stop()

        run.spawn(Doing(handle, start))
        gc.disable()
        try:
            run.run()
        finally:
            gc.enable()
        self.assertEqual(gone, [1, 1, 1, 0])

    @quiet
    def test_a_run_without_memory_halts_and_goes_on(self) -> None:
        got: list[Any] = []

        def handle(cx: r.Context, event: Any) -> Any:
            got.append(event.value)
            return r.Next.stop() if event.value == 3 else None

        for place in ("go_on", "send", "step"):
            with self.subTest(place):
                got.clear()
                run = r.Runtime(going_on_every=4)
                address = run.spawn(Doing(handle))
                for number in range(4):
                    address.send(number)
                left = [2]
                kind: Any = _sending if place == "send" else _engine
                real = getattr(kind, place)

                def failing(*words: Any) -> Any:
                    left[0] -= 1
                    if left[0] == 0:
                        raise p.Fault(p.Code.MEMORY, place)
                    return real(*words)

                with mock.patch.object(kind, place, failing):
                    with self.assertRaises(p.Fault):
                        run.run()
                    run.run()
                self.assertEqual(got, [0, 1, 2, 3])

    def test_a_keyboard_interrupt_halts_the_run_and_it_goes_on(self) -> None:
        def handle(cx: r.Context, event: Any) -> None:
            raise KeyboardInterrupt

        notes: list[Any] = []
        run = r.Runtime()
        first = run.spawn(Doing(handle))
        second = run.spawn(Doing(lambda cx, event: noted(notes, event.value) or r.Next.stop()))
        first.send(0)
        second.send("later")
        with self.assertLogs("pundewo", "ERROR"), self.assertRaises(KeyboardInterrupt):
            run.run()
        run.run()
        self.assertEqual(notes, ["later"])


class Times(unittest.TestCase):
    def test_what_is_sent_later_comes_in_order_of_its_time(self) -> None:
        got: list[Any] = []

        def start(cx: r.Context) -> None:
            cx.send_after(0.5, cx.me, "third")
            gone = cx.send_after(0.04, cx.me, "never")
            cx.send_after(0.03, cx.me, "second")
            cx.send_after(0, cx.me, "first")
            got.append(cx.cancel(gone))
            got.append(cx.cancel(gone))

        run = r.Runtime()
        run.spawn(Doing(lambda cx, event: noted(got, event.value) or (r.Next.stop() if len(got) == 5 else None), start))
        run.run()
        self.assertEqual(got, [True, False, "first", "second", "third"])

    def test_many_timers_that_are_taken_back_take_no_memory(self) -> None:
        run = r.Runtime()

        def start(cx: r.Context) -> Any:
            for _ in range(5000):
                self.assertTrue(cx.cancel(cx.send_after(1000, cx.me, 0)))
            self.assertLess(len(cx._engine._timers), 200)
            return r.Next.stop()

        run.spawn(Doing(started=start))
        run.run()

    @in_asyncio
    async def test_an_idle_run_rests(self) -> None:
        async with r.Runtime(4) as run:
            run.spawn(Doing(started=lambda cx: r.Next.wait(30)))
            # (a while later it has begun, and then it has no more rounds)
            for _ in range(20):
                await asyncio.sleep(0.1)
                with mock.patch.object(run._engine, "round") as round_:
                    await asyncio.sleep(0.3)
                if not round_.called:
                    break
            round_.assert_not_called()


class Epochs(unittest.TestCase):
    def flood(self, run: r.Runtime, count: Any) -> None:
        """Two processes that send each other two balls."""
        def play(cx: r.Context, event: Any) -> Any:
            if event.value == 0:
                balls.append(cx.me)
                return run.stop() if len(balls) == 2 else None
            cx.send(players[event.value % 2], event.value - 1)

        balls: list[Any] = []
        players = [run.spawn(Doing(play)), run.spawn(Doing(play))]
        players[0].send(count)
        players[1].send(count)

    def test_a_run_goes_on_and_its_history_is_handed_out(self) -> None:
        with tempfile.TemporaryDirectory() as folder:
            file = Path(folder) / "history"
            run = r.Runtime(2, going_on_every=100, archive=r.HistoryFile(file))
            self.flood(run, 200)
            summary = run.run(forever=True)
            lines = file.read_text().splitlines()
            self.assertEqual(summary.archived, len(lines))
            self.assertGreater(summary.epochs, 5)
            self.assertGreater(len(lines), 1200)
            audit(self, file)

    @quiet
    def test_a_sink_that_fails_halts_the_run_and_loses_nothing(self) -> None:
        handed: list[list[int]] = []
        fails = [True]

        def sink(history: Any) -> None:
            if fails and len(handed) == 2:
                fails.clear()
                raise OSError("the disk is full")
            handed.append([event.stamp for event in history])

        run = r.Runtime(going_on_every=50, archive=sink)
        got: list[Any] = []

        def handle(cx: r.Context, event: Any) -> Any:
            got.append(event.value)
            return r.Next.stop() if event.value == 199 else None

        receiver = run.spawn(Doing(handle))
        for number in range(200):
            receiver.send(number)
        with self.assertRaises(OSError):
            run.run()
        summary = run.run()
        self.assertEqual(got, list(range(200)))
        stamps = [stamp for epoch in handed for stamp in epoch]
        self.assertEqual(stamps, sorted(set(stamps)))
        self.assertEqual((summary.epochs, summary.archived), (len(handed), len(stamps)))

    @quiet
    @in_asyncio
    async def test_a_sink_that_fails_under_asyncio_is_told(self) -> None:
        def sink(history: Any) -> None:
            raise OSError("the disk is full")

        with self.assertRaises(OSError):
            async with r.Runtime(going_on_every=5, archive=sink) as run:
                echo = run.spawn(Echo())
                with self.assertRaises(r.RunOver):
                    for number in range(20):
                        await echo.call(number)

    @quiet
    @in_asyncio
    async def test_an_asyncio_program_waits_for_the_end(self) -> None:
        with self.assertRaises(RuntimeError):
            await r.Runtime().ended()
        async with r.Runtime() as run:
            run.spawn(Doing())
            ending = asyncio.ensure_future(run.ended())
            await asyncio.sleep(0.01)
            self.assertFalse(ending.done())
            run.stop()
            self.assertEqual((await ending).spawned, 1)
        self.assertEqual((await run.ended()).spawned, 1)

        def sink(history: p.History) -> None:
            raise OSError("the disk is full")

        with self.assertRaises(OSError):
            async with r.Runtime(going_on_every=2, archive=sink) as run:
                run.spawn(Doing(lambda cx, event: None, lambda cx: cx.send(cx.me, 1) and None))
                with self.assertRaises(OSError):
                    await run.ended()

    def test_links_monitors_and_timers_outlive_an_epoch(self) -> None:
        told: list[Any] = []
        children: list[r.Address] = []

        def handle(cx: r.Context, event: Any) -> Any:
            told.append(event)
            if isinstance(event, r.Message) and isinstance(event.value, int):
                if event.value:
                    cx.send(cx.me, event.value - 1)
                else:
                    cx.exit(children[0], p.Reason("other", 1))
            rest = [it for it in told if not (isinstance(it, r.Message) and isinstance(it.value, int))]
            return r.Next.stop() if len(rest) == 3 else None

        def start(cx: r.Context) -> None:
            cx.trap()
            children.append(cx.spawn(Doing(), linked=True))
            cx.monitor(children[0])
            cx.send_after(0.01, cx.me, "later")
            cx.send(cx.me, 200)

        run = r.Runtime(going_on_every=20)
        run.spawn(Doing(handle, start))
        self.assertGreater(run.run().epochs, 5)
        news = [it for it in told if isinstance(it, (r.Down, r.Exit))]
        self.assertEqual(sorted(type(it).__name__ for it in news), ["Down", "Exit"])
        self.assertEqual({it.reason for it in news}, {p.Reason("other", 1)})
        self.assertEqual([it.value for it in told if isinstance(it, r.Message) and it.value == "later"], ["later"])


class Stops(unittest.TestCase):
    def test_a_process_that_does_not_exit_is_killed(self) -> None:
        stubborn, plain = Stubborn(), Doing()
        run = r.Runtime(2, patience=0.5)
        address = run.spawn(stubborn)
        run.spawn(plain)
        summary = run_and_stop(run, lambda: stubborn.notes)
        self.assertEqual(summary.killed, (address.pid,))
        self.assertEqual(stubborn.notes[-1], p.KILLED)
        self.assertEqual(plain.notes, [p.SHUTDOWN])
        self.assertEqual(stubborn.notes[1].reason, p.SHUTDOWN)

    def test_processes_that_are_born_in_the_stop_end_too(self) -> None:
        class Breeder(r.Behaviour):
            def started(self, cx: r.Context) -> None:
                cx.trap()
                begun.append(1)

            def handle(self, cx: r.Context, event: Any) -> None:
                cx.spawn(Breeder())

        begun: list[Any] = []

        run = r.Runtime(patience=0.05)
        for _ in range(3):
            run.spawn(Breeder())
        self.assertEqual(len(run_and_stop(run, lambda: len(begun) == 3).killed), 3)

    def test_a_handler_that_does_not_return_is_named(self) -> None:
        entered, leave = threading.Event(), threading.Event()

        class Stuck(r.Behaviour):
            def handle(self, cx: r.Context, event: Any) -> None:
                entered.set()
                leave.wait(PATIENCE)

        run = r.Runtime()
        address = run.spawn(Stuck())
        address.send(0)
        thread = threading.Thread(target=run.run)
        thread.start()
        entered.wait(PATIENCE)
        run.stop()
        with self.assertRaises(r.NotEnded) as caught:
            run.wait(0.1)
        holder = caught.exception.holder
        self.assertEqual(None if holder is None else holder[:2], (address.pid, "Stuck"))
        self.assertIn("the run is held up by <0.1.1> of Stuck, in its handler for ", str(caught.exception))
        leave.set()
        run.wait(PATIENCE)
        thread.join()

    @in_asyncio
    async def test_a_body_that_fails_stops_the_run(self) -> None:
        behaviour = Doing()
        with self.assertRaises(KeyError):
            async with r.Runtime() as run:
                run.spawn(behaviour)
                raise KeyError
        self.assertEqual(behaviour.notes, [p.SHUTDOWN])
        with self.assertRaises(r.RunOver):
            async with run:
                pass

    def test_a_program_that_is_cancelled_kills(self) -> None:
        behaviour = Stubborn()

        async def main() -> None:
            async with r.Runtime(patience=50) as run:
                run.spawn(behaviour)
                await until(lambda: behaviour.notes)

        async def cancel() -> None:
            task = asyncio.ensure_future(main())
            await until(lambda: len(behaviour.notes) == 2)
            task.cancel()
            with self.assertRaises(asyncio.CancelledError):
                await asyncio.wait_for(asyncio.shield(task), PATIENCE)

        asyncio.run(cancel())
        self.assertEqual(behaviour.notes[-1], p.KILLED)


if __name__ == "__main__":
    unittest.main()
