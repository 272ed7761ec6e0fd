"""Tests of the run of behaviours: an inbox with a bound, runs that drain and that halt, names, and exits from outside."""

from __future__ import annotations

import asyncio
import concurrent.futures
import threading
import time
import unittest
from typing import Any, Optional

import pundewo as p
from pundewo import runtime as r

from behaviours import Doing, Echo, Running, Stubborn, in_asyncio, log, noted, quiet, until, wait_until


class Gate(r.Behaviour):
    """Notes numbers, and holds the run up while the test wants that."""

    def __init__(self) -> None:
        self.entered, self.leave, self.notes = threading.Event(), threading.Event(), list[Any]()

    def handle(self, cx: r.Context, event: Any) -> Any:
        if isinstance(event, r.Request):
            cx.reply(event, (len(self.notes), cx.waiting()))
        elif event.value == "hold":
            self.entered.set()
            self.leave.wait(60)
        elif event.value == "stop":
            return r.Next.stop()
        else:
            self.notes.append(event.value)
        return None


class Held(r.Behaviour):
    """Holds the run up as it begins, and then notes what it is told: LOST, what was sent, and what was asked, as a list."""

    def __init__(self, bound: Optional[r.Bound], only: Any = None) -> None:
        self.most_waiting, self.only = bound, only
        self.entered, self.leave, self.notes = threading.Event(), threading.Event(), list[Any]()

    def started(self, cx: r.Context) -> Any:
        self.entered.set()
        self.leave.wait(60)
        return self.only

    def handle(self, cx: r.Context, event: Any) -> Any:
        if isinstance(event, r.Request):
            cx.reply(event, len(self.notes))
            self.notes.append([event.value])
        else:
            self.notes.append(event if event is r.LOST else event.value)
        return self.only if self.notes == [r.LOST] else None

    def ended(self, why: p.Reason) -> None:
        self.notes.append(why)


class Screen(r.Behaviour):
    """Shows the newest of many pictures."""

    most_waiting = r.Bound.drop_oldest(8)

    def __init__(self) -> None:
        self.shown = self.lost = 0

    def handle(self, cx: r.Context, event: Any) -> None:
        if event is r.LOST:
            self.lost += 1
        else:
            self.shown += 1


class OfProcesses(unittest.TestCase):
    """The bound of one process holds for each sender."""

    def held(self, run: r.Runtime, bound: r.Bound, only: Any = None) -> tuple[Held, r.Address]:
        held = Held(bound, only)
        address = run.spawn(held)
        self.assertTrue(held.entered.wait(60))
        return held, address

    def test_a_screen_shows_the_newest_pictures(self) -> None:
        screen = Screen()
        run = r.Runtime()
        address = run.spawn(screen)
        for _ in range(1_000):
            self.assertTrue(address.send(bytes(640)))
        run.drain()
        self.assertEqual(run.run(forever=True).crashes, 0)
        self.assertEqual((screen.shown, screen.lost, run.is_drained()), (8, 992, True))

    def test_one_more_is_refused(self) -> None:
        with Running(r.Runtime()) as running:
            held, address = self.held(running.run, r.Bound.refuse(3))
            self.assertEqual([address.send(number) for number in range(5)], [True, True, True, False, False])
            with self.assertRaises(r.InboxFull) as caught:
                address.try_send(5)
            self.assertEqual(str(caught.exception), f"the message is not sent: the mailbox of {address.pid} is full")
            asks = concurrent.futures.ThreadPoolExecutor(1).submit(running.run.call, address, "who", 60)
            wait_until(lambda: running.run.waiting() == 4)
            held.leave.set()
            self.assertIsInstance(asks.exception(60), r.Unanswered)
            wait_until(lambda: len(held.notes) >= 3)
            self.assertEqual(held.notes[:3], [0, 1, 2])
            for number in range(100):
                self.assertTrue(address.try_send(number))
                wait_until(lambda: held.notes[-1] == number)

    def test_the_oldest_is_dropped(self) -> None:
        with Running(r.Runtime()) as running:
            held, address = self.held(running.run, r.Bound.drop_oldest(3))
            for number in range(10):
                self.assertTrue(address.send(number))
            held.leave.set()
            wait_until(lambda: len(held.notes) == 10)
            self.assertEqual(held.notes, [r.LOST] * 7 + [7, 8, 9])
            wait_until(lambda: running.run.waiting() == 0)

    def test_the_oldest_of_what_is_kept_aside_is_dropped(self) -> None:
        takes = r.Next.only(lambda message: message.value >= 4)
        with Running(r.Runtime()) as running:
            held, address = self.held(running.run, r.Bound.drop_oldest(3), takes)
            held.leave.set()
            for number in range(3):
                self.assertTrue(address.send(number))
            wait_until(lambda: running.run._engine.kept == 3)
            address.send(3)
            wait_until(lambda: running.run._engine.kept == 3 and held.notes)
            self.assertEqual((held.notes, running.run.waiting()), ([r.LOST], 3))
            address.send(4)
            wait_until(lambda: len(held.notes) == 5)
            self.assertEqual(held.notes, [r.LOST, 4, r.LOST, 2, 3])

    def test_a_process_crashes_by_one_more(self) -> None:
        with Running(r.Runtime()) as running:
            held, address = self.held(running.run, r.Bound.crash(3))
            for number in range(3):
                self.assertTrue(address.send(number))
            held.leave.set()
            wait_until(lambda: len(held.notes) == 3)
            self.assertTrue(address.is_alive())
            held, address = self.held(running.run, r.Bound.crash(3))
            log.disabled = True
            for number in range(4):
                self.assertTrue(address.send(number))
            held.leave.set()
            wait_until(lambda: not address.is_alive())
            log.disabled = False
            self.assertEqual((held.notes[-1], running.run.summary().crashes), (r.CRASH, 1))
            self.assertFalse(address.send(4))

    def test_processes_have_the_same_bounds(self) -> None:
        told: list[Any] = []

        def handle(cx: r.Context, event: Any) -> Any:
            if isinstance(event, r.Message):
                told.append([cx.send(full, number) for number in range(4)])
                told.append([cx.send(lossy, number) for number in range(4)])
                cx.call(full, "who")
            else:
                told.append(type(event.fault))

        full_held, lossy_held = Held(r.Bound.refuse(2)), Held(r.Bound.drop_oldest(2))
        full_held.leave.set()
        lossy_held.leave.set()
        with Running(r.Runtime(2)) as running:
            run = running.run
            full, lossy, sends = run.spawn(full_held, 0), run.spawn(lossy_held, 1), run.spawn(Doing(handle), 0)
            sends.send("go")
            wait_until(lambda: len(told) == 3 and len(lossy_held.notes) == 4)
        self.assertEqual(told, [[True, True, False, False], [True] * 4, r.Unanswered])
        self.assertEqual((full_held.notes[:2], lossy_held.notes[:4]), ([0, 1], [r.LOST, r.LOST, 2, 3]))

    def test_what_is_asked_counts_too(self) -> None:
        with Running(r.Runtime()) as running:
            held, address = self.held(running.run, r.Bound.drop_oldest(2))
            pool = concurrent.futures.ThreadPoolExecutor(1)
            asks = pool.submit(running.run.call, address, "who", 60)
            wait_until(lambda: running.run.waiting())
            for number in range(2):
                address.send(number)
            held.leave.set()
            self.assertIsInstance(asks.exception(60), r.Unanswered)
            wait_until(lambda: len(held.notes) == 3)
            self.assertEqual(held.notes, [r.LOST, 0, 1])

    def test_what_is_postponed_waits_again(self) -> None:
        told: list[Any] = []

        def handle(cx: r.Context, event: Any) -> Any:
            told.append(event if event is r.LOST else event.value)
            if event is not r.LOST and event.value != "last":
                cx.postpone(event)
            else:
                cx.retry()

        cases: tuple[tuple[r.Bound, list[bool], list[Any]], ...] = ((r.Bound.refuse(2), [True, True, False], ["one", "two"]),
                                   (r.Bound.drop_oldest(2), [True] * 3, ["one", "two", "last", r.LOST, "two"]))
        for bound, sent, notes in cases:
            behaviour = Doing(handle)
            behaviour.most_waiting = bound
            with Running(r.Runtime()) as running:
                address = running.run.spawn(behaviour)
                took = []
                for count, value in enumerate(("one", "two", "last")):
                    took.append(address.send(value))
                    wait_until(lambda: len(told) > count or not took[-1])
                wait_until(lambda: len(told) == len(notes))
            self.assertEqual((took, told), (sent, notes))
            told.clear()

    @quiet
    def test_bounds_hold_under_load(self) -> None:
        bounds = [r.Bound.refuse(16), r.Bound.drop_oldest(16), r.Bound.crash(1_000_000)]
        behaviours = [Held(bound) for bound in bounds]
        for behaviour in behaviours:
            behaviour.leave.set()
        run = r.Runtime(2)
        sent: list[list[tuple[int, int]]] = [[], [], [], []]
        with Running(run) as running:
            addresses = [running.run.spawn(behaviour) for behaviour in behaviours]

            def sends(thread: int) -> None:
                for number in range(3_000):
                    for place, address in enumerate(addresses):
                        if address.send((thread, number)):
                            sent[thread].append((place, number))

            workers = [threading.Thread(target=sends, args=(number,)) for number in range(4)]
            for worker in workers:
                worker.start()
            for worker in workers:
                worker.join(60)
            wait_until(lambda: run.waiting() == 0)
            for place, behaviour in enumerate(behaviours):
                taken = [it for it in behaviour.notes if it is not r.LOST]
                lost = len(behaviour.notes) - len(taken)
                count = sum(at == place for notes in sent for at, _ in notes)
                self.assertEqual(len(taken) + lost, count)
                self.assertEqual(lost > 0 and place != 1, False)
                for thread in range(4):
                    numbers = [number for by, number in taken if by == thread]
                    self.assertEqual(numbers, sorted(set(numbers)))
                    if place != 1:
                        self.assertEqual(numbers, [number for at, number in sent[thread] if at == place])
        self.assertEqual(run.summary().crashes, 0)


class Bounds(unittest.TestCase):
    def test_an_inbox_takes_in_as_much_as_it_may(self) -> None:
        gate = Gate()
        with Running(r.Runtime(inbox=10)) as running:
            address = running.run.spawn(gate)
            address.send("hold")
            self.assertTrue(gate.entered.wait(60))
            for number in range(10):
                self.assertTrue(address.try_send(number))
            self.assertEqual(running.run.waiting(), 10)
            for _ in range(3):
                with self.assertRaises(r.InboxFull) as caught:
                    address.try_send(10)
            self.assertEqual(str(caught.exception), "the message is not sent: the inbox of the run is full")
            waits = threading.Thread(target=lambda: gate.notes.append(("sent", address.send(10))))
            waits.start()
            time.sleep(0.05)
            self.assertTrue(waits.is_alive())
            gate.leave.set()
            waits.join(60)
            wait_until(lambda: len(gate.notes) == 12)
            self.assertEqual([it for it in gate.notes if it != ("sent", True)], list(range(11)))
            self.assertIn(("sent", True), gate.notes)
            self.assertEqual(running.run.call(address, None), (12, 0))
            running.run.exit(address)
            wait_until(lambda: not address.is_alive())
            self.assertEqual((address.send(1), address.try_send(1)), (False, False))
        self.assertEqual((address.send(1), address.try_send(1)), (False, False))

    def test_threads_wait_for_room_and_nothing_is_lost(self) -> None:
        gate, most = Gate(), [0]
        with Running(r.Runtime(inbox=5)) as running:
            address = running.run.spawn(gate)

            def sends(sender: int) -> None:
                for number in range(1_000):
                    assert address.send((sender, number))
                    most[0] = max(most[0], running.run.waiting())

            threads = [threading.Thread(target=sends, args=(sender,)) for sender in range(4)]
            for thread in threads:
                thread.start()
            for thread in threads:
                thread.join(60)
            wait_until(lambda: len(gate.notes) == 4_000)
        for sender in range(4):
            self.assertEqual([number for it, number in gate.notes if it == sender], list(range(1_000)))
        # (each thread looks for room and then sends, so as many more may come in at once)
        self.assertLessEqual(most[0], 5 + 4)
        self.assertEqual((running.run._engine._told, len(running.run._engine._turns)), (0, 0))

    @in_asyncio
    async def test_tasks_wait_for_room(self) -> None:
        notes: list[Any] = []
        async with r.Runtime(inbox=3) as run:
            address = run.spawn(Doing(lambda cx, event: noted(notes, event.value) or None))

            async def sends(sender: int) -> None:
                for number in range(300):
                    assert await address.send_async((sender, number))

            await asyncio.gather(*(sends(sender) for sender in range(5)))
            await until(lambda: len(notes) == 1_500)
            for sender in range(5):
                self.assertEqual([number for it, number in notes if it == sender], list(range(300)))
            # those that give up take no room away
            sent = 0
            for _ in range(20):
                for number in range(3):
                    address.try_send(number)
                with self.assertRaises(r.InboxFull):
                    address.try_send(3)
                waiting = [asyncio.ensure_future(address.send_async("late")) for _ in range(6)]
                await asyncio.sleep(0)
                for task in waiting[:4]:
                    task.cancel()
                self.assertEqual(await asyncio.gather(*waiting[4:]), [True, True])
                sent += sum(not task.cancelled() for task in waiting)
                await until(lambda: run.waiting() == 0)
            engine = run._engine
            self.assertEqual((engine._told, len(engine._turns), notes.count("late")), (0, 0, sent))
            gone = run.spawn(Doing())
            run.exit(gone, p.KILL)
            await until(lambda: not gone.is_alive())
            self.assertFalse(await gone.send_async(1))

    @in_asyncio
    async def test_the_end_of_a_run_ends_all_waiting(self) -> None:
        gate = Gate()
        with Running(r.Runtime(inbox=2)) as running:
            address = running.run.spawn(gate)
            address.send("hold")
            self.assertTrue(gate.entered.wait(60))
            address.send(0), address.send(1)
            sent: list[bool] = []
            waits = threading.Thread(target=lambda: sent.append(address.send(2)))
            waits.start()
            task = asyncio.ensure_future(address.send_async(3))
            await asyncio.sleep(0.05)
            running.run.drain(50)
            gate.leave.set()
            await asyncio.wait_for(task, 50)
            waits.join(60)
            running.thread.join(60)
        self.assertEqual((len(sent), running.error, running.run.is_drained()), (1, [], True))
        self.assertEqual(gate.notes[:2], [0, 1])
        self.assertEqual(len(gate.notes), 2 + sent[0] + task.result())


class Drains(unittest.TestCase):
    def test_all_that_waits_is_handled(self) -> None:
        notes, late = list[Any](), list[Any]()

        def passes(cx: r.Context, event: Any) -> None:
            if isinstance(event, r.Message) and event.value == "answer":
                late.pop().reply("late")
            elif isinstance(event, r.Request):
                late.append(event)
                cx.send_after(0.1, cx.me, "answer")
            elif isinstance(event, r.Message):
                cx.send(last, event.value)
                # (what a handler sends as from outside is nothing new)
                assert event.value % 2 or last.send(event.value)

        run = r.Runtime(2, going_on_every=5_000)
        last = run.spawn(Doing(lambda cx, event: noted(notes, event.value) or None), 1)
        first = run.spawn(Doing(passes), 0)
        with Running(run) as running:
            answers: list[Any] = []
            asks = threading.Thread(target=lambda: answers.append(run.call(first, "ask", 50)))
            asks.start()
            wait_until(lambda: late)
            for number in range(4_000):
                self.assertTrue(first.send(number))
            run.drain(50)
            wait_until(lambda: not first.send(1))
            with self.assertRaises(r.RunOver):
                run.call(first, "ask", 50)
            with self.assertRaises(r.RunOver):
                run.spawn(Echo())
            asks.join(60)
            running.thread.join(60)
        self.assertEqual((answers, run.is_drained(), running.error), (["late"], True, []))
        self.assertGreaterEqual(len(notes), 6_000)
        self.assertEqual(run.waiting(), 0)
        run.drain()
        self.assertFalse(first.send(1))

    @in_asyncio
    async def test_a_drain_ends_in_time(self) -> None:
        async with r.Runtime() as run:
            run.spawn(Doing(lambda cx, event: cx.send(cx.me, 1) and None, lambda cx: cx.send(cx.me, 1) and None))
            self.assertIsNone(run.is_drained())
            run.drain(0.05)
            summary = await run.ended()
        self.assertEqual((run.is_drained(), summary.spawned, summary.killed), (False, 1, ()))
        async with r.Runtime() as run:
            hold = asyncio.ensure_future(run.spawn(Echo()).call("hold", 50))
            await asyncio.sleep(0.02)
            run.drain(0.05)
            await run.ended()
            self.assertEqual((run.is_drained(), type(hold.exception())), (False, r.ServerDown))
        async with r.Runtime() as run:
            run.drain(50)
            await run.ended()
        self.assertTrue(run.is_drained())
        # one that does not exit is killed, as by a stop
        async with r.Runtime(patience=0.05) as run:
            stubborn = Stubborn()
            address = run.spawn(stubborn)
            await until(lambda: stubborn.notes)
            run.drain(50)
            summary = await run.ended()
        self.assertEqual((run.is_drained(), summary.killed), (True, (address.pid,)))


class Halts(unittest.TestCase):
    def test_a_run_that_halts_says_so_and_fails_those_who_wait(self) -> None:
        full = [False]

        def sink(history: p.History) -> None:
            if full[0]:
                raise OSError("no space left")

        run = r.Runtime(going_on_every=50, archive=sink, inbox=100)
        echo, answers, kept = run.spawn(Echo()), list[Any](), list[Any]()
        keeps = run.spawn(Doing(notes=kept))
        with Running(run, False) as running:
            def asks() -> None:
                try:
                    answers.append(run.call(keeps, "hold", 50))
                except r.CallFault as fault:
                    answers.append(type(fault))

            threads = [threading.Thread(target=asks) for _ in range(5)]
            for thread in threads:
                thread.start()
            wait_until(lambda: len(kept) == 5)
            full[0] = True
            with self.assertLogs("pundewo", "ERROR") as logs:
                while echo.send(1) and not running.error:
                    time.sleep(0.001)
                    if not running.thread.is_alive():
                        break
                for thread in threads:
                    thread.join(60)
                running.thread.join(60)
            self.assertEqual([it.getMessage() for it in logs.records], ["the run halted: OSError: no space left"])
            self.assertEqual((answers, type(running.error[0])), ([r.RunOver] * 5, OSError))
            with self.assertRaises(r.RunOver):
                run.call(echo, 1, 50)
        # it goes on, and nothing is left of the calls, whose answers come too late
        full[0] = False
        for request in kept[:2]:
            request.reply("late")
        with Running(run) as running:
            wait_until(lambda: run._engine.thread is not None)
            self.assertEqual(run.call(echo, 2, 50), ("echo", 2))
            porter = run._engine.pids[run._engine.porters[0].pid]
            self.assertEqual((len(run._engine._outside), len(porter.calls)), (0, 0))

    @in_asyncio
    async def test_so_does_one_of_an_asyncio_program(self) -> None:
        def sink(history: p.History) -> None:
            raise OSError("no space left")

        with self.assertLogs("pundewo", "ERROR") as logs:
            with self.assertRaises(OSError):
                async with r.Runtime(going_on_every=50, archive=sink) as run:
                    echo = run.spawn(Echo())
                    hold = asyncio.ensure_future(echo.call("hold", 50))
                    for number in range(100):
                        echo.send(number)
                    with self.assertRaises(r.RunOver):
                        await hold
                    await run.ended()
        self.assertEqual([it.getMessage() for it in logs.records], ["the run halted: OSError: no space left"])


class Epochs(unittest.TestCase):
    def test_an_epoch_ends_from_outside(self) -> None:
        counts: list[int] = []
        with Running(r.Runtime(2, archive=lambda history: counts.append(len(history)))) as running:
            run = running.run
            echo = run.spawn(Echo())
            for epoch in range(1, 6):
                self.assertEqual(run.call(echo, epoch, 50), ("echo", epoch))
                run.go_on()
                wait_until(lambda: run.summary().epochs == epoch)
                self.assertEqual((run.summary().epochs, len(counts)), (epoch, epoch))
        run.go_on()
        self.assertEqual((run.summary().epochs, len(counts), sum(counts)), (6, 6, run.summary().archived))


class Names(unittest.TestCase):
    @quiet
    @in_asyncio
    async def test_a_name_leads_to_the_process_that_has_it(self) -> None:
        async with r.Runtime(2) as run:
            echo, other = run.spawn(Echo()), run.spawn(Echo())
            self.assertIsNone(run.whereis("echo"))
            self.assertTrue(run.register("echo", echo))
            self.assertFalse(run.register("echo", other))
            self.assertTrue(run.register("other name", echo))
            self.assertEqual((run.whereis("echo"), run.whereis("other name")), (echo, echo))
            self.assertTrue(run.unregister("echo"))
            self.assertFalse(run.unregister("echo"))
            self.assertTrue(run.register("echo", other))
            run.exit(other, p.Reason("other", 4))
            await until(lambda: run.whereis("echo") is None)
            self.assertFalse(run.register("echo", other))
            self.assertFalse(run.unregister("echo"))
            self.assertEqual(run._engine.names, {"other name": echo})
            run.exit(echo, p.KILL)
            await until(lambda: not echo.is_alive())
            self.assertEqual((run._engine.names, run.whereis("other name")), ({}, None))
            with self.assertRaises(ValueError):
                run.register("echo", r.Runtime().spawn(Echo()))

    @quiet
    @in_asyncio
    async def test_a_child_that_registers_itself_is_found_when_it_is_started_again(self) -> None:
        class Named(Echo):
            def started(self, cx: r.Context) -> None:
                assert cx.register("line") and cx.whereis("line") == cx.me

        async with r.Runtime() as run:
            run.spawn(r.Supervisor.one_for_one().limit(1_000, 5).permanent(Named, "line"))
            for _ in range(20):
                await until(lambda: run.whereis("line"))
                line = run.whereis("line")
                assert line is not None
                line.send("crash")
                await until(lambda: run.whereis("line") not in (None, line))
            self.assertEqual(run.summary().crashes, 20)

    def test_threads_register_and_end_processes(self) -> None:
        with Running(r.Runtime()) as running:
            run, won = running.run, list[str]()

            def works(number: int) -> None:
                for turn in range(30):
                    echo = run.spawn(Echo(), limit=50)
                    if run.register(f"name {turn}", echo):
                        won.append(f"name {turn}")
                    run.exit(echo, p.KILL)

            threads = [threading.Thread(target=works, args=(number,)) for number in range(4)]
            for thread in threads:
                thread.start()
            for thread in threads:
                thread.join(60)
            wait_until(lambda: len(run._engine.seats) == 1)
            self.assertEqual([run.whereis(f"name {turn}") for turn in range(30)], [None] * 30)
            self.assertGreaterEqual(len(won), 1)
            porter = run._engine.porters[0]
            with self.assertRaises(ValueError):
                run.exit(porter)


if __name__ == "__main__":
    unittest.main()
