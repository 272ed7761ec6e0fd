"""Tests of the run of behaviours, as a program uses it: of all messages each is taken once or dropped, whatever happens."""

from __future__ import annotations

import gc
import itertools
import random
import tempfile
import threading
import time
import unittest
from pathlib import Path
from typing import Any

import pundewo as p
from pundewo import runtime as r

from behaviours import PATIENCE, Counted, Doing, audit, quiet, wait_until


class Losses(unittest.TestCase):
    """Of all messages each is taken once or dropped, whatever happens, and none is kept."""

    def setUp(self) -> None:
        Counted.alive = 0

    @quiet
    def test_nothing_is_kept_and_nothing_is_taken_twice(self) -> None:
        for desks, every in ((1, 10**6), (3, 10**6), (1, 40), (3, 40)):
            with self.subTest(desks=desks, every=every):
                self.lossy(desks, every)

    def lossy(self, desks: Any, every: Any) -> None:
        taken = []

        class Victim(r.Behaviour):
            """Takes some, and ends by a crash, by its own will, by a signal, or not at all."""

            def __init__(self, how: Any) -> None:
                self.how, self.left = how, 5

            def handle(self, cx: r.Context, event: Any) -> Any:
                event.value.taken += 1
                taken.append(event.value.taken)
                self.left -= 1
                if self.left == 0 and self.how == "crash":
                    raise ValueError("enough")
                if self.left == 0 and self.how == "stop":
                    return r.Next.stop()
                return r.Next.wait(pick=p.Pick("kind", 999)) if self.left == 0 and self.how == "deaf" else None

        class Sender(r.Behaviour):
            def started(self, cx: r.Context) -> Any:
                hows = ("crash", "stop", "signal", "deaf", "live")
                self.victims = [cx.spawn_on(number % desks, Victim(how)) for number, how in enumerate(hows)]
                self.rounds = 0
                return r.Next.proceed()

            def handle(self, cx: r.Context, event: Any) -> Any:
                for victim in self.victims:
                    cx.send(victim, Counted())
                    cx.cancel(cx.send_after(50, victim, Counted()))
                self.rounds += 1
                if self.rounds == 7:
                    cx.exit(self.victims[2], p.KILL)
                    cx.send_after(60, self.victims[4], Counted())
                return r.Next.proceed() if self.rounds < 40 else r.Next.stop()

        run = r.Runtime(desks, going_on_every=every)
        sender = run.spawn(Sender(), 0)
        thread = threading.Thread(target=run.run)
        thread.start()
        # (the others take what came to them; then nothing more moves)
        wait_until(lambda: not sender.is_alive() and run.waiting() == 35)
        time.sleep(0.1)
        kept = run.waiting()
        run.stop()
        summary = run.wait(PATIENCE)
        thread.join()
        self.assertEqual(summary.crashes, 1)
        self.assertEqual(kept, 35)  # those of the deaf one, which lived until the stop
        self.assertEqual(set(taken), {1})
        self.assertGreater(len(taken), 55)
        self.assertEqual(run.waiting(), 0)
        self.assertEqual(summary.epochs > 1, every == 40)
        gc.collect()
        self.assertEqual(Counted.alive, 0)

    def test_what_came_to_nobody_is_dropped_at_once(self) -> None:
        run = r.Runtime(2)
        dead = run.spawn(Doing(started=lambda cx: r.Next.stop()), 1)

        def handle(cx: r.Context, event: Any) -> Any:
            if isinstance(event, r.Message):
                for _ in range(10):
                    cx.send(dead, Counted())
                return r.Next.wait(0.02)
            tries.append(1)
            return r.Next.wait(0.02) if Counted.alive and len(tries) < 50 else r.Next.stop(p.Reason("other", Counted.alive))

        sender = Doing(handle)
        tries: list[int] = []
        run.spawn(sender, 0).send(0)
        run.run()
        self.assertEqual((sender.notes, Counted.alive), ([p.Reason("other", 0)], 0))

    def test_a_run_that_is_dropped_drops_all(self) -> None:
        run = r.Runtime()
        deaf = Doing(started=lambda cx: r.Next.wait(pick=p.Pick("kind", 999)))
        address = run.spawn(deaf)
        for _ in range(5):
            address.send(Counted())
        thread = threading.Thread(target=run.run, args=(True,))
        thread.start()
        wait_until(lambda: run._engine.thread is not None)
        self.assertEqual(Counted.alive, 5)
        with self.assertRaises(RuntimeError):
            run.close()
        run.stop()
        run.wait(PATIENCE)
        thread.join()
        run.close()
        self.assertEqual((Counted.alive, deaf.notes), (0, [p.SHUTDOWN]))
        other = r.Runtime()
        other.spawn(Doing()).send(Counted())
        other.close()
        self.assertEqual(Counted.alive, 0)
        with self.assertRaises(r.RunOver):
            other.run()


class Soak(unittest.TestCase):
    """Processes do what chance says: whatever it says, messages come in order and once, and each monitor tells once."""

    @quiet
    def test_whatever_happens_all_is_told_once_and_in_order(self) -> None:
        for seed in range(4):
            with self.subTest(seed=seed), tempfile.TemporaryDirectory() as folder:
                self.soak(random.Random(seed), 1 + seed % 3, (50, 10**6)[seed % 2], Path(folder) / "history")

    def soak(self, chance: Any, desks: Any, every: Any, file: Any) -> None:
        told: dict[p.Ref, list[p.Pid]] = {}
        taken: dict[Any, list[tuple[int, int]]] = {}
        sent: list[int] = []
        live: list[r.Address] = []
        kept: list[tuple[int, ...]] = []
        is_judged = desks == 3  # (one, and a short one: judging takes longer than the run)
        most = 40 if is_judged else 150

        class Watcher(r.Behaviour):
            """Watches all, starts another for each that is gone, and ends all when there were enough."""

            def __init__(self) -> None:
                self.left, self.open, self.tries = most, 0, 0

            def started(self, cx: r.Context) -> None:
                for _ in range(12):
                    cx.spawn_on(chance.randrange(desks), Actor())

            def handle(self, cx: r.Context, event: Any) -> Any:
                if isinstance(event, r.Message):
                    told[cx.monitor(event.value)] = [event.value.pid]
                    self.open += 1
                    self.left -= 1
                elif isinstance(event, r.Down):
                    told[event.monitor].append(event.pid)
                    self.open -= 1
                    if self.left > 0:
                        cx.spawn_on(chance.randrange(desks), Actor())
                if self.left <= 0:
                    for address in live:
                        cx.exit(address, p.KILL)
                    if not self.open and event is r.TIMEOUT:
                        gc.collect()
                        self.tries += 1
                        if run.waiting() and self.tries < 50:
                            return r.Next.wait(0.05)
                        kept.append((Counted.alive, run.waiting(), len(run._engine._alarms), len(run._engine.pids)))
                        return r.Next.stop()
                    return r.Next.wait(0.05)
                return None

        class Actor(r.Behaviour):
            def __init__(self) -> None:
                self.numbers = itertools.count()

            def started(self, cx: r.Context) -> Any:
                live.append(cx.me)
                cx.send(watcher, cx.me)
                if chance.random() < 0.3:
                    cx.trap()
                return r.Next.proceed()

            def ended(self, why: p.Reason) -> None:
                live[:] = [it for it in live if it.is_alive()]

            def handle(self, cx: r.Context, event: Any) -> Any:
                if isinstance(event, r.Message):
                    sender, number, value = event.value
                    value.taken += 1
                    taken.setdefault((sender, cx.pid), []).append((number, value.taken))
                for _ in range(chance.randrange(3)):
                    self.act(cx, chance.choice(live))
                if chance.random() < 0.04:
                    raise ValueError("chance")
                return chance.choice([None, r.Next.proceed(), r.Next.wait(0.001), r.Next.wait(0.001, p.Pick("from", cx.pid)),
                                      r.Next.stop() if chance.random() < 0.1 else r.Next.proceed()])

            def act(self, cx: r.Context, other: Any) -> None:
                does = chance.random()
                if does < 0.7:
                    sent.append(1)
                    cx.send(other, (cx.pid, next(self.numbers), Counted()))
                elif does < 0.8 and other != cx.me:
                    cx.link(other)
                elif does < 0.83:
                    cx.exit(other, chance.choice([p.KILL, p.SHUTDOWN, p.Reason("other", 1)]))
                elif does < 0.9:
                    cx.send_after(0.001, other, (None, 0, Counted()))
                elif other != cx.me:
                    cx.call(other, (None, 0, Counted()), 0.01)

        Counted.alive = 0
        run = r.Runtime(desks, slots=200, going_on_every=every, archive=r.HistoryFile(file))
        watcher = run.spawn(Watcher())
        summary = run.run()
        if is_judged:
            audit(self, file)
        self.assertGreaterEqual(len(told), most)
        for first, *others in told.values():
            self.assertEqual(others, [first])
        for (sender, _), numbers in taken.items():
            self.assertEqual({times for _, times in numbers}, {1})
            if sender is not None:
                self.assertEqual(numbers, sorted(set(numbers)))
        self.assertGreater(len(sent), 100)
        self.assertEqual(kept, [(0, 0, 0, 1 + desks)])  # before the end: the watcher lives, and what sends from outside
        self.assertEqual(summary.epochs > 1, every == 50)
        gc.collect()
        self.assertEqual(Counted.alive, 0)


if __name__ == "__main__":
    unittest.main()
