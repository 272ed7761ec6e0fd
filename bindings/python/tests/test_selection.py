"""Tests of what a process takes now, as a program uses it: what it does not take waits, in order, until it does."""

from __future__ import annotations

import asyncio
import itertools
import random
import tempfile
import threading
import unittest
from pathlib import Path
from typing import Any, Callable, NamedTuple, Optional

import pundewo as p
from pundewo import runtime as r

from behaviours import PATIENCE, Counted, Doing, Echo, audit, in_asyncio, quiet, run_and_stop, until


class Ring(NamedTuple):
    number: int


class Talk(NamedTuple):
    number: int


class Kinded(Doing):
    """Its messages are numbers, or have one, whose kind is what is left of it by five."""

    @staticmethod
    def kind(value: Any) -> int:
        number: int = value if isinstance(value, int) else value[0]
        return number % 5


def values(events: list[Any]) -> list[Any]:
    return [getattr(it, "value", it) for it in events if not isinstance(it, p.Reason)]


class Chooses(unittest.TestCase):
    def takes(self, first: Any, *then: Any, sent: Any = range(10), of: type[Doing] = Doing, asks: bool = False) -> list[Any]:
        """What a process is told that waits for these, one after the other, when all of this was sent to it."""
        rest = [*then]

        def handle(cx: r.Context, event: Any) -> Any:
            told.append(event)
            return rest.pop(0) if rest else r.Next.stop()

        told: list[Any] = []
        for every in (10**6, 3):
            told.clear()
            rest = [*then]
            run = r.Runtime(going_on_every=every)
            receiver = run.spawn(of(handle, lambda cx: first))

            def start(cx: r.Context) -> Any:
                for value in sent:
                    cx.send(receiver, value)
                return r.Next.stop()

            run.spawn(Doing(started=start))
            run.run()
            self.assertEqual(run.waiting(), 0)
        return values(told)

    def test_a_function_chooses_and_the_rest_waits_in_order(self) -> None:
        even, odd = r.Next.only(lambda it: it.value % 2 == 0), r.Next.only(lambda it: it.value % 2)
        self.assertEqual(self.takes(odd, odd, even, None, None, odd, None, even, None, None),
                         [1, 3, 0, 2, 4, 5, 6, 8, 7, 9])
        self.assertEqual(self.takes(r.Next.only(lambda it: it.value == 9), *[None] * 9), [9, 0, 1, 2, 3, 4, 5, 6, 7, 8])

    def test_a_type_chooses(self) -> None:
        sent = [Talk(1), "noise", Ring(2), Talk(3), 4, Ring(5)]
        ring, either = r.Next.only(Ring), r.Next.only((Ring, int))
        self.assertEqual(self.takes(ring, either, either, None, None, None, sent=sent),
                         [Ring(2), 4, Ring(5), Talk(1), "noise", Talk(3)])
        but = r.Next.only(r.Selection.all_but((Ring, Talk)))
        self.assertEqual(self.takes(but, but, None, sent=sent), ["noise", 4, Talk(1)])
        self.assertEqual(self.takes(r.Next.only(r.Message), r.Next.only(r.Selection(Talk)), sent=sent), [Talk(1), Talk(3)])
        self.assertEqual(self.takes(r.Next.only(r.Request, 0.03), sent=sent), [r.TIMEOUT])

    def test_a_kind_chooses(self) -> None:
        three, zero = r.Next.only(3), r.Next.only(0)
        self.assertEqual(self.takes(three, three, zero, (none := r.Next.only((4, 1))), none, none, none, None, None, None, of=Kinded),
                         [3, 8, 0, 1, 4, 6, 9, 2, 5, 7])
        # a pick of the library is of the same kinds
        pick = r.Next.only(p.Pick("kind", r.FIRST_KIND + 2))
        self.assertEqual(self.takes(three, pick, pick, r.Next.only((Ring, 1)), None, of=Kinded), [3, 2, 7, 1, 0])

    def test_a_single_kind_is_chosen_by_the_library(self) -> None:
        self.assertEqual(r.Selection(7).pick(), p.Pick("kind", r.FIRST_KIND + 7))
        self.assertEqual(r.Selection((7,)).pick(), r.Selection(7).pick())
        self.assertEqual(r.Selection(()).pick(), p.Pick("kind", 0))
        wants: list[Any] = [0, (1, 2), Ring, lambda it: True]
        for it in wants:
            self.assertIsNone(r.Selection(it).pick())
        self.assertIsNone(r.Selection(7, downs=True).pick())
        self.assertIsNone(r.Selection.all_but((), False, False, False).pick())
        self.assertEqual(r.Selection.all_but(7), r.Selection(7, True, True, True, True))
        mailbox: list[Any] = []

        def handle(cx: r.Context, event: Any) -> Any:
            mailbox.append((cx._engine.desks[0].waiting(cx.pid), cx._seat.aside, cx.waiting()))
            return r.Next.stop()

        run = r.Runtime()
        receiver = run.spawn(Kinded(handle, lambda cx: r.Next.only(3)))
        for number in (1, 2, 3, 4):
            receiver.send(number)
        run.run()
        ((waiting, aside, count),) = mailbox
        self.assertEqual(([it.body.kind for it in waiting], aside, count), ([17, 18, 20], None, 3))

    def test_a_kind_out_of_range_is_refused_as_it_is_sent(self) -> None:
        class Bad(Doing):
            @staticmethod
            def kind(value: Any) -> int:
                return 2**16

        refused: list[Any] = []

        def start(cx: r.Context) -> Any:
            works: tuple[Any, ...] = (cx.send, cx.call)
            for work in works:
                with self.assertRaisesRegex(ValueError, "^Behaviour.kind is 65536, and must be an int from 0 to 65535$"):
                    work(cx.spawn(Bad()), 1)
                refused.append(len(cx._engine.payloads))
            return r.Next.stop()

        run = r.Runtime()
        address = run.spawn(Doing(started=start))
        run_and_stop(run, lambda: not address.is_alive())
        self.assertEqual(refused, [0, 0])

    def test_a_limit_is_kept_whatever_comes_that_is_not_wanted(self) -> None:
        began: list[float] = []
        told: list[Any] = []

        def handle(cx: r.Context, event: Any) -> Any:
            told.append((event, cx.now() - began[0]))
            return r.Next.stop()

        def start(cx: r.Context) -> Any:
            began.append(cx.now())
            for number in range(20):
                cx.send_after(0.01 * number, cx.me, number)
            return r.Next.only(str, 0.1)

        run = r.Runtime()
        run.spawn(Doing(handle, start))
        run.run()
        ((event, after),) = told
        self.assertIs(event, r.TIMEOUT)
        self.assertGreaterEqual(after, 0.1)

    def test_no_time_is_long_enough_for_what_is_there(self) -> None:
        sent = [*range(20), Ring(1), *range(20)]
        now, none = r.Next.only(Ring, 0), r.Next.only(str, 0)
        self.assertEqual(self.takes(r.Next.only(Talk, 0.02), now, none, *[None] * 40, sent=sent),
                         [r.TIMEOUT, Ring(1), r.TIMEOUT, *range(20), *range(20)])
        # nor for what the library has not handed out yet
        self.assertEqual(self.takes(r.Next.only(int), now, none, *[None] * 39, sent=sent),
                         [0, Ring(1), r.TIMEOUT, *range(1, 20), *range(20)])

    @quiet
    def test_news_exits_and_answers_are_chosen_apart(self) -> None:
        flags: list[dict[str, bool]] = [{}, {"downs": True}, {"exits": True}, {"answers": True},
                                        {"downs": True, "exits": True, "answers": True}]
        for chosen in flags:
            told: list[Any] = []

            def handle(cx: r.Context, event: Any) -> Any:
                told.append(event)
                if event is r.TIMEOUT and len(told) < 5:
                    return r.Next.wait(0.05)  # all the rest, in order
                if event is r.TIMEOUT:
                    return r.Next.stop()
                return r.Next.wait(0.05) if r.TIMEOUT in told else r.Next.only(Ring, 0.3, **chosen)

            def start(cx: r.Context) -> Any:
                cx.trap()
                cx.send(cx.me, "first")
                linked, watched = cx.spawn(Doing(), linked=True), cx.spawn(Doing())
                cx.monitor(watched)
                cx.call(cx.spawn(Echo()), 7)
                for it in (linked, watched):
                    cx.send(it, "stop")
                    cx.exit(it, p.Reason("other", 3))
                return r.Next.only(Ring, 0.3, **chosen)

            run = r.Runtime()
            address = run.spawn(Doing(handle, start))
            run_and_stop(run, lambda: not address.is_alive())
            at = [it is r.TIMEOUT for it in told].index(True)
            names = {type(it).__name__ for it in told[:at]}
            self.assertEqual(names, {{"downs": "Down", "exits": "Exit", "answers": "Answer"}[it] for it in chosen})
            rest = sorted(type(it).__name__ for it in told if it is not r.TIMEOUT)
            self.assertEqual(rest, ["Answer", "Down", "Exit", "Message"])

    def test_news_that_waits_is_dropped_with_its_monitor(self) -> None:
        told: list[Any] = []
        monitors: list[p.Ref] = []

        def handle(cx: r.Context, event: Any) -> Any:
            told.append(event)
            if len(told) == 1:
                self.assertEqual(cx.waiting(), 2)
                cx.demonitor(monitors[0])
                return r.Next.wait(0.05)
            return r.Next.wait(0.05) if len(told) < 3 else r.Next.stop()

        def start(cx: r.Context) -> Any:
            children = [cx.spawn(Doing()) for _ in range(2)]
            monitors.extend(cx.monitor(it) for it in children)
            for it in children:
                cx.exit(it, p.KILL)
            return r.Next.only(Ring, 0.05)

        run = r.Runtime()
        run.spawn(Doing(handle, start))
        run.run()
        self.assertEqual([getattr(it, "monitor", it) for it in told], [r.TIMEOUT, monitors[1], r.TIMEOUT])

    @quiet
    def test_a_function_that_raises_is_a_crash(self) -> None:
        run = r.Runtime()
        behaviour = Doing(started=lambda cx: r.Next.only(lambda it: it.value.nothing))
        run.spawn(behaviour).send(1)
        self.assertEqual(run.run().crashes, 1)
        self.assertEqual(behaviour.notes, [r.CRASH])

    def test_it_is_made_checked(self) -> None:
        wrong: list[Any] = [None, True, 1.5, "kind", -1, 2**16, (1, True), (int, None), [int], {}, object()]
        for it in wrong:
            makes: tuple[Any, ...] = (r.Next.only, r.Selection)
            for make in makes:
                with self.assertRaises((TypeError, ValueError), msg=it) as caught:
                    make(it)
                self.assertIn("wants", str(caught.exception))
        with self.assertRaises(ValueError):
            r.Next.only(p.ANY, downs=True)
        with self.assertRaises(TypeError):
            r.Selection(1)._replace(exits=1)  # type: ignore[arg-type]
        self.assertEqual(r.Next.only(p.ANY, 1), r.Next.wait(1))
        self.assertEqual(r.Next.only(7, downs=True), r.Next.only(r.Selection(7, downs=True)))


class Requests(unittest.TestCase):
    @in_asyncio
    async def test_requests_wait_and_are_answered_in_order(self) -> None:
        def handle(cx: r.Context, event: Any) -> Any:
            if isinstance(event, r.Message):
                gates.append(event.value)
            else:
                cx.reply(event, (event.value, len(gates)))
            return r.Next.only(lambda it: isinstance(it, r.Message) or it.value <= len(gates))

        gates: list[Any] = []
        async with r.Runtime() as run:
            server = run.spawn(Doing(handle, lambda cx: r.Next.only(r.Message)))
            asked = [asyncio.ensure_future(server.call(number)) for number in (2, 1, 2, 3)]
            await until(lambda: run._engine.kept == 4)
            self.assertEqual(run.waiting(), 4)
            for count in (1, 2, 3):
                server.send("open")
                await until(lambda: len(gates) == count)
            self.assertEqual(await asyncio.gather(*asked), [(2, 2), (1, 1), (2, 2), (3, 3)])
            self.assertEqual(run.waiting(), 0)

    @quiet
    @in_asyncio
    async def test_what_waits_goes_with_its_process(self) -> None:
        Counted.alive = 0
        async with r.Runtime() as run:
            for ending in ("crash", "kill"):
                deaf = run.spawn(Doing(lambda cx, event: 1 / 0, lambda cx: r.Next.only((Ring, r.Request))))
                for _ in range(5):
                    deaf.send(Counted())
                await until(lambda: run._engine.kept == 5)
                asked = asyncio.ensure_future(deaf.call("dropped"))
                if ending == "kill":
                    run.exit(deaf, p.KILL)
                with self.assertRaises(r.ServerDown):
                    await asked
                await until(lambda: not deaf.is_alive() and not run._engine.payloads)
                self.assertEqual((Counted.alive, run.waiting()), (0, 0))

    @in_asyncio
    async def test_a_request_that_waits_keeps_its_limit(self) -> None:
        async with r.Runtime() as run:
            replies: list[Any] = []

            def handle(cx: r.Context, event: Any) -> Any:
                return replies.append(cx.reply(event, 1)) if isinstance(event, r.Request) else None

            server = run.spawn(Doing(handle, lambda cx: r.Next.only(Ring)))
            with self.assertRaises(r.CallTimeout):
                await server.call("late", 0.05)
            server.send(Ring(1))
            await until(lambda: replies)
            self.assertEqual(replies, [False])

    def test_what_waits_counts_for_the_bound(self) -> None:
        run = r.Runtime(inbox=10)
        deaf = run.spawn(Doing(started=lambda cx: r.Next.only(Ring)))
        thread = threading.Thread(target=run.run, args=(True,))
        thread.start()
        for number in range(10):
            self.assertTrue(deaf.send(number))
        with self.assertRaises(r.InboxFull):
            deaf.try_send(10)
        run.drain(0.5)
        run.wait(PATIENCE)
        thread.join()
        self.assertEqual((run.is_drained(), run.waiting()), (True, 0))


class Postponing(unittest.TestCase):
    def test_what_is_postponed_comes_again_in_its_place(self) -> None:
        told: list[Any] = []

        def handle(cx: r.Context, event: Any) -> Any:
            value = event.value
            told.append(value)
            if value == 5 and told.count(5) == 1:
                cx.retry()
                return None
            if value < 5 and told.count(value) == 1 or value == 3 and told.count(3) < 3:
                self.assertTrue(cx.postpone(event))
                self.assertFalse(cx.postpone(event))
            if value == 9:
                return r.Next.stop() if told.count(3) == 3 else cx.retry()
            return None

        for every in (10**6, 3):
            told.clear()
            run = r.Runtime(going_on_every=every)
            receiver = run.spawn(Doing(handle))
            for number in (*range(10), 9):
                receiver.send(number)
            run.run()
            self.assertEqual(told, [0, 1, 2, 3, 4, 5, 0, 1, 2, 3, 4, 6, 7, 8, 9, 3, 9])

    def test_all_that_waited_may_be_postponed(self) -> None:
        told: list[Any] = []

        def handle(cx: r.Context, event: Any) -> Any:
            told.append(type(event).__name__)
            if event in (r.TIMEOUT, r.PROCEED):
                self.assertFalse(cx.postpone(event))
                cx.retry()
                return r.Next.proceed() if event is r.TIMEOUT else r.Next.wait(0.05) if told.count("Tick") < 4 else r.Next.stop()
            if told.count("Tick") == 0:
                self.assertFalse(cx.postpone(r.Message(1, cx.pid)))
                self.assertTrue(cx.postpone(event))
            return r.Next.wait(0.3)

        def start(cx: r.Context) -> Any:
            cx.trap()
            self.assertFalse(cx.postpone(r.TIMEOUT))
            with self.assertRaises(TypeError):
                cx.postpone("no event")  # type: ignore[arg-type]
            cx.retry()
            child = cx.spawn(Doing(), linked=True)
            cx.monitor(child)
            cx.call(cx.spawn(Echo()), 7)
            cx.send(cx.me, 1)
            cx.exit(child)

        run = r.Runtime()
        address = run.spawn(Doing(handle, start))
        run_and_stop(run, lambda: not address.is_alive())
        self.assertEqual(sorted(told[:4]), ["Answer", "Down", "Exit", "Message"])
        self.assertEqual(told[6:10], told[:4])
        self.assertEqual([it for it in told if it == "Tick"], ["Tick"] * 4)

    @in_asyncio
    async def test_a_request_is_postponed_and_answered(self) -> None:
        def handle(cx: r.Context, event: Any) -> Any:
            if isinstance(event, r.Message):
                opened.append(1)
                cx.retry()
            elif opened:
                cx.reply(event, event.value)
            else:
                cx.postpone(event)

        opened: list[int] = []
        async with r.Runtime() as run:
            server = run.spawn(Doing(handle))
            asked = [asyncio.ensure_future(server.call(number)) for number in range(5)]
            await until(lambda: run._engine.kept == 5)
            server.send("open")
            self.assertEqual(await asyncio.gather(*asked), [0, 1, 2, 3, 4])

    @quiet
    def test_what_was_picked_out_and_postponed_comes_after_what_is_older(self) -> None:
        class Talks(r.Behaviour):
            def handle(self, cx: r.Context, event: Any) -> Any:
                cx.send(event.value, "first")
                cx.reply(event, "answer")
                cx.call(event.value, "asks", 50)
                cx.send(event.value, 3)
                return r.Next.stop()

        class Client(r.Behaviour):
            def __init__(self, talks: r.Address) -> None:
                self.talks, self.told = talks, list[Any]()

            @staticmethod
            def kind(value: Any) -> int:
                return value if isinstance(value, int) else 0

            def started(self, cx: r.Context) -> Any:
                cx.monitor(self.talks)
                cx.call(self.talks, cx.me, 50)
                return r.Next.only(3)

            def handle(self, cx: r.Context, event: Any) -> Any:
                if not self.told:
                    self.told.append("picked")
                    assert cx.postpone(event)
                    cx.retry()
                else:
                    self.told.append(event.reason if isinstance(event, r.Down) else event.value)
                return r.Next.stop() if len(self.told) == 6 else None

        for desk in (0, 1):
            run = r.Runtime(2, going_on_every=20)
            clients = [Client(run.spawn(Talks(), 0)) for _ in range(20)]
            for client in clients:
                run.spawn(client, desk)
            run.run()
            for client in clients:
                self.assertEqual(client.told, ["picked", "first", "answer", "asks", 3, p.NORMAL])


class Soak(unittest.TestCase):
    """A process takes what chance says: it takes the oldest that fits, each once, and what it does not take waits."""

    def test_the_oldest_that_fits_is_taken(self) -> None:
        for seed in range(6):
            with self.subTest(seed=seed), tempfile.TemporaryDirectory() as folder:
                self.soak(random.Random(seed), seed % 2 == 0, (40, 10**6)[seed % 2], Path(folder) / "history")

    def soak(self, chance: random.Random, at_once: bool, every: int, file: Path) -> None:
        count = 300
        taken: list[int] = []
        postponed: set[int] = set()
        wanted: list[Callable[[int], bool]] = [lambda number: False]

        def chosen(cx: r.Context) -> Any:
            """What it takes next, and what of numbers that is."""
            low, kinds = chance.randrange(count), (chance.randrange(5), chance.randrange(5))
            choices: list[tuple[Callable[[int], bool], Optional[r.Next]]] = [
                (lambda number: True, None),
                (lambda number: number >= low, r.Next.only(lambda it: it.value[0] >= low, 0.002)),
                (lambda number: number % 5 in kinds, r.Next.only(kinds, 0.002)),
                (lambda number: number % 5 == kinds[0], r.Next.only(kinds[0], 0.002)),
                (lambda number: number % 5 == kinds[0], r.Next.only(p.Pick(
                    "kind", r.FIRST_KIND + kinds[0] if kinds[0] else r.MESSAGE), 0.002)),
                (lambda number: number % 5 not in kinds, r.Next.only(r.Selection.all_but(kinds), 0.002)),
                (lambda number: True, r.Next.only(tuple, 0.002)),
            ]
            wanted[0], next_ = choices[chance.randrange(len(choices))]
            return next_

        def handle(cx: r.Context, event: Any) -> Any:
            if event is r.TIMEOUT:
                if at_once:
                    fits = [it for it in range(count) if it not in taken and it not in postponed and wanted[0](it)]
                    self.assertEqual(fits, [])
                return chosen(cx)
            (number, value) = event.value
            older = [it for it in range(number) if it not in taken and it not in postponed and wanted[0](it)]
            self.assertEqual(older, [])
            self.assertTrue(wanted[0](number))
            value.taken += 1
            if chance.random() < 0.2:
                self.assertTrue(cx.postpone(event))
                postponed.add(number)
            else:
                taken.append(number)
            if chance.random() < 0.05 or len(taken) + len(postponed) == count:
                cx.retry()
                postponed.clear()
            return r.Next.stop() if len(taken) == count else chosen(cx)

        Counted.alive = 0
        run = r.Runtime(going_on_every=every, archive=r.HistoryFile(file))
        receiver = run.spawn(Kinded(handle, lambda cx: r.Next.only((), 0.05)))
        numbers = itertools.count()

        class Sender(r.Behaviour):
            def started(self, cx: r.Context) -> Any:
                return r.Next.proceed()

            def handle(self, cx: r.Context, event: Any) -> Any:
                for number in itertools.islice(numbers, count if at_once else chance.randrange(9)):
                    if number < count:
                        cx.send(receiver, (number, Counted()))
                    else:
                        return r.Next.stop()
                return r.Next.wait(0.001)

        run.spawn(Sender())
        run.run()
        self.assertEqual(sorted(taken), list(range(count)))
        self.assertEqual((Counted.alive, run.waiting()), (0, 0))
        audit(self, file)


if __name__ == "__main__":
    unittest.main()
