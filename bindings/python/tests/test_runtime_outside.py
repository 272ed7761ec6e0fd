"""Tests of the run of behaviours, as a program uses it: calls, asyncio, other threads, mailboxes, and bad input."""

from __future__ import annotations

import asyncio
import threading
import time
import unittest
from typing import Any, Callable, Optional

import pundewo as p
from pundewo import runtime as r

from behaviours import PATIENCE, Doing, Echo, in_asyncio, is_watched, quiet, run_and_stop, until, wait_until


class Turns(unittest.TestCase):
    @in_asyncio
    async def test_a_program_has_its_turn_behind_each_step_of_slow_handlers(self) -> None:
        told = 0
        counts: list[int] = []

        def slow(cx: r.Context, event: object) -> r.Next:
            nonlocal told
            told += 1
            time.sleep(0.002)
            return r.Next.proceed()

        async with r.Runtime() as run:
            for _ in range(4):
                run.spawn(Doing(slow, lambda cx: r.Next.proceed()))
            for _ in range(30):
                before = told
                await asyncio.sleep(0)
                counts.append(told - before)
        self.assertGreater(told, 30)
        self.assertLessEqual(max(counts), 4)

    def test_a_round_has_some_steps_and_no_more_than_are_needed(self) -> None:
        run = r.Runtime()
        told: list[int] = []

        def back(cx: r.Context, event: Any) -> Optional[r.Next]:
            told.append(event.value)
            if not event.value:
                return r.Next.stop()
            cx.send(cx.me, event.value - 1)
            return None

        run.spawn(Doing(back)).send(3)
        run._engine.thread = threading.get_ident()
        while not told:
            run._engine.round()
        self.assertEqual(told, [3, 2, 1, 0])
        run._engine.thread = None
        self.assertEqual(run.run().spawned, 1)


class Calls(unittest.TestCase):
    @quiet
    @in_asyncio
    async def test_an_asyncio_program_calls(self) -> None:
        async with r.Runtime(2) as run:
            echo = run.spawn(Echo())
            self.assertEqual(await echo.call(5), ("echo", 5))
            self.assertEqual(await asyncio.gather(*(echo.call(it) for it in range(50))), [("echo", it) for it in range(50)])
            with self.assertRaises(r.Unanswered):
                await echo.call("drop")
            with self.assertRaises(r.CallTimeout):
                await echo.call("hold", 0.02)
            with self.assertRaises(asyncio.TimeoutError):
                await asyncio.wait_for(echo.call("hold"), 0.02)
            self.assertEqual(await echo.call(6), ("echo", 6))
            with self.assertRaises(r.ServerDown) as caught:
                await echo.call("crash")
            self.assertEqual((caught.exception.reason, caught.exception.crash), (r.CRASH, "KeyError: 'asked to'"))
            with self.assertRaises(r.ServerDown) as caught:
                await echo.call(7)
            self.assertEqual(caught.exception.reason, p.NOPROC)
            with self.assertRaises(r.ServerDown) as caught:
                await run.spawn(Echo()).call("exit")
            self.assertEqual(caught.exception.reason, p.Reason("other", 3))
            engine = run._engine
            await until(lambda: not engine.payloads and not engine._alarms)
            self.assertEqual((len(engine.payloads), len(engine._outside), len(engine._alarms)), (0, 0, 0))
            echo = run.spawn(Echo())
            waits = asyncio.ensure_future(echo.call("hold", 50))
            await asyncio.sleep(0.01)
        with self.assertRaises(r.CallFault):
            await waits
        with self.assertRaises(r.RunOver):
            await echo.call(1)
        self.assertFalse(echo.send(1))

    @quiet
    def test_a_behaviour_calls(self) -> None:
        answers: list[Any] = []

        def start(cx: r.Context) -> None:
            server, other, dead = cx.spawn(Echo()), cx.spawn_on(1, Echo()), cx.spawn(Echo())
            self.calls = [cx.call(server, 1), cx.call(other, "drop"), cx.call(other, "hold", 0.05), cx.call(server, "crash"),
                          cx.call(other, 2)]
            cx.exit(dead, p.KILL)
            cx.send_after(0.02, cx.me, dead)

        def handle(cx: r.Context, event: Any) -> Any:
            if isinstance(event, r.Message):
                self.calls.append(cx.call(event.value, 3))
                return None
            try:
                answers.append((self.calls.index(event.call), event.result()))
            except r.CallFault as fault:
                answers.append((self.calls.index(event.call), str(fault)))
            return r.Next.stop() if len(answers) == 6 else None

        run = r.Runtime(2)
        client = run.spawn(Doing(handle, start), 0)
        run_and_stop(run, lambda: not client.is_alive())
        self.assertEqual(sorted(answers), [
            (0, ("echo", 1)), (1, "the request was dropped unanswered"), (2, "there was no answer in time"),
            (3, "the server crashed: KeyError: 'asked to'"), (4, ("echo", 2)), (5, "the server exited: noproc")])

    def test_a_request_is_answered_later_once(self) -> None:
        got: list[Any] = []
        run = r.Runtime()

        def serve(cx: r.Context, event: Any) -> None:
            if isinstance(event, r.Request):
                cx.send(client, "before")
                got.append(cx.reply(event, "answer"))
                with self.assertRaises(RuntimeError):
                    event.reply("again")

        server = run.spawn(Doing(serve))

        def ask(cx: r.Context, event: Any) -> Any:
            got.append(event.value)
            return r.Next.stop() if isinstance(event, r.Answer) else None

        client = run.spawn(Doing(ask, lambda cx: cx.call(server, 1) and None))
        run_and_stop(run, lambda: not client.is_alive())
        self.assertEqual(got, [True, "before", "answer"])

    def test_a_request_is_answered_by_another_process(self) -> None:
        for desk in (0, 1, 2):
            got: list[Any] = []
            run = r.Runtime(3)

            def helps(cx: r.Context, event: Any) -> None:
                cx.send(client, "before")
                got.append(cx.reply(event.value, "answer"))

            def asks(cx: r.Context, event: Any) -> Any:
                got.append(event.value)
                return r.Next.stop() if isinstance(event, r.Answer) else None

            helper = run.spawn(Doing(helps), desk)
            server = run.spawn(Doing(lambda cx, event: cx.send(helper, event) and None), 1)
            client = run.spawn(Doing(asks, lambda cx: cx.call(server, 1) and None), 0)
            run_and_stop(run, lambda: not client.is_alive())
            self.assertEqual(got, [True, "before", "answer"])
            engine = run._engine
            self.assertEqual((len(engine.payloads), len(engine._alarms)), (0, 0))

    @quiet
    def test_a_down_that_a_call_left_behind_is_not_told(self) -> None:
        told: list[Any] = []
        run = r.Runtime()

        def handle(cx: r.Context, event: Any) -> Any:
            told.append(event)
            if isinstance(event, r.Answer):
                # (as if its monitor had not been cancelled for want of memory)
                monitor = cx.monitor(echo)
                cx._engine.left_open.add(monitor)
                cx.exit(echo, p.KILL)
                return r.Next.wait(0.05)
            return r.Next.stop()

        echo = run.spawn(Echo())
        client = run.spawn(Doing(handle, lambda cx: cx.call(echo, 1) and None))
        run_and_stop(run, lambda: not client.is_alive())
        self.assertEqual([type(it) for it in told], [r.Answer, r.Tick])

    def test_other_threads_spawn_send_call_and_stop(self) -> None:
        run = r.Runtime(2)
        thread = threading.Thread(target=run.run, args=(True,))
        thread.start()
        counts: list[Any] = []

        def client() -> None:
            echo = run.spawn(Echo())
            counts.append(sum(run.call(echo, number)[1] for number in range(100)))

        clients = [threading.Thread(target=client) for _ in range(5)]
        for it in clients:
            it.start()
        for it in clients:
            it.join()
        self.assertEqual(counts, [4950] * 5)

        async def elsewhere() -> Any:
            return await run.spawn(Echo()).call("from a loop of another thread")

        self.assertEqual(asyncio.run(elsewhere()), ("echo", "from a loop of another thread"))
        held: list[Any] = []
        holder = run.spawn(Doing(lambda cx, event: held.append((cx, event))))
        with self.assertRaises(r.CallTimeout):
            run.call(holder, "late", 0.05)
        wait_until(lambda: held)
        with self.assertRaises(RuntimeError):
            held[0][0].send(holder, 1)  # a context, on another thread
        held.pop()[1].reply("too late")
        def reply() -> None:
            wait_until(lambda: held)
            held.pop()[1].reply("in time")

        replier = threading.Thread(target=reply)
        replier.start()
        self.assertEqual(run.call(holder, "soon", 30), "in time")
        replier.join()
        with self.assertRaises(RuntimeError):
            run.run()
        run.stop()
        self.assertEqual(run.wait(PATIENCE).spawned, 7)
        thread.join()
        with self.assertRaises(r.RunOver):
            run.spawn(Echo())
        with self.assertRaises(r.RunOver):
            run.call(holder, 1)


class Mailboxes(unittest.TestCase):
    @quiet
    @in_asyncio
    async def test_an_asyncio_program_is_sent_to(self) -> None:
        async with r.Runtime(2) as run:
            async with run.mailbox() as mailbox:
                def handle(cx: r.Context, event: Any) -> None:
                    for number in range(event.value):
                        cx.send(mailbox.address, number)
                    raise ValueError("done")

                sender = run.spawn(Doing(handle), 0)
                mailbox.monitor(sender)
                await until(lambda: is_watched(run, sender))
                sender.send(500)
                got: list[Any] = []
                event: Any
                async for event in mailbox:
                    if isinstance(event, r.Down):
                        break
                    got.append(event.value)
                self.assertEqual((got, event.crash), (list(range(500)), "ValueError: done"))
                with self.assertRaises(asyncio.TimeoutError):
                    await mailbox.get(0.01)
                asking = asyncio.ensure_future(mailbox.address.call("who"))
                request: Any = await mailbox.get(1)
                request.reply("me")
                self.assertEqual(await asking, "me")
                mailbox.address.send("last")
                last: Any = await mailbox.get(1)
                self.assertEqual(last.value, "last")
            self.assertEqual([it async for it in mailbox], [])
            self.assertFalse(mailbox.address.send("too late"))
            other = run.mailbox()
            reader = asyncio.ensure_future(other.get())
        with self.assertRaises(r.RunOver):
            await reader


class BadInput(unittest.TestCase):
    def test_settings_out_of_the_tables_range_are_faults(self) -> None:
        settings: list[dict[str, Any]] = [{"desks": 0}, {"desks": 65}, {"lane": 0}, {"lane": 65_537}]
        for words in settings:
            with self.subTest(words), self.assertRaises(p.Fault):
                r.Runtime(**words)

    def test_what_a_process_cannot_do_is_refused_and_changes_nothing(self) -> None:
        def start(cx: r.Context) -> Any:
            porter = cx._engine.porters[0]
            works: list[tuple[type[Exception], Callable[[], object]]] = [
                (p.Fault, lambda: cx.monitor(cx.me)), (p.Fault, lambda: cx.monitor(p.Pid(9, 0, 1))),
                (p.Fault, lambda: cx.call(cx.me, 1)), (p.Fault, lambda: cx.link(p.Pid(9, 0, 1))),
                (ValueError, lambda: cx.exit(porter, p.KILL)), (ValueError, lambda: cx.link(porter.pid)),
            ]
            for error, work in works:
                with self.assertRaises(error):
                    work()
            return r.Next.stop()

        run = r.Runtime(2)
        run.spawn(Doing(started=start))
        self.assertEqual(run.run(), r.Summary(1, 0, 1, 0, ()))

    def test_a_full_desk_is_a_fault(self) -> None:
        run = r.Runtime(slots=2)
        run.spawn(Echo())
        run.spawn(Echo())
        with self.assertRaises(p.Fault) as caught:
            run.spawn(Echo())
        self.assertEqual(caught.exception.code, p.Code.FULL)
        run.close()

    @in_asyncio
    async def test_a_run_does_not_wait_for_itself(self) -> None:
        async with r.Runtime() as run:
            echo = run.spawn(Echo())
            works: list[Callable[[], object]] = [lambda: run.call(echo, 1), lambda: run.wait(1), run.run, run.close]
            for work in works:
                with self.assertRaises(RuntimeError):
                    work()
            self.assertEqual(await echo.call(1), ("echo", 1))


if __name__ == "__main__":
    unittest.main()
