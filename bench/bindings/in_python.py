#!/usr/bin/env python3
"""in_python.py pundewo|asyncio WORKLOAD TIMES: does a workload so many times in Python, and prints nothing.
in_python.py together [ROUNDS]: does all of them in turn in one process, so many rounds (7), and prints the microseconds of the
processor that one takes, the least and the median, and the least as a share of what asyncio takes for the same.

bench/beside.py measures the first. `message` is one between two processes or two tasks, `call` is one with its answer, and
`restart` is a child of a supervisor that exits and is started again: its share is of a call of asyncio.
"""
from __future__ import annotations

import asyncio
import logging
import statistics
import sys
import time
from typing import Any, Callable, Optional

# How long a call may take.
LIMIT = 600.0


def messages(times: int) -> None:
    from pundewo.runtime import Address, Behaviour, Context, Message, Next, Runtime

    class Player(Behaviour):
        other: Optional[Address] = None

        def handle(self, cx: Context, event: Any) -> Optional[Next]:
            if not isinstance(event, Message) or not isinstance(event.value, int):
                self.other = event.value
                return None
            if self.other is not None:
                cx.send(self.other, max(0, event.value - 1))
            return None if event.value else Next.stop()

    runtime = Runtime()
    one, other = runtime.spawn(Player()), runtime.spawn(Player())
    one.send(other)
    other.send(one)
    one.send(times)
    runtime.run()


def calls(times: int) -> None:
    from pundewo.runtime import Address, Answer, Behaviour, Context, Next, Request, Runtime

    class Server(Behaviour):
        def handle(self, cx: Context, event: Any) -> Optional[Next]:
            if not isinstance(event, Request):
                return Next.stop()
            cx.reply(event, event.value)
            return None

    class Client(Behaviour):
        def __init__(self, server: Address):
            self.server, self.left = server, times

        def started(self, cx: Context) -> None:
            cx.call(self.server, self.left, LIMIT)

        def handle(self, cx: Context, event: Any) -> Optional[Next]:
            if isinstance(event, Answer):
                event.result()
            self.left -= 1
            if not self.left:
                cx.send(self.server, "the end")
                return Next.stop()
            cx.call(self.server, self.left, LIMIT)
            return None

    runtime = Runtime()
    runtime.spawn(Client(runtime.spawn(Server())))
    runtime.run()


def restarts(times: int) -> None:
    from pundewo.runtime import Address, Behaviour, Context, Next, Runtime, Supervisor
    from pundewo.values import Reason
    left = times
    above: Optional[Address] = None

    class Child(Behaviour):
        def started(self, cx: Context) -> Optional[Next]:
            nonlocal left
            left -= 1
            if left > 0 or above is None:
                return Next.stop(Reason("other", 7))
            # (the supervisor ends, and the child with it)
            cx.exit(above)
            return None

        def handle(self, cx: Context, event: Any) -> Optional[Next]:
            return None

    logging.disable(logging.CRITICAL)
    runtime = Runtime()
    # (of the restarts before, it remembers those of this time alone)
    above = runtime.spawn(Supervisor.one_for_one().permanent(Child).limit(1000, 0.00001))
    runtime.run()
    if left:
        sys.exit(f"in_python.py: {left} restarts of {times} are missing")


async def queued_messages(times: int) -> None:
    there: asyncio.Queue[int] = asyncio.Queue()
    back: asyncio.Queue[int] = asyncio.Queue()

    async def player(mine: asyncio.Queue[int], other: asyncio.Queue[int]) -> None:
        left = 1
        while left:
            left = await mine.get()
            other.put_nowait(max(0, left - 1))

    there.put_nowait(times)
    await asyncio.gather(player(there, back), player(back, there))


async def queued_calls(times: int) -> None:
    asked: asyncio.Queue[tuple[int, asyncio.Future[int]]] = asyncio.Queue()
    loop = asyncio.get_running_loop()

    async def server() -> None:
        while True:
            value, answer = await asked.get()
            answer.set_result(value)

    serves = asyncio.create_task(server())
    for number in range(times):
        answer: asyncio.Future[int] = loop.create_future()
        asked.put_nowait((number, answer))
        await asyncio.wait_for(answer, LIMIT)
    serves.cancel()


WORKLOADS: dict[tuple[str, str], Callable[[int], object]] = {
    ("pundewo", "message"): messages, ("pundewo", "call"): calls, ("pundewo", "restart"): restarts,
    ("asyncio", "message"): lambda times: asyncio.run(queued_messages(times)),
    ("asyncio", "call"): lambda times: asyncio.run(queued_calls(times)),
}

# How often a round does each.
TOGETHER = {"message": 20_000, "call": 6_000, "restart": 3_000}


def together(rounds: int) -> None:
    """Measures all of them in this process."""
    took: dict[tuple[str, str], list[float]] = {of: [] for of in WORKLOADS}
    for _ in range(rounds):
        for (who, what), work in WORKLOADS.items():
            began = time.thread_time()
            work(TOGETHER[what])
            took[who, what].append((time.thread_time() - began) / TOGETHER[what] * 1e6)
    for (who, what), each in took.items():
        share = min(each) / min(took["asyncio", "call" if what == "restart" else what])
        print(f"{who:8} {what:8} {min(each):7.2f} {statistics.median(each):7.2f} {share:6.2f}")


if __name__ == "__main__":
    if sys.argv[1] == "together":
        together(int(sys.argv[2]) if len(sys.argv) > 2 else 7)
    else:
        WORKLOADS[sys.argv[1], sys.argv[2]](int(sys.argv[3]))
