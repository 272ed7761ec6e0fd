"""Many processes under load, and a page of them: runners throw balls to each other, each ten milliseconds after it came, and
clerks under a supervisor crash now and then.

    python3 many.py [RUNNERS [SECONDS]]

It prints the address of the page first. It runs for so many seconds, or until its input ends. At the end each ball is caught:
its status is 1 if one is lost.
"""
import asyncio
import logging
import sys
import threading
from typing import List

from pundewo.runtime import Address, Behaviour, Context, Event, Message, Next, Runtime, Supervisor

BALLS = 32
HELD = 0.01


class Field:
    """What all runners share, and what they count."""

    def __init__(self) -> None:
        self.runners: List[Address] = []
        self.is_ending = False
        self.thrown = self.handled = self.caught = 0


class Runner(Behaviour):
    """Throws each ball that it gets, or catches it at the end."""

    def __init__(self, field: Field):
        self.field = field

    def handle(self, cx: Context, event: Event) -> None:
        if not isinstance(event, Message):
            return
        field = self.field
        field.handled += 1
        if field.is_ending:
            field.caught += 1
            return
        field.thrown += 1
        cx.send_after(HELD, field.runners[field.thrown * 7919 % len(field.runners)], "ball")


class Clerk(Behaviour):
    """Works a hundred times a second. The fiftieth piece of work crashes it."""

    done = 0

    def started(self, cx: Context) -> Next:
        cx.send(cx.me, "work")
        return Next.wait()

    def handle(self, cx: Context, event: Event) -> None:
        if isinstance(event, Message):
            self.done += 1
            if self.done == 50:
                raise ValueError("the fiftieth")
            cx.send_after(0.01, cx.me, "work")

    def inspect(self) -> str:
        return f"{self.done} pieces of work done"


async def main(runners: int, seconds: float) -> int:
    logging.getLogger("pundewo").setLevel(logging.CRITICAL)  # (clerks are to crash)
    field = Field()
    async with Runtime(desks=2, slots=runners + 64) as runtime:
        field.runners = [runtime.spawn(Runner(field)) for _ in range(runners)]
        clerks = Supervisor.one_for_one().limit(1_000, 1.0)
        for number in range(4):
            clerks.permanent(Clerk, f"clerk {number}")
        runtime.spawn(clerks)
        print(runtime.observe(), flush=True)
        for number in range(BALLS):
            field.runners[number * 313 % runners].send("ball")
        ended = asyncio.Event()
        loop = asyncio.get_running_loop()
        threading.Thread(target=lambda: (sys.stdin.read(), loop.call_soon_threadsafe(ended.set)), daemon=True).start()
        try:
            await asyncio.wait_for(ended.wait(), seconds)
        except asyncio.TimeoutError:
            pass
        field.is_ending = True
        for _ in range(6_000):
            if field.caught >= BALLS:
                break
            await asyncio.sleep(HELD)
    print(f"{runners} runners: {field.thrown} throws, {field.handled} handled, {field.caught} of {BALLS} caught")
    return int(field.caught != BALLS or field.handled != field.thrown + BALLS)


if __name__ == "__main__":
    sys.exit(asyncio.run(main(int(sys.argv[1]) if len(sys.argv) > 1 else 20_000, float(sys.argv[2]) if len(sys.argv) > 2 else 60.0)))
