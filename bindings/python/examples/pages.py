"""A run of very many processes that is watched, page by page, while it works: runners throw balls to each other, each ten
milliseconds after it came, and a process notes how long it waits for its turn.

    python3 pages.py [RUNNERS [SECONDS]]

It looks at all processes, in pages of 1,000, for so many seconds, and not at all for as many before. It prints how long one
look stops the desks, in milliseconds of the processor. At the end each ball is caught, and the views have counted each
message: its status is 1 if one is lost.
"""
import asyncio
import sys
import time
from typing import Awaitable, Callable, List, Optional, Set, Tuple, TypeVar

from pundewo import Pid
from pundewo.runtime import Address, Behaviour, Context, Event, Message, Next, Runtime

T = TypeVar("T")
BALLS = 32
HELD = 0.01
PAGE = 1_000


class Field:
    """What all runners share, and what they count."""

    def __init__(self) -> None:
        self.runners: List[Address] = []
        self.is_ending = False
        self.thrown = self.handled = self.caught = 0


class Runner(Behaviour):
    """Throws each ball that it gets, or catches it at the end."""

    def __init__(self, field: Field):
        self.field = field

    def handle(self, cx: Context, event: Event) -> None:
        if not isinstance(event, Message):
            return
        field = self.field
        field.handled += 1
        if field.is_ending:
            field.caught += 1
            return
        field.thrown += 1
        cx.send_after(HELD, field.runners[field.thrown * 7919 % len(field.runners)], "ball")


class Pacer(Behaviour):
    """Has a turn each millisecond, and notes the longest time of the processor that was between two."""

    longest = last = 0.0

    def started(self, cx: Context) -> Next:
        return self.pace()

    def handle(self, cx: Context, event: Event) -> Next:
        return self.pace()

    def pace(self) -> Next:
        now = time.thread_time()
        self.longest = max(self.longest, now - self.last) if self.last else 0.0
        self.last = now
        return Next.wait(0.001)


class Watch:
    """Looks at pages, and notes how long each stops the run."""

    def __init__(self, runtime: Runtime, pacer: Pacer):
        self.runtime, self.pacer = runtime, pacer
        self.stops: List[float] = []
        self.epochs = 0

    async def noting(self, does: Callable[[], Awaitable[T]]) -> T:
        """Does this, and notes how long the pacer waited around it."""
        await asyncio.sleep(0.004)
        self.pacer.longest = 0.0
        got = await does()
        await asyncio.sleep(0.004)
        self.stops.append(self.pacer.longest)
        return got

    async def page_through(self) -> Tuple[int, Set[Pid]]:
        """Looks at all pages once: how many there are, and who is on them."""
        found: Set[Pid] = set()
        after: Optional[int] = None
        count = 0
        while True:
            begin = after
            view = await self.noting(lambda: asyncio.to_thread(self.runtime.view, begin, PAGE, 5, 60.0))
            assert not view.silent and len(view.processes) <= PAGE
            here = {process.pid for process in view.processes}
            assert not found & here, "a process is on two pages"
            found, count, after = found | here, count + 1, view.next
            if after is None:
                return count, found

    def told(self, what: str) -> str:
        stops, epochs = sorted(self.stops), self.runtime.view(processes=0, limit=60.0).epochs
        middle, most, last = (stops[(len(stops) - 1) * part // 100] * 1e3 for part in (50, 99, 100))
        before, self.stops, self.epochs = self.epochs, [], epochs
        return (f"{what}: {len(stops)} times, {middle:.2f} ms at the median, {most:.2f} ms 99 times of 100, {last:.2f} ms at most; "
                f"{epochs - before} epochs ended")


async def watch(watch: Watch, field: Field, seconds: float) -> None:
    """Not watched at first, and then watched for as long."""
    until = time.monotonic() + seconds
    while time.monotonic() < until:
        await watch.noting(lambda: asyncio.sleep(0))
    print(watch.told("without a look a desk is stopped"), flush=True)
    until = time.monotonic() + seconds
    while True:
        count, found = await watch.page_through()
        assert {runner.pid for runner in field.runners} <= found, "a runner is on no page"
        if time.monotonic() > until:
            break
    print(f"{len(found)} processes are on {count} pages")
    print(watch.told("with a look at a page it is stopped"), flush=True)


async def main(runners: int, seconds: float) -> int:
    field, pacer = Field(), Pacer()
    async with Runtime(desks=2, slots=runners // 2 + 64) as runtime:
        field.runners = [runtime.spawn(Runner(field)) for _ in range(runners)]
        runtime.spawn(pacer)
        for number in range(BALLS):
            field.runners[number * 313 % runners].send("ball")
        await watch(Watch(runtime, pacer), field, seconds)
        field.is_ending = True
        for _ in range(6_000):
            if field.caught >= BALLS:
                break
            await asyncio.sleep(HELD)
        view = await asyncio.to_thread(runtime.view, None, 1, 0, 60.0)
        counted, lost = sum(desk.messages for desk in view.desks), sum(desk.losses for desk in view.desks)
    print(f"{runners} runners: {field.thrown} throws, {field.handled} handled, {field.caught} of {BALLS} caught; "
          f"the view has {counted} messages and {lost} lost")
    return int(field.caught != BALLS or not field.handled == field.thrown + BALLS == counted or lost != 0)


if __name__ == "__main__":
    sys.exit(asyncio.run(main(int(sys.argv[1]) if len(sys.argv) > 1 else 100_000, float(sys.argv[2]) if len(sys.argv) > 2 else 5.0)))
