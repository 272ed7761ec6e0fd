"""A run that shows itself: workers under a supervisor, of which one crashes now and then, and a page of them.

    python3 watched.py [SECONDS]

It prints the address of the page first, and what a view said of the workers last.
"""
import asyncio
import logging
import sys

from pundewo.runtime import Behaviour, Context, Event, Message, Next, Runtime, Supervisor


class Worker(Behaviour):
    """Does a piece of work a hundred times a second. It fails in each hundredth."""

    done = 0

    def started(self, cx: Context) -> Next:
        cx.send(cx.me, "work")
        return Next.wait()

    def handle(self, cx: Context, event: Event) -> None:
        if isinstance(event, Message):
            self.done += 1
            if self.done == 100:
                raise ValueError("the hundredth")
            cx.send_after(0.01, cx.me, "work")

    def inspect(self) -> str:
        return f"{self.done} pieces done"


async def main(seconds: float) -> None:
    logging.getLogger("pundewo").setLevel(logging.CRITICAL)  # (workers are to crash)
    async with Runtime(desks=2) as runtime:
        print(runtime.observe(), flush=True)
        workers = Supervisor.one_for_one().limit(1_000, 1.0)
        for number in range(20):
            workers.permanent(Worker, f"worker {number}")
        runtime.spawn(workers)
        await asyncio.sleep(seconds)
        view = runtime.view()
        worker = next(it for it in view.processes if it.behaviour == "Worker")
        print(f"{view.desks[0].processes} processes, {view.desks[0].messages > 0 and 'some'} messages, "
              f"{len(view.supervisors[0].children.first)} children of {view.supervisors[0].strategy}")
        print(f"{worker.behaviour} waits for {worker.waits_for}, and is linked with {worker.links.count}")


if __name__ == "__main__":
    asyncio.run(main(float(sys.argv[1]) if len(sys.argv) > 1 else 60.0))
