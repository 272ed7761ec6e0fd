"""A tree of supervisors: a line crashes, is started again, and has its name again."""

import asyncio
import logging

from pundewo.runtime import (
    WHICH_CHILDREN, Address, Behaviour, Context, Event, Message, Runtime, StartChild, Supervisor, TerminateChild,
)


class Line(Behaviour):
    def __init__(self, name: str):
        self.name, self.calls = name, 0

    def started(self, cx: Context) -> None:
        cx.register(self.name)

    def handle(self, cx: Context, event: Event) -> None:
        if isinstance(event, Message):
            if event.value == "noise":
                raise ValueError(f"noise after {self.calls} calls")
            self.calls += 1


def lines() -> Supervisor:
    supervisor = Supervisor.one_for_one().limit(3, 5.0)
    supervisor.permanent(lambda: Line("first"), "first")
    supervisor.transient(lambda: Line("second"), "second", shutdown=0.5)
    return supervisor.temporary(lambda: Line("third"), "third")


async def another(runtime: Runtime, than: object) -> Address:
    """The process with the name, once it is another one than this."""
    while (line := runtime.whereis("first")) is None or line == than:
        await asyncio.sleep(0.001)
    return line


async def main() -> None:
    async with Runtime(desks=2) as runtime:
        # the supervisor of the lines is started again, too
        tree = runtime.spawn(Supervisor.one_for_all().permanent(lines, "lines"))
        line = await another(runtime, None)
        line.send("ring")
        line.send("noise")
        again = await another(runtime, line)
        print(f"{line} crashed, and {again} has its name")
        (child,) = await tree.call(WHICH_CHILDREN)
        started = await child.address.call(StartChild(lambda: Line("fourth"), "fourth", "temporary"))
        print([it.name for it in await child.address.call(WHICH_CHILDREN)], started.name)
        print(await child.address.call(TerminateChild("fourth")))
    print(runtime.summary())


if __name__ == "__main__":
    logging.disable()
    asyncio.run(main())
