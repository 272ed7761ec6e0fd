"""A counter: it is sent numbers, and is asked for their sum. The run writes the file counter.history."""

import asyncio

from pundewo.runtime import Behaviour, Context, Event, HistoryFile, Message, Request, Runtime


class Counter(Behaviour):
    count = 0

    def handle(self, cx: Context, event: Event) -> None:
        if isinstance(event, Message):
            self.count += event.value
        elif isinstance(event, Request):
            cx.reply(event, self.count)


async def main() -> None:
    async with Runtime(archive=HistoryFile("counter.history")) as runtime:
        counter = runtime.spawn(Counter())
        counter.send(3)
        counter.send(4)
        print(await counter.call("read", limit=5.0))


if __name__ == "__main__":
    asyncio.run(main())
