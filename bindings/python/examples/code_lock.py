"""A lock with a code, as a state machine: Erlang's example of `gen_statem`, with its time-outs.

The lock is locked, opening or open. Digits that are pressed too slowly are forgotten (an event time-out). As the code is right,
its motor turns, and meanwhile all else waits. The door is open for some time (a state time-out), and digits wait until it is
locked. Who wants to go in while it is locked waits until it is open: that request is postponed.

    python3 examples/code_lock.py
"""

import asyncio
from typing import NamedTuple, Optional

from pundewo.runtime import (
    TIMEOUT, Address, Behaviour, Context, Event, Message, Next, Request, Runtime, Selection, Timer,
)


class Press(NamedTuple):
    digit: int


class Enter(NamedTuple):
    who: str


class StateTimeout(NamedTuple):
    """The time of the state with this number is over."""

    number: int


class Motor(Behaviour):
    def handle(self, cx: Context, event: Event) -> None:
        if isinstance(event, Request):
            cx.reply(event, "turned")


class Lock(Behaviour):
    """It tells `notes` what happens."""

    def __init__(self, code: list[int], motor: Address, notes: Address, open_for: float, forgets: float):
        self.code, self.motor, self.notes, self.open_for, self.forgets = code, motor, notes, open_for, forgets
        self.state, self.number = "locked", 0
        self.pressed: list[int] = []
        self.timer: Optional[Timer] = None

    def change(self, cx: Context, state: str, limit: Optional[float] = None) -> None:
        """Another state: the time-out of the last one is nothing any more, and what was postponed comes again."""
        if self.timer is not None:
            cx.cancel(self.timer)
        self.state, self.number = state, self.number + 1
        self.timer = None if limit is None else cx.send_after(limit, cx.me, StateTimeout(self.number))
        cx.retry()
        cx.send(self.notes, state)

    def handle(self, cx: Context, event: Event) -> Optional[Next]:
        next_: Optional[Next] = getattr(self, self.state)(cx, event)
        return next_

    def locked(self, cx: Context, event: Event) -> Optional[Next]:
        if isinstance(event, Request):
            cx.postpone(event)
        elif event is TIMEOUT:
            self.pressed.clear()
            cx.send(self.notes, "forgotten")
        elif isinstance(event, Message) and isinstance(event.value, Press):
            self.pressed.append(event.value.digit)
            if self.pressed == self.code:
                self.pressed.clear()
                self.change(cx, "opening")
                cx.call(self.motor, "turn")
                # nothing but the answer: digits and requests wait, in order
                return Next.only((), answers=True)
        return Next.wait(self.forgets) if self.pressed else None

    def opening(self, cx: Context, event: Event) -> Optional[Next]:
        self.change(cx, "open", self.open_for)
        # digits wait until it is locked
        return Next.only(Selection.all_but(Press))

    def open(self, cx: Context, event: Event) -> Optional[Next]:
        if isinstance(event, Request):
            cx.reply(event, f"{event.value.who} goes in")
        elif isinstance(event, Message) and event.value == StateTimeout(self.number):
            # (one that was sent before it was cancelled has the number of another state)
            self.change(cx, "locked")
            return None
        return Next.only(Selection.all_but(Press))


async def main() -> None:
    async with Runtime() as runtime, runtime.mailbox() as notes:
        lock = runtime.spawn(Lock([1, 2, 3], runtime.spawn(Motor()), notes.address, open_for=0.05, forgets=0.1))
        visitor = asyncio.ensure_future(lock.call(Enter("the visitor"), limit=60))

        async def hears(*wanted: str) -> None:
            for note in wanted:
                event = await notes.get(60)
                assert isinstance(event, Message) and event.value == note, event
                print(note)

        lock.send(Press(1))
        lock.send(Press(2))
        await hears("forgotten")  # no digit came in time
        print(f"the visitor waits: {not visitor.done()}")
        for digit in (1, 2, 3, 1, 2, 3):
            lock.send(Press(digit))
        await hears("opening", "open", "locked", "opening", "open", "locked")
        print(await visitor)
        late = asyncio.ensure_future(lock.call(Enter("a late one"), limit=0.3))
        print(type((await asyncio.gather(late, return_exceptions=True))[0]).__name__)


if __name__ == "__main__":
    asyncio.run(main())
