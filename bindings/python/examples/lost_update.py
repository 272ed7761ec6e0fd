"""A race of two clients of a cell: it is found under every schedule, mended, and shown mended."""

from __future__ import annotations

from typing import Callable

from pundewo.runtime import Address, Answer, Behaviour, Context, Event, Message, Next, Request
from pundewo.trial import Trial, World


class Cell(Behaviour):
    value = 0

    def handle(self, cx: Context, event: Event) -> None:
        if isinstance(event, Request):
            cx.reply(event, self.value)
        elif isinstance(event, Message):
            word, number = event.value
            self.value = number if word == "put" else self.value + number


class Client(Behaviour):
    """It reads the cell by a call, and writes it one higher."""

    def __init__(self, cell: Address) -> None:
        self.cell = cell

    def started(self, cx: Context) -> None:
        cx.call(self.cell, "get")

    def handle(self, cx: Context, event: Event) -> Next:
        if isinstance(event, Answer):
            cx.send(self.cell, ("put", event.result() + 1))
        return Next.stop()


class Adder(Behaviour):
    """The same, mended: it asks the cell to add."""

    def __init__(self, cell: Address) -> None:
        self.cell = cell

    def started(self, cx: Context) -> Next:
        cx.send(self.cell, ("add", 1))
        return Next.stop()

    def handle(self, cx: Context, event: Event) -> None:
        pass


def two_of(client: Callable[[Address], Behaviour]) -> Trial[Address]:
    def scenario(world: World) -> Address:
        cell = world.spawn(Cell())
        world.spawn(client(cell))
        world.spawn(client(cell))
        return cell

    def value(world: World, cell: Address) -> object:
        found = world.behaviour(cell, Cell)
        return found and found.value

    return Trial(scenario).outcome(value)


def main() -> None:
    found = two_of(Client).every()
    print(found.outcomes())
    found.expect("1", "2")
    print(found.of("1"))
    mended = two_of(Adder).every()
    mended.expect_one()
    print(mended.outcomes(), mended.is_whole())


if __name__ == "__main__":
    main()
