"""Tests of supervisors: whatever chance asks them, crashes, ends and unlinks, each request is answered and nothing is kept."""

from __future__ import annotations

import asyncio
import random
import unittest
from functools import partial
from typing import Any

import pundewo as p
from pundewo import runtime as r

from behaviours import PATIENCE, quiet, until


class Child(r.Behaviour):
    """Counts those of its name that have begun and not ended."""

    def __init__(self, alive: dict[str, int], name: str, traps: bool):
        self.alive, self.name, self.traps, self.has_begun = alive, name, traps, False

    def started(self, cx: r.Context) -> None:
        self.has_begun = True
        self.alive[self.name] = self.alive.get(self.name, 0) + 1
        cx.trap(self.traps)

    def handle(self, cx: r.Context, event: r.Event) -> Any:
        if not isinstance(event, r.Message):
            return None
        if event.value == "crash":
            raise ValueError(self.name)
        if event.value == "unlink":
            assert cx.parent is not None
            return cx.unlink(cx.parent)
        return r.Next.stop(event.value)

    def ended(self, why: p.Reason) -> None:
        self.alive[self.name] -= self.has_begun


class Soak(unittest.TestCase):
    @quiet
    def test_whatever_is_asked_is_answered_and_nothing_is_kept(self) -> None:
        for seed, (desks, every) in enumerate([(1, 500), (2, 60), (3, 20_000)]):
            with self.subTest(seed=seed):
                asyncio.run(asyncio.wait_for(self.soak(seed, desks, every), 3 * PATIENCE))

    async def soak(self, seed: int, desks: int, every: int) -> None:
        self.chance, self.alive, self.desks = random.Random(seed), dict[str, int](), desks
        async with r.Runtime(desks, going_on_every=every, patience=0.5) as run:
            root = r.Supervisor.one_for_one().limit(10**6, 60)
            for number in range(3):
                strategy = self.chance.choice(("one_for_one", "one_for_all", "rest_for_one"))
                most = self.chance.choice((3, 10**6))
                root.permanent(partial(self.branch, number, strategy, most), f"{number}")
            address = run.spawn(root)
            await asyncio.gather(*(self.client(run, address, random.Random(f"{seed} {number}")) for number in range(6)))
            engine = run._engine
            await until(lambda: not engine.payloads and not engine.inbox)
            self.assertEqual((len(engine.payloads), len(engine._alarms), engine.asked), (0, 0, []))
        self.assertEqual(set(self.alive.values()), {0})
        self.assertEqual((len(engine.seats), len(engine.kids), engine.families), (0, 0, 0))

    def start(self, chance: random.Random, name: str) -> tuple[Any, ...]:
        make = partial(Child, self.alive, name, chance.random() < 0.3)
        restart = chance.choice(("permanent", "transient", "temporary"))
        return make, name, restart, chance.choice((None, chance.randrange(self.desks))), chance.choice((None, 0.01, r.BRUTAL_KILL))

    def branch(self, number: int, strategy: str, most: int) -> r.Supervisor:
        supervisor = r.Supervisor(strategy, patience=0.01).limit(most, 60)
        for child in range(4):
            supervisor._add(*self.start(self.chance, f"{number}.{child}"))
        return supervisor

    async def asks(self, address: r.Address, asked: object) -> Any:
        try:
            return await address.call(asked, PATIENCE)
        except r.ServerDown:  # a supervisor that gave up, or was ended
            return ()

    async def client(self, run: r.Runtime, root: r.Address, chance: random.Random) -> None:
        for _ in range(50):
            branches = [it.address for it in await self.asks(root, r.WHICH_CHILDREN) if it.address is not None]
            if branches:
                await self.does(run, chance.choice(branches), chance)

    async def does(self, run: r.Runtime, branch: r.Address, chance: random.Random) -> None:
        name = chance.choice((f"x{chance.randrange(5)}", f"{chance.randrange(3)}.{chance.randrange(4)}"))
        what = chance.randrange(5)
        if what == 0:
            await self.asks(branch, r.StartChild(*self.start(chance, name)))
        elif what == 1:
            await self.asks(branch, chance.choice((r.TerminateChild, r.RestartChild, r.DeleteChild))(name))
        elif what == 2 and chance.random() < 0.1:
            run.exit(branch, chance.choice((p.KILL, p.SHUTDOWN)))
        else:
            children = [it.address for it in await self.asks(branch, r.WHICH_CHILDREN) if it.address is not None]
            for child in chance.sample(children, min(2, len(children))):
                child.send(chance.choice(("crash", "crash", p.NORMAL, "unlink", p.SHUTDOWN)))


if __name__ == "__main__":
    unittest.main()
