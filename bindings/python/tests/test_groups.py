"""Groups of processes: who is in one, over exits, epochs, desks and threads, and what is sent to all of it."""

from __future__ import annotations

import threading
import unittest
from typing import Any

import pundewo as p
from pundewo import runtime as r

from behaviours import PATIENCE, Doing, Echo, Running, in_asyncio, quiet, until, wait_until


class Member(r.Behaviour):
    """Joins groups, notes what it is told, and in which of them it is as it has exited."""

    def __init__(self, notes: list[Any], *groups: r.Group) -> None:
        self.notes, self.groups = notes, groups

    def started(self, cx: r.Context) -> None:
        self.me = cx.me
        for group in self.groups:
            assert group.join(cx.me)

    def handle(self, cx: r.Context, event: Any) -> Any:
        if isinstance(event, r.Request):
            cx.reply(event, event.value(cx))
        elif event.value == "crash":
            raise ValueError("told to")
        elif event.value == "stop":
            return r.Next.stop()
        else:
            self.notes.append((cx.pid, event.value))
        return None

    def ended(self, why: p.Reason) -> None:
        self.notes.append((self.me.pid, [group.times(self.me) for group in self.groups]))


class Groups(unittest.TestCase):
    @quiet
    @in_asyncio
    async def test_a_process_is_in_a_group_until_it_has_left_as_often(self) -> None:
        async with r.Runtime(3) as run:
            group, other = run.group("lines"), run.group("lines")
            self.assertEqual((group.name, repr(group), bool(group), group == other), ("lines", "<Group lines>", True, False))
            one, two = run.spawn(Member([]), 0), run.spawn(Member([]), 2)
            self.assertEqual((len(group), group.members(), group.leave(one), group.times(one)), (0, [], False, 0))
            for times in (1, 2):
                self.assertTrue(group.join(one))
                self.assertEqual((group.times(one), len(group), group.members()), (times, 1, [one]))
            # by itself, in its handler
            self.assertTrue(await two.call(lambda cx: group.join(cx.me)))
            self.assertEqual((set(group.members()), len(other), other.leave(one)), ({one, two}, 0, False))
            self.assertTrue(await one.call(lambda cx: group.leave(cx.me)))
            self.assertEqual((group.times(one), len(group)), (1, 2))
            self.assertEqual((group.leave(one), group.leave(one), group.members()), (True, False, [two]))
            self.assertEqual((group.leave(two), len(group)), (True, 0))

    @quiet
    @in_asyncio
    async def test_an_exit_leaves_all_groups(self) -> None:
        async with r.Runtime(2, going_on_every=50) as run:
            groups = [run.group(str(number)) for number in range(5)]
            for way in ("stop", "crash", "kill"):
                notes: list[Any] = []
                members = [run.spawn(Member(notes, *groups, *groups)) for _ in range(20)]
                await until(lambda: all(len(group) == 20 for group in groups))
                run.go_on()
                for gone in members:
                    if way == "kill":
                        run.exit(gone, p.KILL)
                    else:
                        gone.send(way)
                    await until(lambda: notes)
                    # (before its behaviour is told that it has exited)
                    self.assertEqual(notes.pop(), (gone.pid, [0] * 10))
                    self.assertFalse(any(group.times(gone) or gone in group.members() for group in groups))
                    self.assertEqual((groups[0].join(gone), groups[0].leave(gone)), (False, False))
                self.assertEqual([len(group) for group in groups], [0] * 5)
            self.assertEqual(run.summary().crashes, 20)

    @quiet
    @in_asyncio
    async def test_what_is_sent_to_all_comes_to_each_member_once(self) -> None:
        async with r.Runtime(4, going_on_every=100) as run:
            notes: list[Any] = []
            group, sender = run.group("all"), run.spawn(Member(notes))
            # to none, to one, and to many
            self.assertEqual((group.send_all(0), await sender.call(lambda cx: cx.send_all(group, 0))), (0, 0))
            for count in (1, 50):
                while len(group) < count:
                    group.join(run.spawn(Member(notes)))
                self.assertEqual(group.send_all(1), count)
                self.assertEqual(await sender.call(lambda cx: cx.send_all(group, 2)), count)
                await until(lambda: len(notes) == 2 * count)
                self.assertEqual(sorted(notes), sorted((it.pid, value) for it in group.members() for value in (1, 2)))
                notes.clear()
            # a member sends to all, with itself, and what it sends comes in order
            first = group.members()[0]
            for number in range(20):
                self.assertEqual(await first.call(lambda cx: cx.send_all(group, number)), 50)
            await until(lambda: len(notes) == 1_000)
            for member in group.members():
                self.assertEqual([value for pid, value in notes if pid == member.pid], list(range(20)))

    @quiet
    @in_asyncio
    async def test_one_that_has_exited_gets_nothing(self) -> None:
        async with r.Runtime(2) as run:
            notes: list[Any] = []
            group = run.group()
            members = [run.spawn(Member(notes, group)) for _ in range(10)]
            await until(lambda: len(group) == 10)

            def kills(cx: r.Context) -> int:
                for it in members[5:]:
                    cx.exit(it, p.KILL)
                # (the signals come first: what is sent to one that they end is dropped)
                return cx.send_all(group, "told")

            sent = await members[0].call(kills)
            self.assertTrue(5 <= sent <= 10, sent)
            await until(lambda: len(group) == 5 and len(notes) == 10)
            self.assertEqual({pid for pid, value in notes if value == "told"}, {it.pid for it in members[:5]})
            self.assertEqual(set(group.members()), set(members[:5]))

    @quiet
    def test_members_come_and_go_while_it_is_sent_to_all(self) -> None:
        with Running(r.Runtime(4, going_on_every=200)) as running:
            run, notes, over = running.run, list[Any](), threading.Event()
            group, failed = run.group("all"), list[BaseException]()
            lasting = [run.spawn(Member(notes, group), limit=50) for _ in range(8)]
            wait_until(lambda: len(group) == 8)

            def plays(number: int) -> None:
                try:
                    for turn in range(40):
                        passing = run.spawn(Member([]), limit=50)
                        for _ in range(3):
                            assert group.join(passing)
                        assert passing in group.members() and group.times(passing) == 3
                        assert group.leave(passing) and group.times(passing) == 2
                        if (turn + number) % 3 == 0:
                            assert group.leave(passing) and group.leave(passing) and not group.leave(passing)
                            assert passing not in group.members()
                        passing.send("stop")
                        wait_until(lambda: not passing.is_alive())
                        assert group.times(passing) == 0 and passing not in group.members()
                except BaseException as error:
                    failed.append(error)

            def sends() -> None:
                while not over.wait(0.001):
                    sent.append(group.send_all(len(sent)))

            sent: list[int] = []
            threads = [threading.Thread(target=plays, args=(number,)) for number in range(4)]
            sender = threading.Thread(target=sends)
            for thread in [*threads, sender]:
                thread.start()
            for thread in threads:
                thread.join(PATIENCE)
            # (how often it has sent by then is up to the machine)
            wait_until(lambda: run.summary().epochs > 3)
            over.set()
            sender.join(PATIENCE)
            self.assertEqual((failed, set(group.members())), ([], set(lasting)))
            self.assertGreater(run.summary().epochs, 3)
            self.assertGreaterEqual(min(sent), 8)
            wait_until(lambda: len(notes) == 8 * len(sent))
            for member in lasting:
                self.assertEqual([value for pid, value in notes if pid == member.pid], list(range(len(sent))))

    @quiet
    def test_a_group_is_one_of_its_run(self) -> None:
        fails = [OSError("the disk is full")]

        def sink(history: p.History) -> None:
            for error in fails:
                raise error

        run, other = r.Runtime(archive=sink), r.Runtime()
        group, one, foreign = run.group("all"), run.spawn(Echo()), other.spawn(Echo())
        self.assertTrue(group.join(one))
        for call in (group.join, group.leave, group.times):
            self.assertRaises(ValueError, call, foreign)
        # a run that halts and goes on has it still
        run.go_on()
        self.assertRaises(OSError, run.run)
        self.assertEqual((len(group), group.members()), (1, [one]))
        fails.clear()
        self.assertEqual(group.send_all("crash"), 1)
        with Running(run, False) as running:
            wait_until(lambda: not one.is_alive())
            run.stop()
        self.assertEqual(running.error, [])
        self.assertEqual((group.join(one), group.leave(one), group.times(one), len(group), group.members(), group.send_all(1)),
                         (False, False, 0, 0, [], 0))
        other.close()

    @quiet
    @in_asyncio
    async def test_a_process_of_another_run_sends_to_all(self) -> None:
        async with r.Runtime() as run, r.Runtime() as other:
            notes, noted = list[Any](), list[int]()
            group = run.group("all")
            group.join(run.spawn(Member(notes)))
            sender = other.spawn(Doing(lambda cx, event: noted.append(cx.send_all(group, 7))))
            sender.send("now")
            await until(lambda: notes and noted)
            self.assertEqual(([value for _, value in notes], noted), ([7], [1]))


if __name__ == "__main__":
    unittest.main()
