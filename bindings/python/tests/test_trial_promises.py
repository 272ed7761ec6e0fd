"""The promises of `pundewo.runtime`, under many schedules of small scenarios."""

from __future__ import annotations

import os
import unittest
from functools import partial
from typing import Any, Callable, Optional

import pundewo as p
from pundewo import runtime as r
from pundewo.trial import Found, Token, Trial, TrialFailed, World

# How many runs each trial makes by chance, and how many of all, the first ones.
RUNS = int(os.environ.get("PUNDEWO_TRIALS", "20"))
LATE = "CallTimeout"


def tried(trial: Trial[Any]) -> list[Found[Any]]:
    """Runs a trial by chance, by priorities, and the first schedules of all."""
    found = [trial.random(RUNS, 1), trial.priorities(RUNS, 2, 3), trial.limit(RUNS).every()]
    return [it.passes() for it in found]


def among(found: Found[Any], *outcomes: str) -> None:
    """Each outcome is one of these. TrialFailed if not."""
    for outcome in found.outcomes():
        if outcome not in outcomes:
            failure = found.of(outcome)
            raise TrialFailed(str(failure), failure)


class Notes(r.Behaviour):
    """Does something as it begins, and notes what it is told."""

    def __init__(self, starts: Optional[Callable[[r.Context], Any]] = None,
                 told: Optional[Callable[[r.Context, r.Event], Any]] = None) -> None:
        self.starts, self.told, self.notes = starts, told, list[Any]()

    def started(self, cx: r.Context) -> Optional[r.Next]:
        found = None if self.starts is None else self.starts(cx)
        return found if isinstance(found, r.Next) else None

    def handle(self, cx: r.Context, event: r.Event) -> Optional[r.Next]:
        self.notes.append(event)
        found = None if self.told is None else self.told(cx, event)
        return found if isinstance(found, r.Next) else None


def notes_of(world: World, process: r.Address) -> list[Any]:
    found = world.behaviour(process, Notes)
    assert found is not None, f"it has crashed: {world.crashes()}"
    return found.notes


class Server(r.Behaviour):
    """A server of requests, with what it does with them."""

    def __init__(self, serves: str) -> None:
        self.serves, self.kept = serves, list[r.Request]()

    def handle(self, cx: r.Context, event: r.Event) -> Optional[r.Next]:
        if not isinstance(event, r.Request):
            return None
        if self.serves == "replies":
            cx.reply(event, event.value)
        elif self.serves == "raises":
            raise ValueError("no answer")
        elif self.serves == "keeps":
            self.kept.append(event)
        return r.Next.stop(p.Reason("other", 7)) if self.serves == "exits" else None


def ended(answer: object) -> str:
    """How a call has ended."""
    if not isinstance(answer, r.Answer):
        return repr(answer)
    if answer.fault is None:
        answer.value.handle()
        return "value"
    if isinstance(answer.fault, r.ServerDown):
        return f"down {answer.fault.reason} {answer.fault.crash or '-'}"
    return type(answer.fault).__name__


def asks(serves: str) -> Trial[r.Address]:
    def scenario(world: World) -> r.Address:
        server, token = world.spawn(Server(serves), 0), world.token()
        world.may_be_killed(server)
        return world.spawn(Notes(lambda cx: cx.call(server, token, 0.009) and None), 1)

    trial = Trial(scenario).desks(2).none_kept()
    return trial.outcome(lambda world, client: ", ".join(ended(it) for it in notes_of(world, client)))


class CallTest(unittest.TestCase):
    def test_a_call_ends_once_by_what_comes_first(self) -> None:
        raised = "down other:4294967295 ValueError: no answer"
        for serves, how in (("replies", "value"), ("drops", "Unanswered"), ("raises", raised), ("exits", "down other:7 -"),
                            ("keeps", LATE)):
            with self.subTest(serves):
                for found in tried(asks(serves)):
                    found.expect(how)
                for found in tried(asks(serves).time_goes_on(1).kills(1)):
                    among(found, how, LATE, "Unanswered", "down killed -", "down noproc -")


class Takes(r.Behaviour):
    """Takes two tokens and exits."""

    taken = 0

    def handle(self, cx: r.Context, event: r.Event) -> Optional[r.Next]:
        if isinstance(event, r.Message):
            event.value.handle()
            self.taken += 1
        return r.Next.stop() if self.taken == 2 else None


class ValueTest(unittest.TestCase):
    def test_each_value_is_handled_or_dropped_once(self) -> None:
        def scenario(world: World) -> None:
            takes = world.spawn(Takes(), 0)
            for desk in (1, 2):
                tokens = [world.token(), world.token()]

                def sends(cx: r.Context, tokens: list[Token] = tokens) -> r.Next:
                    while tokens:
                        cx.send(takes, tokens.pop())
                    return r.Next.stop()

                world.spawn(Notes(sends), desk)
            takes.send(world.token())

        def each_once(world: World, _: None) -> None:
            assert world.tokens() == (5, 2, 3), f"each of five, by two that were taken: {world.tokens()}"

        for found in tried(Trial(scenario).desks(3).all_end().none_kept().at_rest(each_once)):
            found.expect_one()

    def test_what_one_sends_from_outside_comes_in_order(self) -> None:
        def scenario(world: World) -> r.Address:
            to = world.spawn(Notes())
            for number in range(4):
                to.send(number)
            return to

        for found in tried(Trial(scenario).outcome(lambda world, to: [it.value for it in notes_of(world, to)])):
            found.expect([0, 1, 2, 3])

    def test_a_value_that_is_kept_or_handled_twice_is_named(self) -> None:
        kept = list[Token]()
        keeps = Trial(lambda world: world.spawn(Notes(lambda cx: kept.append(token_of(world))))).none_kept().random(1, 1)
        assert keeps.failure is not None
        self.assertEqual(keeps.failure.wrong, "1 tokens were neither handled nor dropped")

        def twice(world: World) -> None:
            token = world.token()
            both = [world.spawn(Takes()), world.spawn(Takes())]
            self.assertEqual([to.send(token) for to in both], [True, True])

        failure = Trial(twice).every().failure
        assert failure is not None
        self.assertEqual(failure.wrong, "a token was handled twice")


class ToldTest(unittest.TestCase):
    def test_a_failure_tells_the_exceptions_and_a_world_the_names(self) -> None:
        def scenario(world: World) -> r.Address:
            process = world.spawn(Notes(told=crashes))
            self.assertTrue(world.register("a name", process))
            self.assertEqual(world.names(process), ["a name"])
            process.send(1)
            return process

        found = Trial(scenario).outcome(lambda world, process: world.names(process)).every()
        found.expect([])
        failure = found.of("[]")
        assert failure is not None
        self.assertEqual(failure.crashes, ("<0.1.1>, a Notes: ValueError: told to",))
        told = "\na behaviour raised an exception: <0.1.1>, a Notes: ValueError: told to\nthe shortest schedule found: "
        self.assertIn(told, str(failure))


class LostTest(unittest.TestCase):
    def test_a_lost_message_is_named(self) -> None:
        def scenario(world: World, words: int) -> None:
            ends = world.spawn(Notes(told=lambda cx, event: r.Next.stop()))

            def sends(cx: r.Context) -> r.Next:
                for number in range(words):
                    cx.send(ends, number)
                return r.Next.stop()

            world.spawn(Notes(sends))

        Trial(lambda world: scenario(world, 1)).none_lost().all_end().every().expect_one()
        lost = Trial(lambda world: scenario(world, 3))
        failure = lost.none_lost().every().failure
        assert failure is not None
        self.assertEqual(failure.wrong, "2 messages were lost: their receivers had exited")
        lost.outcome(lambda world, _: world.lost()).every().expect(2)

    def test_a_scenario_that_shares_is_not_reduced(self) -> None:
        def scenario(world: World) -> None:
            for desk in (0, 1):
                world.spawn(Notes(), desk)

        trial = Trial(scenario).desks(2)
        self.assertLess(trial.reduced().every().runs, trial.every().runs)
        self.assertEqual(trial.reduced().shares().every().runs, trial.every().runs)
        self.assertEqual(trial.reduced().may_be_cut_off().every().runs, trial.every().runs)


def token_of(world: World) -> Token:
    return world.token()


KNOWN = ("noproc -", "other:4294967295 ValueError: told to")


def crashes(cx: r.Context, event: r.Event) -> None:
    raise ValueError("told to")


def heard(world: World, watcher: r.Address) -> str:
    return ", ".join(f"{it.reason} {it.crash or '-'}" for it in notes_of(world, watcher))


class ExitTest(unittest.TestCase):
    def test_a_monitor_tells_once_and_not_after_it_was_taken_back(self) -> None:
        for desk in (0, 1):
            def scenario(world: World, desk: int = desk) -> r.Address:
                kept, left = world.spawn(Notes(told=crashes), 0), world.spawn(Notes(told=crashes), 0)
                kept.send(1)
                left.send(1)

                def watches(cx: r.Context) -> None:
                    cx.monitor(kept)
                    cx.demonitor(cx.monitor(left))

                return world.spawn(Notes(watches), desk)

            for found in tried(Trial(scenario).desks(2).outcome(heard)):
                among(found, *KNOWN)

    def test_a_link_tells_once(self) -> None:
        for desk in (0, 1):
            def scenario(world: World, desk: int = desk) -> r.Address:
                part = world.spawn(Notes(told=crashes), 0)
                part.send(1)

                def links(cx: r.Context) -> None:
                    cx.trap()
                    cx.link(part)

                return world.spawn(Notes(links), desk)

            for found in tried(Trial(scenario).desks(2).outcome(heard)):
                among(found, *KNOWN)

    def test_one_that_exits_has_no_name_and_is_in_no_group(self) -> None:
        def scenario(world: World) -> r.Group:
            group = world.group()
            for desk in (0, 1):
                process = world.spawn(Notes(lambda cx: r.Next.wait(0.001), lambda cx, event: r.Next.stop()), desk)
                group.join(process)
                world.register(f"name {desk}", process)
            return group

        def left(world: World, group: r.Group) -> Any:
            return len(group), world.whereis("name 0"), world.whereis("name 1")

        for found in tried(Trial(scenario).desks(2).all_end().outcome(left)):
            found.expect((0, None, None))

    def test_a_stop_ends_all(self) -> None:
        def scenario(world: World) -> None:
            for desk in (0, 1):
                world.spawn(Notes(), desk)
            world.spawn(r.Supervisor.one_for_one().permanent(Notes, "part"), 1)
            world.stop()

        for found in tried(Trial(scenario).desks(2).all_end()):
            found.expect_one()


class ChildTest(unittest.TestCase):
    def test_each_child_is_started_again_as_its_strategy_says(self) -> None:
        for make, desk, expected in ((r.Supervisor.one_for_one, None, [1, 2, 1]), (r.Supervisor.one_for_all, None, [2, 2, 2]),
                                     (r.Supervisor.rest_for_one, None, [1, 2, 2]), (r.Supervisor.one_for_one, 1, [1, 2, 1])):
            def scenario(world: World, make: Callable[[], r.Supervisor] = make, desk: Optional[int] = desk) -> list[int]:
                made = [0, 0, 0]

                def child(number: int) -> Notes:
                    made[number] += 1
                    return Notes(lambda cx: cx.register(f"child {number}") and None, crashes)

                above = make().limit(9, 1.0)
                for number in range(3):
                    above.permanent(partial(child, number), f"child {number}", desk if number == 1 else None)
                world.spawn(above, 0)
                world.spawn(Notes(lambda cx: r.Next.proceed(), tell), 1)
                return made

            def told(world: World, made: list[int]) -> Any:
                return made, [world.whereis(f"child {number}") is not None for number in range(3)]

            for found in tried(Trial(scenario).desks(2).outcome(told)):
                found.expect((expected, [True, True, True]))


def tell(cx: r.Context, event: r.Event) -> r.Next:
    """Tells the second child to crash, once that is there."""
    child = cx.whereis("child 1")
    if child is None:
        return r.Next.wait(0.001)
    cx.send(child, 1)
    return r.Next.stop()


class TimeTest(unittest.TestCase):
    def test_timers_are_never_early_and_none_comes_that_was_cancelled(self) -> None:
        def starts(cx: r.Context) -> r.Next:
            cx.send_after(0.005, cx.me, 1)
            cancelled = cx.send_after(0.002, cx.me, 100)
            assert cx.cancel(cancelled) and not cx.cancel(cancelled)
            return r.Next.wait(0.002)

        def never_early(world: World, process: r.Address) -> None:
            for event in notes_of(world, process):
                least = 0.002 if not isinstance(event, r.Message) else 0.005
                assert world.now() >= least, f"{event} is early"

        def told(world: World, process: r.Address) -> Any:
            return [getattr(event, "value", "timeout") for event in notes_of(world, process)]

        trial = Trial(lambda world: world.spawn(Notes(starts))).time_goes_on(2).no_crashes().always(never_early).outcome(told)
        for found in tried(trial):
            among(found, "['timeout', 1]", "[1]")


if __name__ == "__main__":
    unittest.main()
