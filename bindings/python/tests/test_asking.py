"""Calls that are answered, where letters are, and the way in."""

from __future__ import annotations

import threading
import unittest
from collections.abc import Callable
from typing import Any

import pundewo as p
from pundewo.asking import (
    Call, Heard, Post, Request, ask, has_letters, is_call, letters_out, look_from, next_from, reply, request_of, way_in,
)


class CallsTest(unittest.TestCase):
    def setUp(self) -> None:
        self.desk, = p.open_node(1)
        self.client, self.server = self.desk.spawn(), self.desk.spawn()

    def receive(self, process: p.Pid) -> p.Item:
        self.desk.turn()
        item = self.desk.receive(process)
        assert item is not None
        return item

    def fails(self, code: p.Code, call: Any, *words: Any) -> None:
        with self.assertRaises(p.Fault) as caught:
            call(*words)
        self.assertEqual(caught.exception.code, code)

    def test_a_call_ends_once(self) -> None:
        desk, client, server = self.desk, self.client, self.server
        first, second = ask(desk, client, server, 21), ask(desk, client, server, 1, until=5)
        self.assertEqual((first.client, first.server, first.deadline, second.deadline), (client, server, None, 5))
        request = request_of(self.receive(server))
        self.assertEqual(request, Request(client, 21, first.monitor.number))
        assert request is not None
        reply(desk, server, request, 42)
        answer = self.receive(client)
        self.assertIsNone(request_of(answer))
        self.assertEqual((second.hear(desk, answer), first.hear(desk, answer)), (Heard("not-mine"), Heard("answer", 42)))
        self.assertEqual((first.hear(desk, answer), first.is_open, first.expire(desk, 2**64 - 1)), (Heard("late"), False, False))
        self.assertEqual([second.expire(desk, now) for now in (4, 5, 5)], [False, True, False])
        self.assertEqual((second.deadline, second.is_open), (None, False))
        third = ask(desk, client, server, 1)
        desk.turn()
        desk.exit(server, p.Reason("other", 7))
        down = self.receive(client)
        self.assertEqual((second.hear(desk, down), third.hear(desk, down)), (
            Heard("not-mine"), Heard("server-down", None, p.Reason("other", 7))))
        self.assertEqual(third.hear(desk, down), Heard("late"))
        self.assertEqual(repr(third), f"<Call of {client} to {server}, ended>")

    def test_the_messages_of_calls_are_told(self) -> None:
        """An answer is told from a message whose kind is the same number, also where nobody keeps its call."""
        desk, client, server = self.desk, self.client, self.server
        ask(desk, client, server, 3)
        request = self.receive(server)
        self.assertEqual((is_call(server, request), is_call(client, request)), (True, True))
        words = request_of(request)
        assert words is not None
        reply(desk, server, words, 3)
        desk.send(server, client, p.Body(3, 0))
        answer, message = self.receive(client), self.receive(client)
        kinds = [item.body.kind for item in (answer, message) if item.body is not None]
        self.assertEqual(kinds, [3, 3])
        self.assertEqual([is_call(client, item) for item in (answer, message)], [True, False])
        self.assertFalse(is_call(server, answer))       # it names another process
        desk.exit(server)
        self.assertFalse(is_call(client, self.receive(client)))     # a DOWN is no message
        self.assertRaises(TypeError, is_call, None, message)
        self.assertRaises(TypeError, is_call, client, None)

    def test_refusals(self) -> None:
        desk, client, server = self.desk, self.client, self.server
        self.fails(p.Code.MYSELF, ask, desk, client, client, 1)
        self.fails(p.Code.UNKNOWN, ask, desk, client, p.Pid(1, 0, 1), 1)
        self.fails(p.Code.GONE, ask, desk, p.Pid(0, 9, 1), client, 1, 2)
        desk.exit(server)
        self.fails(p.Code.NOPROC, ask, desk, client, server, 1)
        self.fails(p.Code.UNKNOWN, reply, desk, client, Request(p.Pid(1, 0, 1), 1, 1), 1)
        call = Call.__new__(Call)
        self.assertRaises(TypeError, ask, None, client, server, 1)
        self.assertRaises(TypeError, call.hear, desk, None)
        for bad in (-1, 2**32, True, 1.0, None):
            self.assertRaises((TypeError, ValueError), ask, desk, client, server, bad)
            self.assertRaises((TypeError, ValueError), reply, desk, client, Request(server, 1, 1), bad)
            self.assertRaises((TypeError, ValueError), way_in, bad)
        desk.close()
        self.fails(p.Code.EMPTY, ask, desk, client, server, 1)
        self.fails(p.Code.EMPTY, letters_out, desk)
        self.fails(p.Code.EMPTY, has_letters, desk)
        self.fails(p.Code.EMPTY, look_from, desk, 0)
        self.fails(p.Code.EMPTY, next_from, desk)


class LettersTest(unittest.TestCase):
    def test_they_say_whom_to_wake(self) -> None:
        desks = p.open_node(3)
        here, there = desks[0].spawn(), desks[2].spawn()
        self.assertEqual((letters_out(desks[0]), has_letters(desks[0])), (0, False))
        for to in (here, there):
            desks[0].send(here, to, p.Body(1, 2))
        self.assertEqual((letters_out(desks[0]), has_letters(desks[2])), (0b101, False))
        self.assertEqual(desks[0].turn().posted, 2)
        self.assertEqual((letters_out(desks[0]), has_letters(desks[0]), has_letters(desks[2])), (0, False, True))
        desks[2].turn()
        self.assertEqual((has_letters(desks[2]), has_letters(desks[1])), (False, False))

    def test_a_turn_takes_the_lane_that_it_is_told_to(self) -> None:
        desks = p.open_node(3)
        to = desks[2].spawn()
        self.assertIsNone(next_from(desks[2]))
        for place, desk in enumerate(desks[:2]):
            sender = desk.spawn()
            for num in range(2):
                desk.send(sender, to, p.Body(1, 10 * place + num))
            desk.turn()
        self.assertEqual((next_from(desks[2]), next_from(desks[0])), (0, None))
        for looks, takes in ((1, 1), (2, 0), (0, 0), (3, 1)):
            look_from(desks[2], looks)
            self.assertEqual((next_from(desks[2]), desks[2].turn(1).handled), (takes, 1))
        self.assertEqual((next_from(desks[2]), has_letters(desks[2])), (None, False))
        came = [item.body.num for item in desks[2].waiting(to) or () if item.body is not None]
        self.assertEqual(came, [10, 0, 1, 11])
        self.assertRaises(ValueError, look_from, desks[2], 256)


class WayInTest(unittest.TestCase):
    def test_what_is_handed_in_is_taken_out_in_order(self) -> None:
        door, entry = way_in(2)
        posts = [Post(p.Pid(0, 1, 1), p.Body(3, num)) for num in range(200)]
        self.assertEqual((entry.take(), len(entry), bool(entry)), (None, 0, True))
        self.assertEqual([door.post(post) for post in posts[:3]], [True, True, False])
        self.assertEqual((len(entry), entry.take(), entry.take(), entry.take()), (2, posts[0], posts[1], None))

        def hand_in() -> None:
            for post in posts:
                while not door.post(post):
                    pass

        outside = threading.Thread(target=hand_in)
        outside.start()
        taken: list[Post] = []
        while len(taken) < len(posts):
            post = entry.take()
            if post is not None:
                taken.append(post)
        outside.join()
        self.assertEqual(taken, posts)
        calls: list[Callable[[], object]] = [lambda: door.post(posts[0]), entry.take, entry.__len__]
        door.close()
        entry.close()
        for call in calls:
            with self.assertRaises(p.Fault) as caught:
                call()
            self.assertEqual(caught.exception.code, p.Code.EMPTY)

    def test_a_door_whose_way_in_was_closed_says_so(self) -> None:
        for handed_in in (0, 1, 2):
            door, entry = way_in(2)
            post = Post(p.Pid(0, 1, 1), p.Body(3, 7))
            self.assertEqual([door.post(post) for _ in range(handed_in)], [True] * handed_in)
            entry.close()
            for _ in range(3):
                with self.assertRaises(p.Fault) as caught:
                    door.post(post)
                self.assertEqual((caught.exception.code, str(caught.exception)), (p.Code.GONE, "Door.post(): gone"))

    def test_a_way_in_has_a_place_at_least(self) -> None:
        with self.assertRaises(p.Fault) as caught:
            way_in(0)
        self.assertEqual((caught.exception.code, str(caught.exception)), (p.Code.BAD_PLACES, "way_in(): bad_places"))


if __name__ == "__main__":
    unittest.main()
