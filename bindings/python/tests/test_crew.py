"""Crews: processes whose handlers are Python's, over one desk, and over a node that goes on."""

from __future__ import annotations

import unittest
from typing import Any

import pundewo as p
from pundewo import ANY, PROCEED, RUNNING, Body, Item, Job, Next

WAIT = Next("wait", ANY)


class Crews(unittest.TestCase):
    def setUp(self) -> None:
        self.desks = p.open_node(2)
        self.desk = self.desks[0]
        self.crew = p.Crew(self.desk)

    def step(self, crew: p.Crew, desk: p.Desk) -> list[Job]:
        jobs, turned = crew.step(desk)
        self.assertIsNone(turned.stopped)
        return jobs

    def test_each_item_is_told_once_and_answered(self) -> None:
        a, b = self.crew.spawn(self.desk, 2**64 - 1), self.crew.spawn(self.desk, 0, WAIT)
        self.assertEqual(self.step(self.crew, self.desk), [Job("start", a, 2**64 - 1)])
        self.assertEqual((self.crew.next(a), self.crew.next(b), self.crew.tag(b)), (RUNNING, WAIT, 0))
        for num in range(3):
            self.desk.send(a, b, Body(1, num))
        for num in range(3):
            self.assertEqual(self.step(self.crew, self.desk), [Job("item", b, 0, Item("user", a, body=Body(1, num)))])
            self.assertEqual(self.step(self.crew, self.desk), [])
            self.assertTrue(self.crew.answer(b, WAIT))
            self.assertFalse(self.crew.answer(b, WAIT))
        self.assertEqual(self.step(self.crew, self.desk), [])
        self.assertTrue(self.crew.is_idle(self.desk) and not self.crew.refused() and self.crew.queued() == 0)
        self.assertTrue(self.crew.answer(a, PROCEED))
        self.assertEqual(self.step(self.crew, self.desk), [Job("proceed", a, 2**64 - 1)])

    def test_answers_are_taken_up_to_the_first_that_is_refused(self) -> None:
        a, b, c = (self.crew.spawn(self.desk, tag) for tag in range(3))
        self.assertEqual(len(self.step(self.crew, self.desk)), 3)
        self.assertEqual(self.crew.answer_all([(a, WAIT), (a, PROCEED), (b, WAIT)]), 1)
        self.assertEqual(self.crew.answer_all(((b, WAIT), (c, WAIT))), 2)
        self.assertEqual(self.crew.answer_all([]), 0)
        self.assertFalse(self.crew.answer(p.Pid(1, 0, 1), WAIT))

    def test_exits_are_told_with_what_was_to_be_done(self) -> None:
        a, b, c = (self.crew.spawn(self.desk, tag) for tag in range(3))
        self.step(self.crew, self.desk)
        why = p.Reason("other", 7)
        self.crew.answer(a, Next("stop", reason=why))
        self.desk.exit(b, p.SHUTDOWN)
        self.desk.exit_signal(c, c, p.KILL)
        jobs = self.step(self.crew, self.desk)
        self.assertEqual(jobs, [Job("exit", a, 0, reason=why, was=Next("stop", reason=why)),
                                Job("exit", b, 1, reason=p.SHUTDOWN, was=RUNNING),
                                Job("exit", c, 2, reason=p.NOPROC, was=RUNNING)])
        self.assertEqual((len(self.crew), self.crew.tag(a), self.crew.next(b)), (0, None, None))

    def test_a_process_waits_until_a_time(self) -> None:
        a = self.crew.spawn(self.desk, 1, Next("wait-until", ANY, 10))
        self.assertEqual(self.step(self.crew, self.desk), [])
        self.assertEqual(self.crew.next_time(), 10)
        self.crew.set_time(10)
        self.assertEqual(self.step(self.crew, self.desk), [Job("timeout", a, 1)])
        self.assertIsNone(self.crew.next_time())

    def test_a_batch_has_room_for_fewer(self) -> None:
        pids = [self.crew.spawn(self.desk, tag) for tag in range(5)]
        told = [self.crew.step(self.desk, most=2)[0] for _ in range(4)]
        self.assertEqual([[job.pid for job in jobs] for jobs in told], [pids[:2], pids[2:4], pids[4:], []])
        self.assertEqual(self.crew.step(self.desk, most=0)[0], [])

    def test_a_child_is_linked(self) -> None:
        a = self.crew.spawn(self.desk, 1)
        b = self.crew.spawn_child(self.desk, a, True, 2)
        self.assertEqual(len(self.desk.links(b) or ()), 1)
        with self.assertRaises(p.Fault) as caught:
            self.crew.spawn_child(self.desk, p.Pid(0, 200, 1), False, 3)
        self.assertEqual((caught.exception.code, caught.exception.call), (p.Code.GONE, "Crew.spawn_child"))

    def test_a_crew_goes_on_over_a_resumed_node(self) -> None:
        a, b = self.crew.spawn(self.desk, 1), self.crew.spawn(self.desk, 2, WAIT)
        self.step(self.crew, self.desk)
        self.desk.send(a, b, Body(1, 5))
        desks = p.gather(self.desks).settle_unlisted().resume()
        with self.assertRaisesRegex(ValueError, "desk is .* must be that of the crew"):
            self.crew.step(desks[0])
        with self.assertRaisesRegex(p.Fault, "Crew.step.*: empty"):
            self.crew.step(self.desk)
        for wrong in (desks[1], p.open_node()[0]):
            with self.assertRaisesRegex(ValueError, "desk is .* must be that of the crew in a node that was resumed"):
                self.crew.begin_again(wrong)
        self.crew.begin_again(desks[0])
        self.assertEqual(self.step(self.crew, desks[0]), [Job("item", b, 2, Item("user", a, body=Body(1, 5)))])
        self.assertTrue(self.crew.answer(a, WAIT))
        # and once more, of a node with the list of its pids
        again = p.gather(desks).settle().resume()
        self.crew.begin_again(again[0])
        self.assertEqual(self.step(self.crew, again[0]), [])

    def test_a_node_goes_on_with_its_crews(self) -> None:
        crews = [self.crew, p.Crew(self.desks[1])]
        a, b = self.crew.spawn(self.desk, 1), crews[1].spawn(self.desks[1], 2, WAIT)
        gone = crews[1].spawn(self.desks[1], 3, WAIT)
        self.desks[1].keep_losses(True)
        self.step(self.crew, self.desk)
        why = p.Reason("other", 9)
        self.desks[1].exit(gone, why)
        self.desk.exit_signal(a, b, p.KILL)
        self.desk.send(a, a, Body(1, 5))
        events = sum(desk.event_count() for desk in self.desks)
        desks, history = p.go_on(self.desks, crews)
        self.assertEqual((len(history), list(history.left_over())), (events + 2, []))
        self.assertEqual([desk.event_count() for desk in desks], [0, 0])
        with self.assertRaisesRegex(p.Fault, "clock.*: empty"):
            self.desk.clock()
        self.assertEqual(self.crew.next(a), RUNNING)
        self.assertTrue(self.crew.answer(a, WAIT))
        self.assertEqual(self.step(self.crew, desks[0]), [Job("item", a, 1, Item("user", a, body=Body(1, 5)))])
        losses = [crews[1].next_loss(desks[1]) for _ in range(3)]
        self.assertEqual([loss and (loss.pid, loss.reason) for loss in losses], [(gone, why), (b, p.KILLED), None])
        self.assertEqual(self.step(crews[1], desks[1]), [Job("exit", b, 2, reason=p.KILLED, was=WAIT),
                                                         Job("exit", gone, 3, reason=why, was=WAIT)])
        # and once more, of a node that was gathered or settled
        desks, history = p.go_on(p.gather(desks), crews)
        self.assertEqual(len(history), 1)
        desks, history = p.go_on(p.gather(desks).settle_unlisted(), crews)
        self.assertEqual((len(history), len(self.crew), len(crews[1])), (0, 1, 0))

    def test_a_node_goes_on_with_its_own_crews_alone(self) -> None:
        crews = [self.crew, p.Crew(self.desks[1])]
        others = p.open_node(2)
        stranger = p.Crew(others[1])
        wrong_crews: list[list[p.Crew]] = [crews[:1], crews[::-1], [self.crew, stranger], []]
        for wrong in wrong_crews:
            with self.assertRaisesRegex(ValueError, "crews are not those of all desks of the node in order"):
                p.go_on(self.desks, wrong)
        wrong_desks: list[list[p.Desk]] = [self.desks[::-1], self.desks[:1], []]
        for desks in wrong_desks:
            with self.assertRaisesRegex(ValueError, "desks are not all desks of one node in order"):
                p.go_on(desks, crews)
        with self.assertRaisesRegex(TypeError, "crews is 7, and must be a sequence of type Crew"):
            p.go_on(self.desks, 7)  # type: ignore[arg-type]
        with self.assertRaisesRegex(TypeError, r"node\[0\] is .*, and must be .*Desk"):
            p.go_on([self.crew], crews)  # type: ignore[list-item]
        with self.crew._held_alone(), self.assertRaises(p.Busy):
            p.go_on(self.desks, crews)
        gathered = p.gather(self.desks)
        with self.assertRaisesRegex(ValueError, "crews are not"):
            p.go_on(gathered, [self.crew, stranger])
        desks, _ = p.go_on(gathered, crews)
        self.assertEqual([desk.number for desk in desks], [0, 1])
        self.assertEqual(p.go_on(others, [p.Crew(others[0]), stranger])[0][1].number, 1)

    def test_a_worn_node_comes_back(self) -> None:
        desks = p.open_node(1, p.Config(start=2**62 - 2))
        crew = p.Crew(desks[0])
        a = crew.spawn(desks[0], 1, WAIT)
        desks[0].send(a, a, Body(1, 5))
        node: Any = desks
        for _ in range(2):
            with self.assertRaises(p.NotGoneOn) as caught:
                p.go_on(node, [crew])
            self.assertEqual((caught.exception.code, caught.exception.call), (p.Code.WORN, "go_on"))
            node = caught.exception.node
            self.assertIsInstance(node, p.Gathered)
        self.assertEqual((len(node.history()), len(list(node.history().left_over())), crew.tag(a)), (2, 1, 1))

    def test_texts(self) -> None:
        pid = p.Pid(0, 1, 2)
        self.assertEqual(str(Next("wait-until", ANY, 7)), "wait-until 7 any")
        self.assertEqual(str(Job("exit", pid, 3, reason=p.NORMAL, was=RUNNING)), "exit <0.1.2> 3 normal running")
        self.assertEqual(repr(self.crew), "<Crew of desk 0>")
        self.crew.close()
        self.assertEqual(repr(self.crew), "<Crew of desk 0, empty>")
        with self.assertRaises(p.Fault) as caught:
            self.crew.queued()
        self.assertEqual(caught.exception.code, p.Code.EMPTY)


if __name__ == "__main__":
    unittest.main()
