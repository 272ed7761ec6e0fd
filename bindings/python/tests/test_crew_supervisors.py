"""The supervisors of a crew, over one desk and through pauses of its node."""

from __future__ import annotations

import ctypes as c
import unittest
from typing import Any, Callable

import pundewo as p
from pundewo import ANY, PROCEED, RUNNING, Crew, Job, Next, go_on
from pundewo._abi import (
    SUPERVISOR_CODES, CChild, CChildCounts, CChildSpec, CGaveUp, CPid, CSupervisorCodes, CSupervisorSpec,
)
from pundewo._library import lib
from pundewo.supervisors import Child, ChildCounts, ChildSpec, GaveUp, SupervisorSpec

WAIT = Next("wait", ANY)
CRASH = p.Reason("other", 1)
SPEC = SupervisorSpec(most=2, span=1000)


class Supervisors(unittest.TestCase):
    def setUp(self) -> None:
        self.desks = p.open_node(2)
        self.desk = self.desks[0]
        self.crew = Crew(self.desk)

    def step(self) -> list[Job]:
        jobs, turned = self.crew.step(self.desk)
        self.assertIsNone(turned.stopped)
        return jobs

    def run_all(self) -> list[Job]:
        """Steps until nobody has anything to do. Each process that begins is answered that it waits."""
        told: list[Job] = []
        quiet = 0
        while quiet < 2:
            jobs = self.step()
            for job in jobs:
                if job.name == "start":
                    self.assertTrue(self.crew.answer(job.pid, WAIT))
            told += jobs
            quiet = 0 if jobs or self.desk.pending() or not self.crew.is_idle(self.desk) else quiet + 1
        return told

    def pids(self, boss: p.Pid) -> list[p.Pid]:
        children = self.crew.children(boss)
        assert children is not None
        return [child.pid for child in children if child.pid is not None]

    def test_children_are_started_again(self) -> None:
        boss = self.crew.spawn_supervisor(self.desk, 5, SPEC, [ChildSpec(10), ChildSpec(11)])
        told = self.run_all()
        a, b = self.pids(boss)
        self.assertEqual(told, [Job("start", a, 10, supervisor=boss), Job("start", b, 11, supervisor=boss)])
        self.assertEqual((len(self.crew), self.crew.tag(boss), self.crew.next(a)), (3, 5, WAIT))
        self.desk.exit(a, CRASH)
        told = self.run_all()
        again = self.pids(boss)
        self.assertEqual(told, [Job("exit", a, 10, reason=CRASH, was=WAIT),
                                Job("start", again[0], 10, supervisor=boss, again=True)])
        self.assertEqual(again[1], b)
        # two restarts are all that it makes
        self.desk.exit(b, CRASH)
        self.assertEqual(len(self.run_all()), 2)
        self.desk.exit(again[0], CRASH)
        self.assertEqual([job.tag for job in self.run_all()], [10, 11, 5])
        self.assertEqual((len(self.crew), self.crew.children(boss)), (0, None))

    def test_strategies_end_others(self) -> None:
        for strategy, ended in (("one_for_one", 1), ("rest_for_one", 2), ("one_for_all", 3)):
            self.setUp()
            spec = SPEC._replace(strategy=strategy)
            boss = self.crew.spawn_supervisor(self.desk, 0, spec, [ChildSpec(tag) for tag in range(3)])
            self.run_all()
            self.desk.exit(self.pids(boss)[1], CRASH)
            told = self.run_all()
            self.assertEqual([job.name for job in told].count("exit"), ended)
            self.assertEqual(sum(job.again for job in told), ended)

    def test_a_child_may_be_a_supervisor(self) -> None:
        boss = self.crew.spawn_supervisor(self.desk, 0, SPEC, [ChildSpec(1, "transient", 7), ChildSpec(3, "temporary", "brutal_kill")])
        self.assertEqual(self.step(), [])
        branch = self.step()[0].pid
        self.assertEqual(self.crew.next(branch), RUNNING)
        self.assertTrue(self.crew.supervise(branch, SPEC._replace(parent=boss), [ChildSpec(2)]))
        told = self.step()
        (leaf,) = self.pids(branch)
        self.assertEqual(self.step(), [Job("start", leaf, 2, supervisor=branch)])
        self.assertEqual(told, [])
        children = self.crew.children(boss)
        assert children is not None
        self.assertEqual(children[0], Child(branch, "transient", 7, True))
        self.assertEqual(children[1][1:], ("temporary", "brutal_kill", True))
        self.assertIsNone(self.crew.children(leaf))
        for other in (branch, p.Pid(0, 200, 1)):
            self.assertFalse(self.crew.supervise(other, SPEC, []) or self.crew.answer(other, WAIT))

    def test_processes_without_a_supervisor_are_told_beside_it(self) -> None:
        a = self.crew.spawn(self.desk, 1)
        boss = self.crew.spawn_supervisor(self.desk, 5, SPEC, [ChildSpec(2)])
        self.assertEqual(self.step(), [Job("start", a, 1)])
        self.assertTrue(self.crew.answer(a, PROCEED))
        child = self.crew.child(boss, 0)
        assert child is not None and child.pid is not None
        self.assertEqual(self.step(), [Job("start", child.pid, 2, supervisor=boss), Job("proceed", a, 1)])
        self.assertEqual((self.crew.child(boss, 1), self.crew.child(a, 0), self.crew.children(a)), (None, None, None))
        self.assertEqual(str(Job("start", child.pid, 2, supervisor=boss, again=True)), f"start {child.pid} 2 under {boss} again")

    def test_supervisors_go_on_with_their_node(self) -> None:
        boss = self.crew.spawn_supervisor(self.desk, 5, SPEC, [ChildSpec(10)])
        self.run_all()
        (child,) = self.pids(boss)
        # an exit that was not told as the node is gathered
        self.desk.exit(child, CRASH)
        settled = p.gather(self.desks).settle_unlisted()
        history = settled.history()
        desks = settled.resume()
        for wrong in (desks[1], p.open_node()[0]):
            with self.assertRaisesRegex(ValueError, "desk is .* must be that of the crew in a node that was resumed"):
                self.crew.go_on(wrong, history)
        with self.assertRaisesRegex(ValueError, "desk is .* must be that of the crew"):
            self.crew.step(desks[0])
        self.desk = desks[0]
        self.crew.go_on(self.desk, history)
        told = self.run_all()
        (again,) = self.pids(boss)
        self.assertIn(Job("exit", child, 10, reason=CRASH, was=WAIT), told)
        self.assertIn(Job("start", again, 10, supervisor=boss, again=True), told)
        self.assertEqual(len(told), 2)
        # and once more, where all was told
        self.desk = p.gather(desks).settle_unlisted().resume()[0]
        self.crew.begin_again(self.desk)
        self.assertEqual((self.run_all(), self.pids(boss)), ([], [again]))

    def test_a_node_of_supervisors_goes_on_in_one_call(self) -> None:
        crews = [Crew(desk) for desk in self.desks]
        bosses = [crew.spawn_supervisor(desk, 5, SPEC, [ChildSpec(10)]) for crew, desk in zip(crews, self.desks)]
        for self.crew, self.desk in zip(crews, self.desks):
            self.run_all()
        (child,) = self.pids(bosses[-1])
        # an exit that was not told
        self.desk.exit(child, CRASH)
        for wrong in (crews[:1], crews[::-1]):
            with self.assertRaisesRegex(ValueError, "crews are not those of all desks of the node in order"):
                go_on(self.desks, wrong)
        desks, history = go_on(self.desks, crews)
        self.assertGreater(len(history), 4)
        self.assertEqual([desk.event_count() for desk in desks], [0] * len(desks))
        self.desk = desks[-1]
        told = self.run_all()
        (again,) = self.pids(bosses[-1])
        self.assertIn(Job("exit", child, 10, reason=CRASH, was=WAIT), told)
        self.assertIn(Job("start", again, 10, supervisor=bosses[-1], again=True), told)
        self.assertEqual(len(told), 2)
        # a node that was settled by calls of its own
        desks, _ = go_on(p.gather(desks).settle_unlisted(), crews)
        self.assertEqual((len(desks), self.pids(bosses[-1])), (len(crews), [again]))

    def fails(self, code: p.Code, call: Callable[..., Any], *words: Any) -> None:
        with self.assertRaises(p.Fault) as caught:
            call(*words)
        self.assertEqual(caught.exception.code, code)

    def test_children_come_and_go_at_run_time(self) -> None:
        crew, code = self.crew, p.Code
        boss = crew.spawn_supervisor(self.desk, 5, SPEC, [ChildSpec(10)])
        self.run_all()
        (first,) = self.pids(boss)
        child = ChildSpec(11, "transient")
        self.assertEqual((crew.start_child(boss, child), crew.count_children(boss)), (1, ChildCounts(2, 1, 1)))
        self.fails(code.CHILD_PRESENT, crew.start_child, boss, child)
        for call in (crew.restart_child, crew.delete_child):
            self.fails(code.CHILD_RESTARTING, call, boss, 11)
        # nothing came to the supervisor, and the next step starts the child
        told = self.run_all()
        _, second = self.pids(boss)
        self.assertEqual(told, [Job("start", second, 11, supervisor=boss)])
        self.fails(code.CHILD_RUNNING, crew.start_child, boss, child)
        for call in (crew.restart_child, crew.delete_child):
            self.fails(code.CHILD_RUNNING, call, boss, 11)
        crew.terminate_child(boss, 11)
        self.assertEqual(self.run_all(), [Job("exit", second, 11, reason=p.NOPROC, was=WAIT)])
        self.fails(code.CHILD_PRESENT, crew.start_child, boss, child)
        crew.restart_child(boss, 11)
        told = self.run_all()
        _, third = self.pids(boss)
        self.assertEqual(told, [Job("start", third, 11, supervisor=boss, again=True)])
        crew.terminate_child(boss, 10)
        self.assertEqual(self.run_all(), [Job("exit", first, 10, reason=p.NOPROC, was=WAIT)])
        self.assertEqual((crew.delete_child(boss, 10), crew.count_children(boss)), (0, ChildCounts(1, 1, 0)))
        self.assertEqual((self.run_all(), self.pids(boss)), ([], [third]))

    def run_both(self, crews: list[Crew]) -> list[Job]:
        """Ten steps of both desks. Each process that begins is answered that it waits."""
        told: list[Job] = []
        for _ in range(10):
            for crew, desk in zip(crews, self.desks):
                jobs, turned = crew.step(desk)
                self.assertIsNone(turned.stopped)
                for job in jobs:
                    if job.name == "start":
                        self.assertTrue(crew.answer(job.pid, WAIT))
                told += jobs
        return told

    def test_a_child_is_started_on_another_desk(self) -> None:
        crews = [self.crew, Crew(self.desks[1])]
        near, far = crews
        boss = near.spawn_supervisor(self.desk, 5, SPEC, [ChildSpec(10, elsewhere=True), ChildSpec(11)])
        self.assertEqual((near.child_to_start(boss), self.run_both(crews)), (None, []))
        self.assertEqual((near.child_to_start(boss), near.child_to_start(boss)), (10, None))
        child = far.spawn(self.desks[1], 10, PROCEED)
        self.fails(p.Code.NOTHING, near.child_started, boss, 11, child)
        near.child_started(boss, 10, child)
        self.fails(p.Code.NOTHING, near.child_not_started, boss, 10)
        told = self.run_both(crews)
        first, second = self.pids(boss)
        self.assertEqual((first, len(told), second.shard), (child, 2, 0))
        # it crashes, its start fails once, and then another takes its place
        self.desks[1].exit(child, CRASH)
        self.assertEqual(len(self.run_both(crews)), 1)
        self.assertEqual(near.child_to_start(boss), 10)
        near.child_not_started(boss, 10)
        self.assertEqual((self.run_both(crews), near.child_to_start(boss)), ([], 10))
        again = far.spawn(self.desks[1], 10, PROCEED)
        near.child_started(boss, 10, again)
        self.run_both(crews)
        self.assertEqual(self.pids(boss), [again, second])

    def test_calls_about_children_are_refused(self) -> None:
        one = self.crew.spawn(self.desk, 1, WAIT)
        boss = self.crew.spawn_supervisor(self.desk, 5, SPEC, [ChildSpec(10)])
        self.run_all()
        before = self.crew.children(boss), self.crew.next(boss), self.crew.queued(), self.desk.event_count()
        for pid, tag in ((one, 10), (p.Pid(0, 9, 9), 10), (boss, 11)):
            for call in (self.crew.terminate_child, self.crew.restart_child, self.crew.delete_child, self.crew.child_not_started):
                self.fails(p.Code.NOTHING, call, pid, tag)
            self.fails(p.Code.NOTHING, self.crew.child_started, pid, tag, one)
            self.assertIsNone(self.crew.child_to_start(pid))
        for pid in (one, p.Pid(0, 9, 9)):
            self.fails(p.Code.NOTHING, self.crew.start_child, pid, ChildSpec(10))
            self.assertEqual((self.crew.count_children(pid), self.crew.gave_up(pid)), (None, None))
        after = self.crew.children(boss), self.crew.next(boss), self.crew.queued(), self.desk.event_count()
        self.assertEqual(after, before)

    def test_a_child_is_told_once_to_exit(self) -> None:
        boss = self.crew.spawn_supervisor(self.desk, 5, SPEC, [ChildSpec(10)])
        self.run_all()
        (slow,) = self.pids(boss)
        self.desk.trap(slow)
        self.crew.terminate_child(boss, 10)
        self.assertEqual([job.name for job in self.run_all()], ["item"])
        self.assertEqual(self.crew.start_child(boss, ChildSpec(11)), 1)
        self.crew.terminate_child(boss, 10)
        self.assertEqual((self.run_all(), self.desk.waiting(slow)), ([], []))
        self.assertTrue(self.crew.answer(slow, Next("stop", reason=p.NORMAL)))
        told = self.run_all()
        self.assertEqual([(job.name, job.tag) for job in told], [("exit", 10), ("start", 11)])

    def test_a_supervisor_says_why_it_gave_up(self) -> None:
        spec = SupervisorSpec(most=0, span=9, timed=True)
        boss = self.crew.spawn_supervisor(self.desk, 5, spec, [ChildSpec(10), ChildSpec(11)])
        self.run_all()
        self.assertIsNone(self.crew.gave_up(boss))
        self.desk.exit(self.pids(boss)[1], CRASH)
        told = self.step()
        self.assertEqual(self.crew.gave_up(boss), GaveUp(11, 1, CRASH, 0, 9, True))
        told += self.run_all()
        self.assertEqual((len(told), self.crew.gave_up(boss), len(self.crew)), (3, None, 0))

    def test_arguments_are_checked(self) -> None:
        no_pid: Any = 7
        wrong: list[tuple[type[Exception], str, Any]] = [
            (ValueError, "spec.strategy is 'all'", (SPEC._replace(strategy="all"), [])),
            (ValueError, "spec.most is -1", (SPEC._replace(most=-1), [])),
            (TypeError, "spec.parent is 7", (SPEC._replace(parent=no_pid), [])),
            (TypeError, "spec is 7, and must be of type SupervisorSpec", (7, [])),
            (ValueError, r"children\[1\].restart is 'never'", (SPEC, [ChildSpec(1), ChildSpec(1, "never")])),
            (ValueError, r"children\[0\].shutdown is 'soon'", (SPEC, [ChildSpec(1, shutdown="soon")])),
            (ValueError, r"children\[0\].tag is -1", (SPEC, [ChildSpec(-1)])),
            (TypeError, r"children\[0\] is 7, and must be of type ChildSpec", (SPEC, [7])),
        ]
        for kind, text, (spec, children) in wrong:
            with self.assertRaisesRegex(kind, text):
                self.crew.spawn_supervisor(self.desk, 1, spec, children)
            with self.assertRaisesRegex(kind, text):
                self.crew.supervise(p.Pid(0, 0, 1), spec, children)
        with self.assertRaisesRegex(ValueError, "desk is .* must be that of the crew"):
            self.crew.spawn(self.desks[1], 1)
        self.assertEqual((len(self.crew), self.desk.event_count()), (0, 0))

    def test_structs_are_those_of_the_library(self) -> None:
        told, spec, of_child, child = CSupervisorCodes(), CSupervisorSpec(), CChildSpec(), CChild()
        lib.pt_about_supervisors(c.byref(told))
        lib.pt_about_supervisor_spec(c.byref(spec))
        lib.pt_about_child_spec(c.byref(of_child))
        lib.pt_about_child(c.byref(child))
        counts, cause = CChildCounts(), CGaveUp()
        lib.pt_about_child_counts(c.byref(counts))
        lib.pt_about_gave_up(c.byref(cause))
        self.assertEqual((counts.specs, counts.active, counts.restarting), (1, 2, 3))
        self.assertEqual((cause.tag, cause.place, cause.reason.code, cause.reason.number, cause.restarts, cause.span,
                          cause.timed), (1, 2, 3, 4, 5, 6, True))
        self.assertEqual({name: getattr(told, name) for name in SUPERVISOR_CODES}, SUPERVISOR_CODES)
        self.assertEqual(list(SUPERVISOR_CODES.values()), [0, 1, 2] * 3 + [23, 24, 25])
        self.assertEqual((told.supervisor_spec, told.child_spec, told.child, told.child_counts, told.gave_up),
                         tuple(map(c.sizeof, (CSupervisorSpec, CChildSpec, CChild, CChildCounts, CGaveUp))))

        def pid(it: CPid) -> tuple[int, int, int]:
            return it.shard, it.slot, it.version

        self.assertEqual((spec.strategy, spec.timed, spec.has_parent, pid(spec.parent), spec.most, spec.span),
                         (1, True, True, (4, 5, 6), 7, 8))
        self.assertEqual((of_child.tag, of_child.restart, of_child.shutdown, of_child.time), (1, 2, 3, 4))
        self.assertTrue(of_child.elsewhere)
        self.assertEqual((child.has_pid, child.wanted, pid(child.pid), child.restart, child.shutdown, child.time),
                         (True, True, (3, 4, 5), 6, 7, 8))


if __name__ == "__main__":
    unittest.main()
