"""Timers, names and groups."""

from __future__ import annotations

import unittest
from typing import Any

import pundewo as p
from pundewo.tools import Fired, Groups, Holder, Left, Names, Timer, Timers

LONGEST = "abcdefghijklmnopqrstuvwxyz_01234"
U64 = 2**64 - 1


class TimersTest(unittest.TestCase):
    def test_they_fire_in_order_and_once(self) -> None:
        with Timers() as timers:
            self.assertEqual((len(timers), timers.next(), timers.pop_due(U64)), (0, None, None))
            ring, poll, late = timers.start(30, 100), timers.start(10, 101), timers.start(30, 102)
            self.assertEqual((ring, poll, late), (Timer(30, 0), Timer(10, 1), Timer(30, 2)))
            self.assertEqual((len(timers), timers.next(), timers.get(late)), (3, 10, 102))
            self.assertEqual((timers.pop_due(9), timers.peek_due(9)), (None, None))
            fired = Fired(poll, 101)
            self.assertEqual((timers.peek_due(12), timers.pop_due(12), timers.pop_due(12)), (fired, fired, None))
            self.assertEqual((timers.get(poll), timers.cancel(poll), timers.cancel(Timer(1, 1))), (None, False, False))
            self.assertEqual(timers.pop_due(30), Fired(ring, 100))
            self.assertEqual((timers.cancel(late), timers.cancel(late), timers.pop_due(U64)), (True, False, None))
            self.assertEqual(timers.start(U64, U64), Timer(U64, 3))

    def test_a_closed_one_is_empty(self) -> None:
        timers = Timers()
        timers.close()
        calls: list[tuple[Any, ...]] = [
            (timers.start, "start", 1, 2), (timers.cancel, "cancel", Timer(1, 2)), (timers.pop_due, "pop_due", 1),
            (timers.peek_due, "peek_due", 1), (timers.next, "next"), (timers.get, "get", Timer(1, 2)),
            (timers.__len__, "__len__")]
        for call, name, *words in calls:
            with self.assertRaises(p.Fault) as caught:
                call(*words)
            self.assertEqual((caught.exception.code, caught.exception.call), (p.Code.EMPTY, f"Timers.{name}"))

    def test_what_is_no_number_is_refused(self) -> None:
        timers = Timers()
        for bad in (-1, 2**64, True, 1.0, None, "1"):
            for call in (lambda: timers.start(bad, 0), lambda: timers.start(0, bad), lambda: timers.pop_due(bad),  # type: ignore
                         lambda: timers.cancel(Timer(bad, 0)), lambda: timers.get(Timer(0, bad))):  # type: ignore
                self.assertRaises((TypeError, ValueError), call)
        self.assertRaises(TypeError, timers.cancel, (1, 2))
        self.assertEqual(len(timers), 0)


class NamesTest(unittest.TestCase):
    def setUp(self) -> None:
        self.desk, = p.open_node(1)
        self.keeper, self.line, self.other = (self.desk.spawn() for _ in range(3))
        self.names = Names()

    def fails(self, code: p.Code, call: Any, *words: Any) -> None:
        with self.assertRaises(p.Fault) as caught:
            call(*words)
        self.assertEqual(caught.exception.code, code)

    def test_a_name_is_of_one_process_until_it_is_forgotten(self) -> None:
        names, line, other = self.names, self.line, self.other
        self.assertIsNone(names.whereis("line_12"))
        names.check("line_12", line)
        monitor = self.desk.monitor(self.keeper, line)
        names.register("line_12", line, monitor)
        self.assertEqual((names.whereis("line_12"), names.name_of(line), names.name_of(other)), (line, "line_12", None))
        self.fails(p.Code.TAKEN, names.register, "line_12", other, monitor)
        self.fails(p.Code.TAKEN, names.check, "line_12", other)
        self.fails(p.Code.HAS_NAME, names.register, "line_13", line, monitor)
        self.fails(p.Code.HAS_NAME, names.check, "line_13", line)
        names.register(LONGEST, other, p.Ref(3, 4))
        self.assertEqual((names.name_of(other), len(names)), (LONGEST, 2))
        self.desk.turn()
        self.desk.exit(line, p.NORMAL)
        self.desk.turn()
        down = self.desk.receive(self.keeper, p.Pick("any"))
        assert down is not None and down.name == "down"
        self.assertEqual((names.forget(down.pid), names.forget(down.pid), names.whereis("line_12")), ("line_12", None, None))
        self.assertEqual((names.unregister(LONGEST), names.unregister(LONGEST)), (Holder(other, p.Ref(3, 4)), None))
        self.assertEqual(len(names), 0)

    def test_what_is_no_name_is_refused(self) -> None:
        names, p_ = self.names, self.line
        for text in ("", "1st", "_x", "line-1", "a b", "a\0b", LONGEST + "5", "\u00e4", "a\ud800"):
            self.fails(p.Code.BAD_NAME, names.register, text, p_, p.Ref(0, 1))
            self.fails(p.Code.BAD_NAME, names.check, text, p_)
            self.fails(p.Code.BAD_NAME, names.whereis, text)
            self.fails(p.Code.BAD_NAME, names.unregister, text)
        for bad in (b"line", None, 1):
            self.assertRaises(TypeError, names.whereis, bad)
        self.assertEqual(len(names), 0)

    def test_a_closed_one_is_empty(self) -> None:
        self.names.close()
        calls: list[tuple[Any, ...]] = [
            (self.names.register, "", self.line, p.Ref(0, 1)), (self.names.check, "", self.line), (self.names.whereis, ""),
            (self.names.unregister, ""), (self.names.forget, self.line), (self.names.name_of, self.line),
            (self.names.__len__,)]
        for call, *words in calls:
            self.fails(p.Code.EMPTY, call, *words)


class GroupsTest(unittest.TestCase):
    def test_a_process_is_in_a_group_until_it_has_left_as_often_or_is_forgotten(self) -> None:
        (desk,), groups = p.open_node(1), Groups()
        a, b, first, second = desk.spawn(), desk.spawn(), p.Ref(3, 4), p.Ref(3, 5)
        self.assertEqual((groups.len(7), groups.times(7, a), groups.member_at(7, 0), groups.monitor_of(a)), (0, 0, None, None))
        self.assertEqual((groups.leave(7, a), groups.forget(a), groups.group_at(a, 0)), (None, None, None))
        self.assertEqual((groups.join(7, a, first), groups.join(7, a, second)), (first, first))
        self.assertEqual((groups.join(U64, a, second), groups.join(7, b, second)), (first, second))
        self.assertEqual((groups.times(7, a), groups.times(7, b), groups.times(U64, a)), (2, 1, 1))
        self.assertEqual((groups.len(7), groups.len(8), groups.monitor_of(a)), (2, 0, first))
        self.assertEqual((sorted(groups.members(7)), groups.member_at(7, 2)), ([a, b], None))
        self.assertEqual((sorted(groups.groups_of(a)), groups.group_at(a, 2)), ([7, U64], None))
        self.assertEqual((groups.leave(7, a), groups.times(7, a), groups.leave(7, b)), (Left(None), 1, Left(second)))
        self.assertEqual((groups.leave(7, b), groups.monitor_of(b)), (None, None))
        self.assertEqual((groups.forget(a), groups.forget(a), groups.len(7), groups.len(U64)), (first, None, 0, 0))

    def test_a_closed_one_is_empty(self) -> None:
        groups, pid = Groups(), p.Pid(0, 0, 1)
        groups.close()
        calls: list[tuple[Any, ...]] = [
            (groups.join, "join", 1, pid, p.Ref(0, 1)), (groups.leave, "leave", 1, pid), (groups.forget, "forget", pid),
            (groups.monitor_of, "monitor_of", pid), (groups.times, "times", 1, pid), (groups.len, "len", 1),
            (groups.member_at, "member_at", 1, 0), (groups.group_at, "group_at", pid, 0)]
        for call, name, *words in calls:
            with self.assertRaises(p.Fault) as caught:
                call(*words)
            self.assertEqual((caught.exception.code, caught.exception.call), (p.Code.EMPTY, f"Groups.{name}"))

    def test_what_is_no_number_is_refused(self) -> None:
        groups, pid = Groups(), p.Pid(0, 0, 1)
        groups.join(1, pid, p.Ref(0, 1))
        for bad in (-1, 2**64, True, 1.0, None, "1"):
            word: Any = bad
            for call in (lambda: groups.join(word, pid, p.Ref(0, 1)), lambda: groups.leave(word, pid), lambda: groups.times(word, pid),
                         lambda: groups.len(word), lambda: groups.member_at(word, 0), lambda: groups.member_at(1, word),
                         lambda: groups.group_at(pid, word), lambda: groups.forget(word), lambda: groups.join(1, word, p.Ref(0, 1)),
                         lambda: groups.join(1, pid, word), lambda: groups.monitor_of(word)):
                self.assertRaises((TypeError, ValueError), call)
        self.assertEqual((groups.len(1), groups.times(1, pid)), (1, 1))


if __name__ == "__main__":
    unittest.main()
