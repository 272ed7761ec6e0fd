"""Properties of the calls: each parameter takes its range and nothing else, and a refused call calls nothing."""

from __future__ import annotations

import ctypes
import inspect
import pickle
import random
import typing
import unittest
from typing import Any, Callable, Iterator
from unittest import mock

import pundewo as p
from pundewo import _abi as abi
from pundewo import _library as library
from pundewo import supervisors as s
from domains import BODY, BYTE, CONFIG, LONG, NEXT, PICK, PID, REASON, REF, SHAPES, SHORT, WORD, Domain, Flag, Ints

ROUNDS = 20
FLAG = Flag()


class Desks(Domain):
    """All desks of a node, in order: what passes depends on the node."""

    def bad(self, draw: random.Random) -> Iterator[Any]:
        first, second = p.open_node(2)
        yield from ([], (), [first], [second, first], [first, first], [first, 1], [first, None], None, 0, 2**70, "ab")
        yield from ([first, second, first], [first, second, object()], first, p.Pid(0, 0, 1), [p.Gathered()], object())


class Nodes(Desks):
    """The same, where a gathered or a settled node does, too."""


class Crews(Domain):
    """The crews of all desks of a node, in order: what passes depends on the node."""

    def bad(self, draw: random.Random) -> Iterator[Any]:
        first, second = (p.Crew(desk) for desk in p.open_node(2))
        yield from ([], [first], [first, second], [first, 1], None, 0, 2**70, "ab", first, [p.Gathered()], object(), p.Crew)


class OneDesk(Domain):
    """The desk of a crew: what passes depends on the crew."""

    def bad(self, draw: random.Random) -> Iterator[Any]:
        first, second = p.open_node(2)
        yield from (first, second, [first], None, 0, 2**70, "ab", p.Pid(0, 0, 1), p.Gathered(), object(), p.Desk)


class Answers(Domain):
    """Pairs of a pid and what its process does next."""

    def bad(self, draw: random.Random) -> Iterator[Any]:
        pid = p.Pid(0, 0, 1)
        yield from (None, 0, pid, [pid], [(pid,)], [(p.PROCEED, pid)], [(pid, p.PROCEED, 1)], [(pid, p.PROCEED), None])
        yield from ([(pid, p.ANY)], [((0, 0, 1), p.PROCEED)], [(pid, ("proceed", None, None, None))], object(), "ab")


class Specs(Domain):
    """Supervisors without their children."""

    def good(self, draw: random.Random) -> s.SupervisorSpec:
        parent = draw.choice([None, PID.good(draw)])
        return s.SupervisorSpec(draw.choice(s.STRATEGIES), LONG.good(draw), LONG.good(draw), FLAG.good(draw), parent)

    def bounds(self) -> list[Any]:
        return [s.SupervisorSpec(strategy) for strategy in s.STRATEGIES]

    def bad(self, draw: random.Random) -> Iterator[Any]:
        spec = s.SupervisorSpec()
        yield from (None, 0, 2**70, "one_for_one", tuple(spec), [], s.ChildSpec(1), object(), s.SupervisorSpec)
        for strategy in ("all", "", None, 0, "One_for_one"):
            yield spec._replace(strategy=strategy)  # type: ignore[arg-type]
        for bad in LONG.bad(draw):
            yield from (spec._replace(most=bad), spec._replace(span=bad))
        for bad in FLAG.bad(draw):
            yield spec._replace(timed=bad)
        for bad in PID.bad(draw):
            if bad is not None:
                yield spec._replace(parent=bad)


class Kids(Domain):
    """What a supervisor knows of its children, in order."""

    def good(self, draw: random.Random) -> list[s.ChildSpec]:
        ends: list[s.Shutdown] = ["infinity", "brutal_kill", LONG.good(draw)]
        return [s.ChildSpec(LONG.good(draw), draw.choice(s.RESTARTS), end, draw.random() < 0.5) for end in ends]

    def bounds(self) -> list[Any]:
        return [[], [s.ChildSpec(0), s.ChildSpec(2**64 - 1)]]

    def bad(self, draw: random.Random) -> Iterator[Any]:
        child = s.ChildSpec(1)
        yield from (None, 0, 2**70, "ab", child, [7], [child, None], [(1, "permanent", "infinity")], [s.ChildSpec], object())
        for restart in ("never", "", None, 0, "Permanent"):
            yield [child, child._replace(restart=restart)]  # type: ignore[arg-type]
        for bad in LONG.bad(draw):
            yield [child._replace(tag=bad)]
            if not isinstance(bad, str):
                yield [child._replace(shutdown=bad)]
        yield from ([child._replace(shutdown=bad)] for bad in ("soon", "", "Infinity"))


class Kid(Domain):
    """What a supervisor knows of one child."""

    def good(self, draw: random.Random) -> s.ChildSpec:
        return draw.choice(KIDS.good(draw))

    def bounds(self) -> list[Any]:
        return [s.ChildSpec(0), s.ChildSpec(2**64 - 1)]

    def bad(self, draw: random.Random) -> Iterator[Any]:
        yield from (None, 0, 2**70, "ab", [s.ChildSpec(1)], (1, "permanent", "infinity"), s.ChildSpec, object())
        yield from (children[-1] for children in KIDS.bad(draw) if isinstance(children, list) and len(children) == 1)


class Histories(Domain):
    """A history."""

    def bad(self, draw: random.Random) -> Iterator[Any]:
        yield from (None, 0, 2**70, "ab", [], p.Gathered(), p.open_node()[0], object(), p.History)


DESK, ANSWERS, CREWS = OneDesk(), Answers(), Crews()
SPEC, KIDS, KID, HISTORY = Specs(), Kids(), Kid(), Histories()

# Each public call of each class, and of the module, with its parameters.
CALLS: dict[str, dict[str, dict[str, Domain]]] = {
    "Desk": {
        "spawn": {}, "spawn_child": {"parent": PID, "linked": FLAG}, "send": {"sender": PID, "to": PID, "body": BODY},
        "exit_signal": {"sender": PID, "to": PID, "reason": REASON}, "link": {"p": PID, "to": PID},
        "unlink": {"p": PID, "to": PID}, "monitor": {"watcher": PID, "target": PID},
        "demonitor": {"watcher": PID, "monitor": REF, "flush": FLAG}, "ask_alive": {"p": PID, "target": PID},
        "keep_losses": {"on": FLAG}, "next_loss": {}, "trap": {"p": PID, "on": FLAG},
        "receive": {"p": PID, "pick": PICK}, "exit": {"p": PID, "reason": REASON},
        "turn": {"budget": WORD}, "clock": {}, "alive": {"p": PID}, "knows": {"p": PID}, "pending": {}, "vacant": {},
        "waiting": {"p": PID}, "linked": {"p": PID, "peer": PID}, "event_count": {}, "events": {"start": LONG},
        "links": {"p": PID}, "monitors": {"p": PID}, "watchers": {"p": PID}, "traps": {"p": PID}, "lives_in": {"slot": WORD},
        "woken": {"start": LONG}, "close": {},
    },
    "Gathered": {"desks": {}, "history": {}, "settle": {}, "settle_unlisted": {}, "close": {}},
    "Quiet": {
        "history": {}, "desks": {}, "resume": {}, "handled": {}, "pids": {}, "account": {"p": PID},
        "linked": {"p": PID, "peer": PID}, "kept": {"target": PID, "monitor": REF},
        "watching": {"watcher": PID, "monitor": REF}, "close": {},
    },
    "History": {"events": {}, "lines": {}, "left_over": {}, "close": {}},
    "Crew": {
        "spawn": {"desk": DESK, "tag": LONG, "first": NEXT},
        "spawn_child": {"desk": DESK, "parent": PID, "linked": FLAG, "tag": LONG, "first": NEXT},
        "spawn_supervisor": {"desk": DESK, "tag": LONG, "spec": SPEC, "children": KIDS},
        "supervise": {"p": PID, "spec": SPEC, "children": KIDS}, "children": {"p": PID}, "child": {"p": PID, "place": LONG},
        "start_child": {"p": PID, "child": KID}, "terminate_child": {"p": PID, "tag": LONG},
        "restart_child": {"p": PID, "tag": LONG}, "delete_child": {"p": PID, "tag": LONG}, "count_children": {"p": PID},
        "child_to_start": {"p": PID}, "child_started": {"p": PID, "tag": LONG, "pid": PID},
        "child_not_started": {"p": PID, "tag": LONG},
        "gave_up": {"p": PID},
        "step": {"desk": DESK, "budget": WORD, "most": SHORT}, "answer": {"p": PID, "does": NEXT},
        "answer_all": {"answers": ANSWERS}, "set_time": {"now": LONG}, "begin_again": {"desk": DESK},
        "go_on": {"desk": DESK, "history": HISTORY},
        "next_loss": {"desk": DESK},
        "next_time": {},
        "tag": {"p": PID}, "next": {"p": PID}, "queued": {}, "is_idle": {"desk": DESK}, "refused": {}, "close": {},
    },
    "": {"open_node": {"count": BYTE, "config": CONFIG}, "gather": {"desks": Desks()},
         "go_on": {"node": Nodes(), "crews": CREWS}},
}
ERRORS = {"Fault", "NotGoneOn", "Unsettled", "Busy", "Code"}
TYPES = {int: Ints, bool: Flag, typing.Sequence[p.Desk]: Desks, p.Desk: OneDesk,
         typing.Sequence[tuple[p.Pid, p.Next]]: Answers, typing.Sequence[p.Crew]: Crews, s.SupervisorSpec: Specs,
         typing.Sequence[s.ChildSpec]: Kids, s.ChildSpec: Kid, p.History: Histories,
         typing.Union[typing.Sequence[p.Desk], p.Gathered, p.Quiet]: Nodes}


def public_calls(where: str) -> dict[str, Callable[..., Any]]:
    """The public calls of a class, or the functions of the module."""
    if where:
        return {name: call for name, call in inspect.getmembers(getattr(p, where), inspect.isfunction)
                if not name.startswith("_")}
    return {name: getattr(p, name) for name in p.__all__ if inspect.isfunction(getattr(p, name))}


class Recorder:
    """In the place of the library: it keeps what is called, and answers that there is no memory."""

    def __init__(self) -> None:
        self.calls: list[tuple[str, list[Any]]] = []

    def __getattr__(self, name: str) -> Any:
        if name.endswith("give_up"):
            return getattr(LIBRARY, name)

        def call(*words: Any) -> int:
            self.calls.append((name, [back(word) for word in words]))
            return p.Code.MEMORY
        return call


LIBRARY = library.lib


def back(word: Any) -> Any:
    """The value of what crosses."""
    if hasattr(word, "_obj"):
        return getattr(word._obj, "value", None)
    kinds: dict[type, Callable[[Any], Any]] = {
        abi.CPid: library.pid_of, abi.CRef: library.ref_of, abi.CBody: library.body_of,
        abi.CReason: library.reason_of, abi.CPick: library.pick_of, abi.CNext: library.next_of,
        abi.CSupervisorSpec: lambda spec: s.SupervisorSpec(
            s.STRATEGIES[spec.strategy], spec.most, spec.span, spec.timed,
            library.pid_of(spec.parent) if spec.has_parent else None),
        abi.CChildSpec: lambda child: s.ChildSpec(
            child.tag, s.RESTARTS[child.restart], ("infinity", child.time, "brutal_kill")[child.shutdown], child.elsewhere),
        abi.CConfig: lambda config: p.Config(*(getattr(config, field) for field, _ in config._fields_))}
    return kinds[type(word)](word) if type(word) in kinds else word


class Node:
    """Two desks with processes that are linked, watched and written to, and what is left of such a node at rest."""

    def __init__(self) -> None:
        self.desks = p.open_node(2, p.Config(slots=8, lane=4))
        here, there = self.desks
        self.a, self.b, self.c = here.spawn(), here.spawn(), there.spawn()
        here.trap(self.a)
        here.link(self.a, self.b)
        self.monitor = here.monitor(self.a, self.c)
        for num in range(3):
            here.send(self.a, self.b, p.Body(num, num, self.c))
            here.send(self.b, self.c, p.Body(num, num))
        for desk in (here, there, here):
            desk.turn()
        here.send(self.b, self.a, p.Body(9, 9))
        self.gathered = p.gather(p.open_node())
        self.quiet = p.gather(p.open_node()).settle()
        self.history = self.quiet.history()
        self.crew = p.Crew(here)
        self.crew.spawn(here, 7)
        self.crews = [self.crew, p.Crew(there)]
        self.at: dict[str, Any] = {
            "Desk": here, "Crew": self.crew, "Gathered": self.gathered, "Quiet": self.quiet, "History": self.history,
            "": p}

    def call(self, where: str, name: str) -> Callable[..., Any]:
        call: Callable[..., Any] = getattr(self.at[where], name)
        if name != "events":
            return call

        def first(**words: Any) -> Any:
            return next(call(**words), None)

        return first

    def good(self, where: str, name: str) -> dict[str, Any]:
        """Words with which the call would change the node, or read it."""
        values = {PID: self.b, REF: self.monitor, BODY: p.Body(1, 1), REASON: p.Reason("other", 3), PICK: p.ANY,
                  FLAG: True, WORD: 8, LONG: 0, BYTE: 1, CONFIG: p.Config(slots=8), SHORT: 4, NEXT: p.PROCEED,
                  DESK: self.desks[0], ANSWERS: [], CREWS: self.crews, SPEC: s.SupervisorSpec(), KIDS: [s.ChildSpec(1)],
                  KID: s.ChildSpec(1),
                  HISTORY: self.history}
        return {word: values.get(domain, self.desks) for word, domain in CALLS[where][name].items()}

    def told(self) -> list[Any]:
        """All that the node tells."""
        pids = [self.a, self.b, self.c]
        desks = [(desk.number, desk.clock(), desk.event_count(), desk.pending(), desk.vacant(),
                  [str(event) for event in desk.events()], [(desk.alive(pid), desk.knows(pid)) for pid in pids],
                  [desk.waiting(pid) for pid in pids], [(desk.links(pid), desk.monitors(pid), desk.watchers(pid),
                  desk.traps(pid)) for pid in pids], [desk.lives_in(slot) for slot in range(9)]) for desk in self.desks]
        crew = [len(self.crew), self.crew.queued(), self.crew.is_idle(self.desks[0]), self.crew.next_time()]
        return [desks, crew, self.gathered.desks(), self.quiet.desks(), self.quiet.handled(), len(self.history)]


class Calls(unittest.TestCase):
    def test_each_parameter_of_each_call_has_a_row(self) -> None:
        exported = {name for name in p.__all__ if inspect.isclass(getattr(p, name))}
        values = {kind.__name__ for kind in SHAPES}
        self.assertEqual(exported, ERRORS | values | {where for where in CALLS if where})
        for where, calls in CALLS.items():
            self.assertEqual(set(public_calls(where)), set(calls), where)
            for name, call in public_calls(where).items():
                words = [word for word in inspect.signature(call).parameters if word != "self"]
                self.assertEqual(words, list(calls[name]), f"{where}.{name}")
                hints = typing.get_type_hints(call)
                for word, domain in calls[name].items():
                    wanted = TYPES.get(hints[word])
                    fits = isinstance(domain, wanted) if wanted else getattr(domain, "kind", None) is hints[word]
                    self.assertTrue(fits, f"{where}.{name}: {word} has a row of another type")

    def test_what_is_in_range_crosses_whole(self) -> None:
        draw, node = random.Random(4), Node()
        for where, name, words in rows():
            if name in ("gather", "go_on", "answer", "answer_all"):
                continue
            for word, domain in words.items():
                if domain is DESK:
                    continue
                for value in domain.bounds() + [domain.good(draw) for _ in range(ROUNDS)]:
                    rest = {other: node.desks[0] if of is DESK else of.good(draw) for other, of in words.items()}
                    self.crosses(node, where, name, {**rest, word: value})

    def crosses(self, node: Node, where: str, name: str, words: dict[str, Any]) -> None:
        """Makes a call, and compares what the library gets behind the handle with the words."""
        with mock.patch.object(p, "lib", Recorder()) as recorder:
            with self.assertRaises(p.Fault):
                node.call(where, name)(**words)
        ((_, (_, *got)),) = recorder.calls
        # (a desk crosses as its handle, and a row of jobs or of children as an array behind the other words)
        got = [word for word in got if word is not None and not isinstance(word, ctypes.Array)]
        wanted = [word for word in words.values() if not isinstance(word, (p.Desk, list))]
        self.assertEqual(got[:len(wanted)], wanted, f"{where}.{name}")

    def test_what_is_out_of_range_calls_nothing(self) -> None:
        draw, count = random.Random(5), 0
        node = Node()
        before = node.told()
        for where, name, words in rows():
            for word, domain in words.items():
                for bad in domain.bad(draw):
                    self.refused(node, where, name, word, bad)
                    count += 1
                self.assertEqual(node.told(), before, f"{where}.{name}: {word}")
        self.assertGreater(count, 1_300)

    def refused(self, node: Node, where: str, name: str, word: str, bad: Any) -> None:
        """Makes a call with one bad word, and looks whether the library was called."""
        with mock.patch.object(p, "lib", Recorder()) as recorder:
            with self.assertRaises((TypeError, ValueError), msg=f"{where}.{name}: {word} {type(bad)}") as caught:
                node.call(where, name)(**{**node.good(where, name), word: bad})
        self.assertIn(word, str(caught.exception))
        self.assertEqual(recorder.calls, [], f"{where}.{name}: {word}")


def rows() -> Iterator[tuple[str, str, dict[str, Domain]]]:
    """The calls that have parameters."""
    for where, calls in CALLS.items():
        for name, words in calls.items():
            if words:
                yield where, name, words


def loose(value: Any, **fields: Any) -> Any:
    """A value of a subclass that does not check, with other fields."""
    kind = type("Loose", (type(value),), {"__slots__": ()})
    return tuple.__new__(kind, [fields.get(field, word) for field, word in zip(value._fields, value)])


class Numbers(unittest.TestCase):
    def test_a_message_comes_as_it_was_sent(self) -> None:
        draw = random.Random(6)
        (desk,) = p.open_node()
        a, b = desk.spawn(), desk.spawn()
        for body in BODY.bounds() + [BODY.good(draw) for _ in range(200)]:
            desk.send(a, b, body)
            desk.turn()
            pick = p.Pick("kind", body.kind)
            self.assertEqual(desk.receive(b, pick), p.Item("user", a, body=body))
            took = list(desk.events(desk.event_count() - 1))[0]
            self.assertEqual((took.pick, took.item and took.item.body), (pick, body))

    def test_an_exit_reason_comes_as_it_was_told(self) -> None:
        draw = random.Random(7)
        (desk,) = p.open_node()
        watcher = desk.spawn()
        for reason in REASON.bounds() + [REASON.good(draw) for _ in range(200)]:
            pid = desk.spawn()
            monitor = desk.monitor(watcher, pid)
            desk.turn()
            desk.exit(pid, reason)
            desk.turn()
            self.assertEqual(desk.receive(watcher), p.Item("down", pid, monitor, reason))

    def test_settings_at_their_bounds(self) -> None:
        for config in (p.Config(1, 1, 1, 0), p.Config(2**16, 2**32 - 1, 2**16, 2**62)):
            (desk,) = p.open_node(1, config)
            self.assertEqual(desk.clock(), config.start)
        self.assertEqual(len(p.open_node(64, p.Config(slots=1, lane=1))), 64)
        past = {"slots": (0, 2**16 + 1), "top_version": (0,), "lane": (0, 2**16 + 1), "start": (2**62 + 1,)}
        for setting, values in past.items():
            for value in values:
                with self.assertRaises(p.Fault) as caught:
                    p.open_node(1, p.Config()._replace(**{setting: value}))
                self.assertEqual(caught.exception.code.name, f"BAD_{setting.upper()}")
        for count in (0, 65, 255):
            with self.assertRaises(p.Fault) as caught:
                p.open_node(count)
            self.assertEqual(caught.exception.code, p.Code.BAD_DESKS)

    def test_a_value_of_a_subclass_is_checked_as_it_crosses(self) -> None:
        (desk,) = p.open_node()
        pid = desk.spawn()
        self.assertTrue(desk.alive(loose(pid)))
        for bad in (loose(pid, shard=256), loose(pid, slot=2**32), loose(pid, version=1.0)):
            calls: list[Callable[[], object]] = [
                lambda: desk.alive(bad), lambda: desk.send(pid, pid, p.Body(1, 1, bad)),
                lambda: desk.receive(pid, p.Pick("from", bad))]
            for call in calls:
                self.assertRaises((TypeError, ValueError), call)
        monitor = loose(p.Ref(0, 1), number=2**64)
        calls = [
            lambda: desk.demonitor(pid, monitor), lambda: desk.receive(pid, p.Pick("down-of", monitor)),
            lambda: desk.send(pid, pid, loose(p.Body(1, 1), num=2**63)), lambda: desk.exit(pid, loose(p.NORMAL, name="crash")),
            lambda: desk.receive(pid, loose(p.ANY, what=1)), lambda: p.open_node(1, loose(p.Config(), lane=-1))]
        for call in calls:
            self.assertRaises((TypeError, ValueError), call)
        self.assertEqual(desk.clock(), 1)

    def test_a_desk_is_made_of_a_handle_alone(self) -> None:
        wrong: list[Any] = [1, None, object()]
        for bad in wrong:
            with self.assertRaisesRegex(TypeError, "handle is .* and must be of type CHandle"):
                p.Desk(bad, None, 0, 1)

    def test_a_crew_is_made_of_a_desk_alone(self) -> None:
        wrong: list[Any] = [None, 0, 1, True, "desk", (), p.open_node(), p.Gathered(), p.Desk, object()]
        for bad in wrong:
            with mock.patch.object(p, "lib", Recorder()) as recorder:
                with self.assertRaisesRegex(TypeError, "desk is .* and must be of type Desk"):
                    p.Crew(bad)
            self.assertEqual(recorder.calls, [])

    def test_a_fault_has_a_code(self) -> None:
        wrong: list[Any] = [1, "full", None, True]
        for bad in wrong:
            with self.assertRaisesRegex(TypeError, "code is .* and must be of type Code"):
                p.Fault(bad)

    def test_a_fault_has_pids(self) -> None:
        wrong: list[Any] = [1, [p.Pid(0, 0, 1)], ("<0.0.1>",), (p.Pid(0, 0, 1), (0, 0, 1)), (None,)]
        for bad in wrong:
            with self.assertRaisesRegex(TypeError, "pids.* is .* and must be of type "):
                p.Fault(p.Code.GONE, "send", bad)

    def test_a_fault_is_pickled(self) -> None:
        fault = pickle.loads(pickle.dumps(p.Unsettled(p.Code.MEMORY)))
        self.assertEqual((type(fault), fault.code, str(fault)), (p.Unsettled, p.Code.MEMORY, "memory"))


if __name__ == "__main__":
    unittest.main()
