"""What a field of a value or a parameter of a call takes, for the tests: values that pass, and values that are refused.

`SHAPES` has a row for each form of each value type, and a field that is in none of them fails the tests.
"""

from __future__ import annotations

import enum
import fractions
import random
from typing import Any, Iterator

import pundewo.values as v


class Index:
    """Not an int, though it can be used as one."""

    def __index__(self) -> int:
        return 1


class Small(enum.IntEnum):
    ONE = 1


class Domain:
    """The values that pass at one place."""

    def good(self, draw: random.Random) -> Any:
        """A value that passes."""
        raise NotImplementedError

    def bounds(self) -> list[Any]:
        """The values at the bounds, which all pass."""
        return []

    def bad(self, draw: random.Random) -> Iterator[Any]:
        """Values that are refused, by TypeError or ValueError."""
        raise NotImplementedError


class Ints(Domain):
    """The ints from `low` to `high`."""

    def __init__(self, low: int, high: int):
        self.low, self.high = low, high

    def good(self, draw: random.Random) -> int:
        near = draw.randrange(min(2**draw.randrange(1, 65), self.high - self.low + 1))
        return draw.choice([self.low + near, self.high - near, *self.bounds()])

    def bounds(self) -> list[int]:
        return [self.low, self.high]

    def bad(self, draw: random.Random) -> Iterator[Any]:
        yield from (self.low - 1, self.high + 1, -self.high - 2, self.high + 9, 10**6000, -(10**6000))
        # what wraps to a number in range, at each width
        for width in (8, 16, 32, 64, 128):
            for near in (self.good(draw), 0, 1, 8):
                for far in (near + 2**width, near - 2**width, near + draw.randrange(1, 2**64) * 2**width):
                    if not self.low <= far <= self.high:
                        yield far
        yield from (True, False, 1.0, 1.5, float("nan"), float("inf"), 1j, fractions.Fraction(1), Index())
        yield from ("1", b"1", "", None, (), (1,), [1], {1: 1}, object(), int, v.Pid(0, 0, 1), v.Ref(0, 1), v.ANY)


class Flag(Domain):
    """True and False."""

    def good(self, draw: random.Random) -> bool:
        return draw.random() < 0.5

    def bounds(self) -> list[bool]:
        return [False, True]

    def bad(self, draw: random.Random) -> Iterator[Any]:
        yield from (0, 1, 2**70, -1, 1.0, None, "yes", "", b"", (), [True], object(), bool, Small.ONE, v.Pid(0, 0, 1))


class Fixed(Flag):
    """One of True and False."""

    def __init__(self, value: bool):
        self.value = value

    def good(self, draw: random.Random) -> bool:
        return self.value

    def bounds(self) -> list[bool]:
        return [self.value]


class Only(Domain):
    """One of these values. A name of another shape is not among the bad ones: with it, another field is refused."""

    def __init__(self, *values: Any):
        self.values = values

    def good(self, draw: random.Random) -> Any:
        return draw.choice(self.values)

    def bounds(self) -> list[Any]:
        return list(self.values)

    def bad(self, draw: random.Random) -> Iterator[Any]:
        yield from (7, -7, 2**70, True, 1.5, "Normal", "", b"normal", ("normal",), object(), str)
        yield from [value for value in (None, 0, "crash") if value not in self.values]
        yield v.Pid(0, 0, 1)


class A(Domain):
    """The values of a type, by its shapes; where it is an option, None too."""

    def __init__(self, kind: type, option: bool = False):
        self.kind, self.option = kind, option

    def good(self, draw: random.Random) -> Any:
        if self.option and draw.random() < 0.3:
            return None
        return self.kind(**draw_fields(draw, draw.choice(SHAPES[self.kind])))

    def bounds(self) -> list[Any]:
        draw = random.Random(0)
        values = [
            self.kind(**{**draw_fields(draw, shape), field: bound})
            for shape in SHAPES[self.kind] for field, domain in shape.items() for bound in domain.bounds()]
        return values + [None] * self.option

    def bad(self, draw: random.Random) -> Iterator[Any]:
        for kind in SHAPES:
            if kind is not self.kind:
                yield A(kind).good(draw)
        value = self.good(draw)
        yield from (0, 1, 2**70, True, 1.5, "", "normal", "<0.0.1>", b"x", (), (0, 0, 1), [0, 0, 1], object())
        yield self.kind
        if isinstance(value, tuple):
            yield tuple(value)
        if not self.option:
            yield None


class Codes(Domain):
    """None and the codes that calls answer."""

    def good(self, draw: random.Random) -> Any:
        return draw.choice([None, *v.Code])

    def bounds(self) -> list[Any]:
        return [None, *v.Code]

    def bad(self, draw: random.Random) -> Iterator[Any]:
        yield from (0, 2, 99, -1, True, "memory", 2.0, object(), v.Code, v.Pid(0, 0, 1))


class Words(Domain):
    """The tuples of so many values, each of its own domain."""

    def __init__(self, *domains: Domain):
        self.domains = domains

    def good(self, draw: random.Random) -> tuple[Any, ...]:
        return tuple(domain.good(draw) for domain in self.domains)

    def bad(self, draw: random.Random) -> Iterator[Any]:
        good = self.good(draw)
        yield from ((), good + (1,), good[:-1], list(good), None, 0, "x", object())
        for place, domain in enumerate(self.domains):
            for bad in domain.bad(draw):
                yield good[:place] + (bad,) + good[place + 1:]


class Items(Domain):
    """Tuples of items."""

    def good(self, draw: random.Random) -> tuple[v.Item, ...]:
        return tuple(ITEM.good(draw) for _ in range(draw.randrange(4)))

    def bounds(self) -> list[Any]:
        return [()]

    def bad(self, draw: random.Random) -> Iterator[Any]:
        item = ITEM.good(draw)
        yield from (None, 0, item, [item], [], "", (item, None), (0,), ((item,),), (v.ANY,), object(), tuple)


BYTE, WORD, LONG, SIGNED = Ints(0, 2**8 - 1), Ints(0, 2**32 - 1), Ints(0, 2**64 - 1), Ints(-(2**63), 2**63 - 1)
SHORT = Ints(0, 2**16 - 1)
PID, REF, LINK, IDS, REASON, BODY, ITEM, PICK, SIGNAL, NEXT = map(
    A, (v.Pid, v.Ref, v.LinkId, v.Ids, v.Reason, v.Body, v.Item, v.Pick, v.Signal, v.Next))
CONFIG, NOTHING = A(v.Config), Only(None)


def _item(name: str, **has: Domain) -> dict[str, Domain]:
    rest = {"reference": NOTHING, "reason": NOTHING, "body": NOTHING, "alive": NOTHING}
    return {"name": Only(name), "pid": PID, **rest, **has}


def _event(name: str, **has: Domain) -> dict[str, Domain]:
    rest = dict.fromkeys(("peer", "link", "reason", "pick", "item", "signal", "on"), NOTHING)
    return {"stamp": LONG, "desk": BYTE, "name": Only(name), "pid": PID, **rest, **has}


def _next(*names: str, **has: Domain) -> dict[str, Domain]:
    return {"name": Only(*names), "pick": NOTHING, "until": NOTHING, "reason": NOTHING, **has}


def _job(*names: str, **has: Domain) -> dict[str, Domain]:
    rest = {**dict.fromkeys(("item", "reason", "was", "supervisor"), NOTHING), "again": Only(False)}
    return {"name": Only(*names), "pid": PID, "tag": LONG, **rest, **has}


SHAPES: dict[type, list[dict[str, Domain]]] = {
    v.Pid: [{"shard": BYTE, "slot": WORD, "version": WORD}],
    v.Ref: [{"desk": BYTE, "number": LONG}],
    v.LinkId: [{"desk": BYTE, "number": LONG}],
    v.Ids: [{"one": LINK, "two": A(v.LinkId, True)}],
    v.Reason: [{"name": Only(*v.REASONS), "number": Only(0)}, {"name": Only("other"), "number": WORD}],
    v.Body: [{"kind": WORD, "num": SIGNED, "who": A(v.Pid, True)}],
    v.Item: [_item("user", body=BODY), _item("exit", reason=REASON), _item("down", reference=REF, reason=REASON),
             _item("alive", reference=REF, alive=Flag())],
    v.Pick: [{"name": Only("kind"), "what": WORD}, {"name": Only("from", "exit-of"), "what": PID},
             {"name": Only("down-of", "alive-of"), "what": REF}, {"name": Only("any"), "what": NOTHING}],
    v.Signal: [{"name": Only(name), "words": words} for name, words in (
        ("message", Words(BODY)), ("link", Words(LINK)), ("unlink", Words(IDS)), ("exit", Words(REASON)),
        ("link-exit", Words(IDS, REASON)), ("monitor", Words(REF)), ("demonitor", Words(REF)), ("down", Words(REF, REASON)),
        ("alive-ask", Words(REF)), ("alive-say", Words(REF, Flag())))],
    v.Event: [_event("born", peer=A(v.Pid, True), link=A(v.LinkId, True)), _event("said", peer=PID, signal=SIGNAL),
              _event("came", peer=PID, signal=SIGNAL), _event("took", pick=PICK, item=ITEM), _event("flag", on=Flag()),
              _event("left", reason=REASON), _event("refused", peer=PID)],
    v.LeftOver: [{"from_desk": BYTE, "to_desk": BYTE, "sender": PID, "to": PID, "signal": SIGNAL, "stamp": LONG}],
    v.Turned: [{"posted": LONG, "handled": LONG, "stopped": Codes()}],
    v.Account: [{"ended": A(v.Reason, True), "arrived": LONG, "taken": LONG, "waiting": LONG}],
    v.Loss: [{"pid": PID, "reason": A(v.Reason, True), "items": Items()}],
    v.Next: [_next("wait", pick=PICK), _next("wait-until", pick=PICK, until=LONG), _next("proceed", "running"),
             _next("stop", reason=REASON)],
    v.Job: [_job("proceed", "timeout"), _job("start", supervisor=A(v.Pid, True), again=Fixed(False)),
            _job("start", supervisor=PID, again=Fixed(True)), _job("item", item=ITEM), _job("exit", reason=REASON, was=NEXT)],
    v.Config: [{"slots": WORD, "top_version": WORD, "lane": WORD, "start": LONG}],
}


def draw_fields(draw: random.Random, shape: dict[str, Domain]) -> dict[str, Any]:
    return {field: domain.good(draw) for field, domain in shape.items()}
