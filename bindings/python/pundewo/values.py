"""The values of the table, with the texts that Rattle prints. They need no library.

A value checks its fields when it is made, by its class, `_make`, `_replace` or `pickle`. A field of a wrong type is a
TypeError, and a number or a name out of its range is a ValueError. The text of the error has the field, what it got,
and what it takes.

A number is an int. A member of an IntEnum is one too, and is kept as a plain int. A bool is no number, and a flag is a
bool alone.
"""

from __future__ import annotations

from dataclasses import dataclass
from typing import TYPE_CHECKING, Any, Callable, Iterable, NamedTuple, Optional, Sequence, TypeVar, Union

from ._abi import (
    CONFIG_DEFAULT, EVENT_CODES, ITEM_CODES, JOB_CODES, NEXT_CODES, PICK_CODES, REASON_CODES, SIGNAL_CODES,
)
from ._abi import Code as Code

T = TypeVar("T")

U8 = 2**8 - 1
U16 = 2**16 - 1
U32 = 2**32 - 1
U64 = 2**64 - 1
I64 = 2**63 - 1


def shown(value: object) -> str:
    """What an error says of a value: its repr, or the size of an int that is too long to read."""
    if isinstance(value, int) and int.bit_length(value) > 128:
        return f"an int of {int.bit_length(value)} bits"
    try:
        text = repr(value)
    except Exception:  # whatever a type of the caller's own raises must not hide the error that names the field
        text = f"a value of type {type(value).__name__}"
    return text if len(text) <= 80 else text[:77] + "..."


def number(field: str, value: object, low: int, high: int) -> int:
    """The value as a plain int of this range."""
    if type(value) is int and low <= value <= high:
        return value
    wanted = f"an int from {low} to {high}" if low < high else str(low)
    if not isinstance(value, int) or isinstance(value, bool):
        raise TypeError(f"{field} is {shown(value)}, and must be {wanted}")
    plain = int.__index__(value)
    if not low <= plain <= high:
        raise ValueError(f"{field} is {shown(plain)}, and must be {wanted}")
    return plain


def flag(field: str, value: object) -> bool:
    """The value, which is a bool."""
    if value is True or value is False:
        return value
    raise TypeError(f"{field} is {shown(value)}, and must be True or False")


def one_of(field: str, value: object, names: Sequence[str]) -> str:
    """The one of the names that the value is."""
    if isinstance(value, str) and value in names:
        return names[names.index(value)]
    kind = ValueError if isinstance(value, str) else TypeError
    raise kind(f"{field} is {shown(value)}, and must be one of {', '.join(names)}")


def of_type(field: str, value: object, kind: type[T]) -> T:
    """The value, which is of this type."""
    if isinstance(value, kind):
        return value
    raise TypeError(f"{field} is {shown(value)}, and must be of type {kind.__name__}")


def part(field: str, value: object, kind: type[T], is_there: bool = True) -> Optional[T]:
    """The value, which is of this type if the field belongs to the rest, and else None."""
    if is_there:
        return of_type(field, value, kind)
    if value is None:
        return None
    raise TypeError(f"{field} is {shown(value)}, and must be None here")


def maybe(field: str, value: object, kind: type[T]) -> Optional[T]:
    """The value, which is None or of this type."""
    if value is None or isinstance(value, kind):
        return value
    raise TypeError(f"{field} is {shown(value)}, and must be None or of type {kind.__name__}")


# A named tuple of checked fields without the checks, for fields that the library wrote.
unchecked: Callable[[type[T], tuple[Any, ...]], T] = tuple.__new__


class _Checked:
    """Makes each way to a new value one that checks: the named tuple's own `_make`, and so `_replace`, does not."""

    __slots__ = ()

    # (a type checker sees the named tuple's own, of the same type)
    if not TYPE_CHECKING:
        @classmethod
        def _make(cls, iterable: Iterable[Any]) -> Any:
            return cls(*iterable)


class _Pid(NamedTuple):
    shard: int
    slot: int
    version: int


class Pid(_Checked, _Pid):
    """The name of a process: its desk, its slot there, and how often the slot was given out."""

    __slots__ = ()

    def __new__(cls, shard: int, slot: int, version: int) -> Pid:
        return unchecked(cls, (number("Pid.shard", shard, 0, U8), number("Pid.slot", slot, 0, U32),
                               number("Pid.version", version, 0, U32)))

    def __str__(self) -> str:
        return f"<{self.shard}.{self.slot}.{self.version}>"


class _Ref(NamedTuple):
    desk: int
    number: int


class Ref(_Checked, _Ref):
    """The reference of a monitor or of a question."""

    __slots__ = ()

    def __new__(cls, desk: int, number: int) -> Ref:
        return unchecked(cls, _stamped("Ref", desk, number))

    def __str__(self) -> str:
        return f"#{self.desk}.{self.number}"


class _LinkId(NamedTuple):
    desk: int
    number: int


class LinkId(_Checked, _LinkId):
    """The id of a link."""

    __slots__ = ()

    def __new__(cls, desk: int, number: int) -> LinkId:
        return unchecked(cls, _stamped("LinkId", desk, number))

    def __str__(self) -> str:
        return f"~{self.desk}.{self.number}"


def _stamped(kind: str, desk: object, stamp: object) -> tuple[int, int]:
    return number(f"{kind}.desk", desk, 0, U8), number(f"{kind}.number", stamp, 0, U64)


class _Ids(NamedTuple):
    one: LinkId
    two: Optional[LinkId]


class Ids(_Checked, _Ids):
    """The ids under which two processes are linked."""

    __slots__ = ()

    def __new__(cls, one: LinkId, two: Optional[LinkId]) -> Ids:
        return unchecked(cls, (of_type("Ids.one", one, LinkId), maybe("Ids.two", two, LinkId)))

    def __str__(self) -> str:
        return str(self.one) if self.two is None else f"{self.one}+{self.two}"


# The reasons without a number: all but "other".
REASONS = REASON_CODES[:-1]


class _Reason(NamedTuple):
    name: str
    number: int


class Reason(_Checked, _Reason):
    """An exit reason: one of REASONS, or "other" with a number of the caller's own."""

    __slots__ = ()

    def __new__(cls, name: str, number: int = 0) -> Reason:
        name = one_of("Reason.name", name, REASON_CODES)
        return unchecked(cls, (name, _reason_number(number, U32 if name == "other" else 0)))

    def __str__(self) -> str:
        return f"other:{self.number}" if self.name == "other" else self.name


def _reason_number(value: object, high: int) -> int:
    return number("Reason.number", value, 0, high)


NORMAL, KILL, KILLED, NOPROC, SHUTDOWN = map(Reason, REASONS)


class _Body(NamedTuple):
    kind: int
    num: int
    who: Optional[Pid]


class Body(_Checked, _Body):
    """What a message holds: a kind, a number, and a process that it speaks of."""

    __slots__ = ()

    def __new__(cls, kind: int, num: int, who: Optional[Pid] = None) -> Body:
        return unchecked(cls, (number("Body.kind", kind, 0, U32), number("Body.num", num, -I64 - 1, I64),
                               maybe("Body.who", who, Pid)))

    def __str__(self) -> str:
        return f"{self.kind} {self.num}" + (f" who {self.who}" if self.who is not None else "")


ITEMS = ITEM_CODES
_ITEM_FIELDS = {"user": ("body",), "exit": ("reason",), "down": ("reference", "reason"),
                "alive": ("reference", "alive")}


class _Item(NamedTuple):
    name: str
    pid: Pid
    reference: Optional[Ref]
    reason: Optional[Reason]
    body: Optional[Body]
    alive: Optional[bool]


class Item(_Checked, _Item):
    """An item of a mailbox; `name` is one of ITEMS, and what does not belong to it is None."""

    __slots__ = ()

    def __new__(cls, name: str, pid: Pid, reference: Optional[Ref] = None, reason: Optional[Reason] = None,
                body: Optional[Body] = None, alive: Optional[bool] = None) -> Item:
        name = one_of("Item.name", name, ITEMS)
        has = _ITEM_FIELDS[name]
        return unchecked(cls, (
            name, of_type("Item.pid", pid, Pid), part("Item.reference", reference, Ref, "reference" in has),
            part("Item.reason", reason, Reason, "reason" in has), part("Item.body", body, Body, "body" in has),
            part("Item.alive", alive, bool, "alive" in has)))

    def __str__(self) -> str:
        alive = None if self.alive is None else "yes" if self.alive else "no"
        words = (self.name, self.reference, self.pid, self.reason, self.body, alive)
        return " ".join(str(word) for word in words if word is not None)


PICKS = PICK_CODES


class _Pick(NamedTuple):
    name: str
    what: Union[None, int, Pid, Ref]


class Pick(_Checked, _Pick):
    """Which items a receive takes: one of PICKS, with the kind, the pid or the reference that it asks for."""

    __slots__ = ()

    def __new__(cls, name: str = "any", what: Union[None, int, Pid, Ref] = None) -> Pick:
        name = one_of("Pick.name", name, PICKS)
        if name == "kind":
            what = number("Pick.what", what, 0, U32)
        elif name in ("from", "exit-of"):
            what = of_type("Pick.what", what, Pid)
        else:
            what = part("Pick.what", what, Ref, name != "any")
        return unchecked(cls, (name, what))

    def __str__(self) -> str:
        return self.name if self.name == "any" else f"{self.name} {self.what}"


ANY = Pick()
NEXTS = NEXT_CODES


class _Next(NamedTuple):
    name: str
    pick: Optional[Pick]
    until: Optional[int]
    reason: Optional[Reason]


class Next(_Checked, _Next):
    """What a process of a crew does next; `name` is one of NEXTS, and what does not belong to it is None.

    "wait" has a pick; "wait-until" has a pick and a time; "stop" has a reason.
    """

    __slots__ = ()

    def __new__(cls, name: str, pick: Optional[Pick] = None, until: Optional[int] = None,
                reason: Optional[Reason] = None) -> Next:
        name = one_of("Next.name", name, NEXTS)
        until = number("Next.until", until, 0, U64) if name == "wait-until" else part("Next.until", until, int, False)
        return unchecked(cls, (name, part("Next.pick", pick, Pick, name in ("wait", "wait-until")), until,
                               part("Next.reason", reason, Reason, name == "stop")))

    def __str__(self) -> str:
        return " ".join(str(word) for word in (self.name, self.until, self.pick, self.reason) if word is not None)


class _Loss(NamedTuple):
    pid: Pid
    reason: Optional[Reason]
    items: tuple[Item, ...]


class Loss(_Checked, _Loss):
    """What a desk lost by one event: items that nobody will ever take.

    `reason` is that of the exit of the process, and None if it was not alive as the message came. An exit is a loss also if
    nothing waited: `items` is empty then.
    """

    __slots__ = ()

    def __new__(cls, pid: Pid, reason: Optional[Reason], items: tuple[Item, ...]) -> Loss:
        for place, item in enumerate(of_type("Loss.items", items, tuple)):
            of_type(f"Loss.items[{place}]", item, Item)
        return unchecked(cls, (of_type("Loss.pid", pid, Pid), maybe("Loss.reason", reason, Reason), items))


PROCEED, RUNNING = Next("proceed"), Next("running")
JOBS = JOB_CODES


class _Job(NamedTuple):
    name: str
    pid: Pid
    tag: int
    item: Optional[Item]
    reason: Optional[Reason]
    was: Optional[Next]
    supervisor: Optional[Pid]
    again: bool


class Job(_Checked, _Job):
    """What a process of a crew is told; `name` is one of JOBS, and what does not belong to it is None.

    "item" has an item. "exit" has the reason, and in `was` what the process was to do. The reason is that of the process's
    own exit. If an exit signal ended the process, or it exited while its node was settled, it is the one that the desk's
    loss told (`Crew.next_loss`), or NOPROC if none did. "start" has the supervisor that started the process, if one did, and
    in `again` whether a child in the same place had exited before.
    """

    __slots__ = ()

    def __new__(cls, name: str, pid: Pid, tag: int, item: Optional[Item] = None, reason: Optional[Reason] = None,
                was: Optional[Next] = None, supervisor: Optional[Pid] = None, again: bool = False) -> Job:
        name = one_of("Job.name", name, JOBS)
        if name == "start":
            supervisor = maybe("Job.supervisor", supervisor, Pid)
        if flag("Job.again", again) and supervisor is None:
            raise ValueError("Job.again is True, and Job.supervisor must be the process that started this one")
        return unchecked(cls, (
            name, of_type("Job.pid", pid, Pid), number("Job.tag", tag, 0, U64),
            part("Job.item", item, Item, name == "item"), part("Job.reason", reason, Reason, name == "exit"),
            part("Job.was", was, Next, name == "exit"),
            supervisor if name == "start" else part("Job.supervisor", supervisor, Pid, False), again))

    def __str__(self) -> str:
        words = (self.name, self.pid, self.tag, self.item, self.reason, self.was)
        under = "" if self.supervisor is None else f" under {self.supervisor}"
        return " ".join(str(word) for word in words if word is not None) + under + " again" * self.again


SIGNALS = SIGNAL_CODES
_SIGNAL_WORDS: dict[str, tuple[type, ...]] = {
    "message": (Body,), "link": (LinkId,), "unlink": (Ids,), "exit": (Reason,), "link-exit": (Ids, Reason),
    "monitor": (Ref,), "demonitor": (Ref,), "down": (Ref, Reason), "alive-ask": (Ref,), "alive-say": (Ref, bool),
}


class _Signal(NamedTuple):
    name: str
    words: tuple[Any, ...]


class Signal(_Checked, _Signal):
    """What one process sends another: one of SIGNALS, with what it carries, in the order in which it is printed."""

    __slots__ = ()

    def __new__(cls, name: str, words: tuple[Any, ...]) -> Signal:
        name = one_of("Signal.name", name, SIGNALS)
        kinds = _SIGNAL_WORDS[name]
        if len(of_type("Signal.words", words, tuple)) != len(kinds):
            raise ValueError(f"Signal.words has {len(words)} words, and must have {len(kinds)}")
        for place, kind in enumerate(kinds):
            of_type(f"Signal.words[{place}]", words[place], kind)
        return unchecked(cls, (name, words))

    def __str__(self) -> str:
        texts = ("yes" if word is True else "no" if word is False else str(word) for word in self.words)
        return " ".join([self.name, *texts])


EVENTS = EVENT_CODES
_EVENT_FIELDS = {"born": (), "said": ("peer", "signal"), "came": ("peer", "signal"), "took": ("pick", "item"),
                 "flag": ("on",), "left": ("reason",), "refused": ("peer",)}


@dataclass(frozen=True)
class Event:
    """What happened: one of EVENTS, with its stamp, its desk and the process whose event it is."""

    stamp: int
    desk: int
    name: str
    pid: Pid
    peer: Optional[Pid] = None
    link: Optional[LinkId] = None
    reason: Optional[Reason] = None
    pick: Optional[Pick] = None
    item: Optional[Item] = None
    signal: Optional[Signal] = None
    on: Optional[bool] = None

    def __post_init__(self) -> None:
        plain = {"stamp": number("Event.stamp", self.stamp, 0, U64), "desk": number("Event.desk", self.desk, 0, U8),
                 "name": one_of("Event.name", self.name, EVENTS)}
        for field, value in plain.items():
            object.__setattr__(self, field, value)
        of_type("Event.pid", self.pid, Pid)
        has = _EVENT_FIELDS[self.name]
        if self.name == "born":
            maybe("Event.peer", self.peer, Pid)
            maybe("Event.link", self.link, LinkId)
        else:
            part("Event.peer", self.peer, Pid, "peer" in has)
            part("Event.link", self.link, LinkId, False)
        part("Event.reason", self.reason, Reason, "reason" in has)
        part("Event.pick", self.pick, Pick, "pick" in has)
        part("Event.item", self.item, Item, "item" in has)
        part("Event.signal", self.signal, Signal, "signal" in has)
        part("Event.on", self.on, bool, "on" in has)

    def __str__(self) -> str:
        head = f"{self.stamp}@{self.desk} {self.name} "
        if self.name == "born":
            parent = "" if self.peer is None else f" by {self.peer}"
            return head + f"{self.pid}{parent}" + ("" if self.link is None else f" link {self.link}")
        if self.name == "said":
            return head + f"{self.pid} -> {self.peer} {self.signal}"
        if self.name == "came":
            return head + f"{self.peer} -> {self.pid} {self.signal}"
        if self.name == "took":
            return head + f"{self.pid} {self.pick} = {self.item}"
        if self.name == "flag":
            return head + f"{self.pid} " + ("on" if self.on else "off")
        if self.name == "left":
            return head + f"{self.pid} {self.reason}"
        return head + f"{self.pid} -> {self.peer}"


class _LeftOver(NamedTuple):
    from_desk: int
    to_desk: int
    sender: Pid
    to: Pid
    signal: Signal
    stamp: int


class LeftOver(_Checked, _LeftOver):
    """A letter that was sent and had not come when the desks were gathered."""

    __slots__ = ()

    def __new__(cls, from_desk: int, to_desk: int, sender: Pid, to: Pid, signal: Signal, stamp: int) -> LeftOver:
        return unchecked(cls, (
            number("LeftOver.from_desk", from_desk, 0, U8), number("LeftOver.to_desk", to_desk, 0, U8),
            of_type("LeftOver.sender", sender, Pid), of_type("LeftOver.to", to, Pid),
            of_type("LeftOver.signal", signal, Signal), number("LeftOver.stamp", stamp, 0, U64)))

    def __str__(self) -> str:
        return f"left-over {self.from_desk} -> {self.to_desk} {self.sender} -> {self.to} {self.signal} @{self.stamp}"


class _Turned(NamedTuple):
    posted: int
    handled: int
    stopped: Optional[Code]


class Turned(_Checked, _Turned):
    """What a turn did, and why it stopped at a letter, which stays."""

    __slots__ = ()

    def __new__(cls, posted: int, handled: int, stopped: Optional[Code]) -> Turned:
        return unchecked(cls, (number("Turned.posted", posted, 0, U64), number("Turned.handled", handled, 0, U64),
                               maybe("Turned.stopped", stopped, Code)))


class _Account(NamedTuple):
    ended: Optional[Reason]
    arrived: int
    taken: int
    waiting: int


class Account(_Checked, _Account):
    """What became of a process."""

    __slots__ = ()

    def __new__(cls, ended: Optional[Reason], arrived: int, taken: int, waiting: int) -> Account:
        return unchecked(cls, (
            maybe("Account.ended", ended, Reason), number("Account.arrived", arrived, 0, U64),
            number("Account.taken", taken, 0, U64), number("Account.waiting", waiting, 0, U64)))


class _Config(NamedTuple):
    slots: int
    top_version: int
    lane: int
    start: int


class Config(_Checked, _Config):
    """The settings of a node: slots of a desk, greatest version of a slot, letters that a lane holds, and the start of
    the clocks. `open_node` raises a Fault if one is out of the table's own range."""

    __slots__ = ()

    def __new__(cls, slots: int = CONFIG_DEFAULT[0], top_version: int = CONFIG_DEFAULT[1], lane: int = CONFIG_DEFAULT[2],
                start: int = CONFIG_DEFAULT[3]) -> Config:
        return unchecked(cls, (
            number("Config.slots", slots, 0, U32), number("Config.top_version", top_version, 0, U32),
            number("Config.lane", lane, 0, U32), number("Config.start", start, 0, U64)))
