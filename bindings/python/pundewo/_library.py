"""The shared library, and what crosses into it and out of it. `_abi` has its structs and its calls."""

from __future__ import annotations

import ctypes as c
import os
import struct
from pathlib import Path
from typing import Any, Callable, Iterator, TypeVar

from ._abi import (
    ABOUT, CALLS, CBody, CEvent, CIds, CItem, CJob, CLeftOver, CNext, CPick, CPid, CReason, CRef, CSignal,
)
from .values import (
    EVENTS, ITEMS, JOBS, NEXTS, PICKS, REASONS, SIGNALS, Body, Event, Ids, Item, Job, LeftOver, LinkId, Next, Pick,
    Pid, Reason, Ref, Signal, of_type, unchecked,
)

V = TypeVar("V")


# How a number of a struct is read out of its bytes.
_LETTERS: dict[Any, str] = {c.c_bool: "?", c.c_uint8: "B", c.c_uint32: "I", c.c_uint64: "Q", c.c_int64: "q"}


def reader(kind: type[c.Structure], *paths: str) -> struct.Struct:
    """What reads these numbers out of the bytes of a struct, all at once, which takes less time than one at a time. They are
    in the order in which the struct has them."""
    form, end = "=", 0
    for path in paths:
        at, part = 0, kind  # type: int, Any
        for name in path.split("."):
            at, part = at + getattr(part, name).offset, dict(part._fields_)[name]
        form += f"{at - end}x{_LETTERS[part]}"
        end = at + c.sizeof(part)
    return struct.Struct(form + f"{c.sizeof(kind) - end}x")


def _pid_paths(path: str) -> tuple[str, ...]:
    return f"{path}.shard", f"{path}.slot", f"{path}.version"


def load() -> c.CDLL:
    """The shared library: the one that PUNDEWO_SO names, else the one in this package's folder."""
    path = os.environ.get("PUNDEWO_SO") or str(Path(__file__).with_name("libpundewo.so"))
    try:
        return c.CDLL(path)
    except OSError as error:
        raise ImportError(
            f"pundewo: the shared library does not load ({error}). `bindings/build.sh FOLDER` makes it; name it by "
            "PUNDEWO_SO, or install the package with it: see docs/RUNTIME_PYTHON.md") from None


def other(what: str) -> ImportError:
    """The error of a library that is not that of this package."""
    return ImportError(
        f"pundewo: {lib._name} {what}, so it is not of the same sources as this package: make it by `bindings/build.sh FOLDER`")


def build_of(library: c.CDLL) -> str:
    """What the library says of itself."""
    try:
        return c.string_at(c.addressof(c.c_char.in_dll(library, "pundewo_build"))).decode()
    except ValueError:
        raise other("does not say what it is") from None


lib = load()

# The name and the version of the library, and whether it was proved.
BUILD = build_of(lib)


def _declare() -> None:
    for calls, returned in ((CALLS, c.c_uint32), (ABOUT, None)):
        for name, kinds in calls.items():
            call = getattr(lib, name, None)
            if call is None:
                raise other(f"is {BUILD}, and has no call {name}")
            call.argtypes, call.restype = kinds, returned


_declare()


# The same library, whose calls do not give Python's lock to other threads. To give it and to take it again costs as much as a
# short call does.
_short = c.PyDLL(lib._name, handle=lib._handle)


def bare(name: str) -> Callable[..., int]:
    """The same call, whose words are not looked at again: each has to be of the type that crosses. It takes a third of the
    time. Bytes cross as a pointer to them. The call is to be a short one, since no other thread runs meanwhile."""
    call = _short[name]
    call.restype = c.c_uint32
    return call


SEND, STEP, ANSWER, SET_TIME = map(bare, ("pt_send", "pt_crew_step", "pt_crew_answer", "pt_crew_set_time"))
ASK, HEAR, REPLY, EXPIRE = map(bare, ("pt_ask_until", "pt_hear", "pt_reply", "pt_expire"))
START_TIMER, CANCEL_TIMER = map(bare, ("pt_timers_start", "pt_timers_cancel"))


# What crosses out of the library. Its structs have numbers of the right widths alone, so these are not checked again.
def pid_of(p: CPid) -> Pid:
    return unchecked(Pid, (p.shard, p.slot, p.version))


def ref_of(m: CRef) -> Ref:
    return unchecked(Ref, (m.desk, m.number))


def link_of(i: CRef) -> LinkId:
    return unchecked(LinkId, (i.desk, i.number))


def ids_of(ids: CIds) -> Ids:
    return unchecked(Ids, (link_of(ids.one), link_of(ids.two) if ids.has_two else None))


def reason_from(code: int, number: int) -> Reason:
    return unchecked(Reason, (REASONS[code], 0) if code < len(REASONS) else ("other", number))


def reason_of(r: CReason) -> Reason:
    return reason_from(r.code, r.number)


def body_of(b: CBody) -> Body:
    return unchecked(Body, (b.kind, b.num, pid_of(b.who) if b.has_who else None))


def item_of(i: CItem) -> Item:
    name = ITEMS[i.code]
    return unchecked(Item, (
        name, pid_of(i.pid), ref_of(i.reference) if name in ("down", "alive") else None,
        reason_of(i.reason) if name in ("exit", "down") else None, body_of(i.body) if name == "user" else None,
        i.alive if name == "alive" else None))


def pick_of(k: CPick) -> Pick:
    name, what = PICKS[min(k.code, 5)], None
    if name == "kind":
        what = k.kind
    elif name in ("from", "exit-of"):
        what = pid_of(k.pid)
    elif name in ("down-of", "alive-of"):
        what = ref_of(k.reference)
    return unchecked(Pick, (name, what))


def signal_of(x: CSignal) -> Signal:
    name = SIGNALS[x.code]
    return unchecked(Signal, (name, _WORDS[name](x) if name in _WORDS else (ref_of(x.reference),)))


_WORDS: dict[str, Callable[[CSignal], tuple[Any, ...]]] = {
    "message": lambda x: (body_of(x.body),), "link": lambda x: (link_of(x.ids.one),), "unlink": lambda x: (ids_of(x.ids),),
    "exit": lambda x: (reason_of(x.reason),), "link-exit": lambda x: (ids_of(x.ids), reason_of(x.reason)),
    "down": lambda x: (ref_of(x.reference), reason_of(x.reason)), "alive-say": lambda x: (ref_of(x.reference), x.alive),
}


def event_of(e: CEvent) -> Event:
    name = EVENTS[e.code]
    return Event(
        e.stamp, e.desk, name, pid_of(e.pid), pid_of(e.peer) if e.has_peer else None,
        link_of(e.link) if e.has_link else None, reason_of(e.reason) if name == "left" else None,
        pick_of(e.pick) if name == "took" else None, item_of(e.item) if name == "took" else None,
        signal_of(e.signal) if name in ("said", "came") else None, e.on if name == "flag" else None)


_EVENT = reader(
    CEvent, "stamp", "desk", "code", *_pid_paths("pid"), *_pid_paths("peer"), "pick.code", "item.code", *_pid_paths("item.pid"),
    "item.body.kind", "item.body.num", "item.body.has_who", "signal.code", "signal.body.kind", "signal.body.num",
    "signal.body.has_who")
_SAID, _CAME, _TOOK, _ANY = EVENTS.index("said"), EVENTS.index("came"), EVENTS.index("took"), PICKS.index("any")
_MESSAGE, _USER = SIGNALS.index("message"), ITEMS.index("user")


def texts_of(events: c.Array[CEvent], count: int) -> Iterator[str]:
    """What `str(event_of(..))` is of each. (a history has messages above all, and is written by this: so they are read at once)"""
    rows = _EVENT.iter_unpack(memoryview(events).cast("B")[:count * _EVENT.size])
    for place, row in enumerate(rows):
        (stamp, desk, code, shard, slot, version, its_shard, its_slot, its_version, pick, item, from_shard, from_slot,
         from_version, kind, num, who, signal, said_kind, said_num, said_who) = row
        if code == _SAID and signal == _MESSAGE and not said_who:
            yield (f"{stamp}@{desk} said <{shard}.{slot}.{version}> -> <{its_shard}.{its_slot}.{its_version}> "
                   f"message {said_kind} {said_num}")
        elif code == _CAME and signal == _MESSAGE and not said_who:
            yield (f"{stamp}@{desk} came <{its_shard}.{its_slot}.{its_version}> -> <{shard}.{slot}.{version}> "
                   f"message {said_kind} {said_num}")
        elif code == _TOOK and pick == _ANY and item == _USER and not who:
            yield (f"{stamp}@{desk} took <{shard}.{slot}.{version}> any = user <{from_shard}.{from_slot}.{from_version}> "
                   f"{kind} {num}")
        else:
            yield str(event_of(events[place]))


def next_of(n: CNext) -> Next:
    name = NEXTS[n.code]
    return unchecked(Next, (
        name, pick_of(n.pick) if name in ("wait", "wait-until") else None, n.until if name == "wait-until" else None,
        reason_of(n.reason) if name == "stop" else None))


def job_of(j: CJob) -> Job:
    name = JOBS[j.code]
    return unchecked(Job, (
        name, pid_of(j.pid), j.tag, item_of(j.item) if name == "item" else None,
        reason_of(j.reason) if name == "exit" else None, next_of(j.was) if name == "exit" else None,
        pid_of(j.supervisor) if j.has_supervisor else None, j.again))


def left_over_of(l: CLeftOver) -> LeftOver:
    return unchecked(LeftOver, (l.from_desk, l.to_desk, pid_of(l.sender), pid_of(l.to), signal_of(l.signal), l.stamp))


# What crosses into the library. A value was checked when it was made, so only its type is checked here. A value of a
# subclass, which may make its values in another way, is made again.
def own(field: str, value: object, kind: type[V]) -> V:
    return value if type(value) is kind else kind(*of_type(field, value, kind))


def c_pid(field: str, p: Pid) -> CPid:
    return CPid(*(p if type(p) is Pid else own(field, p, Pid)))


def c_ref(field: str, m: Ref) -> CRef:
    return CRef(*own(field, m, Ref))


def c_reason(field: str, reason: Reason) -> CReason:
    name, value = own(field, reason, Reason)
    return CReason(REASONS.index(name) if name in REASONS else len(REASONS), value)


def c_body(field: str, body: Body) -> CBody:
    kind, num, who = body if type(body) is Body else own(field, body, Body)
    return CBody(kind, num) if who is None else CBody(kind, num, True, c_pid(f"{field}.who", who))


def c_item(field: str, item: Item) -> CItem:
    name, pid, reference, reason, body, alive = own(field, item, Item)
    crossing = CItem(code=ITEMS.index(name), pid=c_pid(f"{field}.pid", pid), alive=bool(alive))
    if reference is not None:
        crossing.reference = c_ref(f"{field}.reference", reference)
    if reason is not None:
        crossing.reason = c_reason(f"{field}.reason", reason)
    if body is not None:
        crossing.body = c_body(f"{field}.body", body)
    return crossing


def c_pick(field: str, pick: Pick) -> CPick:
    name, what = own(field, pick, Pick)
    crossing = CPick(code=PICKS.index(name))
    if name == "kind":
        crossing.kind = what
    elif isinstance(what, Pid):
        crossing.pid = c_pid(f"{field}.what", what)
    elif isinstance(what, Ref):
        crossing.reference = c_ref(f"{field}.what", what)
    return crossing


def c_next(field: str, does: Next) -> CNext:
    name, pick, until, reason = own(field, does, Next)
    crossing = CNext(code=NEXTS.index(name))
    if pick is not None:
        crossing.pick = c_pick(f"{field}.pick", pick)
    if until is not None:
        crossing.until = until
    if reason is not None:
        crossing.reason = c_reason(f"{field}.reason", reason)
    return crossing
