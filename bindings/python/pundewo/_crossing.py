"""What a run sends and reads all the time, as it crosses: by a small module in C, if there is one beside the library, and else by
ctypes. Both do the same, and take and return the same."""

from __future__ import annotations

import ctypes as c
import struct
import sys
from importlib.machinery import EXTENSION_SUFFIXES, ExtensionFileLoader
from importlib.util import module_from_spec, spec_from_file_location
from pathlib import Path
from typing import Any, Callable, Optional, Union

from . import Code, Crew, Desk, Fault, _called, _Held
from ._abi import CAnswer, CBody, CCall, CHeard, CItem, CJob, CPid, CRequest, CTurned
from ._library import ANSWER, ASK, BUILD, HEAR, REPLY, SEND, SET_TIME, STEP, lib, reader
from ._selection import ANSWER as ANSWERS, MESSAGE, REQUEST
from .values import ITEMS, JOBS, Pid

# How many letters a turn handles at most.
BUDGET = c.c_uint32(1024)

# What is read of a job at once: what it is, the tag of its process, the number under which the value of a message is kept or 0,
# and its place.
Job = tuple[int, int, int, int]
JOB = reader(CJob, "code", "pid.shard", "tag", "item.code", "item.pid.shard", "item.body.kind", "item.body.num", "item.body.has_who")
# A process, as it crosses where an answer begins.
PID = struct.Struct(f"{reader(CPid, 'shard', 'slot', 'version').format}{CAnswer.next.offset - c.sizeof(CPid)}x")
ITEM, USER = JOBS.index("item"), ITEMS.index("user")
JOB_SIZE, ITEM_AT = c.sizeof(CJob), CJob.item.offset

# What a call returns if another thread is using the desk, and one more: the crew. What a step and `hear` return from here on: the
# code of the call.
BUSY, FAILED = 254, 1 << 16


def request_key(shard: int, number: int) -> int:
    """Under which a request is kept, whose call has this number on the desk of its client. (the other values are above 0)"""
    return -1 - 2 * (64 * number + shard)


def answer_key(shard: int, number: int) -> int:
    """Under which the answer of the same call is kept."""
    return -2 - 2 * (64 * number + shard)


def number_of(key: int) -> int:
    """The number of the call of an answer that is kept under this."""
    return (-2 - key) // 128


def job_at(place: int, row: tuple[int, ...]) -> Job:
    """A job whose numbers were read."""
    code, shard, tag, item, sender, kind, number, has_who = row
    if code != ITEM or item != USER:
        key = 0
    elif not has_who:
        key = number if kind == MESSAGE else 0
    else:
        key = answer_key(shard, number) if kind == ANSWERS else request_key(sender, number)
    return code, tag, key, place


def words_of(pid: Pid) -> Any:
    """A process, as `send` takes it."""
    return CPid(*pid) if native is None else PID.pack(*pid)


def start_of(pid: Any) -> bytes:
    """What an answer begins with, of what crosses of its process."""
    return bytes(pid).ljust(CAnswer.next.offset, b"\0")


def fault_of(held: _Held, crew: _Held, call: str, code: int, *pids: Pid) -> Exception:
    """Why a call has failed."""
    if code >= BUSY:
        return (held if code == BUSY else crew)._busy()
    return Fault(Code(code), _called(getattr(lib, f"pt_{call}")), pids)


class Way:
    """A desk with its crew, as the loop of a run uses them: what crosses is kept, and used again."""

    __slots__ = ("desk", "crew", "desk_at", "crew_at", "rows_at", "view", "most", "body", "turned", "turned_at", "count",
                 "count_at", "given")

    def __init__(self, desk: Desk, crew: Crew, rows: c.Array[CJob]):
        self.desk, self.crew, self.desk_at, self.crew_at = desk._lock, crew._lock, desk._at, crew._at
        self.rows_at, self.view, self.most = c.byref(rows), memoryview(rows).cast("B"), c.c_size_t(len(rows))
        self.body, self.turned, self.count, self.given = CBody(), CTurned(), c.c_size_t(), c.c_size_t()
        self.turned_at, self.count_at = c.byref(self.turned), c.byref(self.count)


def way(desk: Desk, crew: Crew, rows: c.Array[CJob]) -> Any:
    """What is done all the time of a desk and its crew, with the places where the jobs of a step are written."""
    crew._own(desk)
    if native is None:
        return Way(desk, crew, rows)
    kept = desk._handle, crew._handle, rows
    return native.way(*map(c.addressof, kept), len(rows), desk._lock.locked, crew._lock.locked, kept)


def send(way: Way, sender: CPid, to: CPid, kind: int, number: int) -> int:
    """Sends a message, and returns the code of the call."""
    if not way.desk.acquire(False):
        return BUSY
    try:
        body = way.body
        body.kind, body.num = kind, number
        return SEND(way.desk_at, sender, to, body)
    finally:
        way.desk.release()


def step(way: Way, jobs: list[Job], now: int) -> int:
    """A step, at this time if that is not 0, whose jobs are added to the list, the last one first. It returns 1 if its turn did anything, and twice the code at
    which that stopped; or else FAILED and the code of the call."""
    if not way.desk.acquire(False):
        return FAILED + BUSY
    try:
        if not way.crew.acquire(False):
            return FAILED + BUSY + 1
        try:
            code = SET_TIME(way.crew_at, c.c_uint64(now)) if now else 0
            code = code or STEP(way.crew_at, way.desk_at, BUDGET, way.rows_at, way.most, way.count_at, way.turned_at)
            count, turned = way.count.value, way.turned
            moved, stopped = turned.posted + turned.handled > 0, turned.stopped
        finally:
            way.crew.release()
    finally:
        way.desk.release()
    if code:
        return FAILED + code
    if count == 1:
        jobs.append(job_at(0, JOB.unpack_from(way.view)))
    elif count:
        rows = enumerate(JOB.iter_unpack(way.view[:count * JOB.size]))
        jobs.extend([job_at(place, row) for place, row in rows][::-1])
    return int(moved) + 2 * int(stopped)


def answer(way: Way, answers: list[bytes]) -> int:
    """What processes do next that were told something, and returns the code of the call. Those that the crew has taken are not in
    the list any more, nor is one behind them whose process is not running."""
    if not way.crew.acquire(False):
        return BUSY + 1
    try:
        way.given.value = len(answers)
        code = ANSWER(way.crew_at, b"".join(answers), way.given, way.count_at)
        taken: int = way.count.value
    finally:
        way.crew.release()
    if code and code != Code.NOT_RUNNING:
        return code
    del answers[:taken + 1]
    return 0


def take_loss(way: Way) -> Union[None, int, tuple[int, ...]]:
    """Takes the oldest loss of the desk: the shard, the slot and the version of its process, whether that has exited, and the code and
    the number of the reason. None if there is none, and 0 if more than that is in it, and it is not taken. (here it takes none)"""
    return 0


def ask(way: Way, call: CCall, client: CPid, server: CPid, kind: int, until: int) -> int:
    """Asks a server, and returns the code of the call."""
    if not way.desk.acquire(False):
        return BUSY
    try:
        return ASK(way.desk_at, client, server, c.c_uint32(kind), c.c_uint64(until), c.byref(call))
    finally:
        way.desk.release()


def reply(way: Way, call: CCall) -> int:
    """Answers what was asked, in the name of its server, and returns the code of the call."""
    if not way.desk.acquire(False):
        return BUSY
    try:
        request = CRequest(call.client, REQUEST, call.monitor.number)
        return REPLY(way.desk_at, call.server, request, c.c_uint32(ANSWERS))
    finally:
        way.desk.release()


def hear(way: Way, call: CCall, item: CItem) -> int:
    """What an item is to a call, by its place in HEARD_CODES; or else FAILED and the code of the call."""
    if not way.desk.acquire(False):
        return FAILED + BUSY
    try:
        heard = CHeard()
        code = HEAR(way.desk_at, c.byref(call), item, c.byref(heard))
        return FAILED + code if code else int(heard.code)
    finally:
        way.desk.release()


# What a desk is played with: its way, the fields of the run, its processes by tag, what is kept for them, the jobs and the answers of
# the desk, the answer of one that waits for whatever comes, how many jobs each desk has had, its number, and what says of a process, a
# key and a place what an item is that is neither a message nor a request: None, if it is nothing.
Game = tuple[Any, dict[str, Any], dict[int, Any], dict[int, Any], list[Job], list[bytes], bytes, list[int], int, Callable[[Any, int, int], Any]]


def play(game: Game, steps: int, until: float) -> Any:
    """Runs the handlers of those who get items, from the last job on, up to another job, or a handler of which more is to be done:
    that is `running` then, and has returned this. Once no job is left, it gives the answers and makes another
    step, at most so many, up to this time, and while nothing else is to be done (`stirs`). If none is running, it returns what the
    last step has said if that had no job or was stopped, and else a number below 0. (here it does nothing of that)"""
    return -1


def place_of(value: Any) -> Any:
    """A struct, as `ask`, `reply` and `hear` take it."""
    return value


def item_at(rows: c.Array[CJob], place: int) -> Any:
    """The item of a job, as `hear` takes it."""
    return rows[place].item if native is None else c.addressof(rows) + place * JOB_SIZE + ITEM_AT


def load() -> Optional[Any]:
    """The module in C that is beside the library, if this is a Python of the stable ABI, and it is there."""
    path = Path(lib._name).with_name("pundewo_native.abi3.so")
    if sys.version_info < (3, 10) or ".abi3.so" not in EXTENSION_SUFFIXES or not path.is_file():
        return None
    spec = spec_from_file_location("pundewo_native", path, loader=ExtensionFileLoader("pundewo_native", str(path)))
    assert spec is not None and spec.loader is not None
    module = module_from_spec(spec)
    spec.loader.exec_module(module)
    if module.BUILD != BUILD:
        raise ImportError(f"pundewo: {path} is of {module.BUILD}, and the library is {BUILD}: make both by `bindings/build.sh FOLDER`")
    names = "send", "crew_step", "crew_answer", "ask_until", "reply", "hear", "crew_set_time", "loss_at", "crew_note_loss", "next_loss"
    module.use(*(c.cast(getattr(lib, f"pt_{name}"), c.c_void_p).value for name in names))
    return module


native = load()
if native is not None:
    send, step, answer, ask, reply, hear = native.send, native.step, native.answer, native.ask, native.reply, native.hear
    play, take_loss = native.play, native.take_loss
    place_of = c.addressof  # type: ignore[assignment]
