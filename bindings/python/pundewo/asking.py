"""Calls that are answered, where the letters of a desk are, and the way in for threads without a desk.

    call = ask(desk, client, server, 21)
    desk.turn()
    request = request_of(desk.receive(server))
    reply(desk, server, request, 2 * request.asks)
    desk.turn()
    call.hear(desk, desk.receive(client))       # Heard("answer", 42)

    door, entry = way_in(8)
    door.post(Post(line, Body(1, 7)))           # on a thread without a desk
    entry.take()                                # on the thread of the desk
"""

from __future__ import annotations

import ctypes as c
from typing import Any, NamedTuple, Optional

from . import Desk, Fault, _fault, _Held
from ._abi import HEARD_CODES, CCall, CHandle, CHeard, CItem, CPid, CPost, CRequest
from ._library import ASK, EXPIRE, HEAR, REPLY, body_of, c_body, c_item, c_pid, lib, pid_of, reason_of, ref_of
from .values import I64, U8, U32, U64, Body, Code, Item, Pid, Reason, Ref, number, of_type

__all__ = [
    "AskFault", "Call", "Door", "HEARD", "Heard", "Post", "Request", "WayIn", "ask", "has_letters", "is_call", "letters_out",
    "look_from", "next_from", "reply", "request_of", "way_in",
]

# What an item means to a call.
HEARD = HEARD_CODES


class Request(NamedTuple):
    """A request that arrived: who asks, what, as a number of the program's own, and the number that its answer carries."""

    sender: Pid
    asks: int
    number: int


class Heard(NamedTuple):
    """What an item means to a call, by a name of `HEARD`: "answer" with `answer`, "server-down" with `reason`, "late" after
    the call had ended, or "not-mine"."""

    name: str
    answer: Optional[int] = None
    reason: Optional[Reason] = None


class AskFault(Fault):
    """A request that was not sent. `left_open` is the monitor of the call, if cancelling it failed too. `Desk.demonitor`
    cancels it."""

    def __init__(self, code: Code, call: str = "", pids: tuple[Pid, ...] = (), left_open: Optional[Ref] = None):
        super().__init__(code, call, pids)
        self.left_open = None if left_open is None else of_type("left_open", left_open, Ref)

    def __reduce__(self) -> tuple[Any, ...]:
        return type(self), (self.code, self.call, self.pids, self.left_open)


class Call:
    """A call that was made, of one process to another: Erlang's `gen_server:call` without its `receive`.

    It ends once: by its answer or by the exit of its server, which `hear` reports, or by its deadline, which `expire` reports.
    Both get the desk of its client.
    """

    def __init__(self, crossing: CCall):
        self._call = of_type("crossing", crossing, CCall)

    def __repr__(self) -> str:
        return f"<Call of {self.client} to {self.server}, {'open' if self.is_open else 'ended'}>"

    @property
    def client(self) -> Pid:
        """The process that asked."""
        return pid_of(self._call.client)

    @property
    def server(self) -> Pid:
        """The process that was asked."""
        return pid_of(self._call.server)

    @property
    def monitor(self) -> Ref:
        """The monitor of the server."""
        return ref_of(self._call.monitor)

    @property
    def is_open(self) -> bool:
        """Whether it still waits for its answer, or for the exit of its server."""
        return bool(self._call.waits)

    @property
    def deadline(self) -> Optional[int]:
        """The moment at which its client has to call `expire`: the deadline, if it has one and is open."""
        return self._call.deadline if self._call.waits and self._call.has_deadline else None

    @property
    def left_open(self) -> Optional[Ref]:
        """The monitor that could not be cancelled as the call ended, for want of memory or stamps: `Desk.demonitor` cancels
        it. If it is left, its DOWN may arrive, which is late."""
        return self.monitor if self._call.left_open else None

    def hear(self, desk: Desk, item: Item) -> Heard:
        """Reads an item that the client got, and returns what it means to this call. If the call ends by it, its monitor is
        cancelled, or `left_open` has it. Fault: EMPTY."""
        words = c_item("item", item)
        out = _hear(of_type("desk", desk, Desk), self._call, words)
        name = HEARD[out.code]
        return Heard(name, out.answer if name == "answer" else None, reason_of(out.reason) if name == "server-down" else None)

    def expire(self, desk: Desk, now: int) -> bool:
        """Reports the time, and returns whether the call ends by its deadline now: it is open, and the deadline is not above
        `now`. Its monitor is cancelled then, as by `hear`. Show the call first what waits in the mailbox. Fault: EMPTY."""
        moment = number("now", now, 0, U64)
        return _expire(of_type("desk", desk, Desk), self._call, moment)


def ask(desk: Desk, me: Pid, server: Pid, asks: int, until: Optional[int] = None) -> Call:
    """Asks a server: monitors it, and sends it the request. With `until` the call ends at that moment if it is open then.

    AskFault: as `Desk.monitor`, and nothing is asked then; WORN and MEMORY too if the request was not sent. The monitor is
    cancelled then, or `left_open` of the fault has it.
    """
    words: tuple[Any, ...] = (c_pid("me", me), c_pid("server", server), number("asks", asks, 0, U32))
    if until is not None:
        words += (number("until", until, 0, U64),)
    return Call(_ask(of_type("desk", desk, Desk), *words))


def _ask(desk: Desk, me: CPid, server: CPid, asks: int, *until: int) -> CCall:
    """The same of what crosses."""
    call = CCall()
    try:
        if until:
            return desk._give(ASK, call, me, server, c.c_uint32(asks), c.c_uint64(*until))
        return desk._give(lib.pt_ask, call, me, server, asks)
    except Fault as fault:
        raise AskFault(fault.code, fault.call, fault.pids, Call(call).left_open) from None


def _hear(desk: Desk, call: CCall, item: CItem) -> CHeard:
    return desk._give(HEAR, CHeard(), c.byref(call), item)


def _expire(desk: Desk, call: CCall, now: int) -> bool:
    return desk._give(EXPIRE, c.c_bool(), c.byref(call), c.c_uint64(now)).value


def request_of(item: Item) -> Optional[Request]:
    """The request that the item is, or None if it is none. A request is a message that names its own sender."""
    out = CRequest()
    code = lib.pt_request_of(c_item("item", item), c.byref(out))
    if code not in (Code.OK, Code.NOTHING):
        raise _fault(lib.pt_request_of, (), code)
    return Request(pid_of(out.sender), out.asks, out.number) if code == Code.OK else None


def is_call(me: Pid, item: Item) -> bool:
    """Whether an item that `me` got is a message of a call: a request, which names its own sender, or an answer, which names
    `me`. The kind of such a message is what is asked, or the answer itself.

    So ask this before you read a kind as one of your own. A message of your own is told too if its body names its sender or its
    receiver, so send none that does. A DOWN is an item as any: `Call.hear` reads that of a call.
    """
    out = c.c_bool()
    code = lib.pt_is_call(c_pid("me", me), c_item("item", item), c.byref(out))
    if code:
        raise _fault(lib.pt_is_call, (), code)
    return out.value


def reply(desk: Desk, me: Pid, request: Request, answer: int) -> None:
    """Answers a request: Erlang's `gen_server:reply`, at once or later. Fault: as `Desk.send`."""
    sender, asks, place = of_type("request", request, Request)
    crossing = CRequest(c_pid("request.sender", sender), number("request.asks", asks, 0, U32),
                        number("request.number", place, -I64 - 1, I64))
    _reply(of_type("desk", desk, Desk), c_pid("me", me), crossing, number("answer", answer, 0, U32))


def _reply(desk: Desk, me: CPid, request: CRequest, answer: int) -> None:
    desk._must(REPLY, me, request, c.c_uint32(answer))


def letters_out(desk: Desk) -> int:
    """The desks for which letters wait in the outbox, a bit for each, the lowest that of desk 0. A turn posts to no others:
    ask right before a turn, and wake the threads of these desks right after it. Fault: EMPTY."""
    return of_type("desk", desk, Desk)._give(lib.pt_letters_out, c.c_uint64()).value


def has_letters(desk: Desk) -> bool:
    """Whether a letter waits in the desk, or in a lane to it that shows one. If not, a turn does nothing until another desk
    posts to this one. Fault: EMPTY."""
    return of_type("desk", desk, Desk)._give(lib.pt_has_letters, c.c_bool()).value


def look_from(desk: Desk, start: int) -> None:
    """Lets the next turn look at the lane from this desk before the others. So `desk.turn(1)` handles the oldest letter of
    that lane, if it shows one. Nothing changes if the node has no such desk. Fault: EMPTY."""
    of_type("desk", desk, Desk)._must(lib.pt_look_from, number("start", start, 0, U8))


def next_from(desk: Desk) -> Optional[int]:
    """The desk whose lane the next letter comes from: the first that shows one, from where the next turn looks first. None if
    no lane shows a letter. Fault: EMPTY."""
    found = of_type("desk", desk, Desk)._find(lib.pt_next_from, c.c_uint8())
    return None if found is None else found.value


class Post(NamedTuple):
    """A message from a thread without a desk, to a process of any desk."""

    to: Pid
    body: Body


class Door(_Held):
    """The end of a way in that a thread without a desk holds. What is taken out at the other end is what was handed in here,
    in order, each message once. No call waits, and none wakes another thread. Once the other end is closed, `post` fails."""

    _give_up = "pt_door_give_up"

    def __init__(self, handle: CHandle):
        super().__init__()
        self._handle.at = of_type("handle", handle, CHandle).at

    def post(self, post: Post) -> bool:
        """Hands in a message, and returns whether the door knew of a free place. If not, nothing has changed.

        Fault: GONE if the other end was closed, and nothing has changed; EMPTY.
        """
        to, body = of_type("post", post, Post)
        code = self._call(lib.pt_door_post, CPost(c_pid("post.to", to), c_body("post.body", body)))
        if code not in (Code.OK, Code.FULL):
            raise _fault(lib.pt_door_post, (), code)
        return code == Code.OK


class WayIn(_Held):
    """The end of a way in that the thread of a desk holds."""

    _give_up = "pt_way_in_give_up"

    def __init__(self, handle: CHandle):
        super().__init__()
        self._handle.at = of_type("handle", handle, CHandle).at

    def take(self) -> Optional[Post]:
        """Takes out the oldest message that waits, or returns None if none does. Send it on as a process of the desk. Fault:
        EMPTY."""
        out = self._find(lib.pt_way_in_take, CPost())
        return None if out is None else Post(pid_of(out.to), body_of(out.body))

    def __len__(self) -> int:
        """The number of messages that wait. More may be handed in at any time."""
        return self._give(lib.pt_way_in_len, c.c_size_t()).value

    def __bool__(self) -> bool:
        return True


def way_in(places: int) -> tuple[Door, WayIn]:
    """Makes a way in with so many places, at least one. Fault: BAD_PLACES if `places` is 0; MEMORY."""
    door, entry = CHandle(), CHandle()
    code = lib.pt_door_open(c.byref(door), c.byref(entry), number("places", places, 0, U32))
    if code:
        raise _fault(lib.pt_door_open, (), code)
    return Door(door), WayIn(entry)
