"""A TCP chat in asyncio: a process for each room and for each connection.

The first line of a connection is the number of its room; each line after it goes to all who are in the room. At the line
`crash` the connection's process raises an exception: its room gets the `DOWN`, tells the others, and tells the program.

    python3 examples/chat.py [PORT] [--archive HISTORY] [--rooms 20]

It prints its address, and serves until SIGTERM or SIGINT. Then it prints how many crashes its rooms told it of, and what the
run was. The file HISTORY gets the history of the run, which `pt_audit` judges. `chat_load.py` is the other end.

All that a client may make the server keep has a bound. What goes beyond one is refused by a line that begins with `refused: `,
and then the connection is closed (`bindings/bad_clients.py`).
"""

from __future__ import annotations

import argparse
import asyncio
import logging
import signal
from collections import deque
from typing import Deque, NamedTuple, Optional

from pundewo import Fault, Pid, Reason
from pundewo.runtime import (
    Address, Behaviour, Context, Down, Event, Group, HistoryFile, Mailbox, Message, Next, RunOver, Runtime,
)

# How much is read at once, how long a line is at most, and how much may wait for a client that does not read, in bytes.
READ, LONGEST, UNREAD = 2**12, 2**12, 2**18
# How many connections are served at a time, and for how many seconds a client may read what it is told last.
CONNECTIONS, LINGER = 500, 1.0
# For how many seconds lines are gathered before they go out, and how many messages may wait before no more are read.
GATHERS, WAITING = 0.05, 5_000


class Join(NamedTuple):
    member: Address


class Say(NamedTuple):
    line: bytes


class Heard(NamedTuple):
    line: bytes


class Told(NamedTuple):
    line: bytes


class Gone(NamedTuple):
    pid: Pid
    crash: Optional[str]


class Room(Behaviour):
    """It tells its members what one of them says, and who is gone. It tells the program that too."""

    def __init__(self, news: Address, members: Group):
        self.news, self.members = news, members

    def tell(self, cx: Context, line: bytes) -> None:
        cx.send_all(self.members, Told(line + b"\n"))

    def handle(self, cx: Context, event: Event) -> None:
        if isinstance(event, Down):
            self.tell(cx, f"gone {event.pid} {event.crash or 'by itself'}".encode())
            cx.send(self.news, Gone(event.pid, event.crash))
        elif isinstance(event, Message) and isinstance(event.value, Join):
            cx.monitor(event.value.member)
            self.members.join(event.value.member)
            cx.send(event.value.member, Told(b"welcome\n"))
        elif isinstance(event, Message):
            self.tell(cx, event.value.line)


class Member(Behaviour):
    """The process of a connection."""

    def __init__(self, rooms: list[Address], connection: Connection):
        self.rooms, self.connection = rooms, connection
        self.room: Optional[Address] = None

    def handle(self, cx: Context, event: Event) -> Optional[Next]:
        value = event.value if isinstance(event, Message) else None
        if isinstance(value, Told):
            self.connection.write(value.line)
        elif not isinstance(value, Heard):  # the connection is closed
            return Next.stop()
        elif value.line == b"crash":
            raise RuntimeError("it crashed")
        elif self.room is not None:
            cx.send(self.room, Say(value.line))
        elif value.line.isdigit() and int(value.line) < len(self.rooms):
            self.room = self.rooms[int(value.line)]
            cx.send(self.room, Join(cx.me))
        else:
            self.connection.refuse("there is no such room")
            return Next.stop()
        return None

    def ended(self, why: Reason) -> None:
        self.connection.close()


class Chat:
    """The server on a run."""

    def __init__(self, runtime: Runtime, rooms: int):
        self.runtime = runtime
        self.loop = asyncio.get_running_loop()
        self.news: Mailbox = runtime.mailbox()
        self.rooms = [runtime.spawn(Room(self.news.address, runtime.group())) for _ in range(rooms)]
        self.written: list[Connection] = []
        # those of whom no more is read, and what reads on
        self.held: Deque[Connection] = deque()
        self.served: set[Connection] = set()
        self.alarm: Optional[asyncio.TimerHandle] = None

    def write_soon(self, connection: Connection) -> None:
        if not self.written:
            self.loop.call_later(GATHERS, self.flush)
        self.written.append(connection)

    def flush(self) -> None:
        written, self.written = self.written, []
        for connection in written:
            connection.flush()

    def is_full(self) -> bool:
        """Whether so many messages wait that no more are read: those who talk too fast have to wait then."""
        return self.runtime.waiting() > WAITING

    def hold(self, connection: Connection) -> None:
        self.held.append(connection)
        if self.alarm is None:
            self.alarm = self.loop.call_later(GATHERS, self.release)

    def release(self) -> None:
        """Reads on, of the connection first that was held first."""
        self.alarm = None
        for _ in range(len(self.held)):
            if not self.is_full():
                self.held.popleft().go_on()
        if self.held and self.alarm is None:
            self.alarm = self.loop.call_later(GATHERS, self.release)


class Connection(asyncio.BufferedProtocol):
    """A connection: what comes is sent to its process, a few lines at a time. What that writes within some time goes out at
    once, since sending is what takes most."""

    transport: asyncio.Transport

    def __init__(self, chat: Chat):
        self.chat = chat
        self.member: Optional[Address] = None
        self.is_refused = False
        # the lines that came, and the beginning of the next; and what is to go out
        self.buffer = bytearray(READ)
        self.heard: Deque[bytes] = deque()
        self.came = b""
        self.lines: list[bytes] = []

    def connection_made(self, transport: asyncio.BaseTransport) -> None:
        assert isinstance(transport, asyncio.Transport)
        transport.set_write_buffer_limits(high=UNREAD)
        self.transport = transport
        if len(self.chat.served) >= CONNECTIONS:
            self.refuse(f"{CONNECTIONS} connections are open")
            return
        self.chat.served.add(self)
        try:
            self.member = self.chat.runtime.spawn(Member(self.chat.rooms, self))
        except (Fault, RunOver) as fault:  # there are too many, or the run ends
            self.refuse(str(fault))

    def refuse(self, why: str) -> None:
        """Tells the client why, and nothing more. What still comes is dropped for a while, since it would else lose that."""
        if self.is_refused or self.transport.is_closing():
            return
        self.pass_on()
        self.flush()
        self.is_refused, self.came = True, b""
        self.transport.write(f"refused: {why}\n".encode())
        self.transport.write_eof()
        self.transport.resume_reading()
        self.chat.loop.call_later(LINGER, self.transport.abort)

    def get_buffer(self, sizehint: int) -> bytearray:
        return self.buffer

    def buffer_updated(self, nbytes: int) -> None:
        if self.is_refused:
            return
        *lines, self.came = (self.came + self.buffer[:nbytes]).split(b"\n")
        for line in [*lines, self.came]:
            if len(line) > LONGEST:
                self.refuse(f"a line is longer than {LONGEST} bytes")
                return
            if line is not self.came:
                self.heard.append(line)
        self.go_on()

    def go_on(self) -> None:
        """Passes on what came, unless too much waits."""
        while self.heard:
            if self.chat.is_full():
                self.transport.pause_reading()
                self.chat.hold(self)
                return
            self.say(Heard(self.heard.popleft()))
        self.transport.resume_reading()

    def say(self, value: Optional[Heard]) -> None:
        if self.member is not None:
            self.member.send(value)

    def connection_lost(self, _: Optional[Exception]) -> None:
        self.chat.served.discard(self)
        self.pass_on()

    def pass_on(self) -> None:
        """Passes on what came, and that no more comes."""
        while self.heard:
            self.say(Heard(self.heard.popleft()))
        self.say(None)

    def pause_writing(self) -> None:
        self.refuse(f"more than {UNREAD} bytes wait to be read")

    def write(self, line: bytes) -> None:
        if self.is_refused:
            return
        if not self.lines:
            self.chat.write_soon(self)
        self.lines.append(line)

    def flush(self) -> None:
        lines, self.lines = self.lines, []
        if lines and not (self.is_refused or self.transport.is_closing()):
            self.transport.write(b"".join(lines))

    def close(self) -> None:
        if not self.is_refused:
            self.flush()
            self.transport.close()


async def count_crashes(news: Mailbox, crashed: list[Pid]) -> None:
    """Notes whose crash the rooms told."""
    async for event in news:
        if isinstance(event, Message) and isinstance(event.value, Gone) and event.value.crash is not None:
            crashed.append(event.value.pid)


async def main() -> None:
    words = argparse.ArgumentParser(description="A TCP chat.")
    words.add_argument("port", type=int, nargs="?", default=0)
    words.add_argument("--archive")
    words.add_argument("--rooms", type=int, default=20)
    given = words.parse_args()
    logging.getLogger("pundewo").setLevel(logging.CRITICAL)  # (crashes are what is tried here)
    archive = None if given.archive is None else HistoryFile(given.archive)
    loop = asyncio.get_running_loop()
    crashed: list[Pid] = []
    waiting: list[int] = []
    async with Runtime(archive=archive) as runtime:
        chat = Chat(runtime, given.rooms)
        server = await loop.create_server(lambda: Connection(chat), "127.0.0.1", given.port)
        host, port = server.sockets[0].getsockname()
        counting = asyncio.ensure_future(count_crashes(chat.news, crashed))

        def stop() -> None:
            waiting.append(runtime.waiting())
            runtime.stop()

        for name in (signal.SIGTERM, signal.SIGINT):
            loop.add_signal_handler(name, stop)
        print(f"{host}:{port}\n{runtime.observe()}", flush=True)
        summary = await runtime.ended()
        server.close()
    await counting
    print(f"told of {len(crashed)} crashes of {len(set(crashed))} processes, {waiting[0]} messages waited, {summary}")


if __name__ == "__main__":
    asyncio.run(main())
