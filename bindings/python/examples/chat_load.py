"""The load of the chat: it starts the server, lets connections say numbered lines, of which some crash their processes once
a second and come again, and looks that nothing is lost and nothing comes out of order.

    python3 examples/chat_load.py [--connections 200] [--crashing 20] [--rate 20] [--seconds 20] [--rooms 20]
        [--archive HISTORY] [--watched]

All who stay hear each line of their room, each speaker's in order, and each crash once. The program is told of each crash
once. The server rests while nobody talks, and its memory stays. What it takes is printed while it works. With --watched others
look at the server's page meanwhile: its address is printed first, and the server's time is not judged, since the looks take some
of it.
"""

from __future__ import annotations

import argparse
import asyncio
import itertools
import os
import subprocess
import sys
import time
from collections import Counter
from pathlib import Path
from typing import Optional

# How long it is waited at most for what has not come.
PATIENCE = 120.0
# How long the idle server is looked at, how much of a core it may take then, and how often it is looked at most until it rests.
IDLE, IDLE_SHARE, LOOKS = 4.0, 0.005, 10
# A run of this time has epochs enough to see that memory is flat: how much more it may be at the end than after a quarter.
LONG, GROWTH = 10.0, 1.25
TICK = os.sysconf("SC_CLK_TCK")


class Server:
    """The server's process, and what the system tells of it."""

    def __init__(self, rooms: int, archive: Optional[str]):
        words = ["--rooms", str(rooms)] + ([] if archive is None else ["--archive", archive])
        chat = Path(__file__).with_name("chat.py")
        self.process = subprocess.Popen([sys.executable, chat, *words], stdout=subprocess.PIPE, text=True)
        assert self.process.stdout is not None
        self.lines = self.process.stdout
        self.host, port = self.lines.readline().strip().split(":")
        self.port = int(port)
        # (the address of its page)
        print(self.lines.readline().strip(), flush=True)

    def taken(self) -> float:
        """The seconds of processor time that it took."""
        words = Path(f"/proc/{self.process.pid}/stat").read_text().rpartition(")")[2].split()
        return (int(words[11]) + int(words[12])) / TICK

    def memory(self) -> int:
        """Its memory in kilobytes."""
        for line in Path(f"/proc/{self.process.pid}/status").read_text().splitlines():
            if line.startswith("VmRSS:"):
                return int(line.split()[1])
        raise AssertionError("the server has ended")

    def end(self) -> str:
        """Has it end, and returns what it says of its run."""
        self.process.terminate()
        said = self.lines.read().strip()
        if self.process.wait(60) != 0:
            raise AssertionError(f"the server ended with {self.process.returncode}")
        return said


class Tally:
    """What was said in the rooms, and how much came of it."""

    def __init__(self) -> None:
        self.speakers = itertools.count()
        # of each room, how many lines each speaker said
        self.said: dict[int, dict[bytes, int]] = {}
        self.crashes: Counter[int] = Counter()
        self.heard, self.slowest = 0, 0.0


class Connection(asyncio.Protocol):
    """A connection. It looks whether each line that comes is the next one of its speaker."""

    def __init__(self, tally: Tally, stays: bool):
        self.tally, self.stays = tally, stays
        loop = asyncio.get_running_loop()
        self.welcome: asyncio.Future[None] = loop.create_future()
        self.lost: asyncio.Future[None] = loop.create_future()
        self.came = b""
        self.next: dict[bytes, int] = {}
        self.gone: Counter[bytes] = Counter()
        self.fault: Optional[str] = None

    def connection_made(self, transport: asyncio.BaseTransport) -> None:
        assert isinstance(transport, asyncio.Transport)
        self.transport = transport

    def connection_lost(self, _: Optional[Exception]) -> None:
        self.lost.set_result(None)

    def data_received(self, data: bytes) -> None:
        *lines, self.came = (self.came + data).split(b"\n")
        now, tally = time.monotonic(), self.tally
        for line in lines:
            if line == b"welcome":
                self.welcome.set_result(None)
                continue
            speaker, number, at = line.split(b" ", 2)
            if speaker == b"gone":
                self.gone[number] += 1
                continue
            # (who comes later hears its room from then on)
            count = int(number)
            awaited = self.next.get(speaker, 0 if self.stays else count)
            if count != awaited:
                self.fault = self.fault or f"{speaker!r} said line {count}, and line {awaited} did not come"
            self.next[speaker] = count + 1
            tally.heard += 1
            tally.slowest = max(tally.slowest, now - float(at))

    def lacks(self, room: int) -> Optional[str]:
        """What has not come of that which was said in its room."""
        said, crashes = self.tally.said.get(room, {}), self.tally.crashes[room]
        if self.next != said:
            return f"in room {room} was said {said}, and came {self.next}"
        if len(self.gone) != crashes or sum(self.gone.values()) != crashes:
            return f"{crashes} crashed in room {room}, and there is news of {dict(self.gone)}"
        return None


class Load:
    """Connections that talk."""

    def __init__(self, server: Server, rooms: int, rate: float, seconds: float):
        self.server, self.rooms, self.rate, self.seconds = server, rooms, rate, seconds
        self.tally = Tally()
        self.begun = 0.0

    async def join(self, room: int, stays: bool) -> Connection:
        loop = asyncio.get_running_loop()
        _, connection = await loop.create_connection(
            lambda: Connection(self.tally, stays), self.server.host, self.server.port)
        connection.transport.write(b"%d\n" % room)
        await asyncio.wait_for(connection.welcome, PATIENCE)
        return connection

    async def say(self, connection: Connection, room: int, late: float, until: float) -> None:
        """Says lines: the speaker's number, the line's, and the time."""
        speaker, at = b"%d" % next(self.tally.speakers), time.monotonic() + late
        said = self.tally.said.setdefault(room, {})
        for number in itertools.count():
            await asyncio.sleep(max(0.0, at - time.monotonic()))
            now = time.monotonic()
            if now >= until:
                break
            connection.transport.write(b"%s %d %f\n" % (speaker, number, now))
            said[speaker] = number + 1
            at += 1 / self.rate

    async def crash(self, connection: Connection, room: int) -> None:
        """Crashes once a second, and comes again."""
        until = self.begun + self.seconds
        while True:
            await self.say(connection, room, 0, min(until, time.monotonic() + 1))
            self.tally.crashes[room] += 1
            connection.transport.write(b"crash\n")
            await asyncio.wait_for(connection.lost, PATIENCE)
            if connection.fault is not None:
                raise AssertionError(connection.fault)
            if time.monotonic() + 0.5 >= until:
                return
            connection = await self.join(room, False)

    async def watch(self, memory: list[int]) -> None:
        """Looks at the server once a second."""
        taken, at = self.server.taken(), time.monotonic()
        while True:
            await asyncio.sleep(1)
            last, taken, before, at = taken, self.server.taken(), at, time.monotonic()
            memory.append(self.server.memory())
            print(f"after {at - self.begun:.0f} s: {memory[-1]} kB, {(taken - last) / (at - before):.2f} of a core, "
                  f"{self.tally.heard} lines came", flush=True)

    async def idle(self) -> float:
        """How much of a core the server takes in a while."""
        taken = self.server.taken()
        await asyncio.sleep(IDLE)
        return (self.server.taken() - taken) / IDLE

    async def talk(self, connections: int, crashing: int, looks: int) -> tuple[float, list[int]]:
        """Lets all connections talk, and returns how much of a core the idle server takes, and its memory each second."""
        joined = [await self.join(me % self.rooms, me >= crashing) for me in range(connections)]
        # (on a busy machine it may take a while until it has nothing to do; one that never rests takes more in every while)
        idle = await self.idle()
        for _ in range(1, looks):
            if idle > IDLE_SHARE:
                idle = await self.idle()
        self.begun, taken = time.monotonic(), self.server.taken()
        memory: list[int] = []
        watching = asyncio.ensure_future(self.watch(memory))
        stays = list(enumerate(joined))[crashing:]
        await asyncio.gather(
            *(self.crash(joined[me], me % self.rooms) for me in range(crashing)),
            *(self.say(it, me % self.rooms, me / connections / self.rate, self.begun + self.seconds) for me, it in stays))
        over, late = time.monotonic(), time.monotonic() + PATIENCE
        while any(it.lacks(me % self.rooms) for me, it in stays) and time.monotonic() < late:
            await asyncio.sleep(0.02)
        said = sum(sum(room.values()) for room in self.tally.said.values())
        print(f"said {said} lines in {over - self.begun:.1f} s, the last came {time.monotonic() - over:.2f} s later; "
              f"{self.tally.heard} came, the slowest after {self.tally.slowest * 1000:.0f} ms; "
              f"the server took {(self.server.taken() - taken) / self.tally.heard * 1e6:.1f} us a line")
        watching.cancel()
        for me, it in stays:
            fault = it.fault or it.lacks(me % self.rooms)
            if fault is not None:
                raise AssertionError(fault)
            it.transport.close()
        # (until the server has seen that)
        await asyncio.sleep(0.5)
        return idle, memory


async def main() -> None:
    words = argparse.ArgumentParser(description="The load of the chat.")
    words.add_argument("--connections", type=int, default=200)
    words.add_argument("--crashing", type=int, default=20)
    words.add_argument("--rate", type=float, default=20.0)
    words.add_argument("--seconds", type=float, default=20.0)
    words.add_argument("--rooms", type=int, default=20)
    words.add_argument("--archive")
    words.add_argument("--watched", action="store_true")
    given = words.parse_args()
    server = Server(given.rooms, given.archive)
    try:
        load = Load(server, given.rooms, given.rate, given.seconds)
        idle, memory = await load.talk(given.connections, given.crashing, 1 if given.watched else LOOKS)
        said = server.end()
    finally:
        server.process.kill()
    crashes = sum(load.tally.crashes.values())
    print(f"{crashes} crashes; idle {idle * 100:.2f} % of a core; memory {memory} kB; the server: {said}")
    told = f"told of {crashes} crashes of {crashes} processes, 0 messages waited, "
    if not said.startswith(told) or f" crashes={crashes}," not in said:
        raise AssertionError(f"the server was not {told}")
    if idle > IDLE_SHARE and not given.watched:
        raise AssertionError("the server does not rest")
    if given.seconds >= LONG and memory[-1] > memory[len(memory) // 4] * GROWTH:
        raise AssertionError("the memory of the server grows")
    print("nothing lost, nothing out of order, each crash told once")


if __name__ == "__main__":
    asyncio.run(main())
