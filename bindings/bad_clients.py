#!/usr/bin/env python3
"""Bad clients of a chat server, beside good ones: one that sends no line feed, a thousand connections, one that never reads.

    bindings/bad_clients.py COMMAND..        COMMAND starts the server, which prints its address first

Each bad client is refused by a line that begins with `refused: `, and its connection is closed. The server's memory stays within
a bound, and meanwhile two good clients hear each other, each line once and in order. The last line is the verdict.
"""
from __future__ import annotations

import re
import resource
import signal
import socket
import subprocess
import sys
import threading
import time
from pathlib import Path

# How many kilobytes the server's memory may grow, and how many bytes of a bad client it could keep without a bound.
GROWTH, FLOOD = 64_000, 64_000_000
# How many lines of a thousand bytes one says ahead of what it hears: less than a server keeps for one that does not read.
AHEAD = 100
# For how many seconds it is waited for what has to come.
PATIENCE = 120.0


class Client:
    """A connection that is in a room, if one is given, and hears lines."""

    def __init__(self, server: tuple[str, int], room: int | None = None, kept: int = 0):
        self.socket = socket.socket()
        if kept:
            self.socket.setsockopt(socket.SOL_SOCKET, socket.SO_RCVBUF, kept)
        self.socket.settimeout(PATIENCE)
        self.socket.connect(server)
        self.came = b""
        if room is not None:
            self.say(b"%d" % room)
            assert self.hear() == b"welcome"

    def say(self, line: bytes) -> None:
        self.socket.sendall(line + b"\n")

    def hear(self) -> bytes | None:
        """The next line, or None at the end of the connection."""
        while b"\n" not in self.came:
            more = self.socket.recv(1 << 16)
            if not more:
                return None
            self.came += more
        line, self.came = self.came.split(b"\n", 1)
        return line

    def refusal(self) -> str:
        """The last line of a connection that the server closes, which says why."""
        last = b""
        while (line := self.hear()) is not None:
            last = line
        assert last.startswith(b"refused: "), last[:80]
        return last.decode()


class Server:
    """The server's process."""

    def __init__(self, command: list[str]):
        self.process = subprocess.Popen(command, stdin=subprocess.PIPE, stdout=subprocess.PIPE, text=True)
        assert self.process.stdout is not None
        host, port = self.process.stdout.readline().strip().split(":")
        self.address = host, int(port)

    def memory(self) -> int:
        """Its memory in kilobytes."""
        found = re.search(r"VmRSS:\s+(\d+) kB", Path(f"/proc/{self.process.pid}/status").read_text())
        assert found is not None, "the server has ended"
        return int(found[1])

    def end(self) -> None:
        """Has it end: one ends with its input, and the other by a signal, which it handles."""
        assert self.process.stdin is not None and self.process.stdout is not None
        self.process.stdin.close()
        handled = re.search(r"SigCgt:\s+(\w+)", Path(f"/proc/{self.process.pid}/status").read_text())
        if handled is not None and int(handled[1], 16) >> (signal.SIGTERM - 1) & 1:
            self.process.terminate()
        self.process.stdout.read()
        assert self.process.wait(PATIENCE) == 0, f"the server ended with {self.process.returncode}"


class Good:
    """Two good clients in a room: one says numbered lines, and the other hears them."""

    def __init__(self, server: Server, room: int):
        self.server = server
        self.speaker, self.listener = Client(server.address, room), Client(server.address, room)
        self.heard, self.slowest, self.memory = 0, 0.0, server.memory()
        self.fault: BaseException | None = None
        self.over = threading.Event()
        self.thread = threading.Thread(target=self.talk)
        self.thread.start()

    def talk(self) -> None:
        try:
            while not self.over.wait(0.05):
                began = time.monotonic()
                for client in (self.speaker, self.listener):
                    if client is self.speaker:
                        client.say(b"line %d" % self.heard)
                    line = client.hear()
                    assert line == b"line %d" % self.heard, line
                self.heard += 1
                self.slowest = max(self.slowest, time.monotonic() - began)
                self.memory = max(self.memory, self.server.memory())
        except BaseException as fault:
            self.fault = fault

    def go_on(self, count: int = 10) -> None:
        """Waits until they have heard so many lines more."""
        until, wanted = time.monotonic() + PATIENCE, self.heard + count
        while self.heard < wanted and self.fault is None and time.monotonic() < until:
            time.sleep(0.01)
        if self.fault is not None:
            raise self.fault
        assert self.heard >= wanted, "the good clients do not go on"

    def end(self) -> None:
        self.over.set()
        self.thread.join()


def without_line_feeds(server: Server) -> None:
    """Clients that say a line of ten million bytes, as the number of their room and later."""
    for room in (None, 1):
        client = Client(server.address, room)
        try:
            for _ in range(100):
                client.socket.sendall(b"x" * 100_000)
        except OSError:  # the server has closed it before all was sent
            pass
        said = client.refusal()
        assert re.fullmatch(r"refused: a line is longer than \d+ bytes", said), said


def many(server: Server, good: Good) -> None:
    """A thousand connections at a time. As they are closed, others are served again."""
    clients = [Client(server.address) for _ in range(1_000)]
    refused = 0
    for client in clients:
        client.socket.settimeout(0.01 if refused == 0 else 5)
        try:
            said = client.refusal()
            assert re.fullmatch(r"refused: \d+ connections are open", said), said
            refused += 1
        except socket.timeout:  # it is served, and hears nothing
            pass
    assert 400 <= refused <= 900, f"{refused} of 1,000 connections are refused"
    good.go_on()
    for client in clients:
        client.socket.close()
    served(server, 2)


def served(server: Server, room: int, kept: int = 0) -> Client:
    """A client that is served, once there is room for it: the server closes those of before one after the other."""
    until = time.monotonic() + PATIENCE
    while True:
        try:
            return Client(server.address, room, kept)
        except (AssertionError, OSError):
            assert time.monotonic() < until, "no connection is served any more"
            time.sleep(0.1)


def without_reading(server: Server) -> None:
    """A client that never reads, in a room where much is said. The one who says it hears it all, and that the other is gone."""
    deaf, speaker = served(server, 3, 4_096), served(server, 3)
    ahead = threading.Semaphore(AHEAD)
    speaks = threading.Thread(target=speak, args=(speaker, ahead))
    speaks.start()
    next_number, gone = 0, 0
    while next_number * 1_000 < FLOOD and not gone:
        line = speaker.hear()
        assert line is not None, "the connection of the one who speaks is closed"
        if line.startswith(b"gone "):
            gone += 1
            continue
        assert line.startswith(b"%d " % next_number), line[:20]
        next_number += 1
        ahead.release()
    assert gone == 1, f"a client that does not read is served after {FLOOD} bytes"
    speaker.socket.shutdown(socket.SHUT_RDWR)
    ahead.release()
    speaks.join()
    # (it may still read what was sent before, and hears why it is gone if that was in time)
    try:
        deaf.refusal()
    except (AssertionError, OSError):
        pass


def speak(client: Client, ahead: threading.Semaphore) -> None:
    """Says lines of a thousand bytes, each once `ahead` has room for it."""
    try:
        for number in range(FLOOD // 1_000):
            ahead.acquire()
            client.say((b"%d " % number).ljust(999, b"x"))
    except OSError:  # enough was said
        pass


def main() -> None:
    soft, hard = resource.getrlimit(resource.RLIMIT_NOFILE)
    resource.setrlimit(resource.RLIMIT_NOFILE, (hard, hard))
    server = Server(sys.argv[1:])
    try:
        before = server.memory()
        good = Good(server, 0)
        try:
            good.go_on()
            without_line_feeds(server)
            good.go_on()
            many(server, good)
            good.go_on()
            without_reading(server)
            good.go_on()
        finally:
            good.end()
        server.end()
    finally:
        server.process.kill()
    grown = good.memory - before
    assert grown <= GROWTH, f"the memory of the server grew by {grown} kB"
    print(f"each bad client is refused; memory grew by {grown} kB; the others heard {good.heard} lines, "
          f"the slowest after {good.slowest * 1000:.0f} ms")


if __name__ == "__main__":
    main()
