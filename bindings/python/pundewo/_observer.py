"""The page of a run, over HTTP. It only reads."""

from __future__ import annotations

import hmac
import json
import secrets
import socket
import threading
from pathlib import Path
from time import monotonic
from typing import Any, Callable, NamedTuple, Optional
from urllib.parse import parse_qs

from ._behaviour import CallFault, RunOver, ServerDown
from ._report import Holder
from ._view import DeskView, First, ProcessView, View, waits_text
from .values import Item, Pid

# The page, the same for all languages.
PAGE = Path(__file__).with_name("observer.html")
# How many connections are served at a time, how many bytes a request has, and how many seconds it has to come, a response to go,
# and a look to be answered.
MOST, LONGEST, PATIENCE, WRITING, LIMIT = 16, 8_192, 2.0, 5.0, 0.5
# How many characters of the text of a process's state are shown.
LONGEST_TEXT = 65_536
# What a browser may do with the page: it loads nothing, asks this server alone, and is in no frame.
POLICY = ("default-src 'none'; style-src 'unsafe-inline'; script-src 'unsafe-inline'; connect-src 'self'; base-uri 'none'; "
          "form-action 'none'; frame-ancestors 'none'")


class Response(NamedTuple):
    """What is answered."""

    status: str
    kind: str
    body: bytes


class Refused(Exception):
    """A request that is not served, with the status of HTTP."""


class Observer:
    """A server of the page of a run: what `Runtime.observe` returns. Printed, it is the address of the page. It serves until it
    is closed, or the program ends.

    - GET /TOKEN/ is the page, and /TOKEN/state a `View` as JSON, with `?after=NEXT` from another page of processes on.
    - GET /TOKEN/inspect?pid=0.3.1 is what a behaviour says of its state, as JSON.
    - GET /TOKEN/metrics, or /metrics with `Authorization: Bearer TOKEN`, is what Prometheus reads.

    Anything else is an error of HTTP.
    """

    def __init__(self, view: Callable[..., View], inspect: Callable[[Pid, float], str], port: int, host: str):
        self._view, self._inspect = view, inspect
        self.token = secrets.token_hex(16)
        kind = socket.AF_INET6 if ":" in host else socket.AF_INET
        self._listener = socket.create_server((host, port), family=kind, backlog=64)
        self.port: int = self._listener.getsockname()[1]
        self.url = f"http://{f'[{host}]' if ':' in host else host}:{self.port}/{self.token}/"
        self._is_over = False
        self._busy = threading.Semaphore(MOST)
        # (two looks at a time would only be more work for the run)
        self._looks = threading.Lock()
        self._thread = threading.Thread(target=self._accept, name="observer", daemon=True)
        self._thread.start()

    def __str__(self) -> str:
        return self.url

    def __repr__(self) -> str:
        return f"<Observer at port {self.port}{', closed' if self._is_over else ''}>"

    def __enter__(self) -> Observer:
        return self

    def __exit__(self, *_: object) -> None:
        self.close()

    def close(self) -> None:
        """Ends it. Connections that are served now are served to their end."""
        if not self._is_over:
            self._is_over = True
            # (so that the thread, which waits for a connection, sees it)
            self._listener.shutdown(socket.SHUT_RDWR)
            self._thread.join()
            self._listener.close()

    def _accept(self) -> None:
        while not self._is_over:
            try:
                connection, _ = self._listener.accept()
            except OSError:  # closed, or no file is free for a connection: soon there may be
                threading.Event().wait(0.0 if self._is_over else 0.05)
                continue
            if self._busy.acquire(blocking=False):
                threading.Thread(target=self._serve, args=(connection,), name="observer", daemon=True).start()
            else:
                turn_away(connection)

    def _serve(self, connection: socket.socket) -> None:
        try:
            with connection:
                request = read(connection)
                if request is not None:
                    write(connection, self._answer(request))
        except (OSError, RuntimeError):  # nobody is there any more; or the interpreter ends
            pass
        finally:
            self._busy.release()

    def _answer(self, request: bytes) -> Response:
        try:
            path, query, bearer = parse(request)
            first, _, rest = path.partition("/")
            is_ours = is_same(first, self.token)
            if not is_ours and not (path == "metrics" and is_same(bearer, self.token)):
                raise Refused("404 Not Found")
            return self._serves(rest if is_ours else path, path.endswith("/"), query)
        except Refused as refused:
            return Response(str(refused), "text/plain; charset=utf-8", f"{refused}\n".encode())

    def _serves(self, what: str, is_folder: bool, query: dict[str, list[str]]) -> Response:
        if what == "" and is_folder:
            return Response("200 OK", "text/html; charset=utf-8", PAGE.read_bytes())
        if what == "metrics":
            return Response("200 OK", "text/plain; version=0.0.4; charset=utf-8", metrics(self._look(processes=0)).encode())
        if what == "state":
            after = [whole(text) for text in query.get("after", [])[:1]]
            return as_json(form_of(self._look(after=after[0] if after else None)))
        if what == "inspect":
            return as_json(self._text(query.get("pid", [""])[0]))
        raise Refused("404 Not Found")

    def _look(self, **of: Any) -> View:
        with self._looks:
            return self._view(limit=LIMIT, **of)

    def _text(self, pid: str) -> dict[str, str]:
        """What a behaviour says of its state, or why it says nothing."""
        words = pid.split(".")
        if len(words) != 3:
            raise Refused("400 Bad Request")
        try:
            named = Pid(*(whole(word) for word in words))
        except ValueError:
            raise Refused("400 Bad Request") from None
        try:
            return {"text": self._inspect(named, LIMIT)[:LONGEST_TEXT]}
        except ServerDown:
            return {"fault": "the process has exited"}
        except RunOver:
            return {"fault": "the run is over, or has halted"}
        except CallFault as fault:
            return {"fault": str(fault)}
        except Exception:
            return {"fault": "the behaviour raised an exception as it was asked"}


def whole(text: str) -> int:
    """The number that a text is."""
    if not (text.isascii() and text.isdigit() and len(text) < 20):
        raise Refused("400 Bad Request")
    return int(text)


def is_same(one: str, other: str) -> bool:
    """Whether two texts are equal, in a time that does not say where they differ."""
    return hmac.compare_digest(one.encode("utf-8", "replace"), other.encode())


def read(connection: socket.socket) -> Optional[bytes]:
    """The head of a request, in time and within its bound. None if nobody is there any more."""
    until, head = monotonic() + PATIENCE, b""
    while b"\r\n\r\n" not in head and len(head) <= LONGEST:
        connection.settimeout(max(0.001, until - monotonic()))
        try:
            part = connection.recv(1_024)
        except socket.timeout:
            return b"408"
        if not part:
            return None
        head += part
    return head


def parse(head: bytes) -> tuple[str, dict[str, list[str]], str]:
    """The path, the query and the token of a request."""
    if head == b"408":
        raise Refused("408 Request Timeout")
    if b"\r\n\r\n" not in head:
        raise Refused("431 Request Header Fields Too Large")
    try:
        first, *lines = head.partition(b"\r\n\r\n")[0].decode().split("\r\n")
    except UnicodeDecodeError:
        raise Refused("400 Bad Request") from None
    words = first.split(" ")
    if len(words) != 3 or words[2] not in ("HTTP/1.0", "HTTP/1.1"):
        raise Refused("400 Bad Request")
    if words[0] != "GET":
        raise Refused("405 Method Not Allowed")
    path, _, query = words[1].partition("?")
    fields = (line.partition(":") for line in lines)
    bearers = [value.strip()[7:] for name, _, value in fields
               if name.lower() == "authorization" and value.strip().startswith("Bearer ")]
    return path[1:] if path.startswith("/") else path, parse_qs(query), bearers[0] if bearers else ""


def write(connection: socket.socket, response: Response) -> None:
    """Writes a response, and ends the connection. OSError if it is not read in time."""
    allow = "Allow: GET\r\n" if response.status.startswith("405") else ""
    head = (f"HTTP/1.1 {response.status}\r\nContent-Type: {response.kind}\r\nContent-Length: {len(response.body)}\r\n{allow}"
            f"Content-Security-Policy: {POLICY}\r\nCache-Control: no-store\r\nX-Content-Type-Options: nosniff\r\n"
            "Referrer-Policy: no-referrer\r\nConnection: close\r\n\r\n")
    # (the time is that of all of it)
    connection.settimeout(WRITING)
    connection.sendall(head.encode() + response.body)
    connection.shutdown(socket.SHUT_WR)
    # (a connection that is closed before all that came is read is reset, and the response with it)
    connection.settimeout(0.2)
    for _ in range(16):
        if not connection.recv(4_096):
            break


def turn_away(connection: socket.socket) -> None:
    """Answers that too many are served, if that may be written at once."""
    with connection:
        connection.setblocking(False)
        try:
            connection.send(b"HTTP/1.1 503 Service Unavailable\r\nContent-Length: 0\r\nRetry-After: 1\r\nConnection: close\r\n\r\n")
        except OSError:
            pass


def as_json(value: object) -> Response:
    return Response("200 OK", "application/json", json.dumps(value).encode())


def form_of(value: Any) -> Any:
    """A value of a view, as JSON has it."""
    if isinstance(value, (Pid, Item)):
        return str(value)
    if isinstance(value, First):
        return {"count": value.count, "first": form_of(value.first)}
    if isinstance(value, Holder):
        return {"pid": str(value.pid), "behaviour": value.name, "seconds": value.seconds}
    if isinstance(value, ProcessView):
        return {**fields_of(value), "waits_for": waits_text(value.waits_for)}
    if isinstance(value, View):
        return {**fields_of(value), "memory": memory(), "next": None if value.next is None else str(value.next)}
    if isinstance(value, tuple):
        return fields_of(value) if hasattr(value, "_fields") else [form_of(it) for it in value]
    return value


def fields_of(value: Any) -> dict[str, Any]:
    return {name: form_of(it) for name, it in zip(value._fields, value) if name != "waits_for"}


def memory() -> Optional[int]:
    """How many bytes of memory the program has, if the system says so."""
    try:
        lines = Path("/proc/self/status").read_text().splitlines()
    except OSError:
        return None
    return next((int(line.split()[1]) * 1_024 for line in lines if line.startswith("VmRSS:")), None)


# What Prometheus is told of each desk: the name, the type, what it is, and how it is read.
OF_DESK: tuple[tuple[str, str, str, Callable[[DeskView], float]], ...] = (
    ("pundewo_processes", "gauge", "Processes that live.", lambda desk: desk.processes),
    ("pundewo_supervisors", "gauge", "Supervisors that live.", lambda desk: desk.supervisors),
    ("pundewo_messages_total", "counter", "Messages that processes have taken.", lambda desk: desk.messages),
    ("pundewo_handlers_total", "counter", "Handlers that ran.", lambda desk: desk.handlers),
    ("pundewo_restarts_total", "counter", "Restarts that supervisors have made.", lambda desk: desk.restarts),
    ("pundewo_losses_total", "counter", "Messages to processes that have exited.", lambda desk: desk.losses),
    ("pundewo_longest_handler_seconds", "gauge", "The longest run of a handler.",
     lambda desk: 0.0 if desk.longest is None else desk.longest.seconds),
    ("pundewo_queue", "gauge", "Processes that may have something to do.", lambda desk: desk.queue),
    ("pundewo_waiting_for_room", "gauge", "Signals that wait for room in a lane.", lambda desk: desk.waiting_for_room),
    ("pundewo_journal_events", "gauge", "Events in the journal.", lambda desk: desk.journal),
)


def of_run(view: View) -> tuple[tuple[str, str, str, float], ...]:
    """The same of the run."""
    return (
        ("pundewo_uptime_seconds", "gauge", "How long the run has run.", view.uptime),
        ("pundewo_spawned_total", "counter", "Processes that were spawned.", view.spawned),
        ("pundewo_crashes_total", "counter", "Processes that crashed.", view.crashes),
        ("pundewo_epochs_total", "counter", "Epochs that have ended.", view.epochs),
        ("pundewo_archived_events_total", "counter", "Events that the sink got.", view.archived),
        ("pundewo_memory_bytes", "gauge", "Memory of the program.", memory() or 0),
    )


def metrics(view: View) -> str:
    """A look in the text format that Prometheus reads. A desk that did not answer has a 0 in `pundewo_desk_up`, and no other
    line."""
    lines: list[str] = []

    def head(name: str, kind: str, about: str) -> None:
        lines.extend((f"# HELP {name} {about}", f"# TYPE {name} {kind}"))

    for name, kind, about, value in of_run(view):
        head(name, kind, about)
        lines.append(f"{name} {value}")
    for name, kind, about, of_desk in OF_DESK:
        head(name, kind, about)
        lines.extend(f'{name}{{desk="{desk.desk}"}} {of_desk(desk)}' for desk in view.desks)
    head("pundewo_desk_up", "gauge", "Whether the desk answered in time.")
    ups = [(desk.desk, 1) for desk in view.desks] + [(silent.desk, 0) for silent in view.silent]
    lines.extend(f'pundewo_desk_up{{desk="{desk}"}} {up}' for desk, up in ups)
    return "\n".join(lines) + "\n"
