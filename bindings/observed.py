#!/usr/bin/env python3
"""Looks at the page of a run while a program runs under load, as those do who watch it, and as bad clients do.

    bindings/observed.py COMMAND..
    bindings/observed.py --unsupervised COMMAND..     the run has no supervisor

COMMAND prints the address of the page first, on either output, and its status is 0 if it has lost nothing. Meanwhile its state
and counts are asked for, and slow and bad clients take connections. What is counted may only grow. If chromium is on the
machine, the page is opened in it: it shows the processes, it opens one, and it asks for nothing but its own server. The last
line is the verdict.
"""
from __future__ import annotations

import base64
import json
import os
import re
import shutil
import socket
import subprocess
import sys
import tempfile
import threading
import time
import urllib.parse
import urllib.request
from pathlib import Path
from typing import Any, Optional

ADDRESS = re.compile(r"http://127\.0\.0\.1:(\d+)/([0-9a-f]{32})/")
COUNTS = ("messages", "handlers", "restarts", "losses")
# For how many seconds it is waited for what has to come.
PATIENCE = 120.0


class Fault(Exception):
    """What is wrong."""


class Program:
    """A program under load, with the address of its page."""

    def __init__(self, command: list[str]):
        self.process = subprocess.Popen(command, stdout=subprocess.PIPE, stderr=subprocess.STDOUT, stdin=subprocess.PIPE,
                                        text=True)
        self.lines: list[str] = []
        self.found = threading.Event()
        self.url, self.port = "", 0
        self.reader = threading.Thread(target=self.read, daemon=True)
        self.reader.start()
        if not self.found.wait(PATIENCE) or not self.url:
            raise Fault(f"no address of a page: {self.lines[-5:]}")

    def read(self) -> None:
        assert self.process.stdout is not None
        for line in self.process.stdout:
            self.lines = [*self.lines[-50:], line]
            at = ADDRESS.search(line)
            if at is not None and not self.url:
                self.url, self.port = at[0], int(at[1])
                self.found.set()
        self.found.set()

    def runs(self) -> bool:
        return self.process.poll() is None

    def ends(self) -> None:
        """It has been looked at: a program that runs until the end of its input ends."""
        assert self.process.stdin is not None
        self.process.stdin.close()


def state(program: Program) -> Optional[dict[str, Any]]:
    """The state, and what Prometheus reads. None if the server turns this client away, or has ended."""
    try:
        with urllib.request.urlopen(program.url + "state", timeout=PATIENCE) as answer:
            got: dict[str, Any] = json.load(answer)
        with urllib.request.urlopen(program.url + "metrics", timeout=PATIENCE) as answer:
            text = answer.read().decode()
    except OSError:
        return None
    for line in text.splitlines():
        if not re.fullmatch(r'# (HELP|TYPE) pundewo_\w+ .+|pundewo_\w+(\{desk="\d+"\})? [0-9.e+-]+', line):
            raise Fault(f"no line that Prometheus reads: {line}")
    return got


class Watcher:
    """Asks for the state until the program ends."""

    def __init__(self, program: Program):
        self.program, self.count, self.slowest = program, 0, 0.0
        self.before: dict[tuple[int, str], int] = {}
        self.fault: Optional[str] = None

    def run(self) -> None:
        try:
            while self.program.runs():
                self.look()
                time.sleep(0.05)
        except Fault as fault:
            self.fault = str(fault)

    def look(self) -> None:
        began = time.monotonic()
        got = state(self.program)
        if got is not None:
            self.count += 1
            self.slowest = max(self.slowest, time.monotonic() - began)
            self.compare(got)

    def has_looked(self) -> None:
        """Waits until it has looked once more, beside those who disturb: on a busy machine a look may take a minute."""
        until, before = time.monotonic() + PATIENCE, self.count
        while self.program.runs() and self.fault is None and self.count == before and time.monotonic() < until:
            time.sleep(0.05)

    def compare(self, got: dict[str, Any]) -> None:
        for desk in got["desks"]:
            for name in COUNTS:
                key = desk["desk"], name
                if desk[name] < self.before.get(key, 0):
                    raise Fault(f"{name} of desk {desk['desk']} fell from {self.before[key]} to {desk[name]}")
                self.before[key] = desk[name]
        if len({process["pid"] for process in got["processes"]}) != len(got["processes"]):
            raise Fault("a process is there twice")


def pages(program: Program) -> str:
    """Goes through all pages of processes: none is there twice, and a page has a thousand at most."""
    found: set[str] = set()
    after, count = "", 0
    while after is not None and program.runs():
        try:
            with urllib.request.urlopen(f"{program.url}state{after}", timeout=PATIENCE) as answer:
                got = json.load(answer)
        except OSError:
            # (too many are served)
            time.sleep(0.1)
            continue
        here = {process["pid"] for process in got["processes"]}
        if len(here) > 1_000 or (count < 100 and found & here):
            raise Fault(f"page {count} has {len(here)} processes, of which {len(found & here)} were on others")
        found, count = found | here, count + 1
        if got["next"] is None:
            break
        after = "?after=" + urllib.parse.quote(str(got["next"]))
    return f"{len(found)} processes are on {count} pages"


def refuses(program: Program) -> None:
    """What is no GET of a page that is there gets the status that says so."""
    token = program.url.split("/")[-2]
    asked = ((f"POST /{token}/state HTTP/1.1", 405), (f"GET /{token}/nothing HTTP/1.1", 404), ("GET /x/state HTTP/1.1", 404),
             (f"GET /{token[:-1]}x/state HTTP/1.1", 404), ("nonsense", 400), (f"GET /{token}/metrics HTTP/1.1", 200))
    for line, status in asked:
        got = b""
        while (not got or b" 503 " in got) and program.runs():
            try:
                with socket.create_connection(("127.0.0.1", program.port), timeout=PATIENCE) as client:
                    client.sendall(f"{line}\r\n\r\n".encode())
                    got = client.recv(64)
            except OSError:
                time.sleep(0.1)
        if program.runs() and not got.startswith(f"HTTP/1.1 {status} ".encode()):
            raise Fault(f"to {line} it answers {got!r}")


def disturb(program: Program) -> None:
    """Clients that say nothing, say nonsense, ask for more than is served, or do not read."""
    held: list[socket.socket] = []
    token = program.url.split("/")[-2].encode()
    says = (b"", b"GET /", b"POST / HTTP/1.1\r\n\r\n", b"x" * 20_000, b"\r\n\r\n", b"GET /x/state HTTP/1.1\r\n\r\n",
            b"GET /" + token + b"/state HTTP/1.1\r\n\r\n", b"GET /" + token + b"/inspect?pid=9.9.9 HTTP/1.1\r\n\r\n")
    while program.runs():
        for what in says:
            try:
                held.append(socket.create_connection(("127.0.0.1", program.port), timeout=5))
                held[-1].sendall(what)
            except OSError:
                pass
        while len(held) > 12:
            held.pop(0).close()
        time.sleep(0.1)


class Browser:
    """A headless Chromium that is driven through a pipe: no library, no network."""

    def __init__(self, program: str):
        self.folder = tempfile.mkdtemp()
        theirs, self.write = os.pipe()
        self.read, mine = os.pipe()

        def hand_over() -> None:
            # (the pipes may have any numbers: first out of the way of 3 and 4)
            first, second = os.dup2(theirs, 20), os.dup2(mine, 21)
            os.dup2(first, 3)
            os.dup2(second, 4)

        self.process = subprocess.Popen(
            [program, "--headless=new", "--no-sandbox", "--disable-gpu", "--remote-debugging-pipe",
             f"--user-data-dir={self.folder}", "about:blank"], preexec_fn=hand_over, close_fds=False, stdout=subprocess.DEVNULL, stderr=subprocess.DEVNULL)
        os.close(theirs)
        os.close(mine)
        self.number, self.buffer = 0, b""
        self.faults: list[str] = []
        self.asked: set[str] = set()
        targets = self.ask("Target.getTargets")["targetInfos"]
        page = next(it["targetId"] for it in targets if it["type"] == "page")
        self.tab: Optional[str] = None
        self.enter(page)

    def enter(self, page: str) -> None:
        """A session with this page."""
        self.tab = self.ask("Target.attachToTarget", targetId=page, flatten=True)["sessionId"]
        for domain in ("Page", "Runtime", "Network"):
            self.tell(f"{domain}.enable")

    def close(self) -> None:
        self.process.kill()
        self.process.wait()
        shutil.rmtree(self.folder, ignore_errors=True)

    def ask(self, method: str, tab: Optional[str] = None, **params: Any) -> Any:
        self.number += 1
        message: dict[str, Any] = {"id": self.number, "method": method, "params": params}
        if tab:
            message["sessionId"] = tab
        os.write(self.write, json.dumps(message).encode() + b"\0")
        while True:
            while b"\0" not in self.buffer:
                more = os.read(self.read, 1 << 20)
                if not more:
                    raise Fault("the browser is gone")
                self.buffer += more
            one, self.buffer = self.buffer.split(b"\0", 1)
            answer = json.loads(one)
            self.note(answer)
            if answer.get("id") == self.number:
                if "error" in answer:
                    raise Fault(f"{method}: {answer['error']}")
                return answer["result"]

    def note(self, answer: dict[str, Any]) -> None:
        if answer.get("method") == "Runtime.exceptionThrown":
            self.faults.append(json.dumps(answer["params"]["exceptionDetails"])[:500])
        if answer.get("method") == "Network.requestWillBeSent":
            self.asked.add(answer["params"]["request"]["url"])

    def tell(self, method: str, **params: Any) -> Any:
        return self.ask(method, self.tab, **params)

    def run(self, text: str) -> Any:
        answer = self.tell("Runtime.evaluate", expression=text, returnByValue=True, awaitPromise=True)
        if "exceptionDetails" in answer:
            raise Fault(json.dumps(answer["exceptionDetails"])[:500])
        return answer["result"].get("value")

    def until(self, text: str) -> None:
        until = time.monotonic() + PATIENCE
        while not self.run(text):
            if time.monotonic() > until:
                raise Fault(f"the page does not come to: {text}; it shows {self.run('document.body.innerText')[:500]}")
            time.sleep(0.1)

    def shot(self, path: Path) -> None:
        path.write_bytes(base64.b64decode(self.tell("Page.captureScreenshot", format="png")["data"]))


def see(program: Program, browser: Browser, supervisors: bool) -> str:
    """Looks at what the page shows, which the browser has opened."""
    try:
        browser.until("document.readyState === 'complete'")
        while browser.run("!window.seen") and program.runs():
            # (too many were served)
            time.sleep(0.1)
            browser.tell("Page.navigate", url=program.url)
            browser.until("document.readyState === 'complete'")
        browser.until("!!window.seen && window.seen() !== null")
        browser.until("document.querySelectorAll('#processes tbody tr').length > 0 && window.seen().desks.length > 0")
        if supervisors:
            browser.until("document.querySelectorAll('#supervisors tbody tr').length > 1")
        browser.run("document.querySelector('#processes tbody button').click()")
        browser.until("!document.getElementById('one').hidden && document.querySelectorAll('#one dt').length >= 1")
        browser.run("document.getElementById('find').value = 'no such name'; document.getElementById('find').oninput()")
        if browser.run("document.querySelectorAll('#processes tbody tr').length") != 0:
            raise Fault("the search does not find nothing")
        browser.run("document.getElementById('find').value = ''; document.getElementById('find').oninput()")
        shots = os.environ.get("OBSERVED_SHOTS")
        for scheme in ("light", "dark"):
            browser.tell("Emulation.setEmulatedMedia", features=[{"name": "prefers-color-scheme", "value": scheme}])
            back = browser.run("getComputedStyle(document.body).backgroundColor")
            if back != {"light": "rgb(255, 255, 255)", "dark": "rgb(13, 17, 23)"}[scheme]:
                raise Fault(f"the page is {back} in the {scheme}")
            if shots:
                time.sleep(1.5)
                browser.shot(Path(shots) / f"{scheme}.png")
        others = [url for url in browser.asked if not url.startswith(f"http://127.0.0.1:{program.port}/")]
        if browser.faults or others:
            raise Fault(f"the page: {browser.faults} {others}")
        return f"the page shows {browser.run('window.seen().processes.length')} of them"
    finally:
        browser.close()


def main() -> int:
    chromium, fault, supervisors = shutil.which("chromium"), "", sys.argv[1] != "--unsupervised"
    # (before the program, which may be over soon)
    browser = Browser(chromium) if chromium else None
    program = Program(sys.argv[1 if supervisors else 2 :])
    found = ""
    watcher = Watcher(program)
    try:
        # (some programs end by themselves: so the first look is before all else)
        watcher.look()
        if browser:
            browser.tell("Emulation.setDeviceMetricsOverride", width=1300, height=900, deviceScaleFactor=1, mobile=False)
            browser.tell("Page.navigate", url=program.url)
        refuses(program)
        found = pages(program)
    except Fault as what:
        fault = str(what)
    threads = [threading.Thread(target=watcher.run), threading.Thread(target=disturb, args=(program,), daemon=True)]
    for thread in threads:
        thread.start()
    try:
        seen = see(program, browser, supervisors) if browser else "no chromium: the page was not opened (apt-get install chromium)"
    except Fault as what:
        seen, fault = "", fault or str(what)
    watcher.has_looked()
    # (so all are there for a while)
    time.sleep(3)
    program.ends()
    status = program.process.wait(600)
    threads[0].join()
    program.reader.join(5)
    if status or fault or watcher.fault or not watcher.count:
        print("".join(program.lines[-20:]))
        print(f"observed: status {status}, {fault or watcher.fault or f'{watcher.count} looks'}")
        return 1
    print(f"observed: {watcher.count} looks, the slowest in {watcher.slowest * 1000:.0f} ms; {found}; {seen}; the program lost nothing")
    return 0


if __name__ == "__main__":
    sys.exit(main())
