"""Tests of a run that is looked at while it runs: what a look says, and that it agrees with the history."""

from __future__ import annotations

import json
import socket
import threading
import time
import unittest
import urllib.error
import urllib.request
from typing import Any, Callable, Optional
from unittest import mock

import pundewo as p
from pundewo import _observer
from pundewo import runtime as r

from behaviours import Doing, log

LONG = 120.0


class Counter(r.Behaviour):
    """Counts what it is sent. 0 has it raise, and at 1 the text of its state raises."""

    def __init__(self, count: int = 0) -> None:
        self.count = count

    def handle(self, cx: r.Context, event: r.Event) -> None:
        if isinstance(event, r.Message):
            assert event.value, "noise"
            self.count += event.value

    def inspect(self) -> str:
        assert self.count != 1, "no text"
        return f"counted {self.count}"


class Waits(r.Behaviour):
    """Waits as it is told at first."""

    def __init__(self, next_: r.Next, also: Optional[Callable[[r.Context], object]] = None) -> None:
        self.next, self.also = next_, also

    def started(self, cx: r.Context) -> r.Next:
        if self.also is not None:
            self.also(cx)
        return self.next

    def handle(self, cx: r.Context, event: r.Event) -> Optional[r.Next]:
        return r.Next.stop() if isinstance(event, r.Exit) else self.next


class Runs(unittest.TestCase):
    """Runs on a thread of its own."""

    def start(self, **settings: Any) -> r.Runtime:
        # (crashes are reported, as they are to be)
        log.disabled = True
        self.addCleanup(setattr, log, "disabled", False)
        runtime = r.Runtime(**settings)
        thread = threading.Thread(target=runtime.run, args=(True,))
        thread.start()

        def end() -> None:
            runtime.stop()
            thread.join()

        self.addCleanup(end)
        return runtime

    def until(self, runtime: r.Runtime, sees: Callable[[r.View], bool]) -> r.View:
        began = time.monotonic()
        while not sees(view := runtime.view(limit=LONG)):
            self.assertLess(time.monotonic() - began, LONG, view)
            time.sleep(0.002)
        return view

    def seen(self, view: r.View, process: r.Address) -> r.ProcessView:
        it = view.process(process.pid)
        assert it is not None
        return it


def sums(view: r.View) -> tuple[int, ...]:
    """All counts of the desks: messages, handlers, restarts, losses."""
    return tuple(sum(counts) for counts in zip(*((it.messages, it.handlers, it.restarts, it.losses) for it in view.desks)))


class Views(Runs):
    def test_pages_have_each_live_process_once_by_birth(self) -> None:
        runtime = self.start(desks=2)
        all_ = [runtime.spawn(Counter()) for _ in range(400)]
        for k, process in enumerate(all_):
            if k % 4 != 0:
                # (it crashes)
                process.send(0)
        left = {process.pid for process in all_[::4]}
        view = self.until(runtime, lambda view: sum(desk.processes for desk in view.desks) == len(left))
        found: list[p.Pid] = []
        after: Optional[int] = None
        while True:
            view = runtime.view(after, processes=7, limit=LONG)
            found += [process.pid for process in view.processes]
            after = view.next
            if after is None:
                break
        self.assertEqual(found, [process.pid for process in all_[::4]])

    def test_a_process_is_seen_with_what_it_has(self) -> None:
        runtime = self.start(desks=2)
        picky = runtime.spawn(Waits(r.Next.only(p.Pick("kind", 70))), desk=0)
        selective = runtime.spawn(Waits(r.Next.only((int, 3), LONG, downs=True)), desk=1)

        def also(cx: r.Context) -> None:
            cx.trap()
            cx.link(picky)
            cx.monitor(selective)
            cx.spawn(Doing())

        watcher = runtime.spawn(Waits(r.Next.wait(), also), desk=0)
        self.assertTrue(runtime.register("one", picky) and runtime.register("other", picky))
        for letter in "abc":
            self.assertTrue(picky.send(letter) and selective.send(letter))

        def all_came(view: r.View) -> bool:
            both = [self.seen(view, it) for it in (picky, selective)]
            return [(it.mailbox.count, it.aside) for it in both] == [(3, 0), (0, 3)] and both[0].links.count == 1

        view = self.until(runtime, all_came)
        it = self.seen(view, picky)
        self.assertEqual((it.behaviour, it.parent, it.names, it.traps_exits), ("Waits", None, ("one", "other"), False))
        self.assertEqual((it.waits_for, it.time_left, it.links), (p.Pick("kind", 70), None, r.First(1, [watcher.pid])))
        self.assertEqual([item.name for item in it.mailbox.first], ["user"] * 3)
        it = self.seen(view, selective)
        self.assertEqual((it.aside, it.mailbox.count, it.watchers.first), (3, 0, (watcher.pid,)))
        self.assertEqual(it.waits_for, r.Selection((int, 3), downs=True))
        assert it.time_left is not None
        self.assertTrue(LONG / 2 < it.time_left <= LONG)
        it = self.seen(view, watcher)
        self.assertEqual((it.waits_for, it.traps_exits, it.monitors), (p.ANY, True, r.First(1, [selective.pid])))
        self.assertEqual([it.behaviour for it in view.processes if it.parent == watcher.pid], ["Doing"])
        self.assertEqual((view.is_over, view.next, len(view.desks), view.silent), (False, None, 2, ()))
        runtime.unregister("one")
        self.assertEqual(self.seen(runtime.view(), picky).names, ("other",))

    def test_lists_are_cut_and_counted(self) -> None:
        runtime = self.start()
        full = runtime.spawn(Waits(r.Next.only(p.Pick("kind", 70))))
        for number in range(100):
            full.send(number)
        self.until(runtime, lambda view: self.seen(view, full).mailbox.count == 100)
        it = self.seen(runtime.view(first=3), full)
        self.assertEqual((it.mailbox.count, len(set(it.mailbox.first))), (100, 3))

    def test_supervisors_are_a_tree_with_their_restarts(self) -> None:
        runtime = self.start()
        below = lambda: r.Supervisor.rest_for_one().limit(100, LONG).transient(Counter, "counter")  # noqa: E731
        top = runtime.spawn(r.Supervisor.one_for_all().permanent(below, "below").permanent(Doing, "other"))

        def counter(view: r.View) -> Optional[p.Pid]:
            return next((it.pid for it in view.processes if it.behaviour == "Counter"), None)

        for count in range(3):
            view = self.until(runtime, lambda view: counter(view) is not None and sums(view)[2] == count)
            pid = counter(view)
            assert pid is not None
            runtime._engine.pids[pid].cx.me.send(0)
        view = self.until(runtime, lambda view: sums(view)[2] == 3 and counter(view) is not None)
        above, under = view.supervisors
        self.assertEqual((above.pid, above.parent, above.depth, above.restarts), (top.pid, None, 0, 0))
        self.assertEqual((under.parent, under.depth, under.restarts), (top.pid, 1, 3))
        self.assertEqual((above.strategy, under.strategy), ("one_for_all", "rest_for_one"))
        self.assertEqual(above.children.first[0], r.ChildView(0, "below", under.pid, "Supervisor", "permanent", 1))
        self.assertEqual(under.children, r.First(1, [r.ChildView(0, "counter", counter(view), "Counter", "transient", 4)]))
        self.assertEqual((view.crashes, view.desks[0].supervisors, view.desks[0].processes, view.alive), (3, 2, 4, 4))

    def test_a_handler_that_holds_up_the_run_is_named(self) -> None:
        runtime, waits = self.start(desks=2), threading.Event()
        holds = runtime.spawn(Doing(lambda cx, event: waits.wait(LONG) and None), desk=1)
        holds.send(1)
        began = time.monotonic()
        view = runtime.view(limit=0.05)
        while not any(it.running for it in view.silent):
            view = runtime.view(limit=0.05)
            self.assertLess(time.monotonic() - began, LONG)
        self.assertEqual(([it.desk for it in view.silent], view.desks, view.processes), ([0, 1], (), ()))
        held = view.silent[1].running
        assert held is not None
        self.assertEqual((held.pid, held.name, view.silent[0].running), (holds.pid, "Doing", None))
        with self.assertRaises(r.CallTimeout):
            runtime.inspect(holds, 0.05)
        waits.set()
        longest = self.until(runtime, lambda view: not view.silent).desks[1].longest
        assert longest is not None
        self.assertEqual((longest.pid, longest.seconds >= 0.05), (holds.pid, True))

    def test_many_processes_are_seen_by_pages(self) -> None:
        runtime = self.start(desks=3, slots=2_000)
        all_ = [runtime.spawn(Doing()) for _ in range(3_500)]
        gone = all_[::7]
        for process in gone:
            runtime.exit(process, p.KILL)
        self.until(runtime, lambda view: view.alive == 3_000)
        seen: list[p.Pid] = []
        after, pages = None, 0
        while pages == 0 or after is not None:
            view = runtime.view(after, limit=LONG)
            self.assertLessEqual(len(view.processes), 1_000)
            seen += [it.pid for it in view.processes]
            after, pages = view.next, pages + 1
        self.assertEqual((len(seen), pages), (3_000, 3))
        self.assertEqual(set(seen), {it.pid for it in all_} - {it.pid for it in gone})

    def test_a_behaviour_says_what_its_state_is(self) -> None:
        runtime = self.start()
        counter, silent, odd = runtime.spawn(Counter(4)), runtime.spawn(Doing()), runtime.spawn(Counter(1))
        self.assertEqual((runtime.inspect(counter), runtime.inspect(silent)), ("counted 4", ""))
        with self.assertRaisesRegex(AssertionError, "no text"):
            runtime.inspect(odd)
        odd.send(1)
        self.until(runtime, lambda view: sums(view)[0] == 1)
        self.assertEqual(runtime.inspect(odd), "counted 2")
        runtime.exit(odd, p.KILL)
        self.until(runtime, lambda view: view.process(odd.pid) is None)
        with self.assertRaises(r.ServerDown):
            runtime.inspect(odd)

    def test_a_run_that_is_over(self) -> None:
        runtime = r.Runtime(desks=2)
        counter = runtime.spawn(Counter())
        self.assertEqual((runtime.view().alive, runtime.view().process(counter.pid) is not None), (1, True))
        runtime.stop()
        runtime.run()
        view = runtime.view()
        self.assertEqual((view.is_over, view.alive, view.spawned, view.desks, len(view.silent)), (True, 0, 1, (), 2))
        with self.assertRaises(r.RunOver):
            runtime.inspect(counter)
        self.assertTrue(runtime.tap().is_ended())


class Runner(r.Behaviour):
    """Sends each number on to the next of a ring, less one. Some crash now and then."""

    def __init__(self, place: int, count: int) -> None:
        self.place, self.count = place, count

    def started(self, cx: r.Context) -> None:
        cx.register(str(self.place))

    def handle(self, cx: r.Context, event: r.Event) -> None:
        if isinstance(event, r.Message):
            following = cx.whereis(str((self.place + 1) % self.count))
            if following is not None and event.value > 0:
                cx.send(following, event.value - 1)
            assert event.value % 37 or self.place % 5, "noise"


class Histories(Runs):
    """A ring over all desks, under a supervisor of each."""

    COUNT = 30

    def ring(self, runtime: r.Runtime) -> None:
        for desk in range(3):
            tree = r.Supervisor.one_for_one().limit(100_000, LONG)
            for place in range(desk, self.COUNT, 3):
                tree.permanent(lambda place=place: Runner(place, self.COUNT), str(place))  # type: ignore[misc]
            runtime.spawn(tree, desk)
        self.until(runtime, lambda view: all(runtime.whereis(str(place)) for place in range(self.COUNT)))

    def carry(self, runtime: r.Runtime) -> r.View:
        """Has the ring carry numbers for a while, with crashes, until nothing moves any more."""
        for number in range(6):
            for place in range(self.COUNT):
                to = runtime.whereis(str(place))
                if to is not None:
                    to.send(40 + 2 * place + number)
            time.sleep(0.005)
        before, same = runtime.view(limit=LONG), 0
        while same < 20:
            time.sleep(0.005)
            view = runtime.view(limit=LONG)
            rests = all(it.queue == 0 and it.waiting_for_room == 0 for it in view.desks)
            rests = rests and sums(view) == sums(before) and all(it.mailbox.count == 0 for it in view.processes)
            before, same = view, same + 1 if rests else 0
        return before

    def test_counts_agree_with_the_history(self) -> None:
        events: list[p.Event] = []
        runtime = self.start(desks=3, lane=4, going_on_every=500, archive=lambda history: events.extend(history))
        self.ring(runtime)
        view = self.carry(runtime)
        runtime.go_on()
        view = self.until(runtime, lambda now: now.epochs > view.epochs)
        all_ = list(events)
        took = sum(it.item is not None and it.item.name == "user" for it in all_)
        came = sum(it.name == "came" and it.signal is not None and it.signal.name == "message" for it in all_)
        crashed = sum(it.name == "left" and it.reason == r.CRASH for it in all_)
        born = sum(it.name == "born" for it in all_)
        self.assertTrue(took > 2_000 and crashed > 3 and came >= took and view.epochs > 5, (took, came, crashed, view.epochs))
        # (of the first thing that a process is told a supervisor is not told, and a desk's own is)
        self.assertEqual(sums(view), (took, took + born - 3, crashed, came - took))
        self.assertEqual((view.crashes, view.spawned, view.archived), (crashed, born - 3, len(all_)))
        self.assertEqual(sum(child.started for it in view.supervisors for child in it.children.first), self.COUNT + crashed)

    def test_a_tap_has_all_events_of_all_epochs(self) -> None:
        events: list[p.Event] = []
        runtime = self.start(desks=3, lane=4, going_on_every=500, archive=lambda history: events.extend(history))
        tap = runtime.tap(most=10_000_000)
        runtime.view()
        self.ring(runtime)
        self.carry(runtime)
        self.doCleanups()
        self.assertTrue(tap.is_ended())
        tapped = list(iter(tap.get, None))
        for desk in range(3):
            of_desk = [it for it in tapped if isinstance(it, p.Event) and it.desk == desk]
            kept = [it for it in events if it.desk == desk]
            self.assertGreater(len(of_desk), 500)
            # (what was before the tap is of the desk's own process)
            self.assertEqual(of_desk, kept[len(kept) - len(of_desk):])
            self.assertEqual({it.pid for it in kept[:len(kept) - len(of_desk)]}, {p.Pid(desk, 0, 1)})
        self.assertEqual(sum(isinstance(it, r.Behind) for it in tapped), 0)

    def test_a_tap_of_one_process_that_falls_behind_is_told(self) -> None:
        runtime = self.start(desks=2, going_on_every=100)
        taken, other = runtime.spawn(Doing()), runtime.spawn(Doing())
        tap = runtime.tap(taken, 10)
        runtime.view()
        for number in range(1_000):
            taken.send(number)
            other.send(number)
        self.until(runtime, lambda view: sums(view)[0] == 2_000)
        got = [tap.get() for _ in range(12)]
        names = [it.name for it in got if isinstance(it, p.Event) and it.pid == taken.pid]
        self.assertEqual((len(names), set(names) <= {"came", "took"}), (10, True))
        self.assertEqual(got[10:], [r.Behind(1_990), None])
        taken.send(7)
        names = [it.name for it in (tap.get(LONG), tap.get(LONG)) if isinstance(it, p.Event)]
        self.assertEqual((names, tap.get(0.005)), (["came", "took"], None))
        tap.close()
        taken.send(8)
        self.until(runtime, lambda view: sums(view)[0] == 2_002)
        self.assertIsNone(tap.get(LONG))


def in_time(answers: Callable[[], Any], is_turned_away: Callable[[Any], bool]) -> Any:
    """What is answered once there is a place. (those who were answered before may have theirs for a while)"""
    began = time.monotonic()
    while is_turned_away(answer := answers()) and time.monotonic() - began < LONG:
        time.sleep(0.005)
    return answer


def ask(url: str, **headers: str) -> Any:
    """The status, the headers and the text of what is answered."""
    return in_time(lambda: ask_once(url, **headers), lambda answer: bool(answer[0] == 503))


def say(port: int, *parts: bytes, pause: float = 0.0) -> Any:
    """What is answered to these bytes."""
    return in_time(lambda: say_once(port, *parts, pause=pause), lambda answer: bool(answer.startswith(b"HTTP/1.1 503 ")))


def ask_once(url: str, **headers: str) -> tuple[int, dict[str, str], str]:
    try:
        with urllib.request.urlopen(urllib.request.Request(url, headers=headers), timeout=LONG) as answer:
            return answer.status, dict(answer.headers), answer.read().decode()
    except urllib.error.HTTPError as error:
        with error:
            return error.code, dict(error.headers), error.read().decode()


def say_once(port: int, *parts: bytes, pause: float = 0.0) -> bytes:
    with socket.create_connection(("127.0.0.1", port), timeout=LONG) as connection:
        for part in parts:
            try:
                connection.sendall(part)
            except OSError:
                break
            time.sleep(pause)
        got = b""
        try:
            while part := connection.recv(65_536):
                got += part
        except OSError:
            pass
        return got


class Observers(Runs):
    def setUp(self) -> None:
        # (a run that a busy machine holds up is waited for: else its page would say that its desks are silent)
        patient = mock.patch.object(_observer, "LIMIT", LONG)
        patient.start()
        self.addCleanup(patient.stop)

    def test_the_page_and_what_it_asks_for(self) -> None:
        runtime = self.start(desks=2)
        runtime.register("the counter", counter := runtime.spawn(Counter(4)))
        with runtime.observe() as observer:
            self.assertEqual(str(observer), f"http://127.0.0.1:{observer.port}/{observer.token}/")
            status, headers, page = ask(observer.url)
            self.assertEqual((status, headers["Content-Type"]), (200, "text/html; charset=utf-8"))
            self.assertIn("default-src 'none'", headers["Content-Security-Policy"])
            self.assertEqual((headers["Cache-Control"], headers["X-Content-Type-Options"]), ("no-store", "nosniff"))
            self.assertTrue(page.startswith("<!doctype html>"))
            state = json.loads(ask(observer.url + "state")[2])
            self.assertEqual([it["desk"] for it in state["desks"]], [0, 1])
            [process] = state["processes"]
            self.assertEqual((process["pid"], process["names"], process["waits_for"]), (str(counter.pid), ["the counter"], "any"))
            word = ".".join(map(str, counter.pid))
            self.assertEqual(json.loads(ask(f"{observer.url}inspect?pid={word}")[2]), {"text": "counted 4"})
            self.assertEqual(json.loads(ask(f"{observer.url}inspect?pid=0.900.1")[2]), {"fault": "the process has exited"})
            self.assertEqual(json.loads(ask(f"{observer.url}state?after=1")[2])["processes"], [])
        with self.assertRaises(OSError):
            socket.create_connection(("127.0.0.1", observer.port), timeout=1).close()

    def test_what_prometheus_reads(self) -> None:
        runtime = self.start(desks=2)
        runtime.spawn(Counter()).send(3)
        self.until(runtime, lambda view: sums(view)[0] == 1)
        with runtime.observe() as observer:
            status, headers, text = ask(observer.url + "metrics")
            self.assertEqual((status, headers["Content-Type"]), (200, "text/plain; version=0.0.4; charset=utf-8"))
            values = dict(line.rsplit(" ", 1) for line in text.splitlines() if not line.startswith("#"))
            self.assertEqual((values['pundewo_messages_total{desk="0"}'], values["pundewo_spawned_total"]), ("1", "1"))
            self.assertEqual([values[f'pundewo_desk_up{{desk="{desk}"}}'] for desk in range(2)], ["1", "1"])
            for line in text.splitlines():
                self.assertRegex(line, r'^(# (HELP|TYPE) pundewo_\w+ .+|pundewo_\w+(\{desk="\d+"\})? [0-9.e+-]+)$')
            plain = f"http://127.0.0.1:{observer.port}/metrics"
            self.assertEqual(ask(plain, Authorization=f"Bearer {observer.token}")[0], 200)
            self.assertEqual((ask(plain)[0], ask(plain, Authorization="Bearer x")[0]), (404, 404))

    def test_bad_requests(self) -> None:
        runtime = self.start()
        with runtime.observe() as observer:
            root = f"http://127.0.0.1:{observer.port}/"
            for path in ("", "x/", "state", "../etc/passwd", observer.token, f"{observer.token[:-1]}/", f"{observer.token}/x",
                         "favicon.ico", f"{observer.token}/../state"):
                self.assertEqual(ask(root + path)[0], 404, path)
            for path in ("state?after=x", "state?after=-1", "inspect", "inspect?pid=1.2", "inspect?pid=999.1.1"):
                self.assertEqual(ask(observer.url + path)[0], 400, path)
            line = f"/{observer.token}/ HTTP/1.1\r\n\r\n".encode()
            for method in (b"POST", b"PUT", b"DELETE", b"HEAD", b"get"):
                answer = say(observer.port, method + b" " + line)
                self.assertTrue(answer.startswith(b"HTTP/1.1 405 ") and b"Allow: GET\r\n" in answer, answer)
            for bad in (b"\r\n\r\n", b"GET\r\n\r\n", b"GET / HTTP/2\r\n\r\n", b"\xff\xfe\r\n\r\n", b"GET / x HTTP/1.1\r\n\r\n"):
                self.assertTrue(say(observer.port, bad).startswith(b"HTTP/1.1 400 "), bad)
            self.assertTrue(say(observer.port, b"GET / HTTP/1.1\r\nX: " + b"x" * 100_000).startswith(b"HTTP/1.1 431 "))
            began = time.monotonic()
            self.assertTrue(say(observer.port, b"GET /").startswith(b"HTTP/1.1 408 "))
            self.assertLess(time.monotonic() - began, LONG)
            self.assertEqual(ask(observer.url)[0], 200)

    def test_many_slow_clients_are_turned_away_and_end(self) -> None:
        runtime = self.start()
        with runtime.observe() as observer:
            slow = [socket.create_connection(("127.0.0.1", observer.port), timeout=LONG) for _ in range(40)]
            for connection in slow:
                connection.sendall(b"GET /")
            answers = []
            for connection in slow:
                with connection:
                    answers.append(connection.recv(65_536).partition(b"\r\n")[0])
            self.assertEqual(answers.count(b"HTTP/1.1 408 Request Timeout"), 16)
            self.assertEqual(answers.count(b"HTTP/1.1 503 Service Unavailable"), 24)
            self.assertEqual(ask(observer.url)[0], 200)


if __name__ == "__main__":
    unittest.main()
