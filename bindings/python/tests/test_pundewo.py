"""Tests of the Python module: the worked rows, what the library says of itself, and what the classes keep."""

import ctypes as c
import os
import unittest
from typing import Any, Callable

import pundewo as p
import pundewo.values as v
from crew_rows import OnCrew
from pundewo import Code, Config, Fault, Pick, Pid, Reason, Ref
from pundewo import _abi as abi
from pundewo._abi import (
    CAccount, CAnswer, CAskingAbout, CBody, CCall, CCodes, CConfig, CEvent, CFired, CHeard, CHolder, CIds, CItem, CJob,
    CLeftOver, CLoss, CName, CNext, CPick, CPid, CPost, CReason, CRef, CRequest, CSignal, CSizes, CTimer, CTurned,
)
from pundewo._library import lib


# Calls by their names in the table, of a node's value and the words behind the name.
Calls = dict[str, Callable[[Any, Any], Any]]


def pid(word: Any) -> Any:
    return Pid(*map(int, word.strip("<>").split(".")))


def ref(word: Any) -> Any:
    return Ref(*map(int, word.strip("#").split(".")))


def reason(word: Any) -> Any:
    return Reason("other", int(word[6:])) if word.startswith("other:") else Reason(word)


def pick(words: Any) -> Any:
    name, *what = words
    read: dict[str, Callable[[str], Any]] = {"kind": int, "from": pid, "exit-of": pid, "down-of": ref, "alive-of": ref}
    return Pick(name, read[name](what[0])) if name in read else p.ANY


def text(value: Any) -> Any:
    return "none" if value is None else str(value).lower() if isinstance(value, bool) else str(value)


def joined(values: Any, between: Any = "; ") -> Any:
    return between.join(map(str, values)) or "nothing"


def refused(code: Any) -> Any:
    """The text of a refusal."""
    name = code.name.lower()
    return name.replace("bad_", "bounds ", 1) if name.startswith("bad_") else name


def turned(turn: Any) -> Any:
    why = "" if turn.stopped is None else f", then {refused(turn.stopped)}"
    return f"posted {turn.posted} handled {turn.handled}{why}"


def account(told: Any) -> Any:
    if told is None:
        return None
    how = "alive" if told.ended is None else f"ended {told.ended}"
    return f"{how} arrived {told.arrived} taken {told.taken} waiting {told.waiting}"


def ended(told: Any) -> Any:
    return None if told is None else told.ended


def event(events: Any, words: Any) -> Any:
    desk, stamp = map(int, words)
    return next((event for event in events if (event.desk, event.stamp) == (desk, stamp)), None)


def waiting(desk: Any, process: Any) -> Any:
    items = desk.waiting(process)
    return None if items is None else joined(items)


def body(words: Any) -> Any:
    return p.Body(int(words[0]), int(words[1]), pid(words[3]) if words[2:] else None)


ON_DESK: Calls = {
    "spawn": lambda d, w: d.spawn(),
    "spawn_child": lambda d, w: d.spawn_child(pid(w[0]), w[1] == "true"),
    "send": lambda d, w: d.send(pid(w[0]), pid(w[1]), body(w[2:])) or "ok",
    "exit_signal": lambda d, w: d.exit_signal(pid(w[0]), pid(w[1]), reason(w[2])) or "ok",
    "link": lambda d, w: d.link(pid(w[0]), pid(w[1])) or "ok",
    "unlink": lambda d, w: d.unlink(pid(w[0]), pid(w[1])) or "ok",
    "trap": lambda d, w: d.trap(pid(w[0]), w[1] == "true"),
    "exit": lambda d, w: d.exit(pid(w[0]), reason(w[1])) or "ok",
    "monitor": lambda d, w: d.monitor(pid(w[0]), pid(w[1])),
    "demonitor": lambda d, w: d.demonitor(pid(w[0]), ref(w[1]), w[2] == "true"),
    "ask_alive": lambda d, w: d.ask_alive(pid(w[0]), pid(w[1])),
    "receive": lambda d, w: d.receive(pid(w[0]), pick(w[1:] or ["any"])),
    "turn": lambda d, w: turned(d.turn(int(w[1]))),
    "clock": lambda d, w: d.clock(),
    "pending": lambda d, w: d.pending(),
    "journal": lambda d, w: joined(d.events()),
    "event": lambda d, w: event(d.events(), w),
    "alive": lambda d, w: d.alive(pid(w[0])),
    "knows": lambda d, w: d.knows(pid(w[1])),
    "vacant": lambda d, w: d.vacant(),
    "linked": lambda d, w: d.linked(pid(w[0]), pid(w[1])),
    "waiting": lambda d, w: waiting(d, pid(w[0])),
    "keep_losses": lambda d, w: d.keep_losses(w[1] == "true") or "ok",
}
ON_CREW = OnCrew(pid, pick, reason, turned)
ON_HISTORY: Calls = {
    "events": lambda h, w: len(h),
    "event": lambda h, w: event(h.events(), w),
    "history": lambda h, w: joined(h.events()),
    "left_over": lambda h, w: joined(h.left_over()),
}
ON_QUIET: Calls = {
    "pids": lambda q, w: joined(q.pids(), " "),
    "account": lambda q, w: account(q.account(pid(w[0]))),
    "ended": lambda q, w: ended(q.account(pid(w[0]))),
    "alive": lambda q, w: q.account(pid(w[0])) is not None and ended(q.account(pid(w[0]))) is None,
    "linked": lambda q, w: q.linked(pid(w[0]), pid(w[1])),
    "kept": lambda q, w: q.kept(pid(w[0]), ref(w[1])),
    "watching": lambda q, w: q.watching(pid(w[0]), ref(w[1])),
}


def turn_each(desks: Any, budget: Any) -> Any:
    """One turn of each desk: what they did together, and the first that was stopped."""
    turns = [desk.turn(budget) for desk in desks]
    stops = [(number, turn.stopped) for number, turn in enumerate(turns) if turn.stopped is not None]
    place, stopped = stops[0] if stops else (0, None)
    return p.Turned(sum(turn.posted for turn in turns), sum(turn.handled for turn in turns), stopped), place


def turn_until_still(desks: Any, budget: Any) -> Any:
    """Turns of all desks, until two rounds have handled nothing: what one desk posts may be for one before it."""
    handled = still = 0
    while still < 2:
        turn, place = turn_each(desks, max(1, budget))
        handled += turn.handled
        if turn.stopped is not None:
            return f"handled {handled}, then desk {place} {refused(turn.stopped)}"
        still = 0 if turn.handled else still + 1
    return f"handled {handled}"


class Player:
    """A node in one of its states: `node` is None, the desks, a Gathered or a Quiet; and the crews of its desks."""

    def __init__(self) -> None:
        self.node: Any = None
        self.crews: list[p.Crew] = []

    def make(self, name: Any, words: Any) -> Any:
        """Makes a call, and returns the text of its answer."""
        try:
            return text(self.answer(name, words))
        except Fault as fault:
            return refused(fault.code)

    def answer(self, name: Any, words: Any) -> Any:
        if name == "open":
            count, *settings = map(int, words)
            self.node = p.open_node(count, Config(*settings))
            return "ok"
        if name == "crews_go_on":
            return self.go_on()
        if name.startswith("crew_"):
            number = pid(words[0]).shard if words[0].startswith("<") else int(words[0])
            desk = self.node[number] if isinstance(self.node, list) else None
            return ON_CREW.make(self.crews[number], desk, name, words)
        if isinstance(self.node, p.Gathered):
            return self.settle() if name == "settle" else ON_HISTORY[name](self.node.history(), words)
        if isinstance(self.node, p.Quiet):
            return self.on_quiet(name, words)
        return self.gather() if name == "gather" else self.on_desks(name, words)

    def gather(self) -> Any:
        self.node = p.gather(self.node)
        return f"left-over {len(list(self.node.history().left_over()))}"

    def go_on(self) -> str:
        try:
            self.node, history = p.go_on(self.node, self.crews)
        except p.NotGoneOn as fault:
            self.node = fault.node
            raise
        return f"events {len(history)}"

    def settle(self) -> Any:
        self.node = self.node.settle()
        return f"handled {self.node.handled()}"

    def on_quiet(self, name: Any, words: Any) -> Any:
        if name == "resume":
            self.node = self.node.resume()
            return "ok"
        if name in ON_QUIET:
            return ON_QUIET[name](self.node, words)
        return ON_HISTORY[name](self.node.history(), words)

    def on_desks(self, name: Any, words: Any) -> Any:
        if name == "turn_all":
            return turned(turn_each(self.node, int(words[0]))[0])
        if name == "turn_until_still":
            return turn_until_still(self.node, int(words[0]))
        if name == "crews_open":
            self.crews = [p.Crew(desk) for desk in self.node]
            return "ok"
        if name == "events":
            return sum(desk.event_count() for desk in self.node)
        number = pid(words[0]).shard if words[0].startswith("<") else int(words[0])
        return ON_DESK[name](self.node[number], words)

    def close(self) -> None:
        """Gathers and settles what is left of the node. A clock at its limit takes no more receipts."""
        if self.node is None or isinstance(self.node, p.Quiet):
            return
        gathered = self.node if isinstance(self.node, p.Gathered) else p.gather(self.node)
        before = len(gathered.history())
        try:
            history = gathered.settle().history()
            assert len(history) >= before and not list(history.left_over())
        except p.Unsettled as fault:
            assert fault.code == Code.WORN


class Rows(unittest.TestCase):
    def test_rows_answer_as_they_do_in_rattle(self) -> None:
        player, row, rows, answers = Player(), "", 0, 0
        with open(os.environ["PUNDEWO_ROWS"]) as table:
            for line in table.read().splitlines():
                if line.startswith("row "):
                    player.close()
                    player, row, rows = Player(), line[4:], rows + 1
                    continue
                call, _, answer = line.partition(" = ")
                name, *words = call.split()
                # (no value has such a code)
                if any(word.startswith("code:") for word in words):
                    continue
                told = player.make(name, words)
                if answer:
                    self.assertEqual(told, answer, f"{row}: {call}")
                    answers += 1
        player.close()
        self.assertTrue(rows >= 125 and answers >= 2000)


class About(unittest.TestCase):
    def numbers(self, value: Any, told: Any) -> Any:
        """The numbers of a sample's fields, in order; a bool is true, and counts as the place that it stands at."""
        if isinstance(value, c.Structure):
            for name, *_ in value._fields_:
                self.numbers(getattr(value, name), told)
        elif isinstance(value, bool):
            self.assertTrue(value)
            told.append(len(told) + 1)
        else:
            told.append(value)
        return told

    def test_fields(self) -> None:
        samples = {"event": CEvent, "left_over": CLeftOver, "turned": CTurned, "account": CAccount, "loss": CLoss,
                   "config": CConfig, "job": CJob, "answer": CAnswer, "fired": CFired, "holder": CHolder}
        for name, kind in samples.items():
            sample = kind()
            getattr(lib, f"pt_about_{name}")(c.byref(sample))
            told = self.numbers(sample, [])
            self.assertEqual(told, list(range(1, len(told) + 1)), name)

    def test_structs_of_calls(self) -> None:
        about, post, size = CAskingAbout(), CPost(), c.c_size_t()
        lib.pt_about_asking(c.byref(about))
        lib.pt_about_post(c.byref(post), c.byref(size))
        for sample in (about.call, about.request, about.heard, post):
            told = self.numbers(sample, [])
            self.assertEqual(told, list(range(1, len(told) + 1)), sample)
        self.assertEqual((about.call_size, about.request_size, about.heard_size, size.value),
                         (c.sizeof(CCall), c.sizeof(CRequest), c.sizeof(CHeard), c.sizeof(CPost)))

    def test_sizes_and_codes(self) -> None:
        kinds = [CPid, CRef, CIds, CReason, CBody, CItem, CPick, CSignal, CEvent, CLeftOver, CTurned, CAccount, CConfig,
                 CNext, CJob, CAnswer, CLoss, CTimer, CFired, CName, CHolder, CCodes]
        sizes, codes = CSizes(), CCodes()
        lib.pt_about_sizes(c.byref(sizes))
        lib.pt_about_codes(c.byref(codes))
        self.assertEqual([getattr(sizes, name) for name, *_ in CSizes._fields_], [c.sizeof(kind) for kind in kinds])
        self.assertEqual({name: getattr(codes, name) for name, *_ in CCodes._fields_}, abi.CODES)
        # the words are in the order of the codes
        # (what is refused about children has codes of supervisors)
        wanted = [code.value for code in Code if not code.name.startswith("CHILD_")]
        for names in (v.REASONS + ("other",), v.ITEMS, v.PICKS, v.SIGNALS, v.EVENTS, v.NEXTS, v.JOBS):
            wanted += range(len(names))
        self.assertEqual(list(abi.CODES.values()), wanted)
        self.assertEqual(tuple(Config()), abi.CONFIG_DEFAULT)


class BadCodes(unittest.TestCase):
    """Codes that mean nothing, which no value of the module has: the library refuses them, and nothing has changed."""

    CODES = (6, 7, 255, 256, 65536, 2**31, 2**32 - 1)

    def setUp(self) -> None:
        (self.desk,) = p.open_node()
        self.p, self.other = self.desk.spawn(), self.desk.spawn()
        self.desk.send(self.other, self.p, p.Body(1, 7))
        self.desk.turn()

    def state(self) -> Any:
        return self.desk.clock(), self.desk.pending(), joined(self.desk.events()), waiting(self.desk, self.p)

    def calls(self, code: Any, one: Any, target: Any) -> Any:
        """Each call with a code, of the process `one`."""
        reason, pick = CReason(code, 1), CPick(code=code, kind=1)
        one, target = CPid(*one), CPid(*target)
        return [(lib.pt_receive, one, pick, c.byref(CItem())), (lib.pt_exit_signal, one, target, reason),
                (lib.pt_exit, one, reason)]

    def test_each_call_refuses_a_bad_code(self) -> None:
        before = self.state()
        for code in self.CODES:
            for call, *words in self.calls(code, self.p, self.other):
                with self.assertRaises(Fault) as caught:
                    self.desk._must(call, *words)
                self.assertEqual(caught.exception.code, Code.BAD_CODE)
                self.assertRegex(str(caught.exception), r"^(receive|exit_signal|exit)\(.*\): bad_code$")
                self.assertEqual(self.state(), before)

    def test_it_comes_before_what_the_desk_refuses_and_behind_an_empty_handle(self) -> None:
        strange = Pid(9, 0, 1)
        for code in self.CODES:
            for call, *words in self.calls(code, strange, strange):
                self.assertEqual(self.desk._call(call, *words), Code.BAD_CODE)
        self.desk.close()
        for call, *words in self.calls(6, self.p, self.other):
            self.assertEqual(self.desk._call(call, *words), Code.EMPTY)


class OtherDesks(unittest.TestCase):
    """A crew over the desk of another, which the module itself refuses: the library does so too, and nothing has changed."""

    def test_each_call_over_a_desk_refuses_another(self) -> None:
        own, other = p.open_node(2)
        crew = p.Crew(own)
        pid = crew.spawn(own, 3)
        first, jobs = CNext(2), (CJob * 1)()
        count, turned, idle, out = c.c_size_t(7), CTurned(posted=7), c.c_bool(True), CPid(7, 7, 7)
        at = other._at
        calls: list[Any] = [
            (lib.pt_crew_spawn, at, 3, first, c.byref(out)),
            (lib.pt_crew_spawn_child, at, CPid(*pid), True, 3, first, c.byref(out)),
            (lib.pt_crew_step, at, 9, jobs, 1, c.byref(count), c.byref(turned)),
            (lib.pt_crew_note_loss, at, 0), (lib.pt_crew_is_idle, at, c.byref(idle)),
        ]
        for call, *words in calls:
            with self.assertRaises(Fault) as caught:
                crew._must(call, *words)
            self.assertEqual(caught.exception.code, Code.WRONG_DESK)
            self.assertRegex(str(caught.exception), r"^Crew\..*: wrong_desk$")
        self.assertEqual((count.value, turned.posted, idle.value, out.slot), (7, 7, True, 7))
        self.assertEqual((joined(other.events()), len(crew), crew.queued(), crew.is_idle(own)), ("nothing", 1, 1, False))
        self.assertEqual([job.pid for job in crew.step(own)[0]], [pid])


class Handles(unittest.TestCase):
    def test_a_closed_desk_is_empty(self) -> None:
        (desk,) = p.open_node()
        desk.spawn()
        desk.close()
        desk.close()
        with self.assertRaises(Fault) as caught:
            desk.spawn()
        self.assertEqual(caught.exception.code, Code.EMPTY)

    def test_what_is_not_one_node_is_not_gathered(self) -> None:
        one, other = p.open_node(2), p.open_node(2)
        wrong: list[list[p.Desk]] = [[], one[:1], [one[1], one[0]], [one[0], other[1]], [one[0], one[0]]]
        for desks in wrong:
            with self.assertRaises(ValueError):
                p.gather(desks)
        self.assertEqual(p.gather(one).desks(), 2)
        with self.assertRaises(Fault) as caught:
            p.gather(one)
        self.assertEqual(caught.exception.code, Code.EMPTY)

    def test_what_a_desk_loses_is_told_once(self) -> None:
        (desk,) = p.open_node()
        a, b, d = desk.spawn(), desk.spawn(), desk.spawn()
        self.assertIsNone(desk.next_loss())
        desk.keep_losses()
        desk.send(a, b, p.Body(1, 1))
        desk.send(a, b, p.Body(1, 2))
        desk.send(a, d, p.Body(1, 3))
        desk.turn()
        desk.send(a, b, p.Body(1, 4))
        desk.exit(b, Reason("other", 7))
        desk.exit_signal(a, d, p.KILL)
        desk.turn()
        told = [(loss.pid, loss.reason, [item.body and item.body.num for item in loss.items])
                for loss in iter(desk.next_loss, None)]
        self.assertEqual(told, [(b, Reason("other", 7), [1, 2]), (b, None, [4]), (d, p.KILLED, [3])])

    def test_a_crew_is_told_why_a_signal_ended_a_process(self) -> None:
        (desk,) = p.open_node()
        crew, killer = p.Crew(desk), desk.spawn()
        known, unknown = (crew.spawn(desk, tag, p.Next("wait", p.ANY)) for tag in (1, 2))
        desk.keep_losses()
        desk.exit_signal(killer, known, Reason("other", 7))
        desk.turn()
        loss = crew.next_loss(desk)
        assert loss is not None
        self.assertEqual((loss.pid, loss.reason), (known, Reason("other", 7)))
        desk.exit_signal(killer, unknown, Reason("other", 8))
        jobs, _ = crew.step(desk)
        self.assertEqual({job.tag: job.reason for job in jobs}, {1: Reason("other", 7), 2: p.NOPROC})

    def test_a_history_is_read_and_accounts_told(self) -> None:
        here, there = p.open_node(2)
        a, b = here.spawn(), there.spawn()
        here.send(a, b, p.Body(1, 7, a))
        gathered = p.gather([here, there])
        self.assertEqual([str(letter) for letter in gathered.history().left_over()],
                         ["left-over 0 -> 1 <0.0.1> -> <1.0.1> message 1 7 who <0.0.1> @2"])
        quiet = gathered.settle()
        self.assertEqual(str(list(quiet.history().events())[-1]), "3@1 came <0.0.1> -> <1.0.1> message 1 7 who <0.0.1>")
        self.assertEqual((quiet.handled(), list(quiet.pids())), (1, [a, b]))
        self.assertEqual(quiet.account(b), p.Account(None, 1, 0, 1))
        self.assertIsNone(quiet.account(Pid(0, 5, 1)))

    def test_a_node_goes_on(self) -> None:
        desks = p.open_node(2)
        a = desks[0].spawn()
        quiet = p.gather(desks).settle()
        more = quiet.resume()
        self.assertEqual((len(more), more[0].alive(a), more[0].clock(), more[0].event_count()), (2, True, 1, 0))
        with self.assertRaises(Fault) as caught:
            quiet.resume()
        self.assertEqual(caught.exception.code, Code.EMPTY)
        self.assertEqual(p.gather(more).desks(), 2)

    def test_a_node_goes_on_without_a_list_of_its_pids(self) -> None:
        desks = p.open_node(2)
        a, b = desks[0].spawn(), desks[1].spawn()
        desks[0].exit(a, p.NORMAL)
        settled = p.gather(desks).settle_unlisted()
        self.assertEqual((settled.desks(), settled.handled(), len(settled.history())), (2, 0, 3))
        more = settled.resume()
        self.assertEqual((more[0].alive(a), more[1].alive(b), more[0].event_count()), (False, True, 0))
        with self.assertRaises(Fault) as caught:
            settled.resume()
        self.assertEqual(caught.exception.code, Code.EMPTY)
        quiet = p.gather(more).settle_unlisted()
        self.assertEqual((quiet.account(b), list(quiet.pids()), list(quiet.pids())), (p.Account(None, 0, 0, 0), [a, b], [a, b]))

    def test_a_process_of_another_desk_is_gone(self) -> None:
        (desk,) = p.open_node()
        other = Pid(1, 0, 1)
        self.assertEqual((desk.number, desk.alive(other), desk.knows(other)), (0, False, False))
        with self.assertRaises(Fault) as caught:
            desk.receive(other)
        self.assertEqual(caught.exception.code, Code.GONE)

    def test_what_a_process_has(self) -> None:
        here, there = p.open_node(2)
        a, b, c = here.spawn(), here.spawn(), there.spawn()
        here.link(a, b)
        here.trap(b)
        monitors = [(here.monitor(a, target), target) for target in (b, c)]
        for desk in (here, there):
            desk.turn()
        ((peer, ids),) = here.links(a) or []
        self.assertEqual((peer, here.links(b)), (b, [(a, ids)]))
        self.assertEqual((here.linked(a, b), here.linked(b, a)), (ids, ids))
        self.assertEqual((here.monitors(a), here.monitors(b)), (monitors, []))
        self.assertEqual((here.watchers(b), there.watchers(c)), ([(monitors[0][0], a)], [(monitors[1][0], a)]))
        self.assertEqual((here.traps(a), here.traps(b), there.links(c)), (False, True, []))
        self.assertEqual([here.lives_in(slot) for slot in (0, 1, 2, 2**32 - 1)], [a, b, None, None])
        for other in (c, Pid(0, 9, 1)):
            told = here.links(other), here.monitors(other), here.watchers(other), here.traps(other)
            self.assertEqual(told, (None, None, None, None))
        here.exit(b)
        here.turn()
        self.assertEqual((here.links(a), here.links(b), here.lives_in(1)), ([], None, None))

    def test_who_is_woken(self) -> None:
        (desk,) = p.open_node()
        a, b = desk.spawn(), desk.spawn()
        desk.send(a, b, p.Body(1, 1))
        desk.turn()
        desk.exit(a)
        self.assertEqual(desk.woken(0), ([b, a], desk.event_count()))


if __name__ == "__main__":
    unittest.main()
