#!/usr/bin/env python3
"""Opens pages of histories in a browser, and compares what they show with what the programs say.

    checks/page/seen.py [--shots FOLDER]

It makes the histories with bin/pt_run and the pages with `--print page` of bin/pt_audit and bin/pt_run.
Compared are the text of each event, what each process is at many events (`pt_audit --print summary` of the history up to
there), and all that the processes hold at the end (`pt_audit --save`). Keys, clicks, drags, filters, names, the address and
both themes are tried, and a page of a history at fault. A page may ask for nothing but itself, and its policy refuses more.
Of ten thousand events it measures the loading, and each frame of a scroll and of many steps.

Without Chromium it compares the page's source alone, and says so. The last line is 'N passed, M failed'. --shots keeps
pictures.
"""
from __future__ import annotations

import json
import random
import re
import shutil
import subprocess
import sys
import tempfile
import time
from pathlib import Path
from typing import Any, Callable

ROOT = Path(__file__).resolve().parent.parent.parent
sys.dont_write_bytecode = True
sys.path[:0] = [str(ROOT / "bindings"), str(ROOT / "tools")]
from observed import Browser, Fault  # noqa: E402
from page import parts, written, WRITTEN  # noqa: E402

AUDIT, RUN = (str(ROOT / "bin" / name) for name in ("pt_audit", "pt_run"))
# Milliseconds that a page of ten thousand events may take to load, and for a frame of a scroll or of a step. They are those of
# the processor, on the page's own thread: by the clock a frame also waits for other programs, and the test runs beside many. A
# frame is all that the thread does for it: script, style, layout, painting. What else comes into a frame by chance, as a
# collection of garbage or a cold cache, is to come into another frame each time: each run begins with other garbage. So the least
# of several runs counts, of the loading and of each frame alone. There are two runs, and more as long as something is above its
# limit. A page that is too slow stays so in all of them.
MOST_LOAD, MOST_FRAME = 150, 16
LEAST_RUNS, MOST_RUNS = 2, 20
# The limits are for a processor that does a piece of work of its own in so many milliseconds. A slower one, or one whose core other
# programs share, has as much more time for the page as it needs for this work.
PACE = 20.0
WORK = """(() => {
  const box = document.body.appendChild(document.createElement('div'));
  let sum = 0;
  for (let k = 0; k < 4e6; k++) sum = (sum * 31 + k) | 0;
  for (let k = 0; k < 400; k++) box.appendChild(document.createElement('p')).textContent = `line ${k} of ${sum}`;
  const height = box.offsetHeight;
  box.remove();
  return height > 0;
})()"""
# A scroll from the first event to the last, a frame each; and steps at places far from each other, a step each second frame.
FRAMES = 360
MOVES = """new Promise(done => {
  const scroll = document.getElementById('scroll'), most = scroll.scrollHeight - scroll.clientHeight;
  let turns = 0;
  function turn() {
    performance.mark('turn ' + turns);
    if (turns === FRAMES) { done(turns); return; }
    if (turns < FRAMES - 120) scroll.scrollTop = most * turns / (FRAMES - 120);
    else if (turns % 8 === 0) page.go(Math.floor(page.events.length * (turns * 7 % 120) / 120));
    else if (turns % 2 === 0) page.go(page.cursor + 1);
    turns++;
    requestAnimationFrame(turn);
  }
  requestAnimationFrame(turn);
})""".replace("FRAMES", str(FRAMES))


def program(*words: str, text: str = "", status: int = 0) -> str:
    """What a program prints on standard output."""
    ran = subprocess.run(words, input=text, capture_output=True, text=True, check=False)
    if ran.returncode != status:
        raise Fault(f"{' '.join(words)}: status {ran.returncode}: {ran.stderr[:300]}")
    return ran.stdout


def one_operation(mixed: random.Random, names: list[str], me: int, place: int) -> list[dict[str, Any]]:
    """One operation of a process, or a spawn with a message to the child."""
    others = [name for name in names if name != names[me]]
    to, chance, tag = mixed.choice(others), mixed.random(), f"t{place}"
    if chance < 0.5:
        return [{"op": "send", "to": to, "kind": mixed.randrange(1, 5), "num": mixed.randrange(-2**62, 2**62)}]
    if chance < 0.68:
        return [{"op": "check", **({"pick": {"kind": mixed.randrange(1, 5)}} if chance < 0.58 else {})}]
    if chance < 0.78:
        return [{"op": "monitor", "to": to, "tag": tag}, *([{"op": "demonitor", "tag": tag}] if chance < 0.7 else [])]
    if chance < 0.82:
        return [{"op": "link", "to": to}] if me % 2 else [{"op": "unlink", "to": to}]
    if chance < 0.88:
        child = f"w{me}_{place}"
        ends = [{"op": "receive"}, {"op": "exit", "reason": f"other:{mixed.randrange(9)}"}]
        return [{"op": "spawn", "name": child, "linked": me % 2 == 1, "ops": ends}, {"op": "send", "to": child, "kind": 7, "num": 1}]
    return [{"op": "alive", "to": to, "tag": tag}] if chance < 0.93 else [{"op": "pass"}]


def script(count: int, operations: int, desks: int, seed: int) -> str:
    """A script of so many processes, every second of which traps exits, and waits at its end."""
    mixed, names = random.Random(seed), [f"p{me}" for me in range(count)]
    processes = []
    for me in range(count):
        steps = [step for place in range(operations) for step in one_operation(mixed, names, me, place)]
        waits = [{"op": "receive", "pick": {"kind": 99}}] if me % 3 else []
        processes.append({"name": names[me], "desk": me % desks, "trap": me % 2 == 1, "ops": steps + waits})
    return json.dumps({"format": 2, "desks": desks, "processes": processes})


class Page(Browser):
    """A browser that shows the page of a history."""

    def __init__(self, folder: Path):
        self.traced: list[dict[str, Any]] = []
        self.is_traced = False
        super().__init__(shutil.which("chromium") or "")
        self.work = folder
        self.tell("Emulation.setDeviceMetricsOverride", width=1400, height=900, deviceScaleFactor=1, mobile=False)
        self.tell("Performance.enable", timeDomain="threadTicks")

    def begin_anew(self) -> None:
        """A new session, in which the processor's time counts from 0. A page that is opened may get a process of its own, in
        which it begins at 0 too: so what is counted in a new session is that of the page alone."""
        target = next(it["targetId"] for it in self.ask("Target.getTargets")["targetInfos"] if it["type"] == "page")
        self.ask("Target.detachFromTarget", sessionId=self.tab)
        self.enter(target)
        self.tell("Performance.enable", timeDomain="threadTicks")

    def open(self, text: str, place: str = "") -> None:
        path = self.work / "page.html"
        path.write_text(text)
        self.faults.clear()
        self.asked.clear()
        self.tell("Page.navigate", url="about:blank")
        self.asked.clear()
        self.tell("Page.navigate", url=path.as_uri() + place)
        self.until("document.readyState === 'complete' && !!window.page")

    def still(self) -> None:
        """Nothing failed, and nothing was asked for but the page."""
        others = {url for url in self.asked if url.split("#")[0] != (self.work / "page.html").as_uri()}
        if self.faults or others:
            raise Fault(f"the page: {self.faults} {others}")

    def key(self, key: str) -> None:
        for kind in ("keyDown", "keyUp"):
            self.tell("Input.dispatchKeyEvent", type=kind, key=key, code=key)

    def click(self, x: float, y: float) -> None:
        for kind in ("mousePressed", "mouseReleased"):
            self.tell("Input.dispatchMouseEvent", type=kind, x=x, y=y, button="left", buttons=1, clickCount=1)

    def drag(self, begin: tuple[int, int], end: tuple[int, int]) -> None:
        for kind, (x, y), buttons in (("mousePressed", begin, 1), ("mouseMoved", end, 1), ("mouseReleased", end, 0)):
            self.tell("Input.dispatchMouseEvent", type=kind, x=x, y=y, button="left", buttons=buttons, clickCount=1)

    def fill(self, field: str, value: str) -> None:
        self.run(f"document.getElementById('{field}').value = {json.dumps(value)};"
                 "document.getElementById('filter').dispatchEvent(new Event('input'))")

    def note(self, answer: dict[str, Any]) -> None:
        super().note(answer)
        if answer.get("method") == "Tracing.dataCollected":
            self.traced += answer["params"]["value"]
        self.is_traced = self.is_traced or answer.get("method") == "Tracing.tracingComplete"

    def frames(self, text: str) -> list[float]:
        """The milliseconds of the processor that the page's thread took for each frame while this ran."""
        self.traced, self.is_traced = [], False
        wanted = {"includedCategories": ["toplevel", "devtools.timeline", "blink.user_timing"], "recordMode": "recordAsMuchAsPossible"}
        self.tell("Tracing.start", transferMode="ReportEvents", traceConfig=wanted)
        self.run(text)
        self.tell("Tracing.end")
        while not self.is_traced:
            self.run("1")
        return thread_times(self.traced)

    def pace(self) -> float:
        """The milliseconds of the processor for the piece of work."""
        before = self.processor()
        same("the work", self.run(WORK), True)
        return self.processor() - before

    def processor(self) -> float:
        """The milliseconds of the processor that the page's thread took."""
        found = {it["name"]: it["value"] for it in self.tell("Performance.getMetrics")["metrics"]}
        return float(found["TaskDuration"]) * 1000


HELD = """(at => [...page.stateAt(at)].filter(([pid, it]) => it.alive).map(([pid, it]) => [`lives ${pid} traps ${it.traps ? 'yes' : 'no'}`,
  ...it.box.map(item => 'waits ' + page.itemText(item)), ...[...it.links].map(([peer, ids]) => `linked ${peer} ${ids.join('+')}`),
  ...[...it.watches].map(([ref, peer]) => `watches ${ref} ${peer}`), ...[...it.watched].map(([ref, peer]) => `watched ${ref} ${peer}`)]))"""


SCROLL = "document.getElementById('scroll')"
# It asks for a file, a picture, a script and a style, and returns which rules of the policy refused that.
ASKS = """new Promise(done => {
  const refused = new Set();
  document.addEventListener('securitypolicyviolation', event => refused.add(event.violatedDirective));
  fetch('http://127.0.0.1:9/').catch(() => {});
  new Image().src = 'http://127.0.0.1:9/picture.png';
  document.body.appendChild(document.createElement('script')).textContent = 'window.evil = 1';
  document.body.appendChild(document.createElement('p')).setAttribute('style', 'color: red');
  setTimeout(() => done([...refused].sort()), 200);
})"""


class Tests:
    """The tests, and how they ended."""

    def __init__(self, folder: Path, page: Page, shots: Path | None):
        self.folder, self.page, self.shots = folder, page, shots
        self.passed, self.failed = 0, 0

    def try_out(self, name: str, test: Callable[[], str]) -> None:
        """Runs a test, and counts how it ended."""
        is_passed = try_one(name, test)
        self.passed, self.failed = self.passed + int(is_passed), self.failed + int(not is_passed)

    def shot(self, name: str) -> None:
        """Keeps a picture, if pictures are asked for."""
        if self.shots:
            time.sleep(0.3)
            self.page.shot(self.shots / f"{name}.png")

    def history(self, name: str, text: str, turns: int = 100_000) -> Path:
        """The history of a script, in a file."""
        where = self.folder / name
        where.with_suffix(".json").write_text(text)
        where.write_text(program(RUN, "--turns", str(turns), "--until", "quiet", "--print", "history", str(where.with_suffix(".json"))))
        return where

    def compare(self, history: Path, places: int) -> str:
        """The texts of all events, what each process is at so many events, and what they hold at the end."""
        lines = [line for line in history.read_text().splitlines() if not line.startswith("left-over")]
        same("the texts", self.page.run("page.events.map(it => `${it.stamp}@${it.desk} ${it.text}`)"), lines)
        count, tried = len(lines), 0
        # (forth and back, so that changes are undone too)
        for at in sorted({count * place // places for place in range(places)} | {count - 1}, key=lambda at: at * 7919 % count):
            tried += self.compare_at(lines, at)
        self.compare_end(history, count)
        self.page.still()
        return f"{count} texts, {tried} processes at {places} events and what they hold at the end, as the programs say"

    def compare_at(self, lines: list[str], at: int) -> int:
        """What each process is at an event, against the summary of the history up to there."""
        self.page.run(f"page.go({at})")
        left = self.page.run(f"page.letters.filter(it => it.sent <= {at} && it.came > {at}).map(it => [it.from, it.to, it.text, page.events[it.sent].stamp])")
        text = lines[: at + 1] + [f"left-over {desk(a)} -> {desk(z)} {a} -> {z} {what} @{stamp}" for a, z, what, stamp in left]
        said = {}
        for line in program(AUDIT, "--judge", "--print", "summary", "-", text="\n".join(text) + "\n").splitlines()[:-1]:
            pid, state, *rest = line.split()
            said[pid] = f"alive {rest[-1]}" if state == "alive" else f"{rest[0]} 0"
        shown = self.page.run(f"Object.fromEntries([...page.stateAt({at})].map(([pid, it]) => [pid, it.alive ? 'alive ' + it.box.length : it.reason + ' 0']))")
        same(f"the processes at event {at}", shown, said)
        return len(said)

    def compare_end(self, history: Path, count: int) -> None:
        """All that the processes hold at the end, against the state that the auditor saves."""
        saved = self.folder / "saved"
        program(AUDIT, "--save", str(saved), str(history))
        held: dict[str, list[str]] = {}
        for line in saved.read_text().splitlines():
            if line.startswith("lives "):
                held[line] = []
            elif line.startswith(("waits ", "linked ", "watches ", "watched ")):
                held[list(held)[-1]].append(line)
        shown = {first: rest for first, *rest in self.page.run(f"{HELD}({count - 1})")}
        # (links and monitors have no order on the page)
        same("what waits at the end", {who: [it for it in what if it.startswith("waits ")] for who, what in shown.items()},
             {who: [it for it in what if it.startswith("waits ")] for who, what in held.items()})
        same("what is held at the end", {who: sorted(what) for who, what in shown.items()}, {who: sorted(what) for who, what in held.items()})

    def keys(self, count: int) -> str:
        """Keys, a click, and the address."""
        page = self.page
        page.run("page.go(0)")
        for key, wanted in (("ArrowDown", 1), ("j", 2), ("ArrowUp", 1), ("k", 0), ("End", count - 1), ("Home", 0), ("PageDown", 20), ("PageUp", 0)):
            page.key(key)
            same(f"the event after {key}", page.run("page.cursor"), wanted)
        # the third row
        x, y = page.run("(() => { const it = document.getElementById('scroll').getBoundingClientRect(); return [it.x + 500, it.y + 22 * 2.5]; })()")
        page.click(x, y)
        same("the event after a click", page.run("page.cursor"), 2)
        same("the address", page.run("location.hash"), page.run("'#' + page.events[2].stamp + '@' + page.events[2].desk"))
        sending = page.run("page.events.findIndex((it, at) => it.event === 'said' && page.letters.some(letter => letter.sent === at && letter.came < Infinity))")
        page.run(f"page.go({sending})")
        page.key("f")
        came = page.run("page.cursor")
        same("the other end", page.run(f"page.letters.some(it => it.sent === {sending} && it.came === {came})"), True)
        page.key("f")
        same("back from the other end", page.run("page.cursor"), sending)
        page.run(f"page.go({came}, true)")
        before = page.run("page.events[page.cursor].to")
        page.key("ArrowRight")
        same("the next event of the process", page.run("(it => it.pid || (it.event === 'came' ? it.to : it.from))(page.events[page.cursor])"), before)
        page.still()
        return "as they should be"

    def moves(self) -> str:
        """Buttons and keys make the rows larger and smaller, a drag moves them, and the heads stay."""
        page, sizes = self.page, []
        for press in ("larger", "smaller"):
            sizes.append(page.run(f"{SCROLL}.scrollHeight"))
            page.run(f"document.getElementById('{press}').click()")
        sizes.append(page.run(f"{SCROLL}.scrollHeight"))
        for key in ("-", "+"):
            page.key(key)
            sizes.append(page.run(f"{SCROLL}.scrollHeight"))
        same("what is larger", [sizes[1] > sizes[0], sizes[2] == sizes[0], sizes[3] < sizes[0], sizes[4] == sizes[0]], [True] * 4)
        heads = page.run("document.getElementById('heads').getBoundingClientRect().top")
        before = page.run(f"[{SCROLL}.scrollTop, {SCROLL}.scrollLeft]")
        page.drag((800, 600), (600, 420))
        after = page.run(f"[{SCROLL}.scrollTop, {SCROLL}.scrollLeft]")
        same("how far a drag moves it", [after[0] - before[0], after[1] - before[1]], [180, 200])
        same("where the heads are", page.run("document.getElementById('heads').getBoundingClientRect().top"), heads)
        page.run(f"{SCROLL}.scrollTo(0, 0)")
        page.still()
        return "the rows are larger and smaller, and are dragged below the heads"

    def policy(self) -> str:
        """What a script of the page asks for is refused by the page's own policy."""
        refused = self.page.run(ASKS)
        same("what is refused", refused, ["connect-src", "img-src", "script-src-elem", "style-src-attr"])
        self.page.asked.clear()
        return f"refuses {len(refused)} kinds of what a script asks for"

    def filters(self, history: Path, count: int) -> str:
        """What the filters leave, against what the auditor prints."""
        page, pid = self.page, self.page.run("page.events[0].pid")
        page.fill("f-pid", pid)
        wanted = program(AUDIT, "--judge", "--print", "history", "--pid", pid, str(history)).splitlines()[:-1]
        same("the events of a process", page.run("page.shown"), len([line for line in wanted if not line.startswith("left-over")]))
        self.shot("filtered")
        page.key("Escape")
        page.until(f"page.shown === {count}")
        events = history.read_text().splitlines()
        for field, value, has in (("f-desk", "0", r"\d+@0 .*"), ("f-what", "born", r"\d+@\d+ born .*"), ("f-text", "down", r".*down.*")):
            page.fill(field, value)
            same(f"the events by {field}", page.run("page.shown"), len([line for line in events if re.fullmatch(has, line)]))
            page.fill(field, "")
        page.still()
        return "leave what the programs print"

    def themes(self) -> str:
        """The page is light or dark, as the reader's system is."""
        for scheme, back in (("dark", "rgb(13, 17, 23)"), ("light", "rgb(255, 255, 255)")):
            self.page.tell("Emulation.setEmulatedMedia", features=[{"name": "prefers-color-scheme", "value": scheme}])
            self.page.until(f"getComputedStyle(document.body).backgroundColor === '{back}'")
            self.shot(scheme)
        return "light and dark"

    def address(self, text: str) -> str:
        """A page that is opened at an event shows it."""
        place = self.page.run("(it => `#${it.stamp}@${it.desk}`)(page.events[40])")
        self.page.open(text, place)
        same("the event of the address", self.page.run("page.cursor"), 40)
        return f"{place} opens the event"

    def fault(self, history: Path) -> str:
        """A history at fault has a page, which ends before the line at fault and says what is wrong."""
        lines = history.read_text().splitlines()
        wrong = self.folder / "wrong"
        wrong.write_text("\n".join(lines[:30] + [lines[29], *lines[31:]]) + "\n")
        ran = subprocess.run([AUDIT, "--print", "page", str(wrong)], capture_output=True, text=True, check=False)
        same("the status", ran.returncode, 1)
        self.page.open(ran.stdout)
        same("the events before the fault", self.page.run("page.events.length"), 30)
        same("what is at fault", self.page.run("document.getElementById('fault').innerText"), "At fault: " + ran.stderr.strip())
        self.shot("fault")
        self.page.open(ran.stdout[: ran.stdout.index('{"verdict"')] + "".join(f"{part}\n" for part in (parts()[1], "{}", parts()[2])))
        same("a page that was cut off", self.page.run("document.getElementById('fault').hidden"), False)
        self.page.still()
        return "the page ends before it, and names it"

    def over(self, history: Path) -> str:
        """A page over a state knows the processes of before, and says that it does not know what they held."""
        lines, (first, rest, state) = history.read_text().splitlines(), (self.folder / name for name in ("first", "rest", "state"))
        for count in range(len(lines) // 2, len(lines)):
            first.write_text("\n".join(lines[:count]) + "\n")
            if subprocess.run([AUDIT, "--save", str(state), str(first)], capture_output=True, check=False).returncode == 0:
                break
        rest.write_text("\n".join(lines[count:]) + "\n")
        self.page.open(program(AUDIT, "--resume", str(state), "--print", "page", str(rest)))
        same("the events over a state", self.page.run("page.events.length"), len(lines) - count)
        self.page.run("page.go(0)")
        same("what is said of before", self.page.run("document.getElementById('states').innerText.includes('it lived before this history')"), True)
        self.page.run("page.go(page.events.length - 1)")
        self.page.run("page.go(0)")
        self.page.still()
        return f"{len(lines) - count} events behind {count}"

    def nothing(self) -> str:
        """A page of no event."""
        self.page.open(program(AUDIT, "--print", "page", status=4))
        for key in ("j", "End", "f", "ArrowRight"):
            self.page.key(key)
        same("the events", self.page.run("document.getElementById('count').innerText"), "0 events")
        self.page.still()
        return "has no row"

    def load(self, script_of: Path) -> str:
        """What ten thousand events cost: the least of several runs."""
        text = program(RUN, "--turns", "100000", "--until", "quiet", "--print", "page", str(script_of))
        load, pace, slower, frames, runs = float("inf"), float("inf"), 1.0, [float("inf")] * FRAMES, 0
        while runs < LEAST_RUNS or (runs < MOST_RUNS and (load > MOST_LOAD * slower or max(frames) > MOST_FRAME * slower)):
            self.page.open("<!doctype html><body><script>window.page = 1</script>")
            pace = min(pace, *(self.page.pace() for _ in range(5)))
            self.page.begin_anew()
            self.page.open(text)
            load = min(load, self.page.processor())
            self.page.run(f"Array.from({{ length: {20_000 * runs} }}, (_, k) => ({{ k }})).length")
            run = self.page.frames(MOVES)
            same("the frames of a run", len(run), FRAMES)
            frames, runs, slower = [min(pair) for pair in zip(frames, run)], runs + 1, max(1.0, pace / PACE)
        count, longest = self.page.run("page.events.length"), max(frames)
        said = f"{count} events, {len(text) / 1e6:.2f} MB: {load:.0f} ms of the processor to load; " \
               f"{FRAMES} frames, {sum(frames) / FRAMES:.1f} ms each and {longest:.1f} ms the longest ({frames.index(longest)}), by " \
               f"{runs} runs; the piece of work {pace:.1f} ms"
        if load > MOST_LOAD * slower or longest > MOST_FRAME * slower or count < 10_000:
            raise Fault(said)
        self.page.still()
        return said

    def names(self) -> str:
        """A page that a script's run prints has the names of its processes: in the heads, the states and the filters."""
        page, where = self.page, ROOT / "checks" / "examples" / "supervisor.json"
        page.open(program(RUN, "--print", "page", str(where)))
        same("the names", page.run("JSON.parse(document.getElementById('names').textContent)"),
             {"<0.0.1>": "supervisor", "<0.1.1>": "worker", "<0.1.2>": "anew"})
        lines = program(RUN, "--print", "history", str(where)).splitlines()
        same("the texts", page.run("page.events.map(it => `${it.stamp}@${it.desk} ${it.text}`)"), lines)
        self.shot("names")
        page.run(f"page.go({len(lines) - 1})")
        shown = page.run("[...document.querySelectorAll('.proc h3')].map(it => it.innerText.replace(/\\s+/g, ' '))")
        same("the processes at the end", sorted(shown), ["<0.0.1> supervisor exited with normal", "<0.1.1> worker exited with other:7",
                                                         "<0.1.2> anew exited with normal"])
        same("what the field of processes offers", page.run("[...document.getElementById('pids').options].map(it => [it.value, it.label])"),
             [["<0.0.1>", "supervisor"], ["<0.1.1>", "worker"], ["<0.1.2>", "anew"]])
        wanted = program(AUDIT, "--print", "history", "--pid", "<0.1.1>", text="\n".join(lines) + "\n").splitlines()[:-1]
        for field in ("f-pid", "f-text"):
            page.fill(field, "worker")
            same(f"the events of a name by {field}", page.run("page.shown"), len(wanted))
            page.fill(field, "")
        page.still()
        return "of a script, in the states and in the filters"

    def epochs(self) -> str:
        """A page of a run of epochs has the events of all, and its letters find their ends across them."""
        words = ["--epochs", "3", "--turns", "6", str(ROOT / "checks" / "examples" / "epochs.json")]
        lines = program(RUN, "--print", "history", *words).splitlines()
        self.page.open(program(RUN, "--print", "page", *words))
        same("the texts", self.page.run("page.events.map(it => `${it.stamp}@${it.desk} ${it.text}`)"),
             [line for line in lines if not line.startswith("left-over")])
        count = len([line for line in lines if not line.startswith("left-over")])
        for at in (count - 1, count // 3, 2 * count // 3):
            self.compare_at(lines, at)
        self.page.still()
        return f"{count} events of 3 epochs"


def thread_times(traced: list[dict[str, Any]]) -> list[float]:
    """The milliseconds of each task that a frame was made in, of those between the first mark and the last."""
    marks = [it for it in traced if it["name"].startswith("turn ") and it["ph"] != "e"]
    first, last, thread = marks[0]["ts"], marks[-1]["ts"], (marks[0]["pid"], marks[0]["tid"])
    mine = [it for it in traced if it["ph"] == "X" and (it["pid"], it["tid"]) == thread]
    tasks = [it for it in mine if it["name"] == "RunTask" or it["name"].endswith("::RunTask")]
    begun = {(it["ts"], it["ts"] + it["dur"]): it.get("tdur", 0) / 1000 for it in tasks}
    times, spans = [], sorted(begun)
    for frame in sorted({mark["ts"] for mark in marks if first <= mark["ts"] < last}):
        around = [span for span in spans if span[0] <= frame <= span[1]]
        times.append(max(begun[span] for span in around))
    return times


def same(what: str, found: Any, wanted: Any) -> None:
    """Fails if what was found is not what was wanted."""
    if found != wanted:
        if isinstance(found, list) and isinstance(wanted, list):
            found, wanted = next(((a, b) for a, b in zip(found, wanted) if a != b), (len(found), len(wanted)))
        raise Fault(f"{what}: {str(found)[:300]}, and not {str(wanted)[:300]}")


def desk(pid: str) -> str:
    """The desk of a process."""
    return pid[1:].split(".", maxsplit=1)[0]


def run_all(tests: Tests) -> None:
    """All tests in a browser."""
    small = tests.history("small", script(16, 34, 3, 1))
    count = len([line for line in small.read_text().splitlines() if not line.startswith("left-over")])
    text = program(AUDIT, "--print", "page", str(small))
    tests.page.open(text)
    tests.try_out("a history", lambda: tests.compare(small, 40))
    tests.try_out("keys", lambda: tests.keys(count))
    tests.try_out("zoom and drag", tests.moves)
    tests.try_out("filters", lambda: tests.filters(small, count))
    tests.try_out("the policy", tests.policy)
    tests.try_out("themes", tests.themes)
    tests.try_out("the address", lambda: tests.address(text))
    tests.try_out("a fault", lambda: tests.fault(small))
    epochs = tests.folder / "epochs"
    epochs.write_text(program(RUN, "--epochs", "3", "--turns", "6", "--print", "history", str(ROOT / "checks" / "examples" / "epochs.json")))
    tests.try_out("over a state", lambda: tests.over(epochs))
    tests.try_out("nothing", tests.nothing)
    tests.try_out("names", tests.names)
    tests.try_out("epochs", tests.epochs)
    large = tests.folder / "large.json"
    large.write_text(script(60, 96, 4, 2))
    tests.try_out("ten thousand events", lambda: tests.load(large))


def try_one(name: str, test: Callable[[], str]) -> bool:
    """Runs a test, prints how it ended, and says whether it passed."""
    try:
        print(f"page: {name}: {test()}")
        return True
    except (Fault, OSError) as why:
        print(f"page: {name}: FAILED: {why}")
        return False


def whole() -> str:
    """The page that is printed is that of its files."""
    same("src/page.rt, which tools/page.py --write writes", WRITTEN.read_text(), written())
    same("whether a page is its parts", prints_parts(), True)
    return "with the history, its verdict and the names between them"


def prints_parts() -> bool:
    """Whether a page is its parts, with the steps of the history between them."""
    words = ["--turns", "4", str(ROOT / "checks" / "examples" / "lane.json")]
    history = program(RUN, "--print", "history", *words)
    steps, page = (program(AUDIT, "--print", form, text=history) for form in ("steps", "page"))
    ran, run_page = (program(RUN, "--print", form, *words) for form in ("steps", "page"))
    head, names, end = parts()
    called = '{"<0.0.1>":"a","<0.1.1>":"c","<1.0.1>":"b"}'
    return (steps.splitlines()[:-1] == ran.splitlines() and page == f"{head}\n{steps}{names}\n{{}}\n{end}\n"
            and run_page == f"{head}\n{steps}{names}\n{called}\n{end}\n")


def same_steps() -> str:
    """The steps of a run are those that the auditor has for its history: of each example, in one epoch and in three."""
    scripts = sorted((ROOT / "checks" / "examples").glob("*.json"))
    for where in scripts:
        for epochs in ("1", "3"):
            words = ["--turns", "7", "--epochs", epochs, str(where)]
            history = program(RUN, "--print", "history", *words)
            judged = program(AUDIT, "--judge", "--print", "steps", text=history, status=0 if history else 4).splitlines()
            same(f"the steps of {where.name} in {epochs} epochs", program(RUN, "--print", "steps", *words).splitlines(), judged[:-1])
    return f"{2 * len(scripts)} runs, as the auditor has them"


def unwritten() -> str:
    """Where the output is not written, the program says so."""
    for form in ("steps", "page"):
        with open("/dev/full", "w", encoding="utf-8") as full:
            ran = subprocess.run([RUN, "--print", form, str(ROOT / "checks" / "examples" / "lane.json")], stdout=full,
                                 stderr=subprocess.PIPE, text=True, check=False)
        same(f"what is said of {form} that are not written", (ran.returncode, ran.stderr), (3, "file refused\n"))
    return "file refused"


def main() -> int:
    shots = Path(sys.argv[2]) if sys.argv[1:2] == ["--shots"] and len(sys.argv) == 3 else None
    if sys.argv[1:] and shots is None:
        print("wanted: checks/page/seen.py [--shots FOLDER]")
        return 2
    passed, failed = 0, 0
    for name, test in (("the programs print the page's files", whole), ("steps", same_steps), ("a full disk", unwritten)):
        is_passed = try_one(name, test)
        passed, failed = passed + int(is_passed), failed + int(not is_passed)
    if shutil.which("chromium") is None:
        print("page: no chromium: no page is opened (apt-get install chromium)")
    else:
        with tempfile.TemporaryDirectory() as folder:
            page = Page(Path(folder))
            tests = Tests(Path(folder), page, shots)
            try:
                run_all(tests)
            finally:
                page.close()
        passed, failed = passed + tests.passed, failed + tests.failed
    print(f"{passed} passed, {failed} failed")
    return 1 if failed else 0


if __name__ == "__main__":
    sys.exit(main())
