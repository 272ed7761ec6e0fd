"""The calls of crews in the table of rows."""

from __future__ import annotations

from collections.abc import Callable
from itertools import groupby
from typing import Any

import pundewo as p
from pundewo.supervisors import Child, ChildSpec, Shutdown, SupervisorSpec

Words = list[str]
# What reads a pick, and what reads a reason.
Readers = tuple[Callable[[Words], Any], Callable[[str], Any]]


def next_of(words: Words, read: Readers) -> p.Next:
    """What a process does next, of its words; `read` reads a pick and a reason."""
    pick, reason = read
    name, *rest = words
    if name == "wait":
        return p.Next(name, pick(rest))
    if name == "wait-until":
        return p.Next(name, pick(rest[1:]), int(rest[0]))
    return p.Next(name, reason=reason(rest[0])) if name == "stop" else p.Next(name)


def loss_text(loss: p.Loss) -> str:
    items = ", ".join(map(str, loss.items))
    return " ".join(map(str, (loss.pid, loss.reason or "stray"))) + (f" {items}" if items else "")


def losses(crew: p.Crew, desk: p.Desk) -> str:
    found: list[str] = []
    while (loss := crew.next_loss(desk)) is not None:
        found.append(loss_text(loss))
    return "; ".join(found) or "nothing"


def answer(crew: p.Crew, words: Words, pid: Callable[[str], p.Pid], read: Readers) -> str:
    rows = [list(row) for is_comma, row in groupby(words, lambda word: word == ",") if not is_comma]
    answers = [(pid(row[0]), next_of(row[1:], read)) for row in rows]
    taken = crew.answer_all(answers)
    return f"taken {taken}" if taken == len(answers) else f"taken {taken}, then not running"


def children_of(words: Words) -> list[ChildSpec]:
    """What a supervisor knows of its children, of three words behind a comma each."""
    children = []
    for place in range(1, len(words), 4):
        tag, restart, end = words[place:place + 3]
        shutdown: Shutdown = int(end) if end.isdigit() else end
        children.append(ChildSpec(int(tag), restart, shutdown))
    return children


def child_text(child: Child) -> str:
    unwanted = "" if child.wanted else " unwanted"
    return f"{child.pid or '-'} {child.restart} {child.shutdown}{unwanted}"


def asked(call: Callable[[], Any]) -> str:
    """What came of a call about a child."""
    try:
        return call() or "ok"
    except p.Fault as fault:
        return fault.code.name.lower().replace("_", " ")


class OnCrew:
    """Makes the calls of a crew; it is given the readers of words, and what prints a turn."""

    def __init__(
        self,
        pid: Callable[[str], Any],
        pick: Callable[[Words], Any],
        reason: Callable[[str], Any],
        turned: Callable[[Any], str],
    ) -> None:
        self.pid, self.read, self.turned = pid, (pick, reason), turned

    def make(self, crew: p.Crew, desk: p.Desk, name: str, w: Words) -> Any:
        return getattr(self, name)(crew, desk, w)

    def crew_spawn(self, crew: p.Crew, desk: p.Desk, w: Words) -> p.Pid:
        return crew.spawn(desk, int(w[1]), next_of(w[2:], self.read))

    def crew_spawn_child(self, crew: p.Crew, desk: p.Desk, w: Words) -> p.Pid:
        return crew.spawn_child(desk, self.pid(w[0]), w[1] == "true", int(w[2]), next_of(w[3:], self.read))

    def spec(self, words: Words) -> SupervisorSpec:
        """A supervisor, of four words."""
        strategy, most, span, parent = words
        return SupervisorSpec(strategy, int(most), int(span), False, None if parent == "-" else self.pid(parent))

    def crew_supervisor(self, crew: p.Crew, desk: p.Desk, w: Words) -> p.Pid:
        return crew.spawn_supervisor(desk, int(w[1]), self.spec(w[2:6]), children_of(w[6:]))

    def crew_supervise(self, crew: p.Crew, desk: p.Desk, w: Words) -> str:
        return "ok" if crew.supervise(self.pid(w[1]), self.spec(w[2:6]), children_of(w[6:])) else "not running"

    def crew_children(self, crew: p.Crew, desk: p.Desk, w: Words) -> str:
        pid = self.pid(w[1])
        children = crew.children(pid)
        if children is None:
            return "none"
        assert [crew.child(pid, place) for place in range(len(children) + 1)] == [*children, None]
        return "; ".join(map(child_text, children))

    def crew_start_child(self, crew: p.Crew, desk: p.Desk, w: Words) -> str:
        (child,) = children_of(w[2:])
        return asked(lambda: f"place {crew.start_child(self.pid(w[1]), child)}")

    def crew_terminate_child(self, crew: p.Crew, desk: p.Desk, w: Words) -> str:
        return asked(lambda: crew.terminate_child(self.pid(w[1]), int(w[2])))

    def crew_restart_child(self, crew: p.Crew, desk: p.Desk, w: Words) -> str:
        return asked(lambda: crew.restart_child(self.pid(w[1]), int(w[2])))

    def crew_delete_child(self, crew: p.Crew, desk: p.Desk, w: Words) -> str:
        return asked(lambda: f"place {crew.delete_child(self.pid(w[1]), int(w[2]))}")

    def crew_count_children(self, crew: p.Crew, desk: p.Desk, w: Words) -> str:
        counts = crew.count_children(self.pid(w[1]))
        return "none" if counts is None else " ".join(map(str, counts))

    def crew_gave_up(self, crew: p.Crew, desk: p.Desk, w: Words) -> str:
        cause = crew.gave_up(self.pid(w[1]))
        if cause is None:
            return "none"
        return " ".join(map(str, cause[:-1])) + (" of time" if cause.timed else "")

    def crew_step(self, crew: p.Crew, desk: p.Desk, w: Words) -> str:
        jobs, turned = crew.step(desk, int(w[1]), int(w[2]))
        return "; ".join([self.turned(turned), *map(str, jobs)])

    def crew_answer(self, crew: p.Crew, desk: p.Desk, w: Words) -> str:
        return answer(crew, w[1:], self.pid, self.read)

    def crew_losses(self, crew: p.Crew, desk: p.Desk, w: Words) -> str:
        return losses(crew, desk)

    def crew_next(self, crew: p.Crew, desk: p.Desk, w: Words) -> Any:
        return crew.next(self.pid(w[1]))

    def crew_tag(self, crew: p.Crew, desk: p.Desk, w: Words) -> Any:
        return crew.tag(self.pid(w[1]))

    def crew_next_time(self, crew: p.Crew, desk: p.Desk, w: Words) -> Any:
        return crew.next_time()

    def crew_set_time(self, crew: p.Crew, desk: p.Desk, w: Words) -> str:
        crew.set_time(int(w[1]))
        return "ok"

    def crew_len(self, crew: p.Crew, desk: p.Desk, w: Words) -> int:
        return len(crew)

    def crew_queued(self, crew: p.Crew, desk: p.Desk, w: Words) -> int:
        return crew.queued()

    def crew_idle(self, crew: p.Crew, desk: p.Desk, w: Words) -> bool:
        return crew.is_idle(desk)

    def crew_refused(self, crew: p.Crew, desk: p.Desk, w: Words) -> bool:
        return crew.refused()

    def crew_begin_again(self, crew: p.Crew, desk: p.Desk, w: Words) -> str:
        crew.begin_again(desk)
        return "ok"
