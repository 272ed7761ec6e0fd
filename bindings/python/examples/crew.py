"""Three processes with handlers in Python. Ping and pong play; pong breaks down, a watcher hears of it, and ping has
waited long enough. The crew says which handler is to run, and with what; the handler answers what its process does next.
It prints what bindings/c/crew.c prints."""

from __future__ import annotations

from typing import Callable, Optional

from pundewo import ANY, NORMAL, Body, Crew, Desk, Fault, Job, Next, Pick, Pid, Reason, open_node

BALL, PATIENCE = 1, 5
Handler = Callable[[Desk, Job, int], Next]


def stop(reason: Reason) -> Next:
    return Next("stop", reason=reason)


def throw(desk: Desk, sender: Pid, to: Pid, num: int) -> None:
    try:
        desk.send(sender, to, Body(BALL, num))
    except Fault as fault:
        assert fault.code.name == "NOPROC"


def number(job: Job) -> int:
    """The number on the ball."""
    return job.item.body.num if job.item is not None and job.item.body is not None else 0


class Players:
    """The handlers, which know pong's pid once it is spawned."""

    pong_at: Optional[Pid] = None

    def ping(self, desk: Desk, job: Job, now: int) -> Next:
        if job.name == "timeout":
            return stop(NORMAL)
        assert self.pong_at is not None
        throw(desk, job.pid, self.pong_at, number(job) + 1)
        return Next("wait-until", ANY, now + PATIENCE)

    def pong(self, desk: Desk, job: Job, now: int) -> Next:
        if job.item is None:
            return Next("wait", ANY)
        if number(job) == 5:
            return stop(Reason("other", 7))
        throw(desk, job.pid, job.item.pid, number(job) + 1)
        return Next("wait", ANY)

    def watcher(self, desk: Desk, job: Job, now: int) -> Next:
        if job.item is not None:
            return stop(NORMAL)
        assert self.pong_at is not None
        return Next("wait", Pick("down-of", desk.monitor(job.pid, self.pong_at)))


TOLD = {"start": "starts", "proceed": "proceeds", "item": "gets ", "timeout": "has waited long enough", "exit": "has exited: "}


def main() -> None:
    players = Players()
    handlers: list[tuple[str, Handler]] = [
        ("ping", players.ping), ("pong", players.pong), ("watcher", players.watcher)]
    (desk,) = open_node()
    crew = Crew(desk)
    pids = {tag: crew.spawn(desk, tag) for tag in (2, 1, 0)}
    players.pong_at = pids[1]
    now = 0
    while len(crew) > 0:
        crew.set_time(now)
        jobs, _turned = crew.step(desk)
        answers = []
        for job in jobs:
            name, handle = handlers[job.tag]
            print(f"{now} {name} {TOLD[job.name]}{job.item or ''}{job.reason or ''}")
            if job.name != "exit":
                answers.append((job.pid, handle(desk, job, now)))
        assert crew.answer_all(answers) == len(answers)
        now += 1


if __name__ == "__main__":
    main()
