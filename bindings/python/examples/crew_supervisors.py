"""A bank whose handlers are in Python, and whose supervisors are the library's. The bank starts a clerk and a branch; the
branch is a supervisor too, and starts a teller. A clerk that breaks down is started again. A teller may break down once: the
second time its branch gives up, and the bank starts both again. The bank goes on through a pause. Then it takes on a clerk
for the evening, sends it home and takes its place away, and closes. It prints what bindings/c/crew_supervisors.c prints."""

from __future__ import annotations

from pundewo import ANY, NORMAL, SHUTDOWN, Body, Crew, Job, Next, Pid, Reason, gather, open_node
from pundewo.supervisors import Child, ChildSpec, SupervisorSpec

NAMES = ("bank", "clerk", "branch", "teller", "evening clerk")
BANK, CLERK, BRANCH, TELLER, EVENING = range(5)
ASK, BREAK = 1, 2
TOLD = {"start": "starts", "proceed": "proceeds", "item": "gets ", "timeout": "has waited long enough", "exit": "has exited: "}


def show(now: int, job: Job) -> None:
    under = f"{' again' if job.again else ''}, under {job.supervisor}" if job.supervisor else ""
    print(f"{now} {NAMES[job.tag]} {TOLD[job.name]}{under}{job.item or ''}{job.reason or ''}")


class World:
    """The desk, its crew, and the owner of the bank."""

    def __init__(self) -> None:
        (self.desk,) = open_node()
        self.desk.keep_losses(True)
        self.crew, self.owner = Crew(self.desk), self.desk.spawn()

    def handle(self, job: Job) -> None:
        """A branch is a supervisor, which exits with the bank; the others wait for what is asked, and may break down."""
        body = job.item.body if job.item is not None else None
        if job.name == "exit":
            return
        if job.tag == BRANCH:
            branch = SupervisorSpec("one_for_all", 1, 10, True, job.supervisor)
            assert self.crew.supervise(job.pid, branch, [ChildSpec(TELLER, shutdown=5)])
        elif body is not None and body.kind == BREAK:
            assert self.crew.answer(job.pid, Next("stop", reason=Reason("other", 7)))
        else:
            assert self.crew.answer(job.pid, Next("wait", ANY))

    def run(self, now: int) -> None:
        """Steps until nobody has anything to do. After each turn the crew hears with which reason a signal ended whom."""
        self.crew.set_time(now)
        while True:
            handled = self.desk.turn().handled
            while self.crew.next_loss(self.desk) is not None:
                pass
            for job in self.crew.step(self.desk, 0)[0]:
                show(now, job)
                self.handle(job)
            if handled == 0 and self.desk.pending() == 0 and self.crew.is_idle(self.desk):
                return

    def children(self, supervisor: Pid) -> list[Child]:
        children = self.crew.children(supervisor)
        assert children is not None
        return children

    def child(self, supervisor: Pid, place: int) -> Pid:
        pid = self.children(supervisor)[place].pid
        assert pid is not None
        return pid

    def tell(self, to: Pid, kind: int) -> None:
        self.desk.send(self.owner, to, Body(kind, 1))

    def evening(self, bank: Pid) -> None:
        """One more child, as long as it is wanted: it ends by itself, starts again when it is asked for, is ended, and
        forgotten."""
        place = self.crew.start_child(bank, ChildSpec(EVENING, "transient"))
        self.run(5)
        self.desk.exit(self.child(bank, place), NORMAL)
        self.run(6)
        self.crew.restart_child(bank, EVENING)
        self.run(7)
        self.crew.terminate_child(bank, EVENING)
        self.run(8)
        assert self.crew.delete_child(bank, EVENING) == place

    def pause(self) -> None:
        """The node is gathered, settled and resumed, and the crew goes on with its history."""
        settled = gather([self.desk]).settle_unlisted()
        history = settled.history()
        (self.desk,) = settled.resume()
        self.crew.go_on(self.desk, history)


def main() -> None:
    w = World()
    bank = w.crew.spawn_supervisor(
        w.desk, BANK, SupervisorSpec("one_for_one", 3, 100, True, w.owner), [ChildSpec(CLERK), ChildSpec(BRANCH)])
    w.run(0)
    w.tell(w.child(bank, 0), ASK)
    w.run(1)
    w.tell(w.child(bank, 0), BREAK)
    w.run(2)
    w.tell(w.child(w.child(bank, 1), 0), BREAK)
    w.pause()
    w.run(3)
    w.tell(w.child(w.child(bank, 1), 0), BREAK)
    w.run(4)
    assert all(child.wanted for child in w.children(bank))
    w.evening(bank)
    w.desk.exit_signal(w.owner, bank, SHUTDOWN)
    w.run(9)
    assert len(w.crew) == 0


if __name__ == "__main__":
    main()
