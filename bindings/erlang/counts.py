#!/usr/bin/env python3
"""Compares what both sides of a load have counted with each other and with the histories.

    bindings/erlang/counts.py FOLDER

FOLDER has the files NAME.counts that the load wrote, and the histories NAME.history. A line of counts is one of these:

    sent SINK SENDER COUNT REFUSED       a sender sent numbers from 1 to COUNT, of which so many were refused at once
    came SINK SENDER COUNT LAST WRONG    so many came, the last one, and so many that were no greater than one before
    process SINK HISTORY PID             a sink is this process of that history
    exits REASON COUNT HISTORY..         so many processes of these histories were told of an exit with the reason
    cuts COUNT                           how often a connection was cut
"""

from __future__ import annotations

import sys
from collections import Counter
from pathlib import Path

Key = tuple[str, str]


class Counts:
    """The lines of a file, by kinds."""

    def __init__(self, path: Path) -> None:
        self.folder = path.parent
        self.sent: dict[Key, tuple[int, int]] = {}
        self.came: dict[Key, tuple[int, int, int]] = {}
        self.processes: dict[str, tuple[str, str]] = {}
        self.exits: list[tuple[str, int, list[str]]] = []
        self.cuts = 0
        for line in path.read_text().splitlines():
            self.read(line.split())

    def read(self, words: list[str]) -> None:
        kind, values = words[0], words[1:]
        if kind == "sent":
            sink, sender, count, refused = values
            assert (sink, sender) not in self.sent, words
            self.sent[sink, sender] = (int(count), int(refused))
        elif kind == "came":
            sink, sender, count, last, wrong = values
            assert (sink, sender) not in self.came, words
            self.came[sink, sender] = (int(count), int(last), int(wrong))
        elif kind == "process":
            sink, history, pid = values
            self.processes[sink] = (history, pid)
        elif kind == "exits":
            self.exits.append((values[0], int(values[1]), values[2:]))
        elif kind == "cuts":
            self.cuts = int(values[0])
        else:
            raise ValueError(" ".join(words))


def faults_of_senders(counts: Counts) -> list[str]:
    """What each sink says of each sender: in order, once, and all of it if no connection was cut."""
    faults = [f"{sink} has heard of {sender}, who sent nothing" for sink, sender in counts.came.keys() - counts.sent.keys()]
    for (sink, sender), (sent, refused) in counts.sent.items():
        count, last, wrong = counts.came.get((sink, sender), (0, 0, 0))
        if wrong:
            faults.append(f"{sink}: {wrong} of {sender} came twice or out of order")
        if not count <= last <= sent or count > sent - refused:
            faults.append(f"{sink}: {count} of {sender} came, up to {last}, and {sent - refused} of {sent} were sent")
        if counts.cuts == 0 and count != sent:
            faults.append(f"{sink}: {sent - count} of {sender} were lost, and no connection was cut")
    return faults


def faults_of_histories(counts: Counts) -> list[str]:
    """What the histories have of the sinks: each took as many messages as it has counted."""
    faults = []
    for sink, (history, pid) in counts.processes.items():
        lines = (counts.folder / f"{history}.history").read_text().splitlines()
        taken = sum(1 for line in lines if f" took {pid} " in line and " = user " in line)
        counted = sum(count for (at, _), (count, _, _) in counts.came.items() if at == sink)
        if taken != counted:
            faults.append(f"{sink}: it has counted {counted}, and took {taken} in the history")
    return faults


def faults_of_exits(counts: Counts) -> list[str]:
    """How many were told of an exit with a reason: as many as were counted, and each once."""
    faults = []
    for reason, expected, histories in counts.exits:
        told: Counter[str] = Counter()
        for history in histories:
            for line in (counts.folder / f"{history}.history").read_text().splitlines():
                words = line.split()
                if words[1] == "took" and words[5] == "exit" and words[-1] == reason:
                    told[f"{history} {words[2]}"] += 1
        twice = [process for process, count in told.items() if count > 1]
        if twice:
            faults.append(f"told twice of {reason}: {', '.join(twice)}")
        if len(told) != expected:
            faults.append(f"{expected} have counted an exit with {reason}, and {len(told)} in the histories")
    return faults


def main() -> int:
    files = sorted(Path(sys.argv[1]).glob("*.counts"))
    if not files:
        print("counts: there are none", file=sys.stderr)
        return 1
    is_bad = False
    for path in files:
        counts = Counts(path)
        faults = faults_of_senders(counts) + faults_of_histories(counts) + faults_of_exits(counts)
        for fault in faults:
            print(f"counts: {path.stem}: {fault}", file=sys.stderr)
        is_bad = is_bad or bool(faults)
        sent = sum(count for count, _ in counts.sent.values())
        came = sum(count for count, _, _ in counts.came.values())
        exits = sum(count for _, count, _ in counts.exits)
        if not faults:
            print(f"counts: {path.stem}: {sent} sent, {came} came, {exits} exits: both sides and the histories agree")
    return int(is_bad)


if __name__ == "__main__":
    sys.exit(main())
