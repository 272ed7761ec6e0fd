#!/usr/bin/env python3
"""history.py EVENTS PROCESSES WAITING: a history of so many events and a few more, as a node of two desks prints it.

Processes of two desks send each other messages, each of which comes and is taken once so many (WAITING) others are on
their way; those are left over. A desk's clock goes up by one with each event, and above the stamp of each letter that
comes."""
import random
import sys
from collections import defaultdict, deque

events, processes, waiting = (int(word) for word in sys.argv[1:4])
random.seed(7)
pids = [f"<{number % 2}.{number // 2}.1>" for number in range(processes)]
clocks = [0, 0]
lines = []


def tell(desk, event, above=0):
    clocks[desk] = max(clocks[desk], above) + 1
    lines.append((clocks[desk], desk, event))
    return clocks[desk]


for number, pid in enumerate(pids):
    tell(number % 2, f"born {pid}")
queues, order = defaultdict(deque), deque()
while len(lines) < events:
    one, two = random.randrange(processes), random.randrange(processes)
    body = f"{random.randrange(100)} {random.randrange(100000)}"
    stamp = tell(one % 2, f"said {pids[one]} -> {pids[two]} message {body}")
    queues[one, two].append((body, stamp))
    order.append((one, two))
    if len(order) > waiting:
        one, two = order.popleft()
        body, stamp = queues[one, two].popleft()
        tell(two % 2, f"came {pids[one]} -> {pids[two]} message {body}", stamp)
        tell(two % 2, f"took {pids[two]} any = user {pids[one]} {body}")
for stamp, desk, event in sorted(lines):
    sys.stdout.write(f"{stamp}@{desk} {event}\n")
for one, two in order:
    body, stamp = queues[one, two].popleft()
    print(f"left-over {one % 2} -> {two % 2} {pids[one]} -> {pids[two]} message {body} @{stamp}")
