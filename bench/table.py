#!/usr/bin/env python3
"""table.py RAW: the tables of bench/RESULTS.md from lines 'SETTING PROGRAM WORKLOAD PER_SECOND'.

A figure is the median of all rounds, in millions a second, with the best in brackets. A ratio is that of the medians; behind
it, in brackets, the least and the greatest ratio of one round, whose programs ran one after the other."""
import sys
from statistics import median
from collections import defaultdict

rates, works = defaultdict(list), []
for line in open(sys.argv[1]):
    words = line.split()
    if len(words) == 4 and words[3].isdigit():
        rates[tuple(words[:3])].append(int(words[3]))
        if words[2] not in works:
            works.append(words[2])


# three digits of it that count, or all before the point
def digits(number):
    return f"{number:,.0f}" if number >= 100 else f"{number:.3g}"


# in millions a second
def figure(key):
    each = rates.get(key)
    return f"{digits(median(each) / 1e6)} ({digits(max(each) / 1e6)})" if each else ""


def ratio(key, base):
    ours, theirs = rates.get(key), rates.get(base)
    if not ours or not theirs or not median(theirs):
        return ""
    each = [a / b for a, b in zip(ours, theirs) if b]
    return f"{median(ours) / median(theirs):.2f} ({min(each):.2f} to {max(each):.2f})"


# how long one time takes, in parts of a second
def time(key, parts):
    each = [it for it in rates.get(key, []) if it]
    return f"{digits(parts / median(each))} ({digits(parts / max(each))})" if each else ""


def table(title, heads, rows):
    rows = [it for it in rows if any(it[1:])]
    if not rows:
        return
    print(f"\n{title}\n\n| {' | '.join(heads)} |\n|{'---|' * len(heads)}")
    for it in rows:
        print(f"| {' | '.join(it)} |")


NAMES = {
    "ping_pong": "ping-pong",
    "one_way": "one way, by 1,000",
    "send": "send alone",
    "receive": "receive alone",
    "past_0": "send to oneself and receive",
    "past_100": "the same past 100 items",
    "past_1000": "the same past 1,000",
    "past_10000": "the same past 10,000",
    "all_to_all": "64 to each other",
    "spawn_exit": "birth and end",
    "spawn_monitor_exit": "birth, monitor, end, DOWN",
    "link_unlink": "link and unlink",
    "monitor_demonitor": "monitor and demonitor",
    "chain_of_links": "chain of 10,000 links falls",
    "chain_of_monitors": "chain of 10,000 monitors falls",
    "links_end": "10,000 links end at one that traps",
    "hub_is_killed": "one with 10,000 links is killed",
    "downs_come": "10,000 monitors of one get their DOWN",
}
LANES = {
    "by_one": "post and collect on one thread, by 1",
    "by_64": "the same by 64",
    "by_1000": "the same by 1,000",
    "by_1000_of_64": "the same, one lane of 64",
    "all_to_all_64": "64 to each other, one thread",
    "one_way": "one way between two threads",
    "there_and_back": "there and back between two threads",
}
plain, kept, huge = "plain", "kept", "huge"
table(
    "One desk",
    ["Workload", "Pundewo", "Rust", "Erlang", "to Rust", "to Erlang"],
    [
        [NAMES[it], figure((plain, "desk", it)), figure((plain, "rust", it)), figure((plain, "erlang", it))]
        + [ratio((plain, "desk", it), (plain, by, it)) for by in ("rust", "erlang")]
        for it in NAMES
        if (plain, "desk", it) in rates or (plain, "rust", it) in rates
    ],
)
table(
    "The same with memory kept, and on huge pages",
    ["Workload", "memory kept: to Rust", "huge pages: to Rust", "huge pages to plain", "memory kept to plain"],
    [
        [NAMES[it]]
        + [ratio((setting, "desk", it), (setting, "rust", it)) for setting in (kept, huge)]
        + [ratio((setting, "desk", it), (plain, "desk", it)) for setting in (huge, kept)]
        for it in NAMES
        if (plain, "desk", it) in rates
    ],
)
table(
    "The same to the Rust table whose removals do not keep the order",
    ["Workload", "Rust, unordered", "to it"],
    [[NAMES[it], figure((plain, "rust-unordered", it)), ratio((plain, "desk", it), (plain, "rust-unordered", it))] for it in NAMES],
)
GROWTH = [
    ("10,000 events", "events_10000"),
    ("100,000 events", "events_100000"),
    ("1,000,000 events", "events_1000000"),
    ("10 live processes", "live_10"),
    ("1,000 live processes", "live_1000"),
    ("65,000 live processes", "live_65000"),
]
table(
    "Growth: nanoseconds of a message with its turn and its receive, and of a birth and its end",
    ["Behind or beside", "message, Pundewo", "message, Rust", "birth and end, Pundewo", "birth and end, Rust"],
    [[name] + [time((plain, by, f"{work}_{it}"), 1e9) for work in ("message", "birth") for by in ("desk", "rust")] for name, it in GROWTH],
)
table(
    "The slots",
    ["Workload, live keys", "`pt_slots`", "slab and versions, Rust", "`slotmap`", "to slab", "to `slotmap`"],
    [
        [it.replace("_by_64", " by 64").replace("old_key", "old keys").replace("_", ", "), *[figure((plain, by, it)) for by in ("slots", "slab", "slotmap")]]
        + [ratio((plain, "slots", it), (plain, by, it)) for by in ("slab", "slotmap")]
        for it in works
        if (plain, "slotmap", it) in rates
    ],
)
TIMERS = {
    "start": "start",
    "again": "cancel one and start another",
    "cancel": "cancel",
    "fire": "fire the next",
}
table(
    "Timers, 1,000,000 pending: nanoseconds of one call",
    ["Workload", "`pt_timers`", "Erlang"],
    [[name, *[time((plain, by, it), 1e9) for by in ("timers", "erlang-timers")]] for it, name in TIMERS.items()],
)
table(
    "Lanes",
    ["Workload", "Lanes", "bare ring", "crossbeam", "std", "to the ring", "to crossbeam", "to std"],
    [
        [LANES[it], *[figure((plain, by, it)) for by in ("lanes", "ring", "crossbeam", "std")]]
        + [ratio((plain, "lanes", it), (plain, by, it)) for by in ("ring", "crossbeam", "std")]
        for it in LANES
        if (plain, "lanes", it) in rates
    ],
)
table(
    "The judge and the auditor: events",
    ["Program", "Workload", "Events"],
    [[by, it.replace("_", " "), figure((plain, by, it))] for by in ("judge", "audit") for it in works if (plain, by, it) in rates],
)

table(
    "Scripts: turns a second while one process waits on a desk of 65,536 slots",
    ["Epochs", "Turns"],
    [[it.removeprefix("waits_"), figure((plain, "scripts", it))] for it in works if it.startswith("waits_")],
)
table(
    "Charts: milliseconds with the run of the script",
    ["Processes", "Milliseconds"],
    [[it.removeprefix("ring_"), time((plain, "scripts", it), 1e6)] for it in works if (plain, "scripts", it) in rates and it.startswith("ring_")],
)


LIVE = [("10", "10"), ("1,000", "1000"), ("65,000", "65000")]
table(
    "Epochs: milliseconds of gathering, settling and going on, on four desks",
    ["Events of the epoch", "live on each desk", "gather", "settle", "resume"],
    [
        [events, live, *[time((plain, "epochs", f"{call}_{number}_of_{word}"), 1e3) for call in ("gather", "settle", "resume")]]
        for events, word in (("1,200", "few"), ("100,800", "100000"))
        for live, number in LIVE
        if (plain, "epochs", f"gather_{number}_of_{word}") in rates
    ],
)
table(
    "Epochs: milliseconds of a pause with no event before it, on one desk",
    ["Ended processes", "settle_unlisted", "resume_settled", "settle", "resume"],
    [
        [f"{ends:,}", *[time((plain, "epochs", f"{call}_{how}_after_{ends}"), 1e3) for how in ("unlisted", "listed") for call in ("settle", "resume")]]
        for ends in (1_000, 100_000, 1_000_000)
        if (plain, "epochs", f"settle_listed_after_{ends}") in rates
    ],
)
table(
    "Epochs: kilobytes of memory at the end and at most, and minor faults",
    ["Run", "at the end", "at most", "faults"],
    [[it[4:].replace("_", ", "), *[str(min(rates[(plain, "memory", f"{what}{it[3:]}")])) for what in ("now", "most", "faults")]]
     for it in works if it.startswith("now_") and not it.startswith("now_processes")],
)


SHAPES = {"own": "each desk for itself", "all": "all to all", "ring": "ring of 1,000", "way": "one way"}
ON_THREADS = [(shape, count) for shape in SHAPES for count in (1, 2, 4, 8)]
table(
    "On threads: messages of all desks together",
    ["Shape", "Threads", "Pundewo", "Rust", "Rust, no journal", "Erlang", "to Rust", "to Erlang"],
    [
        [SHAPES[shape], str(count), *[figure((plain, by, f"{shape}_{count}")) for by in ("hand", "actors", "actors-bare", "erlang")]]
        + [ratio((plain, "hand", f"{shape}_{count}"), (plain, by, f"{shape}_{count}")) for by in ("actors", "erlang")]
        for shape, count in ON_THREADS
        if (plain, "hand", f"{shape}_{count}") in rates
    ],
)
table(
    "On threads: to one desk of the same program",
    ["Shape", "Threads", "Pundewo", "by a crew", "Rust", "Rust, no journal", "Erlang"],
    [
        [SHAPES[shape], str(count)]
        + [ratio((plain, by, f"{shape}_{count}"), (plain, by, f"{shape}_1")) for by in ("hand", "crew", "actors", "actors-bare", "erlang")]
        for shape, count in ON_THREADS
        if count > 1 and (plain, "hand", f"{shape}_{count}") in rates
    ],
)
table(
    "On threads, on huge pages",
    ["Shape", "Threads", "Pundewo", "Rust", "Rust, no journal", "to Rust", "to one desk"],
    [
        [SHAPES[shape], str(count), *[figure((huge, by, f"{shape}_{count}")) for by in ("hand", "actors", "actors-bare")]]
        + [ratio((huge, "hand", f"{shape}_{count}"), (huge, "actors", f"{shape}_{count}"))]
        + [ratio((huge, "hand", f"{shape}_{count}"), (huge, "hand", f"{shape}_1")) if count > 1 else ""]
        for shape, count in ON_THREADS
        if (huge, "hand", f"{shape}_{count}") in rates
    ],
)
table(
    "Crews: messages of all desks together",
    ["Shape", "Threads", "by a crew", "on desks that rest", "by hand", "Erlang", "to hand", "to Erlang", "resting, to Erlang"],
    [
        [SHAPES[shape], str(count), *[figure((plain, by, f"{shape}_{count}")) for by in ("crew", "rest", "hand", "erlang")]]
        + [ratio((plain, "crew", f"{shape}_{count}"), (plain, by, f"{shape}_{count}")) for by in ("hand", "erlang")]
        + [ratio((plain, "rest", f"{shape}_{count}"), (plain, "erlang", f"{shape}_{count}"))]
        for shape, count in ON_THREADS
        if (plain, "crew", f"{shape}_{count}") in rates
    ],
)


# the least of all rounds
def instructions(work):
    each = rates.get((plain, "instructions", work))
    return f"{min(each):,}" if each else ""


table(
    "Instructions a message, on one desk or thread",
    ["Shape", "by hand", "by a crew", "Rust", "Rust, no journal"],
    [[SHAPES[shape], *[instructions(f"{by}_{shape}") for by in ("hand", "crew", "actors", "actors-bare")]] for shape in SHAPES],
)


table(
    "A step of a crew that hands one message over, beside processes that wait",
    ["Processes that wait", "millions a second", "instructions"],
    [
        [f"{count:,}", figure((plain, "idle", str(count))), instructions(f"idle_{count}")]
        for count in (10, 1_000, 65_000)
        if (plain, "idle", str(count)) in rates
    ],
)


# bytes of one of 1,000,000 processes, and what their journals take of it
def bytes_each(each):
    now = [min(rates.get((plain, "memory", f"now_processes_{count}_{each}"), [0])) for count in (0, 1_000_000)]
    return (now[1] - now[0]) * 1024 / 1_000_000


HAVING = [("bare", "nothing", 1), ("item", "an item", 3), ("watch", "a link, a monitor and a watcher", 4)]
table(
    "A node of 1,000,000 processes: bytes for each",
    ["Each has", "in all", "its events in the journal", "the rest"],
    [
        [name, f"{bytes_each(each):.0f}", str(104 * events), f"{bytes_each(each) - 104 * events:.0f}"]
        for each, name, events in HAVING
        if (plain, "memory", f"now_processes_1000000_{each}") in rates
    ],
)


table(
    "Many events: milliseconds",
    ["Events", "gather", "history", "settle", "judge"],
    [
        [f"{count:,}", *[time((plain, "large", f"{call}_{count}"), 1e6) for call in ("gather", "history", "settle", "replay")]]
        for count in (10_000, 100_000, 1_000_000, 10_000_000)
        if (plain, "large", f"history_{count}") in rates
    ],
)
table(
    "A resting node of eight desks: microseconds of a processor in a second",
    ["No rest is longer than", "microseconds"],
    [
        [name, f"{median(rates[(plain, 'resting', f'idle_{longest}')]):.0f}"]
        for longest, name in ((10, "10 milliseconds"), (1000, "a second"), (60000, "a minute"))
        if (plain, "resting", f"idle_{longest}") in rates
    ],
)


# microseconds of one time: the median of all rounds, and the best
def microseconds(by, work):
    medians, bests = rates.get((plain, by, f"median{work}")), rates.get((plain, by, f"best{work}"))
    return [f"{1e6 / median(medians):.1f}", f"{1e6 / max(bests):.1f}"] if medians and bests else ["", ""]


table(
    "A resting node of eight desks: microseconds until a message has come and the one who handed it in is told",
    ["Desks that it wakes", "median", "best"],
    [[str(hops + 1), *microseconds("resting", f"_{hops}")] for hops in (0, 1, 3, 7)]
    + [["two threads of Rust, by `park` and `unpark`", *microseconds("threads", "")]],
)
ON, GROWS = "300_of_3333", "1_of_999900"
table(
    "Epochs: messages of a ping-pong on a node that goes on every 9,999 events, and on one whose journal grows",
    ["Node", "goes on", "grows", "to it", "grows, then resumes", "to it", "grows, to plain"],
    [
        [name, figure((setting, "epochs", f"ping_{ON}"))]
        + [
            it
            for work in ("ping", "ping_resumed")
            for it in (
                figure((setting, "epochs", f"{work}_{GROWS}")),
                ratio((setting, "epochs", f"{work}_{ON}"), (setting, "epochs", f"{work}_{GROWS}")),
            )
        ]
        + [ratio((setting, "epochs", f"ping_{GROWS}"), (plain, "epochs", f"ping_{GROWS}")) if setting == huge else ""]
        for name, setting in (
            ("1,024 slots", plain),
            ("1,024 slots, huge pages", huge),
            ("65,536 slots", "slots"),
            ("65,536 slots, 10 processes", "live10"),
            ("65,536 slots, 10,000 processes", "live10000"),
        )
    ],
)
