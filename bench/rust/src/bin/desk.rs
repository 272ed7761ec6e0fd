//! desk [MS [WORKLOAD]]: the workloads of one desk on the table in plain Rust, as lines `rust WORKLOAD PER_SECOND` of
//! processor time, and as `rust-unordered` where removals do not keep the order of entry. `desk growth`: what a call costs.

use beside::table::{Body, Item, Pick, Pid, Reason, Ref, Table};
use beside::{rate, timed, Steps};

const GROUP: usize = 10_000;

fn message(kind: u32, num: i64) -> Body {
    Body { kind, num, who: None }
}

fn ping_pong(table: &mut Table) -> u64 {
    let (a, b) = (table.spawn(), table.spawn());
    timed(|| {
        for num in 0..200_000 {
            table.send(a, b, message(1, num));
            table.settle();
            table.receive(b, Pick::Kind(1)).unwrap();
            table.send(b, a, message(2, num));
            table.settle();
            table.receive(a, Pick::From(b)).unwrap();
        }
    })
}

fn one_way(table: &mut Table) -> u64 {
    let (a, b) = (table.spawn(), table.spawn());
    timed(|| {
        for _ in 0..400 {
            for num in 0..1_000 {
                table.send(a, b, message(1, num));
            }
            table.settle();
            for _ in 0..1_000 {
                table.receive(b, Pick::Kind(1)).unwrap();
            }
        }
    })
}

fn send(table: &mut Table) -> u64 {
    let (a, b) = (table.spawn(), table.spawn());
    timed(|| {
        for num in 0..200_000 {
            table.send(a, b, message(1, num));
        }
        table.settle();
    })
}

fn receive(table: &mut Table) -> u64 {
    let (a, b) = (table.spawn(), table.spawn());
    for num in 0..200_000 {
        table.send(a, b, message(1, num));
    }
    table.settle();
    timed(|| {
        for _ in 0..200_000 {
            table.receive(b, Pick::Kind(1)).unwrap();
        }
    })
}

fn past(table: &mut Table, items: i64, times: i64) -> u64 {
    let a = table.spawn();
    for num in 0..items {
        table.send(a, a, message(9, num));
    }
    table.settle();
    timed(|| {
        for num in 0..times {
            table.send(a, a, message(1, num));
            table.settle();
            table.receive(a, Pick::Kind(1)).unwrap();
        }
    })
}

fn all_to_all(table: &mut Table) -> u64 {
    let all: Vec<Pid> = (0..64).map(|_| table.spawn()).collect();
    timed(|| {
        for num in 0..40 {
            for &p in &all {
                for &q in &all {
                    if p != q {
                        table.send(p, q, message(1, num));
                    }
                }
            }
            table.settle();
        }
        for &p in &all {
            for _ in 0..63 * 40 {
                table.receive(p, Pick::Kind(1)).unwrap();
            }
        }
    })
}

fn spawn_exit(table: &mut Table) -> u64 {
    let mut all = Vec::with_capacity(100);
    timed(|| {
        for _ in 0..1_000 {
            for _ in 0..100 {
                all.push(table.spawn());
            }
            for &p in &all {
                table.exit(p, Reason::Normal);
            }
            all.clear();
            table.settle();
        }
    })
}

fn spawn_monitor_exit(table: &mut Table) -> u64 {
    let a = table.spawn();
    timed(|| {
        for _ in 0..50_000 {
            let p = table.spawn();
            let watch = table.monitor(a, p);
            table.settle();
            table.exit(p, Reason::Normal);
            table.settle();
            table.receive(a, Pick::DownOf(watch)).unwrap();
        }
    })
}

fn link_unlink(table: &mut Table) -> u64 {
    let (a, b) = (table.spawn(), table.spawn());
    timed(|| {
        for _ in 0..100_000 {
            table.link(a, b);
            table.unlink(a, b);
            table.settle();
        }
    })
}

fn monitor_demonitor(table: &mut Table) -> u64 {
    let (a, b) = (table.spawn(), table.spawn());
    timed(|| {
        for _ in 0..100_000 {
            let watch = table.monitor(a, b);
            table.demonitor(a, watch);
            table.settle();
        }
    })
}

fn chain_of_links(table: &mut Table) -> u64 {
    let killer = table.spawn();
    let first = table.spawn();
    let mut last = first;
    for _ in 1..GROUP {
        last = table.spawn_link(last);
    }
    let spent = timed(|| {
        table.exit_signal(killer, first, Reason::Kill);
        table.settle();
    });
    assert!(!table.is_alive(last));
    spent
}

fn chain_of_monitors(table: &mut Table) -> u64 {
    let killer = table.spawn();
    let first = table.spawn();
    let mut last = first;
    let mut rest: Vec<(Pid, Ref)> = Vec::new();
    for _ in 1..GROUP {
        let p = table.spawn();
        rest.push((p, table.monitor(p, last)));
        last = p;
    }
    table.settle();
    let spent = timed(|| {
        table.exit_signal(killer, first, Reason::Kill);
        table.settle();
        for &(p, watch) in &rest {
            let Some(Item::Down(_, _, reason)) = table.receive(p, Pick::DownOf(watch)) else { panic!() };
            table.exit(p, reason);
            table.settle();
        }
    });
    assert!(!table.is_alive(last));
    spent
}

// One process with links to so many, which end one after the other; or it is killed itself; or it watches them.
fn links_end(table: &mut Table) -> u64 {
    let hub = table.spawn();
    table.trap(hub, true);
    let all: Vec<Pid> = (0..GROUP).map(|_| table.spawn_link(hub)).collect();
    timed(|| {
        for &p in &all {
            table.exit(p, Reason::Other(7));
            table.settle();
        }
        for _ in 0..GROUP {
            table.receive(hub, Pick::Any).unwrap();
        }
    })
}

fn hub_is_killed(table: &mut Table) -> u64 {
    let killer = table.spawn();
    let hub = table.spawn();
    let all: Vec<Pid> = (0..GROUP).map(|_| table.spawn_link(hub)).collect();
    let spent = timed(|| {
        table.exit_signal(killer, hub, Reason::Kill);
        table.settle();
    });
    assert!(!table.is_alive(all[GROUP - 1]));
    spent
}

fn downs_come(table: &mut Table) -> u64 {
    let hub = table.spawn();
    let mut all = Vec::new();
    for _ in 0..GROUP {
        let p = table.spawn();
        table.monitor(hub, p);
        all.push(p);
    }
    table.settle();
    timed(|| {
        for &p in &all {
            table.exit(p, Reason::Other(7));
            table.settle();
        }
        for _ in 0..GROUP {
            table.receive(hub, Pick::Any).unwrap();
        }
    })
}

type Workload = (&'static str, u64, fn(&mut Table) -> u64);

const ALL: [Workload; 18] = [
    ("ping_pong", 200_000, ping_pong),
    ("one_way", 400_000, one_way),
    ("send", 200_000, send),
    ("receive", 200_000, receive),
    ("past_0", 200_000, |table| past(table, 0, 200_000)),
    ("past_100", 100_000, |table| past(table, 100, 100_000)),
    ("past_1000", 20_000, |table| past(table, 1_000, 20_000)),
    ("past_10000", 2_000, |table| past(table, 10_000, 2_000)),
    ("all_to_all", 161_280, all_to_all),
    ("spawn_exit", 100_000, spawn_exit),
    ("spawn_monitor_exit", 50_000, spawn_monitor_exit),
    ("link_unlink", 100_000, link_unlink),
    ("monitor_demonitor", 100_000, monitor_demonitor),
    ("chain_of_links", 10_000, chain_of_links),
    ("chain_of_monitors", 10_000, chain_of_monitors),
    ("links_end", 10_000, links_end),
    ("hub_is_killed", 10_000, hub_is_killed),
    ("downs_come", 10_000, downs_come),
];

// What 20,000 calls cost behind so many events, and beside so many processes: a message there and taken, a birth and end.
fn growth() {
    for events in [10_000u64, 100_000, 1_000_000] {
        let mut table = Table::default();
        let (a, b) = (table.spawn(), table.spawn());
        for num in 0..events {
            table.trap(a, num % 2 == 0);
        }
        print_costs(&format!("events_{events}"), &mut table, &[a, b]);
    }
    for live in [10usize, 1_000, 65_000] {
        let mut table = Table::default();
        let all: Vec<Pid> = (0..live).map(|_| table.spawn()).collect();
        print_costs(&format!("live_{live}"), &mut table, &all);
    }
}

fn print_costs(name: &str, table: &mut Table, all: &[Pid]) {
    let mut steps = Steps(88_172_645_463_325_252);
    let mut best = [u64::MAX; 2];
    for _ in 0..5 {
        let spent = timed(|| {
            for num in 0..20_000 {
                let (a, b) = (all[steps.below(all.len())], all[steps.below(all.len())]);
                table.send(a, b, message(1, num));
                table.settle();
                table.receive(b, Pick::Kind(1)).unwrap();
            }
        });
        best[0] = best[0].min(spent);
        let spent = timed(|| {
            for _ in 0..20_000 {
                let p = table.spawn();
                table.exit(p, Reason::Normal);
            }
        });
        best[1] = best[1].min(spent);
    }
    println!("rust message_{name} {}", 20_000 * 1_000_000_000 / best[0]);
    println!("rust birth_{name} {}", 20_000 * 1_000_000_000 / best[1]);
}

fn main() {
    let mut args = std::env::args().skip(1);
    let first = args.next().unwrap_or_default();
    if first == "growth" {
        return growth();
    }
    let ms = first.parse().unwrap_or(20);
    let only = args.next();
    for (name, units, workload) in ALL {
        if only.as_deref().map_or(false, |it| it != name) {
            continue;
        }
        println!("rust {name} {}", rate(ms, units, || workload(&mut Table::default())));
        if matches!(name, "links_end" | "downs_come" | "hub_is_killed") {
            let unordered = || {
                let mut table = Table::default();
                table.unordered = true;
                workload(&mut table)
            };
            println!("rust-unordered {name} {}", rate(ms, units, unordered));
        }
    }
}
