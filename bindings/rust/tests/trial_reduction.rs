//! The reduction finds the outcomes of all schedules, over scenarios by chance.

use pundewo::runtime::{Address, Behaviour, Context, Event, Group, Next, Reason};
use pundewo::trial::{Found, Trial, World};
use std::collections::BTreeSet;
use std::sync::{Arc, OnceLock};
use std::time::Duration;

/// How many scenarios with several outcomes are compared. More by `PUNDEWO_TRIALS`.
fn scenarios() -> u64 {
    std::env::var("PUNDEWO_TRIALS").map_or(3, |count| count.parse().expect("a number of scenarios"))
}

/// Numbers by chance.
struct Chance(u64);

impl Chance {
    fn below(&mut self, most: u64) -> u64 {
        self.0 = self.0.wrapping_mul(0x5851_f42d_4c95_7f2d).wrapping_add(0x1405_7b7e_f767_814f);
        (self.0 >> 33) % most
    }
}

/// What a process does as it begins or is told something. The number is that of another process.
#[derive(Clone, Copy, Debug)]
enum Act {
    Send(usize),
    Later(usize),
    Watch(usize),
    Kill(usize),
    Join,
    All,
    Stop,
}

fn acts(chance: &mut Chance, most: u64) -> Vec<Act> {
    let count = chance.below(most + 1);
    (0..count)
        .map(|_| {
            let peer = chance.below(3) as usize;
            match chance.below(10) {
                0..=3 => Act::Send(peer),
                4 => Act::Later(peer),
                5 => Act::Watch(peer),
                6 => Act::Kill(peer),
                7 => Act::Join,
                8 => Act::All,
                _ => Act::Stop,
            }
        })
        .collect()
}

/// The processes of a scenario, once all are spawned.
type Peers = Arc<OnceLock<Vec<Address<usize>>>>;

/// A process that keeps what it is told.
struct Scripted {
    number: usize,
    begins: Vec<Act>,
    told: Vec<Act>,
    peers: Peers,
    group: Group<usize>,
    notes: Vec<String>,
}

impl Scripted {
    fn act(&mut self, cx: &mut Context<'_, usize>, acts: &[Act]) -> Next {
        let peers = self.peers.get().expect("all are spawned").clone();
        let peer = |number: usize| &peers[number % peers.len()];
        for act in acts {
            match *act {
                Act::Send(number) => _ = cx.send(peer(number), self.number),
                Act::Later(number) => _ = cx.send_after(Duration::from_millis(1), peer(number), 20 + self.number),
                Act::Watch(number) if number % peers.len() != self.number => _ = cx.monitor(peer(number)),
                Act::Kill(number) => _ = cx.exit(peer(number), Reason::Other(7)),
                Act::Join => _ = self.group.join(cx.me()),
                Act::All => _ = cx.send_all(&self.group, |_| 10 + self.number),
                Act::Stop => return Next::Stop(Reason::Other(8)),
                Act::Watch(_) => {}
            }
        }
        Next::Wait
    }
}

impl Behaviour for Scripted {
    type Message = usize;

    fn started(&mut self, cx: &mut Context<'_, usize>) -> Next {
        let acts = self.begins.clone();
        self.act(cx, &acts)
    }

    fn handle(&mut self, cx: &mut Context<'_, usize>, event: Event<usize>) -> Next {
        let said = match event {
            Event::Message(from) => from.to_string(),
            Event::Down(down) => format!("down {}", down.reason),
            other => format!("{other:?}"),
        };
        self.notes.push(said);
        let acts = if self.notes.len() < 3 { self.told.clone() } else { Vec::new() };
        self.act(cx, &acts)
    }
}

/// Two or three processes on as many desks or fewer. In some scenarios time goes on at any step, or a process is killed.
fn scenario(seed: u64) -> Trial<Vec<Address<usize>>> {
    let mut chance = Chance(seed);
    let (count, desks) = (2 + chance.below(2) as usize, 2 + chance.below(2) as u8);
    let scripts: Vec<_> = (0..count).map(|_| (acts(&mut chance, 2), acts(&mut chance, 1))).collect();
    let trial = Trial::of(move |world: &mut World| {
        let (peers, group) = (Peers::default(), Group::new(world, "all"));
        let spawn = |(number, (begins, told)): (usize, &(Vec<Act>, Vec<Act>))| {
            let (begins, told, peers, group) = (begins.clone(), told.clone(), peers.clone(), group.clone());
            let scripted = Scripted { number, begins, told, peers, group, notes: Vec::new() };
            world.spawn_on(number as u8 % desks, scripted)
        };
        let all: Vec<_> = scripts.iter().enumerate().map(spawn).collect();
        world.may_be_killed(&all[0]);
        _ = peers.set(all.clone());
        all
    });
    let (times, kills) = (u32::from(seed % 4 == 1), u32::from(seed % 4 == 3));
    trial.desks(desks.into()).time_goes_on(times).kills(kills).outcome(|world, all| {
        let notes = |it: &Address<usize>| world.behaviour(it, |it: &Scripted| it.notes.join(" "));
        all.iter().map(|it| notes(it).unwrap_or_else(|| "exited".into())).collect::<Vec<_>>().join(" | ")
    })
}

fn outcomes(found: &Found) -> BTreeSet<String> {
    found.outcomes().into_iter().map(|(outcome, _)| outcome.to_string()).collect()
}

/// How many runs there were, how many were given up, and how many moves all of them had.
fn counts(found: &Found) -> [u64; 3] {
    [found.runs(), found.given_up(), found.moves()]
}

#[test]
fn its_outcomes_are_those_of_all_schedules() {
    let (mut left, mut runs, mut fewer) = (scenarios(), 0, 0);
    for seed in 0.. {
        let whole = scenario(seed).limit(400).threads(2).every();
        if whole.is_whole() {
            let reduced = scenario(seed).limit(400).reduced().every();
            assert_eq!(outcomes(&reduced), outcomes(&whole), "scenario {seed}");
            assert!(reduced.is_whole() && reduced.runs() + reduced.given_up() <= whole.runs(), "scenario {seed}");
            let on_threads = scenario(seed).limit(400).threads(3).reduced().every();
            assert_eq!(counts(&on_threads), counts(&reduced), "scenario {seed}");
            (runs, fewer) = (runs + whole.runs(), fewer + reduced.runs() + reduced.given_up());
            // (those in which something is up to the schedule)
            left -= u64::from(whole.outcomes().len() > 1);
        }
        if left == 0 {
            break;
        }
    }
    println!("{runs} schedules, {fewer} with the reduction, given up or not");
    assert!(2 * fewer < runs);
}
