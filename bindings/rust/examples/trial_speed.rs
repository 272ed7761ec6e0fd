//! How many runs a second a trial makes on one thread, and how many the reduction leaves out.
//!
//!     cargo run --release --example trial_speed [SECONDS]

use pundewo::runtime::{Address, Behaviour, Call, Context, Event, Next, Reply};
use pundewo::trial::{Found, Trial, World};
use std::time::Duration;

enum ToCell {
    Get(Reply<u64>),
    Put(u64),
}

#[derive(Default)]
struct Cell(u64);

impl Behaviour for Cell {
    type Message = ToCell;

    fn handle(&mut self, cx: &mut Context<'_, ToCell>, event: Event<ToCell>) -> Next {
        match event {
            Event::Message(ToCell::Get(reply)) => cx.reply(reply, self.0),
            Event::Message(ToCell::Put(value)) => self.0 = value,
            _ => {}
        }
        Next::Wait
    }
}

/// Reads a cell, and writes it one higher.
struct Client(Address<ToCell>, Option<Call<u64>>);

impl Behaviour for Client {
    type Message = ();

    fn started(&mut self, cx: &mut Context<'_, ()>) -> Next {
        self.1 = cx.call(&self.0, Duration::from_secs(1), ToCell::Get).ok();
        Next::Wait
    }

    fn handle(&mut self, cx: &mut Context<'_, ()>, event: Event<()>) -> Next {
        if let (Event::Answer(answer), Some(call)) = (event, self.1) {
            if let Ok(Ok(value)) = answer.to(&call) {
                cx.send(&self.0, ToCell::Put(value + 1));
            }
        }
        Next::DONE
    }
}

/// A cell on desk 0, and clients of it on these desks.
fn clients<const N: usize>(desks: [u8; N]) -> Trial<Address<ToCell>> {
    let scenario = move |world: &mut World| {
        let cell = world.spawn_on(0, Cell::default());
        for desk in desks {
            world.spawn_on(desk, Client(cell.clone(), None));
        }
        cell
    };
    let value = |world: &World, cell: &Address<ToCell>| {
        world.behaviour(cell, |cell: &Cell| cell.0.to_string()).expect("the cell lives")
    };
    Trial::of(scenario).desks(1 + usize::from(*desks.iter().max().unwrap_or(&0))).outcome(value)
}

/// For how many seconds this process had a processor.
fn processor_seconds() -> f64 {
    let told = std::fs::read_to_string("/proc/self/schedstat").expect("Linux says how long a process ran");
    let nanoseconds: u64 = told.split(' ').next().and_then(|it| it.parse().ok()).expect("a number of nanoseconds");
    nanoseconds as f64 / 1e9
}

/// Runs until so many seconds of a processor are over, and prints how many runs a second that were.
fn speed(what: &str, seconds: f64, runs: impl Fn(u64) -> Found) {
    let began = processor_seconds();
    let (mut count, mut moves, mut seed) = (0, 0, 0);
    let mut took = 0.0;
    while took < seconds {
        let found = runs(seed);
        (count, moves, seed) = (count + found.runs(), moves + found.moves(), seed + 1);
        took = processor_seconds() - began;
    }
    let (runs, length) = (count as f64 / took, moves as f64 / count as f64);
    println!("{what}: {runs:.0} runs of {length:.1} moves, as many moves as {:.0} of 20", runs * length / 20.0);
}

/// How many runs all schedules are, and how many with the reduction.
fn saved(what: &str, trial: &Trial<Address<ToCell>>) {
    let (whole, fewer) = (trial.clone().limit(2_000_000).every(), trial.clone().reduced().every());
    let all = if whole.is_whole() { format!("{}", whole.runs()) } else { format!("more than {}", whole.runs()) };
    println!("{what}: {all} schedules, {} with the reduction and {} given up", fewer.runs(), fewer.given_up());
}

/// Goes on so many times, and then exits: what a script of `pt_explore` says by `pass`.
struct Passes(u32);

impl Behaviour for Passes {
    type Message = ();

    fn started(&mut self, _: &mut Context<'_, ()>) -> Next {
        Next::Proceed
    }

    fn handle(&mut self, _: &mut Context<'_, ()>, _: Event<()>) -> Next {
        self.0 -= 1;
        if self.0 == 0 { Next::DONE } else { Next::Proceed }
    }
}

/// Takes so many messages, and exits.
struct Takes(u32);

impl Behaviour for Takes {
    type Message = u32;

    fn handle(&mut self, _: &mut Context<'_, u32>, _: Event<u32>) -> Next {
        self.0 -= 1;
        if self.0 == 0 { Next::DONE } else { Next::Wait }
    }
}

/// Sends one message, and exits.
struct Sends(Address<u32>);

impl Behaviour for Sends {
    type Message = ();

    fn started(&mut self, cx: &mut Context<'_, ()>) -> Next {
        cx.send(&self.0, 1);
        Next::DONE
    }

    fn handle(&mut self, _: &mut Context<'_, ()>, _: Event<()>) -> Next {
        Next::DONE
    }
}

/// Two processes that go on five times, each on a desk.
fn never_meet() -> Trial<()> {
    Trial::of(|world| [0, 1].into_iter().for_each(|desk| _ = world.spawn_on(desk, Passes(4))))
}

/// Processes on desks of their own that each send one message to a process on another.
fn senders(count: u8) -> Trial<()> {
    let scenario = move |world: &mut World| {
        let takes = world.spawn_on(0, Takes(count.into()));
        (1..=count).for_each(|desk| _ = world.spawn_on(desk, Sends(takes.clone())));
    };
    Trial::of(scenario).desks(1 + usize::from(count))
}

/// How many schedules a scenario has that `pt_explore` can say, too. (`bench/trials.py` puts its count before these)
fn beside(what: &str, trial: &Trial<()>) {
    let all = |trial: &Trial<()>| {
        let found = trial.clone().limit(3_000_000).every();
        if found.is_whole() { format!("{}", found.runs()) } else { format!("more than {}", found.runs()) }
    };
    let reduced = trial.clone().reduced().every();
    let (rounds, moves) = (all(&trial.clone().coarse()), all(trial));
    println!("{what}: {rounds} by whole rounds, {moves} by moves, {} with the reduction", reduced.runs());
}

fn main() {
    let seconds = std::env::args().nth(1).map_or(2.0, |it| it.parse().expect("a number of seconds"));
    let (near, far) = (clients([1, 1]), clients([1, 2]));
    println!("runs a second of a processor:");
    speed("two clients on one desk, by chance", seconds, |seed| near.random(1000, seed));
    speed("two clients on two desks, by chance", seconds, |seed| far.random(1000, seed));
    speed("the same by priorities", seconds, |seed| far.priorities(1000, seed, 3));
    speed("the same, the first of every schedule", seconds, |_| far.clone().limit(10_000).every());
    println!("schedules:");
    saved("two clients on one desk, whole rounds", &near.clone().coarse());
    saved("two clients on two desks, whole rounds", &far.clone().coarse());
    saved("one client on another desk", &clients([1]));
    println!("schedules beside pt_explore:");
    beside("two desks that never meet, five turns each", &never_meet());
    beside("one that sends to another", &senders(1));
    beside("two that send to a third", &senders(2));
}
