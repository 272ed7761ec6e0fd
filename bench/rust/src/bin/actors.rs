//! actors SHAPE THREADS [MESSAGES [PROGRAM]]: actors on threads, in the shapes of `pt_bench_threads`, as lines
//! `actors SHAPE_THREADS PER_SECOND` and, where they keep no journal, `actors-bare SHAPE_THREADS PER_SECOND`, by the wall;
//! with PROGRAM, `actors` or `actors-bare`, that one alone.
//!
//! Each thread has an unbounded channel of crossbeam for letters from other threads, a queue for its own, a mailbox for
//! each of its actors, and a clock; with a journal it writes a stamped event where a message is sent, comes and is taken.

use beside::timed_by_wall;
use crossbeam_channel::{unbounded, Receiver, Sender};
use std::collections::VecDeque;

#[derive(Clone, Copy, PartialEq, Eq)]
enum Shape {
    Own,
    All,
    Ring,
    Way,
}

#[derive(Clone, Copy)]
struct Pid {
    thread: u32,
    slot: u32,
    version: u32,
}

#[derive(Clone, Copy)]
#[allow(dead_code)]
struct Body {
    kind: u32,
    num: i64,
    who: Option<Pid>,
}

#[derive(Clone, Copy)]
struct Letter {
    from: Pid,
    to: Pid,
    body: Body,
    stamp: u64,
}

#[allow(dead_code)]
enum Event {
    Said(Pid, Pid, Body),
    Came(Pid, Pid, Body),
    Took(Pid, Pid, Body),
}

const BODY: Body = Body { kind: 1, num: 7, who: None };

/// How many messages each thread sends where nothing else is said.
fn messages(shape: Shape) -> u64 {
    match shape {
        Shape::Own | Shape::Way => 400_000,
        Shape::All => 409_600,
        Shape::Ring => 200_000,
    }
}

fn named(word: &str) -> Option<Shape> {
    match word {
        "own" => Some(Shape::Own),
        "all" => Some(Shape::All),
        "ring" => Some(Shape::Ring),
        "way" => Some(Shape::Way),
        _ => None,
    }
}

/// How many actors each thread has.
fn each(shape: Shape, threads: u32) -> u32 {
    match shape {
        Shape::Own => 128,
        Shape::All => 16,
        Shape::Ring => 1_000 / threads,
        Shape::Way => 2,
    }
}

fn pid(thread: u32, slot: u32) -> Pid {
    Pid { thread, slot, version: 1 }
}

/// To whom the actors of a thread send: each to the one at its place; in `All` each to all of these, in turn.
fn targets(shape: Shape, threads: u32, thread: u32) -> Vec<Pid> {
    let each = each(shape, threads);
    let next = (thread + 1) % threads;
    match shape {
        Shape::Own => (0..each).map(|slot| pid(thread, slot ^ 1)).collect(),
        Shape::All => (0..threads)
            .flat_map(|behind| (0..each).map(move |slot| pid((thread + behind) % threads, slot)))
            .collect(),
        Shape::Ring if next > 0 => (0..each).map(|slot| pid(next, slot)).collect(),
        Shape::Ring => (0..each).map(|slot| pid(0, (slot + 1) % each)).collect(),
        Shape::Way => (0..each).map(|_| pid(1 % threads, 1)).collect(),
    }
}

struct Worker {
    shape: Shape,
    own: Vec<Pid>,
    targets: Vec<Pid>,
    shift: usize,
    to_send: u64,
    to_take: u64,
    taken: u64,
    has_begun: bool,
    mailboxes: Vec<VecDeque<(Pid, Body)>>,
    local: VecDeque<Letter>,
    comes: Receiver<Letter>,
    goes: Vec<Sender<Letter>>,
    clock: u64,
    keeps: bool,
    journal: Vec<(u64, Event)>,
}

impl Worker {
    #[inline]
    fn note(&mut self, event: Event) {
        self.clock += 1;
        if self.keeps {
            self.journal.push((self.clock, event));
        }
    }

    /// The actor at that place sends a message, where there is one left to send.
    #[inline]
    fn say(&mut self, place: usize) {
        if self.to_send == 0 {
            return;
        }
        self.to_send -= 1;
        let (from, to) = (self.own[place], self.targets[(place + self.shift) % self.targets.len()]);
        self.note(Event::Said(from, to, BODY));
        let letter = Letter { from, to, body: BODY, stamp: self.clock };
        if to.thread == from.thread {
            self.local.push_back(letter);
        } else {
            let _ = self.goes[to.thread as usize].send(letter);
        }
    }

    fn handle(&mut self, letter: Letter) {
        self.clock = self.clock.max(letter.stamp);
        self.note(Event::Came(letter.from, letter.to, letter.body));
        if self.own[letter.to.slot as usize].version == letter.to.version {
            self.mailboxes[letter.to.slot as usize].push_back((letter.from, letter.body));
        }
    }

    /// Handles what has come.
    fn turn(&mut self) {
        while let Some(letter) = self.local.pop_front() {
            self.handle(letter);
        }
        while let Ok(letter) = self.comes.try_recv() {
            self.handle(letter);
        }
    }

    /// The actor at that place takes a message; whether there was one.
    #[inline]
    fn hear(&mut self, place: usize) -> bool {
        let Some((from, body)) = self.mailboxes[place].pop_front() else { return false };
        self.note(Event::Took(self.own[place], from, body));
        self.taken += 1;
        true
    }

    fn hear_each(&mut self) {
        for place in 0..self.own.len() {
            while self.hear(place) {}
        }
    }

    fn answer_each(&mut self) {
        for place in 0..self.own.len() {
            let begins = !self.has_begun && (self.shape == Shape::Ring || place % 2 == 0);
            if begins || self.hear(place) {
                self.say(place);
            }
        }
        self.has_begun = true;
    }

    /// Each sends 16 messages.
    fn spread(&mut self) {
        for _ in 0..16 {
            for place in 0..self.own.len() {
                self.say(place);
            }
            self.shift += 1;
        }
    }

    fn step(&mut self) {
        match self.shape {
            Shape::Own | Shape::Ring => self.answer_each(),
            Shape::All => {
                self.spread();
                self.hear_each();
            }
            Shape::Way => {
                (0..1_000).for_each(|_| self.say(0));
                self.hear_each();
            }
        }
    }

    fn work(&mut self) {
        while self.to_send > 0 || self.taken < self.to_take {
            self.step();
            self.turn();
        }
    }
}

fn workers(shape: Shape, threads: u32, messages: u64, keeps: bool) -> Vec<Worker> {
    let (goes, comes): (Vec<_>, Vec<_>) = (0..threads).map(|_| unbounded()).unzip();
    let worker = |(thread, comes): (u32, Receiver<Letter>)| Worker {
        shape,
        own: (0..each(shape, threads)).map(|slot| pid(thread, slot)).collect(),
        targets: targets(shape, threads, thread),
        shift: 0,
        to_send: if shape == Shape::Way && thread != 0 { 0 } else { messages },
        to_take: if shape == Shape::Way && thread != 1 % threads { 0 } else { messages },
        taken: 0,
        has_begun: false,
        mailboxes: (0..each(shape, threads)).map(|_| VecDeque::new()).collect(),
        local: VecDeque::new(),
        comes,
        goes: goes.clone(),
        clock: 0,
        keeps,
        journal: Vec::new(),
    };
    (0..threads).zip(comes).map(worker).collect()
}

/// How many messages were taken in a second, from the first step of the workers until all of them are done.
fn rate(shape: Shape, threads: u32, messages: u64, keeps: bool) -> u64 {
    let mut workers = workers(shape, threads, messages, keeps);
    let spent = timed_by_wall(|| {
        std::thread::scope(|scope| {
            for worker in &mut workers {
                scope.spawn(|| worker.work());
            }
        });
    });
    let taken: u64 = workers.iter().map(|it| it.taken).sum();
    taken * 1_000_000_000 / spent
}

fn main() {
    let words: Vec<String> = std::env::args().collect();
    let shape = named(&words[1]).expect("a shape");
    let threads = words[2].parse().expect("how many threads");
    let messages = words.get(3).map_or(messages(shape), |it| it.parse().expect("how many messages"));
    for (program, keeps) in [("actors", true), ("actors-bare", false)] {
        if words.get(4).map_or(true, |it| it == program) {
            println!("{program} {}_{threads} {}", words[1], rate(shape, threads, messages, keeps));
        }
    }
}
