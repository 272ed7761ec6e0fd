//! channels [ROUNDS]: letters of 88 bytes through bounded channels for 1,024, as lines `crossbeam WORKLOAD PER_SECOND` and
//! `std WORKLOAD PER_SECOND` (`sync_channel`): the best of so many rounds (5), by processor time on one thread and by wall
//! time between two. A thread tries a hundred times and then gives way, as in the program of the lanes.

use beside::{timed, timed_by_wall};
use crossbeam_channel as crossbeam;
use std::hint::black_box;
use std::sync::mpsc;

#[derive(Clone, Copy)]
struct Letter([u64; 11]);

fn letter(num: u64) -> Letter {
    Letter([num; 11])
}

trait Sends: Send {
    fn try_put(&self, letter: Letter) -> bool;
    fn put(&self, letter: Letter) {
        let mut looks = 0;
        while !self.try_put(letter) {
            rest(&mut looks);
        }
    }
}

trait Receives: Send {
    fn try_take(&self) -> Option<Letter>;
    fn take(&self) -> u64 {
        let mut looks = 0;
        loop {
            if let Some(letter) = self.try_take() {
                return letter.0[3].wrapping_add(letter.0[7]);
            }
            rest(&mut looks);
        }
    }
}

fn rest(looks: &mut u32) {
    if *looks < 100 {
        *looks += 1;
    } else {
        std::thread::yield_now();
    }
}

impl Sends for crossbeam::Sender<Letter> {
    fn try_put(&self, letter: Letter) -> bool {
        self.try_send(letter).is_ok()
    }
}

impl Receives for crossbeam::Receiver<Letter> {
    fn try_take(&self) -> Option<Letter> {
        self.try_recv().ok()
    }
}

impl Sends for mpsc::SyncSender<Letter> {
    fn try_put(&self, letter: Letter) -> bool {
        self.try_send(letter).is_ok()
    }
}

impl Receives for mpsc::Receiver<Letter> {
    fn try_take(&self) -> Option<Letter> {
        self.try_recv().ok()
    }
}

fn by_batches<S: Sends, R: Receives>((there, here): (S, R), batch: u64, times: u64) -> (u64, u64) {
    let mut sum = 0u64;
    let spent = timed(|| {
        for _ in 0..times {
            for num in 0..batch {
                assert!(there.try_put(letter(num)));
            }
            for _ in 0..batch {
                sum = sum.wrapping_add(here.take());
            }
        }
    });
    black_box(sum);
    (spent, batch * times)
}

fn one_way<S: Sends, R: Receives>((there, here): (S, R)) -> (u64, u64) {
    let spent = timed_by_wall(|| {
        std::thread::scope(|scope| {
            scope.spawn(move || {
                for num in 0..200_000 {
                    there.put(letter(num));
                }
            });
            let mut sum = 0u64;
            for _ in 0..200_000 {
                sum = sum.wrapping_add(here.take());
            }
            black_box(sum);
        })
    });
    (spent, 200_000)
}

fn there_and_back<S: Sends, R: Receives>((to_one, at_one): (S, R), (to_zero, at_zero): (S, R)) -> (u64, u64) {
    let spent = timed_by_wall(|| {
        std::thread::scope(|scope| {
            scope.spawn(move || {
                for num in 0..20_000 {
                    black_box(at_one.take());
                    to_zero.put(letter(num));
                }
            });
            for num in 0..20_000 {
                to_one.put(letter(num));
                black_box(at_zero.take());
            }
        })
    });
    (spent, 20_000)
}

fn best(rounds: u32, mut round: impl FnMut() -> (u64, u64)) -> u64 {
    (0..rounds)
        .map(|_| {
            let (spent, units) = round();
            units * 1_000_000_000 / spent
        })
        .max()
        .unwrap_or(0)
}

fn measure<S: Sends, R: Receives>(program: &str, rounds: u32, channel: impl Fn() -> (S, R)) {
    let put = |name: &str, rate: u64| println!("{program} {name} {rate}");
    put("by_one", best(rounds, || by_batches(channel(), 1, 100_000)));
    put("by_64", best(rounds, || by_batches(channel(), 64, 2_000)));
    put("by_1000", best(rounds, || by_batches(channel(), 1_000, 200)));
    put("one_way", best(rounds, || one_way(channel())));
    put("there_and_back", best(rounds, || there_and_back(channel(), channel())));
}

fn main() {
    let rounds = std::env::args().nth(1).map_or(5, |it| it.parse().unwrap());
    measure("crossbeam", rounds, || crossbeam::bounded(1_024));
    measure("std", rounds, || mpsc::sync_channel(1_024));
}
