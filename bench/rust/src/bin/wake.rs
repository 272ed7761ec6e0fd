//! wake TIMES: how often in a second a thread that rests could be woken and wake the one that woke it, as lines
//! `threads best PER_SECOND` and `threads median PER_SECOND`: by `park` and `unpark`, a millisecond between two times.

use std::sync::atomic::{AtomicU64, Ordering};
use std::sync::Arc;
use std::thread;
use std::time::{Duration, Instant};

/// Parks until the count is this one.
fn wait_for(count: &AtomicU64, wanted: u64) {
    while count.load(Ordering::SeqCst) != wanted {
        thread::park();
    }
}

fn main() {
    let times: u64 = std::env::args().nth(1).map_or(1_000, |it| it.parse().unwrap());
    let (asked, answered) = (Arc::new(AtomicU64::new(0)), Arc::new(AtomicU64::new(0)));
    let (asks, answers, asker) = (asked.clone(), answered.clone(), thread::current());
    let other = thread::spawn(move || {
        for number in 1..=times {
            wait_for(&asks, number);
            answers.store(number, Ordering::SeqCst);
            asker.unpark();
        }
    });
    let mut spent = Vec::new();
    for number in 1..=times {
        thread::sleep(Duration::from_millis(1));
        let start = Instant::now();
        asked.store(number, Ordering::SeqCst);
        other.thread().unpark();
        wait_for(&answered, number);
        spent.push((start.elapsed().as_nanos() as u64).max(1));
    }
    other.join().unwrap();
    spent.sort_unstable();
    println!("threads best {}", 1_000_000_000 / spent[0]);
    println!("threads median {}", 1_000_000_000 / spent[spent.len() / 2]);
}
