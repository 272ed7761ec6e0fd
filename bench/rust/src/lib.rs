//! Programs to measure beside: a table of processes with letters, clock, stamps and a journal, and the clocks.
//! Nothing of it is proved.

pub mod table;

use std::time::Instant;

extern "C" {
    fn clock_gettime(clock: i32, time: *mut [i64; 2]) -> i32;
}

/// Nanoseconds of processor time of this thread.
pub fn cpu() -> u64 {
    let mut time = [0i64; 2];
    // CLOCK_THREAD_CPUTIME_ID of Linux
    unsafe { clock_gettime(3, &mut time) };
    time[0] as u64 * 1_000_000_000 + time[1] as u64
}

/// Nanoseconds of processor time that the calls take.
pub fn timed(calls: impl FnOnce()) -> u64 {
    let start = cpu();
    calls();
    (cpu() - start).max(1)
}

/// Nanoseconds of wall time that the calls take.
pub fn timed_by_wall(calls: impl FnOnce()) -> u64 {
    let start = Instant::now();
    calls();
    (start.elapsed().as_nanos() as u64).max(1)
}

/// So many units for a second: the median of three repeats, or of as many as fill so many milliseconds.
pub fn rate(ms: u64, units: u64, mut repeat: impl FnMut() -> u64) -> u64 {
    let mut times = Vec::new();
    while times.len() < 3 || times.iter().sum::<u64>() < ms * 1_000_000 {
        times.push(repeat());
    }
    times.sort_unstable();
    units * 1_000_000_000 / times[times.len() / 2]
}

/// The same steps from the same seed: a xorshift.
pub struct Steps(pub u64);

impl Steps {
    pub fn next(&mut self) -> u64 {
        self.0 ^= self.0 << 13;
        self.0 ^= self.0 >> 7;
        self.0 ^= self.0 << 17;
        self.0
    }

    pub fn below(&mut self, count: usize) -> usize {
        (self.next() >> 20) as usize % count
    }
}
