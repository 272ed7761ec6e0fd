//! slots [MS]: keys with versions, as lines `slotmap WORKLOAD PER_SECOND` (the crate) and `slab WORKLOAD PER_SECOND`: a slab
//! beside a vector of versions, which is what `pt_slots` is, without proof.

use beside::{timed, Steps};
use slab::Slab;
use slotmap::{DefaultKey, SlotMap};
use std::hint::black_box;

trait Slots {
    type Key: Copy;
    fn new() -> Self;
    fn put(&mut self, value: u64) -> Self::Key;
    fn find(&self, key: Self::Key) -> Option<u64>;
    fn take(&mut self, key: Self::Key) -> Option<u64>;
}

impl Slots for SlotMap<DefaultKey, u64> {
    type Key = DefaultKey;
    fn new() -> Self {
        SlotMap::new()
    }
    fn put(&mut self, value: u64) -> DefaultKey {
        self.insert(value)
    }
    fn find(&self, key: DefaultKey) -> Option<u64> {
        self.get(key).copied()
    }
    fn take(&mut self, key: DefaultKey) -> Option<u64> {
        self.remove(key)
    }
}

struct Versioned {
    values: Slab<u64>,
    versions: Vec<u32>,
    top: u32,
}

#[derive(Clone, Copy)]
struct Key {
    slot: u32,
    version: u32,
}

impl Slots for Versioned {
    type Key = Key;
    fn new() -> Self {
        Versioned { values: Slab::new(), versions: Vec::new(), top: u32::MAX }
    }
    fn put(&mut self, value: u64) -> Key {
        let slot = self.values.insert(value);
        if slot == self.versions.len() {
            self.versions.push(0);
        }
        self.versions[slot] += 1;
        Key { slot: slot as u32, version: self.versions[slot] }
    }
    fn find(&self, key: Key) -> Option<u64> {
        if *self.versions.get(key.slot as usize)? != key.version {
            return None;
        }
        self.values.get(key.slot as usize).copied()
    }
    fn take(&mut self, key: Key) -> Option<u64> {
        if *self.versions.get(key.slot as usize)? != key.version || key.version == self.top {
            return None;
        }
        self.values.try_remove(key.slot as usize)
    }
}

// So many units for a second: the best of three repeats, or of as many as fill so many milliseconds.
fn rate(ms: u64, units: u64, mut repeat: impl FnMut() -> u64) -> u64 {
    let (mut best, mut total, mut times) = (u64::MAX, 0, 0);
    while times < 3 || total < ms * 1_000_000 {
        let spent = repeat();
        best = best.min(spent);
        total += spent;
        times += 1;
    }
    units * 1_000_000_000 / best
}

fn filled<S: Slots>(live: usize) -> (S, Vec<S::Key>) {
    let mut slots = S::new();
    let keys = (0..live).map(|value| slots.put(value as u64)).collect();
    (slots, keys)
}

fn shuffle<K>(keys: &mut [K], steps: &mut Steps) {
    for at in (1..keys.len()).rev() {
        keys.swap(at, steps.below(at + 1));
    }
}

fn measure<S: Slots>(program: &str, ms: u64, live: usize) {
    let mut steps = Steps(88_172_645_463_325_252);
    let put = |name: &str, rate: u64| println!("{program} {name}_{live} {rate}");
    put("fill", rate(ms, live as u64, || {
        let mut slots = S::new();
        timed(|| {
            for value in 0..live {
                black_box(slots.put(value as u64));
            }
        })
    }));
    let (mut slots, mut old) = filled::<S>(live);
    for &key in &old {
        slots.take(key);
    }
    let mut keys: Vec<S::Key> = (0..live).map(|value| slots.put(value as u64)).collect();
    shuffle(&mut keys, &mut steps);
    shuffle(&mut old, &mut steps);
    let times = 200_000 / live + 1;
    let looks = (times * live) as u64;
    for (name, keys) in [("get", &keys), ("old_key", &old)] {
        put(name, rate(ms, looks, || timed(|| {
            let mut sum = 0u64;
            for _ in 0..times {
                for &key in keys {
                    sum = sum.wrapping_add(slots.find(key).unwrap_or(0));
                }
            }
            black_box(sum);
        })));
    }
    let order: Vec<usize> = (0..100_000).map(|_| steps.below(live)).collect();
    put("churn", rate(ms, 100_000, || timed(|| {
        for &at in &order {
            let value = slots.take(keys[at]).unwrap();
            keys[at] = slots.put(value);
        }
    })));
    put("churn_by_64", rate(ms, 65_536, || timed(|| {
        for round in 0..1_024 {
            let first = round * 64 % (live - 64);
            for at in first..first + 64 {
                slots.take(keys[at]).unwrap();
            }
            for at in first..first + 64 {
                keys[at] = slots.put(at as u64);
            }
        }
    })));
}

fn main() {
    let ms = std::env::args().nth(1).map_or(20, |it| it.parse().unwrap());
    for live in [1_000, 65_000] {
        measure::<SlotMap<DefaultKey, u64>>("slotmap", ms, live);
        measure::<Versioned>("slab", ms, live);
    }
}
