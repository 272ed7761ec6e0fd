//! Schedules by chance, the same ones for the same seed.

use super::explore::share;
use super::found::Tally;
use super::moves::Move;
use super::run::{Chooser, Ended, Point, Scenario, Wrong};
use super::world::Step;

/// How many runs a thread makes before it asks for more.
const RUNS: u64 = 64;

/// Numbers by chance: SplitMix64.
#[derive(Clone, Debug)]
pub(crate) struct Chance(u64);

impl Chance {
    pub(crate) fn of(seed: u64, run: u64) -> Chance {
        let mut chance = Chance(seed);
        chance.0 = chance.next().wrapping_add(run.wrapping_mul(0xd134_2543_de82_ef95));
        chance
    }

    fn next(&mut self) -> u64 {
        self.0 = self.0.wrapping_add(0x9e37_79b9_7f4a_7c15);
        let mut number = self.0;
        number = (number ^ (number >> 30)).wrapping_mul(0xbf58_476d_1ce4_e5b9);
        number = (number ^ (number >> 27)).wrapping_mul(0x94d0_49bb_1331_11eb);
        number ^ (number >> 31)
    }

    /// A number below this one.
    fn below(&mut self, most: usize) -> usize {
        ((u128::from(self.next()) * most as u128) >> 64) as usize
    }
}

impl Chooser for Chance {
    fn choose(&mut self, point: &Point<'_>) -> Option<usize> {
        Some(self.below(point.ready.len()))
    }
}

/// Priorities that change at few places.
struct Priorities {
    chance: Chance,
    /// Each move that was ready, with its priority.
    of: Vec<(Move, u64)>,
    /// After so many moves the one that was taken last gets the lowest priority.
    changes: Vec<usize>,
    lowest: u64,
    taken: usize,
}

impl Priorities {
    fn new(mut chance: Chance, depth: u32, length: usize) -> Priorities {
        let changes = (1..depth).map(|_| 1 + chance.below(length.max(1))).collect();
        Priorities { chance, of: Vec::new(), changes, lowest: u64::from(u32::MAX), taken: 0 }
    }

    fn priority(&mut self, it: Move) -> u64 {
        if let Some((_, priority)) = self.of.iter().find(|(of, _)| *of == it) {
            return *priority;
        }
        let priority = self.chance.next() | 1 << 63;
        self.of.push((it, priority));
        priority
    }
}

impl Chooser for Priorities {
    fn choose(&mut self, point: &Point<'_>) -> Option<usize> {
        (0..point.ready.len()).max_by_key(|&at| self.priority(point.ready[at].0))
    }

    fn took(&mut self, it: Move, _: Step) {
        self.taken += 1;
        if self.changes.contains(&self.taken) {
            self.lowest -= 1;
            let lowest = self.lowest;
            self.of.iter_mut().filter(|(of, _)| *of == it).for_each(|(_, priority)| *priority = lowest);
        }
    }
}

/// Takes the moves of a schedule, and then the usual ones. A move that is not there is left out, or ends the run.
pub(crate) struct Follow<'a> {
    pub(crate) moves: &'a [Move],
    pub(crate) is_strict: bool,
    pub(crate) at: usize,
    pub(crate) missing: Option<String>,
}

impl<'a> Follow<'a> {
    pub(crate) fn new(moves: &'a [Move], is_strict: bool) -> Follow<'a> {
        Follow { moves, is_strict, at: 0, missing: None }
    }
}

impl Chooser for Follow<'_> {
    fn choose(&mut self, point: &Point<'_>) -> Option<usize> {
        while let Some(&it) = self.moves.get(self.at) {
            self.at += 1;
            match point.place_of(it) {
                None if self.is_strict => {
                    let ready: Vec<String> = point.ready.iter().map(|(it, _)| it.to_string()).collect();
                    let (place, ready) = (self.at, ready.join(" "));
                    self.missing = Some(format!("move {place} of the schedule, {it}, is not there: there are {ready}"));
                    return None;
                }
                None => {}
                found => return found,
            }
        }
        Some(point.usual)
    }
}

/// Runs a schedule again. It is wrong if a move is not there.
pub(crate) fn follow(scenario: &dyn Scenario, moves: &[Move], with_history: bool) -> Ended {
    let mut follow = Follow::new(moves, true);
    let mut ended = scenario.run(&mut follow, with_history);
    if let Some(text) = follow.missing {
        ended.wrong = Some(Wrong::NoMove(text));
    }
    ended
}

/// Whether a second run of a schedule is as the first one.
pub(crate) fn compare(scenario: &dyn Scenario, first: &Ended) -> Option<Wrong> {
    let second = scenario.run(&mut Follow::new(&first.moves, true), false);
    if (&second.moves, &second.prints) == (&first.moves, &first.prints) {
        return None;
    }
    let same = first.prints.iter().zip(&second.prints).take_while(|(one, other)| one == other).count();
    Some(Wrong::Differs(same + 1))
}

/// So many runs, each under what `chooser` makes of its number. The first one of each thread's share is made twice.
fn runs(scenario: &dyn Scenario, count: u64, chooser: impl Fn(u64) -> Box<dyn Chooser> + Sync) -> Tally {
    let shares = usize::try_from(count.div_ceil(RUNS)).unwrap_or(usize::MAX);
    let tallies = share(scenario.settings().threads, shares, |it, is_wanted| {
        let (first, mut tally) = (it as u64 * RUNS, Tally::default());
        for run in first..count.min(first + RUNS) {
            let mut ended = scenario.run(&mut *chooser(run), false);
            if run == first && ended.wrong.is_none() {
                ended.wrong = compare(scenario, &ended);
            }
            if tally.add(ended) || !is_wanted() {
                break;
            }
        }
        tally
    });
    let mut all = Tally::default();
    tallies.into_iter().for_each(|tally| all.join(tally));
    all.is_whole = false;
    all
}

pub(crate) fn random(scenario: &dyn Scenario, count: u64, seed: u64) -> Tally {
    runs(scenario, count, |run| Box::new(Chance::of(seed, run)))
}

pub(crate) fn priorities(scenario: &dyn Scenario, count: u64, seed: u64, depth: u32) -> Tally {
    let length = scenario.run(&mut Follow::new(&[], false), false).moves.len();
    runs(scenario, count, |run| Box::new(Priorities::new(Chance::of(seed, run), depth, length)))
}
