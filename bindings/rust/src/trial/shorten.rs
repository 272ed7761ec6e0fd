//! Makes a schedule shorter, by trying.

use super::chance::Follow;
use super::moves::Move;
use super::run::{Ended, Scenario, Wrong};
use std::mem::Discriminant;

/// How many runs are made to shorten one.
const TRIES: u32 = 500;

/// What the shorter run is to show as well.
pub(crate) enum Wanted {
    Wrong(Discriminant<Wrong>),
    Outcome(String),
}

impl Wanted {
    fn is_shown(&self, ended: &Ended) -> bool {
        match self {
            Wanted::Wrong(of) => ended.wrong.as_ref().is_some_and(|wrong| std::mem::discriminant(wrong) == *of),
            Wanted::Outcome(text) => ended.outcome.as_ref() == Some(text),
        }
    }
}

fn run(scenario: &dyn Scenario, moves: &[Move], with_history: bool) -> Ended {
    scenario.run(&mut Follow::new(moves, false), with_history)
}

/// The shortest run that is found: parts of the schedule are left out, large ones first, while it shows what is wanted.
pub(crate) fn shortest(scenario: &dyn Scenario, wanted: &Wanted, moves: &[Move]) -> Option<Ended> {
    let mut best = run(scenario, moves, false);
    if !wanted.is_shown(&best) {
        return None;
    }
    let (mut tries, mut size) = (TRIES, best.said.max(1));
    while size > 0 && tries > 0 {
        let shorter = shorter(scenario, wanted, &best, size, &mut tries);
        match shorter {
            Some(shorter) => best = shorter,
            None => size /= 2,
        }
    }
    let said = best.moves[..best.said].to_vec();
    Some(run(scenario, &said, true))
}

/// A run of a schedule without so many moves somewhere, if it is shorter.
fn shorter(scenario: &dyn Scenario, wanted: &Wanted, best: &Ended, size: usize, tries: &mut u32) -> Option<Ended> {
    let said = &best.moves[..best.said];
    for from in (0..said.len()).step_by(size) {
        if *tries == 0 {
            return None;
        }
        *tries -= 1;
        let left: Vec<Move> =
            said.iter().enumerate().filter(|(at, _)| !(from..from + size).contains(at)).map(|(_, &it)| it).collect();
        let tried = run(scenario, &left, false);
        if wanted.is_shown(&tried) && tried.said < best.said {
            return Some(tried);
        }
    }
    None
}
