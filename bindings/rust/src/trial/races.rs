//! Which moves of a run meet, and in which order they would be tried as well: the races that source sets are made of.

use super::moves::Move;
use super::world::Step;

/// The place of what is nobody's move among the desks: time that goes on, and kills.
pub(crate) const NOBODY: usize = 63;

/// Whose move this is.
pub(crate) fn owner(it: Move) -> usize {
    match it {
        Move::Desk(desk, _) => usize::from(desk),
        Move::Time | Move::Kill(_) => NOBODY,
    }
}

/// A move that was made, and what comes before it in every order that does not differ.
#[derive(Clone, Debug)]
struct Made {
    it: Move,
    step: Step,
    /// Of each desk how many moves of the run, up to its last one before this, or this itself.
    before: Vec<u32>,
}

/// A race: the place of a move, and those that may come in its place so that it comes behind the other one.
pub(crate) struct Race {
    pub(crate) at: usize,
    /// Whose moves they are, with the move itself if it is the same there.
    pub(crate) first: Vec<(usize, Option<Move>)>,
}

/// The moves of the run that is made, each behind the ones before it.
#[derive(Clone, Debug, Default)]
pub(crate) struct Line(Vec<Made>);

impl Line {
    pub(crate) fn len(&self) -> usize {
        self.0.len()
    }

    /// Goes back to so many moves.
    pub(crate) fn truncate(&mut self, len: usize) {
        self.0.truncate(len);
    }

    /// Notes a move, and returns its races: moves of others that it meets, with nothing between them in their order.
    pub(crate) fn push(&mut self, it: Move, step: Step) -> Vec<Race> {
        let (own, mut before, mut meets) = (owner(it), vec![0; NOBODY + 1], Vec::new());
        for (at, made) in self.0.iter().enumerate().rev() {
            let other = owner(made.it);
            if before[other] as usize > at {
                continue;
            }
            // (what comes behind a rest of all comes behind all that was before it)
            let is_rested = made.step.rested != step.rested;
            if is_rested || other == own || made.step.meets(step) {
                made.before.iter().zip(&mut before).for_each(|(made, before)| *before = made.max(before).to_owned());
                if !is_rested && other != own {
                    meets.push(at);
                }
            }
        }
        before[own] = self.0.len() as u32 + 1;
        self.0.push(Made { it, step, before });
        meets.into_iter().map(|at| self.race(at)).collect()
    }

    /// Whether one move comes before another in every order.
    fn is_before(&self, first: usize, then: usize) -> bool {
        self.0[then].before[owner(self.0[first].it)] as usize > first
    }

    /// The race of a move with the last one: what does not come behind the first of both may come in its place.
    fn race(&self, at: usize) -> Race {
        let last = self.0.len() - 1;
        let (mut seen, mut first): (Vec<usize>, _) = (Vec::new(), Vec::new());
        for next in at + 1..=last {
            if next < last && self.is_before(at, next) {
                continue;
            }
            let of = owner(self.0[next].it);
            if seen.iter().all(|&one| !self.is_before(one, next)) {
                first.push((of, (next < last).then_some(self.0[next].it)));
            }
            // (behind the first one of a desk all others of it come)
            if seen.iter().all(|&one| owner(self.0[one].it) != of) {
                seen.push(next);
            }
        }
        Race { at, first }
    }
}
