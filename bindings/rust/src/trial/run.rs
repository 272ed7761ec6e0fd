//! One run of a scenario, under choices that are made as it goes.

use super::moves::{Move, Schedule};
use super::settings::Settings;
use super::world::{Step, World};
use super::{Look, Trial};
use crate::runtime::paces::{Pace, is_trial, set_trial};
use crate::runtime::worker::text_of;
use std::fmt;
use std::panic::{AssertUnwindSafe, catch_unwind};
use std::sync::Once;

/// What may come next.
pub(crate) struct Point<'a> {
    pub(crate) ready: &'a [(Move, Option<Pace>)],
    /// The one that comes where nobody chooses.
    pub(crate) usual: usize,
    /// The desk of the last move, if it may go on.
    pub(crate) goes_on: Option<u8>,
}

impl<'a> Point<'a> {
    /// What may come next, behind a move of this desk.
    fn of(ready: &'a [(Move, Option<Pace>)], last: Option<u8>) -> Point<'a> {
        let is_of_last = |(it, _): &(Move, Option<Pace>)| matches!(it, Move::Desk(desk, _) if Some(*desk) == last);
        let usual = ready.iter().position(is_of_last);
        Point { ready, usual: usual.unwrap_or(0), goes_on: usual.and(last) }
    }

    pub(crate) fn place_of(&self, it: Move) -> Option<usize> {
        self.ready.iter().position(|(ready, _)| *ready == it)
    }

    /// Whether a move takes the turn of a desk that could go on.
    pub(crate) fn preempts(&self, it: Move) -> bool {
        match (self.goes_on, it) {
            (Some(goes_on), Move::Desk(desk, _)) => desk != goes_on,
            _ => false,
        }
    }
}

/// Who chooses.
pub(crate) trait Chooser {
    /// The place of the next move. `None` gives the run up.
    fn choose(&mut self, point: &Point<'_>) -> Option<usize>;

    /// What that did.
    fn took(&mut self, it: Move, step: Step) {
        let _ = (it, step);
    }
}

/// What is wrong with a run.
#[derive(Clone, Debug, PartialEq, Eq, Hash)]
#[non_exhaustive]
pub enum Wrong {
    /// The scenario panicked.
    Scenario(String),
    /// A behaviour panicked, and none may.
    Panicked(String),
    /// What is always to hold does not.
    Always(String),
    /// What is to hold at rest does not.
    AtRest(String),
    /// So many moves were made, and something is still to be done.
    NoRest(usize),
    /// These processes wait for ever, and all were to end.
    Waits(String),
    /// So many tokens were neither handled nor dropped, though all that the run had is dropped.
    Kept(u64),
    /// So many messages or answers were lost, and none was to be.
    Lost(u64),
    /// A desk had no memory or no stamp.
    Table,
    /// A second run of the same schedule differs from this move on: a behaviour reads the clock, draws by chance, iterates over
    /// a map of no certain order, or shares something.
    Differs(usize),
    /// The schedule names a move that is not there.
    NoMove(String),
    /// The outcome is not among those that were expected.
    Outcome(String),
}

impl fmt::Display for Wrong {
    fn fmt(&self, f: &mut fmt::Formatter<'_>) -> fmt::Result {
        match self {
            Wrong::Scenario(text) => write!(f, "the scenario panicked: {text}"),
            Wrong::Panicked(text) => write!(f, "a behaviour panicked: {text}"),
            Wrong::Always(text) => write!(f, "what is always to hold does not: {text}"),
            Wrong::AtRest(text) => write!(f, "what is to hold at rest does not: {text}"),
            Wrong::NoRest(steps) => write!(f, "the run does not come to rest in {steps} moves"),
            Wrong::Waits(who) => write!(f, "all processes are to end, and there wait for ever: {who}"),
            Wrong::Kept(count) => write!(f, "{count} tokens were neither handled nor dropped"),
            Wrong::Lost(count) => write!(f, "{count} messages were lost: their receivers had exited"),
            Wrong::Table => f.write_str("a desk had no memory or no stamp"),
            Wrong::Differs(step) => write!(f, "a second run of the same schedule differs from move {step} on"),
            Wrong::NoMove(text) => f.write_str(text),
            Wrong::Outcome(text) => write!(f, "this outcome was not expected: {text}"),
        }
    }
}

/// A run that has ended.
#[derive(Clone, Debug, Default)]
pub(crate) struct Ended {
    /// `None` if the run was given up, or something is wrong.
    pub(crate) outcome: Option<String>,
    pub(crate) wrong: Option<Wrong>,
    pub(crate) moves: Vec<Move>,
    /// How many of these have to be said: behind them each move is the usual one.
    pub(crate) said: usize,
    pub(crate) prints: Vec<u64>,
    pub(crate) history: Vec<String>,
    /// The panics of behaviours, as lines, beside the history.
    pub(crate) panics: Vec<String>,
    pub(crate) was_cut: bool,
}

impl Ended {
    fn note(&mut self, it: Move, step: Step, is_usual: bool) {
        self.moves.push(it);
        self.prints.push(step.print);
        self.said = if is_usual { self.said } else { self.moves.len() };
    }

    pub(crate) fn schedule(&self) -> Schedule {
        Schedule(self.moves[..self.said].to_vec())
    }
}

/// What can be run, whatever its state is.
pub(crate) trait Scenario: Send + Sync {
    fn settings(&self) -> &Settings;
    fn run(&self, chooser: &mut dyn Chooser, with_history: bool) -> Ended;
    /// Whether something is asked after each move, so that no move may be left out.
    fn looks_always(&self) -> bool;
}

/// While this lives the thread runs a trial, whose panics are told by the trial alone.
struct Inside(bool);

impl Inside {
    fn new() -> Inside {
        static QUIET: Once = Once::new();
        QUIET.call_once(|| {
            let loud = std::panic::take_hook();
            std::panic::set_hook(Box::new(move |what| {
                if !is_trial() {
                    loud(what);
                }
            }));
        });
        Inside(set_trial(true))
    }
}

impl Drop for Inside {
    fn drop(&mut self) {
        set_trial(self.0);
    }
}

/// What a closure of the program says, or the text of its panic.
fn caught<T>(work: impl FnOnce() -> T) -> Result<T, String> {
    catch_unwind(AssertUnwindSafe(work)).map_err(|what| text_of(&*what).to_string())
}

fn looked<S>(looks: &[Look<S>], world: &World, state: &S) -> Result<(), String> {
    looks.iter().try_for_each(|look| caught(|| look(world, state)))
}

impl<S: 'static> Scenario for Trial<S> {
    fn settings(&self) -> &Settings {
        &self.settings
    }

    fn looks_always(&self) -> bool {
        !self.always.is_empty()
    }

    fn run(&self, chooser: &mut dyn Chooser, with_history: bool) -> Ended {
        let _inside = Inside::new();
        let mut ended = Ended::default();
        let mut world = match World::new(&self.settings) {
            Ok(world) => world,
            Err(fault) => {
                ended.wrong = Some(Wrong::Scenario(format!("the node is not opened: {fault}")));
                return ended;
            }
        };
        let counts = world.counts();
        match caught(|| (self.scenario)(&mut world)) {
            Ok(state) => {
                world.begin();
                self.go(&mut world, &state, chooser, &mut ended);
                if with_history {
                    ended.panics = world.panics().iter().map(ToString::to_string).collect();
                    ended.history = world.history();
                }
                drop(world);
                drop(state);
            }
            Err(text) => ended.wrong = Some(Wrong::Scenario(text)),
        }
        let kept = counts.tokens().kept();
        if self.settings.none_kept && kept > 0 {
            ended.wrong.get_or_insert(Wrong::Kept(kept));
        }
        ended
    }
}

impl<S: 'static> Trial<S> {
    /// Takes moves until the run is at rest, is given up, or something is wrong.
    fn go(&self, world: &mut World, state: &S, chooser: &mut dyn Chooser, ended: &mut Ended) {
        let (mut ready, mut last) = (Vec::new(), None);
        loop {
            world.ready(&mut ready);
            if ready.is_empty() {
                if world.rest() {
                    continue;
                }
                break;
            }
            if ended.moves.len() >= self.settings.steps {
                ended.was_cut = true;
                break;
            }
            let point = Point::of(&ready, last);
            let Some(at) = chooser.choose(&point) else { return };
            let is_usual = at == point.usual;
            let step = world.take(ready[at]);
            chooser.took(ready[at].0, step);
            ended.note(ready[at].0, step, is_usual);
            if let Move::Desk(desk, _) = ready[at].0 {
                last = Some(desk);
            }
            if let Some(wrong) = self.wrong_now(world, state) {
                ended.wrong = Some(wrong);
                return;
            }
        }
        self.rest(world, state, ended);
    }

    fn wrong_now(&self, world: &World, state: &S) -> Option<Wrong> {
        if self.settings.no_panics {
            if let Some(panic) = world.panic() {
                return Some(Wrong::Panicked(panic.to_string()));
            }
        }
        looked(&self.always, world, state).err().map(Wrong::Always)
    }

    /// The run is at rest, or was cut off.
    fn rest(&self, world: &World, state: &S, ended: &mut Ended) {
        ended.wrong = self.wrong_at_rest(world, state, ended.was_cut);
        if ended.wrong.is_none() {
            match caught(|| self.outcome.as_ref().map_or_else(String::new, |outcome| outcome(world, state))) {
                Ok(text) if ended.was_cut => ended.outcome = Some(format!("cut off: {text}")),
                Ok(text) => ended.outcome = Some(text),
                Err(text) => ended.wrong = Some(Wrong::AtRest(text)),
            }
        }
    }

    fn wrong_at_rest(&self, world: &World, state: &S, was_cut: bool) -> Option<Wrong> {
        if world.has_fault() {
            return Some(Wrong::Table);
        }
        if was_cut {
            return self.settings.all_rest.then_some(Wrong::NoRest(self.settings.steps));
        }
        if self.settings.all_end {
            let living = world.living();
            if !living.is_empty() {
                let names: Vec<String> = living.iter().map(|(pid, name)| format!("{pid}, a {name}")).collect();
                return Some(Wrong::Waits(names.join("; ")));
            }
        }
        if self.settings.none_lost && world.lost() > 0 {
            return Some(Wrong::Lost(world.lost()));
        }
        looked(&self.at_rest, world, state).err().map(Wrong::AtRest)
    }
}
