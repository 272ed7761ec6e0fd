//! Every schedule of a program: the behaviours of a [`runtime`](crate::runtime) on one thread, under schedules that are chosen.
//!
//! A [`Trial`] has a scenario, which spawns processes and sends to them. It runs the same behaviours over the same table, crews
//! and workers as a [`Runtime`](crate::runtime::Runtime) does. What a thread of a desk takes as one is a move here: the post of
//! its letters, one letter, one handler, one task from outside, one alarm. A schedule says whose move comes next.
//!
//! ```
//! use pundewo::runtime::{Address, Behaviour, Context, Event, Next};
//! use pundewo::trial::Trial;
//!
//! /// Keeps the first word that comes.
//! #[derive(Default)]
//! struct First(Option<&'static str>);
//!
//! impl Behaviour for First {
//!     type Message = &'static str;
//!
//!     fn handle(&mut self, _: &mut Context<'_, &'static str>, event: Event<&'static str>) -> Next {
//!         if let Event::Message(word) = event {
//!             self.0.get_or_insert(word);
//!         }
//!         Next::Wait
//!     }
//! }
//!
//! struct Says(Address<&'static str>, &'static str);
//!
//! impl Behaviour for Says {
//!     type Message = ();
//!
//!     fn started(&mut self, cx: &mut Context<'_, ()>) -> Next {
//!         cx.send(&self.0, self.1);
//!         Next::DONE
//!     }
//!
//!     fn handle(&mut self, _: &mut Context<'_, ()>, _: Event<()>) -> Next {
//!         Next::DONE
//!     }
//! }
//!
//! let trial = Trial::of(|world| {
//!     let first = world.spawn_on(0, First::default());
//!     world.spawn_on(1, Says(first.clone(), "one"));
//!     world.spawn_on(2, Says(first.clone(), "two"));
//!     first
//! });
//! let found = trial.desks(3).outcome(|world, first| {
//!     world.behaviour(first, |first: &First| first.0.unwrap_or("none").to_string()).unwrap()
//! }).every();
//! found.expect(["one", "two"]);
//! assert!(found.is_whole());
//! ```
//!
//! # What a schedule varies
//!
//! - **Whose move comes next.** A thread goes round a loop: the tasks of its inbox, alarms, the post, letters, handlers. Where an
//!   idle thread may be in several places of it, each of its next moves is a choice: `0` is the first of them, `0'` the second.
//!   Letters of several desks come in any order, and each of them is a choice. What the scenario sends from outside comes at any
//!   time, in order for each desk.
//! - **Time** stands still while something is to be done, and then goes on until the next timer is due. With
//!   [`Trial::time_goes_on`] it also goes on before that, so many times at most: `t`.
//! - **Kills**, with [`Trial::kills`]: a process that the scenario names is killed at any step: `k<0.1.1>`.
//! - **Full lanes**, with [`Trial::lane`].
//!
//! # What it does not vary
//!
//! - The scenario spawns all that it spawns before the first move.
//! - Threads share nothing here but what the runtime shares. A lock or an atomic of the program's own is touched within a
//!   handler, as one move.
//! - No epoch ends, no sink refuses, and memory is not short.

mod chance;
mod explore;
mod found;
mod moves;
mod races;
mod run;
mod settings;
mod shorten;
mod values;
mod world;

pub use found::{Failure, Found};
pub use moves::{Move, NotSchedule, Schedule};
pub use run::Wrong;
pub use values::{Later, Token, Tokens};
pub use world::{Panic, World};

use explore::Bounds;
use run::{Ended, Scenario};
use settings::Settings;
use std::fmt;
use std::sync::Arc;

type Look<S> = Arc<dyn Fn(&World, &S) + Send + Sync>;
type Tell<S> = Arc<dyn Fn(&World, &S) -> String + Send + Sync>;

/// A scenario, and what is asked of its runs. Each run makes the scenario anew.
pub struct Trial<S> {
    settings: Settings,
    scenario: Arc<dyn Fn(&mut World) -> S + Send + Sync>,
    outcome: Option<Tell<S>>,
    always: Vec<Look<S>>,
    at_rest: Vec<Look<S>>,
}

impl<S> Clone for Trial<S> {
    fn clone(&self) -> Trial<S> {
        let Trial { settings, scenario, outcome, always, at_rest } = self;
        Trial {
            settings: settings.clone(),
            scenario: scenario.clone(),
            outcome: outcome.clone(),
            always: always.clone(),
            at_rest: at_rest.clone(),
        }
    }
}

impl<S> fmt::Debug for Trial<S> {
    fn fmt(&self, f: &mut fmt::Formatter<'_>) -> fmt::Result {
        f.debug_struct("Trial").field("settings", &self.settings).finish_non_exhaustive()
    }
}

/// One run, as [`Trial::replay`] makes it.
#[derive(Clone, Debug)]
pub struct Replay {
    /// Its outcome, if nothing is wrong.
    pub outcome: Option<String>,
    /// What is wrong with it.
    pub wrong: Option<Wrong>,
    /// All its moves.
    pub schedule: Schedule,
    /// What happened, a line an event.
    pub history: Vec<String>,
    /// The panics of behaviours, a line each: the process, the type of its behaviour, and the text.
    pub panics: Vec<String>,
}

impl<S: 'static> Trial<S> {
    /// A trial of a scenario: this closure spawns the processes of a run and sends to them. What it returns is given to the
    /// closures that look at the run.
    #[must_use]
    pub fn of(scenario: impl Fn(&mut World) -> S + Send + Sync + 'static) -> Trial<S> {
        let (settings, scenario) = (Settings::default(), Arc::new(scenario));
        Trial { settings, scenario, outcome: None, always: Vec::new(), at_rest: Vec::new() }
    }

    fn with(mut self, set: impl FnOnce(&mut Settings)) -> Trial<S> {
        set(&mut self.settings);
        self
    }

    /// How many desks there are: 1 to 60. Without this 2. With another number each run is wrong, as no node is opened.
    #[must_use]
    pub fn desks(self, desks: usize) -> Trial<S> {
        self.with(|it| it.desks = desks)
    }

    /// How many processes each desk has at most at a time, less one of its own. Without this 32.
    #[must_use]
    pub fn slots(self, slots: u32) -> Trial<S> {
        self.with(|it| it.slots = slots)
    }

    /// How many letters a lane holds. Without this 64.
    #[must_use]
    pub fn lane(self, lane: u32) -> Trial<S> {
        self.with(|it| it.lane = lane)
    }

    /// How many moves a run has at most. Without this 10,000. With one more to come the run [is wrong](Wrong::NoRest).
    #[must_use]
    pub fn steps(self, most: usize) -> Trial<S> {
        self.with(|it| it.steps = most)
    }

    /// A run may be cut off at its last step: then its outcome is `cut off: ` and what the outcome says there.
    #[must_use]
    pub fn may_be_cut_off(self) -> Trial<S> {
        self.with(|it| it.all_rest = false)
    }

    /// How many runs are made at most by [`every`](Trial::every) and [`bounded`](Trial::bounded). Without this 1,000,000.
    #[must_use]
    pub fn limit(self, runs: u64) -> Trial<S> {
        self.with(|it| it.limit = runs.max(1))
    }

    /// On how many threads runs are made. What is found is the same on any number.
    #[must_use]
    pub fn threads(self, threads: usize) -> Trial<S> {
        self.with(|it| it.threads = threads.max(1))
    }

    /// Time goes on at any step until the next timer is due, so many times at most in a run. Without this it does only once
    /// nothing else is to be done, so no timeout races with a message.
    #[must_use]
    pub fn time_goes_on(self, most: u32) -> Trial<S> {
        self.with(|it| it.times = most)
    }

    /// Processes are killed at any step while something is to be done: of those that [`World::may_be_killed`] names, so many at
    /// most in a run.
    #[must_use]
    pub fn kills(self, most: u32) -> Trial<S> {
        self.with(|it| it.kills = most)
    }

    /// A move of a desk is a whole round of its thread's loop: all tasks and alarms that are there, its post, all letters that
    /// have come, and a handler for each process that has something to do. So there are far fewer schedules. Left out are those
    /// in which another desk does something between the parts of a round, or in which letters do not come in the order of desks.
    #[must_use]
    pub fn coarse(self) -> Trial<S> {
        self.with(|it| it.is_coarse = true)
    }

    /// Leaves out schedules that differ from one that is run only by the order of moves that do not meet. So each outcome is
    /// found by fewer runs, and the numbers of runs are those that were made.
    ///
    /// A move of another desk is tried in the place of one only if a move behind it meets that one (source sets). A move that was
    /// tried sleeps until one is made that it meets (sleep sets).
    ///
    /// It is right if behaviours share nothing but what the runtime shares for them: messages, calls, names, groups, exits.
    /// Two moves meet if they are of one desk; if one of them sends to a process of the other's desk, looks whether it lives, or
    /// puts something there; if both put something into mailboxes or the inbox of the same desk; or if both touch names or
    /// groups. Time that goes on and a kill meet all. If behaviours share a lock or an atomic, the scenario says so by
    /// [`shares`](Trial::shares), and nothing is left out.
    /// [`Trial::always`] and [`Trial::may_be_cut_off`] look between moves: with one of them nothing is left out.
    #[must_use]
    pub fn reduced(self) -> Trial<S> {
        self.with(|it| it.reduced = true)
    }

    /// Behaviours share something of their own, such as a lock or an atomic: [`reduced`](Trial::reduced) leaves nothing out.
    #[must_use]
    pub fn shares(self) -> Trial<S> {
        self.with(|it| it.shares = true)
    }

    /// No behaviour may panic.
    #[must_use]
    pub fn no_panics(self) -> Trial<S> {
        self.with(|it| it.no_panics = true)
    }

    /// All processes end: one that lives at rest [waits for ever](Wrong::Waits).
    #[must_use]
    pub fn all_end(self) -> Trial<S> {
        self.with(|it| it.all_end = true)
    }

    /// Each [token](World::token) is handled or dropped, once all that the run had is dropped.
    #[must_use]
    pub fn none_kept(self) -> Trial<S> {
        self.with(|it| it.none_kept = true)
    }

    /// No message and no answer is [lost](World::lost).
    #[must_use]
    pub fn none_lost(self) -> Trial<S> {
        self.with(|it| it.none_lost = true)
    }

    /// What the outcome of a run is, at rest. Outcomes are counted by their texts.
    #[must_use]
    pub fn outcome(mut self, tell: impl Fn(&World, &S) -> String + Send + Sync + 'static) -> Trial<S> {
        self.outcome = Some(Arc::new(tell));
        self
    }

    /// What holds after each move: the closure panics if it does not.
    #[must_use]
    pub fn always(mut self, look: impl Fn(&World, &S) + Send + Sync + 'static) -> Trial<S> {
        self.always.push(Arc::new(look));
        self
    }

    /// What holds at rest: the closure panics if it does not.
    #[must_use]
    pub fn at_rest(mut self, look: impl Fn(&World, &S) + Send + Sync + 'static) -> Trial<S> {
        self.at_rest.push(Arc::new(look));
        self
    }

    fn found(&self, way: impl FnOnce(&dyn Scenario) -> found::Tally) -> Found {
        let scenario: Arc<dyn Scenario> = Arc::new(self.clone());
        Found::new(way(&*scenario), scenario)
    }

    /// Runs every schedule, each once, up to the [limit](Trial::limit). The first run is made twice, and the beginning of each
    /// schedule is compared with the runs before that began so.
    pub fn every(&self) -> Found {
        self.found(|scenario| {
            let Settings { reduced, shares, all_rest, .. } = self.settings;
            let reduced = reduced && !shares && all_rest && !scenario.looks_always();
            explore::every(scenario, Bounds { reduced, preemptions: None, split: false })
        })
    }

    /// The same, but only the schedules in which at most so many desks lose their turn while they could go on.
    pub fn bounded(&self, preemptions: u32) -> Found {
        self.found(|scenario| {
            explore::every(scenario, Bounds { reduced: false, preemptions: Some(preemptions), split: false })
        })
    }

    /// So many runs, each move of which is drawn by chance from those that may come. The same seed gives the same runs.
    pub fn random(&self, runs: u64, seed: u64) -> Found {
        self.found(|scenario| chance::random(scenario, runs, seed))
    }

    /// So many runs in which the desks have priorities that are drawn by chance and change at `depth - 1` places (PCT). The same
    /// seed gives the same runs.
    ///
    /// A fault that shows wherever `depth` moves come in a certain order is of this depth. If each of `n` desks has one next move
    /// at a time, and a run has `k` moves at most, one run finds it with a probability of at least `1 / (n * k^(depth - 1))`. Each
    /// further kind of move (`0'`, `t`, a kill) has a priority of its own, and counts among the `n`. As `k` the length of the
    /// run that nobody chooses is taken.
    pub fn priorities(&self, runs: u64, seed: u64, depth: u32) -> Found {
        self.found(|scenario| chance::priorities(scenario, runs, seed, depth.max(1)))
    }

    /// Runs one schedule, twice. Behind its last move the usual ones come.
    ///
    /// # Panics
    ///
    /// If the text is no schedule.
    #[must_use]
    pub fn replay(&self, schedule: &str) -> Replay {
        let moves: Schedule = schedule.parse().unwrap_or_else(|fault: NotSchedule| panic!("{fault}"));
        let ended = chance::follow(self, &moves.0, true);
        let Ended { outcome, mut wrong, moves, history, panics, prints, said, was_cut } = ended;
        if !matches!(wrong, Some(Wrong::NoMove(_))) {
            let first = Ended { moves: moves.clone(), prints, said, was_cut, ..Ended::default() };
            wrong = chance::compare(self, &first).or(wrong);
        }
        Replay { outcome, wrong, schedule: Schedule(moves), history, panics }
    }
}
