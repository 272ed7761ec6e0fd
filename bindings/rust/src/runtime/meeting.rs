//! Where the threads of a runtime meet, so that the node goes on: it is gathered and settled, its history is handed
//! out, and it is resumed with empty journals.

use super::archive::{Refusal, Sink};
use super::hub::Hub;
use super::inbox::locked;
use super::observing::Taps;
use super::promise::Promise;
use super::report::Report;
use crate::{Desk, Fault, Gathered, Quiet, gather};
use std::panic::{AssertUnwindSafe, catch_unwind};
use std::sync::atomic::{AtomicBool, AtomicU64, Ordering::SeqCst};
use std::sync::{Arc, Condvar, Mutex, PoisonError};
use std::time::Duration;

/// Where the histories go, and what has gone there.
#[derive(Default)]
pub(crate) struct Book {
    sink: Mutex<Option<Box<dyn Sink>>>,
    pub(crate) epochs: AtomicU64,
    pub(crate) archived: AtomicU64,
    /// Who gets the events as they come.
    pub(crate) taps: Taps,
}

/// How far the node is on its way to its next epoch.
pub(crate) enum Stage {
    Desks(Vec<Desk>),
    Gathered(Gathered),
    Settled(Quiet),
    /// Its history is taken.
    Taken(Quiet),
}

/// A node that does not go on, and why.
pub(crate) struct Stuck {
    pub(crate) why: Refusal,
    pub(crate) stage: Stage,
}

/// How a run is over.
pub(crate) enum Outcome {
    Ended,
    Halted(Stuck),
    /// A thread of the runtime itself has panicked.
    Lost,
}

impl Stage {
    /// Goes as far as a settled node whose history is taken.
    pub(crate) fn close(self, book: &Book) -> Result<Quiet, Stuck> {
        let stuck = |why: Fault, stage| Stuck { why: why.into(), stage };
        match self {
            Stage::Desks(desks) => match gather(desks) {
                Ok(node) => Stage::Gathered(node).close(book),
                Err(back) => Err(stuck(back.fault, Stage::Desks(back.desks))),
            },
            Stage::Gathered(node) => match node.settle_unlisted() {
                Ok(node) => Stage::Settled(node).close(book),
                Err(back) => Err(stuck(back.fault, Stage::Gathered(back.gathered))),
            },
            Stage::Settled(node) => match book.take(&node) {
                Ok(()) => Ok(node),
                Err(why) => Err(Stuck { why, stage: Stage::Settled(node) }),
            },
            Stage::Taken(node) => Ok(node),
        }
    }
}

impl Book {
    /// Whether somebody gets the next history.
    fn is_read(&self) -> bool {
        locked(&self.sink).is_some() || self.taps.any()
    }

    /// Where the next histories go.
    pub(crate) fn open(&self, sink: Option<Box<dyn Sink>>) {
        let old = std::mem::replace(&mut *locked(&self.sink), sink);
        drop(old);
    }

    /// Hands the history to the sink, once.
    fn take(&self, node: &Quiet) -> Result<(), Refusal> {
        let mut sink = locked(&self.sink);
        if sink.is_some() || self.taps.any() {
            let history = node.history()?;
            if let Some(sink) = &mut *sink {
                let taken = catch_unwind(AssertUnwindSafe(|| sink.take(&history)));
                taken.unwrap_or_else(|_| Err("the sink panicked".into()))?;
                self.archived.fetch_add(history.count() as u64, SeqCst);
            }
            self.taps.close_epoch(&history);
        }
        self.epochs.fetch_add(1, SeqCst);
        Ok(())
    }
}

/// Goes on from a settled node.
pub(crate) fn resume(node: Quiet) -> Result<Vec<Desk>, Stuck> {
    node.resume().map_err(|back| Stuck { why: back.fault.into(), stage: Stage::Taken(back.quiet) })
}

struct State {
    /// The desks of those that have come, and then of the node that has gone on, until each thread has taken its own.
    desks: Vec<Option<Desk>>,
    /// How many have come. (one may come again before another has taken its desk)
    came: usize,
    round: u64,
    fault: Option<Fault>,
    outcome: Option<Outcome>,
    /// The tasks that wait until the run is over.
    waiting: Vec<Arc<Promise<()>>>,
}

impl State {
    /// The node has gone on, or the run is over.
    fn conclude(&mut self, resumed: Result<Vec<Desk>, Outcome>) {
        self.round += 1;
        self.came = 0;
        match resumed {
            Ok(desks) => self.desks = desks.into_iter().map(Some).collect(),
            Err(outcome) => self.outcome = Some(outcome),
        }
    }
}

pub(crate) struct Meeting {
    pub(crate) book: Book,
    wanted: AtomicBool,
    state: Mutex<State>,
    changed: Condvar,
}

impl Meeting {
    pub(crate) fn new(desks: usize, sink: Option<Box<dyn Sink>>) -> Meeting {
        let book = Book::default();
        book.open(sink);
        let desks = (0..desks).map(|_| None).collect();
        let state = State { desks, came: 0, round: 0, fault: None, outcome: None, waiting: Vec::new() };
        Meeting { book, wanted: AtomicBool::new(false), state: Mutex::new(state), changed: Condvar::new() }
    }

    /// Says that all are to come, and returns whether that is new.
    pub(crate) fn want(&self) -> bool {
        !self.wanted.swap(true, SeqCst)
    }

    pub(crate) fn is_wanted(&self) -> bool {
        self.wanted.load(SeqCst)
    }

    /// Comes with a desk, and waits until all have come. It returns the desk of the node that has gone on, or `None` if
    /// the run is over.
    pub(crate) fn attend(&self, hub: &Hub, desk: Desk, fault: Option<Fault>) -> Option<Desk> {
        let number = usize::from(desk.number());
        let mut state = locked(&self.state);
        state.desks[number] = Some(desk);
        state.came += 1;
        state.fault = state.fault.or(fault);
        let round = state.round;
        if state.came == state.desks.len() && state.outcome.is_none() {
            let desks = state.desks.iter_mut().filter_map(Option::take).collect();
            let fault = state.fault.take();
            // (the sink is the program's own: it runs while nothing is locked that it may ask for)
            drop(state);
            let resumed = self.go_on(hub, desks, fault);
            if let Err(Outcome::Halted(stuck)) = &resumed {
                hub.report(&Report::halt(&stuck.why));
            }
            state = locked(&self.state);
            state.conclude(resumed);
            self.wanted.store(false, SeqCst);
            self.changed.notify_all();
            drop(state);
            self.tell_over();
            state = locked(&self.state);
        }
        let waits = |state: &mut State| state.round == round && state.outcome.is_none();
        let mut state = self.changed.wait_while(state, waits).unwrap_or_else(PoisonError::into_inner);
        if state.outcome.is_some() { None } else { state.desks[number].take() }
    }

    /// All have come: the node goes on, or the run is over.
    fn go_on(&self, hub: &Hub, desks: Vec<Desk>, fault: Option<Fault>) -> Result<Vec<Desk>, Outcome> {
        let closed = match fault {
            Some(fault) => Err(Stuck { why: fault.into(), stage: Stage::Desks(desks) }),
            // (a node is settled so that it goes on, or for its history: this one does not, and nobody gets that)
            None if hub.is_over() && !self.book.is_read() => {
                self.book.epochs.fetch_add(1, SeqCst);
                return Err(Outcome::Ended);
            }
            None => Stage::Desks(desks).close(&self.book),
        };
        match closed {
            Ok(_) if hub.is_over() => Err(Outcome::Ended),
            Ok(node) => resume(node).map_err(Outcome::Halted),
            Err(stuck) => Err(Outcome::Halted(stuck)),
        }
    }

    /// A thread is lost, and with it the run.
    pub(crate) fn lose(&self) {
        locked(&self.state).outcome.get_or_insert(Outcome::Lost);
        self.wanted.store(true, SeqCst);
        self.changed.notify_all();
        self.tell_over();
    }

    /// What a task awaits until the run is over.
    pub(crate) fn over(&self) -> Arc<Promise<()>> {
        let over = Arc::new(Promise::new());
        let mut state = locked(&self.state);
        // (nobody waits for those that only this list has)
        state.waiting.retain(|waiting| Arc::strong_count(waiting) > 1);
        state.waiting.push(over.clone());
        drop(state);
        self.tell_over();
        over
    }

    fn tell_over(&self) {
        let mut state = locked(&self.state);
        let waiting = if state.outcome.is_some() { std::mem::take(&mut state.waiting) } else { Vec::new() };
        drop(state);
        for over in waiting {
            let _ = over.give(());
        }
    }

    /// Waits until the run is over, for so long at most, and returns whether it is.
    pub(crate) fn wait(&self, limit: Option<Duration>) -> bool {
        let state = locked(&self.state);
        let waits = |state: &mut State| state.outcome.is_none();
        match limit {
            Some(limit) => {
                let waited = self.changed.wait_timeout_while(state, limit, waits);
                waited.unwrap_or_else(PoisonError::into_inner).0.outcome.is_some()
            }
            None => {
                drop(self.changed.wait_while(state, waits).unwrap_or_else(PoisonError::into_inner));
                true
            }
        }
    }

    pub(crate) fn is_over(&self) -> bool {
        locked(&self.state).outcome.is_some()
    }

    /// How the run is over, once it is. From here on it is over, unless it is begun again.
    pub(crate) fn take_outcome(&self) -> Option<Outcome> {
        let mut state = locked(&self.state);
        match state.outcome {
            Some(Outcome::Ended) => Some(Outcome::Ended),
            _ => state.outcome.replace(Outcome::Lost),
        }
    }

    /// The threads begin, perhaps after a halt.
    pub(crate) fn begin(&self) {
        let mut state = locked(&self.state);
        (state.outcome, state.came) = (None, 0);
        self.wanted.store(false, SeqCst);
    }
}
