//! How a run is over.

use super::archive::{Refusal, Sink};
use super::hub::Hub;
use super::meeting::{Stage, Stuck, resume};
use super::run::Runtime;
use super::start::{Closing, launch};
use super::worker::Worker;
use crate::Pid;
use std::error::Error;
use std::fmt;
use std::sync::atomic::Ordering::SeqCst;
use std::sync::{Mutex, PoisonError};

/// What a run that is over did.
#[derive(Clone, Copy, Debug, PartialEq, Eq, Hash)]
pub struct Summary {
    /// How many epochs it had.
    pub epochs: u64,
    /// How many events were handed to the sink.
    pub archived: u64,
    /// How many processes were spawned.
    pub spawned: u64,
    /// How many of them panicked.
    pub panics: u64,
}

impl Summary {
    pub(crate) fn of(hub: &Hub) -> Summary {
        let (epochs, archived) = (&hub.meeting.book.epochs, &hub.meeting.book.archived);
        Summary {
            epochs: epochs.load(SeqCst),
            archived: archived.load(SeqCst),
            spawned: hub.spawned.load(SeqCst),
            panics: hub.panics.load(SeqCst),
        }
    }
}

/// How a run is over that did not end well.
#[derive(Debug)]
#[non_exhaustive]
pub enum StopFault {
    /// This process did not exit in time, of a behaviour with this name. It was killed then.
    WouldNotEnd {
        /// The process: one whose handler did not return, if there is one.
        pid: Pid,
        /// The name of the type of its behaviour.
        behaviour: &'static str,
        /// What the run did. There is none if a handler has still not returned: its thread is left behind, and the
        /// history of the last epoch is lost.
        summary: Option<Summary>,
    },
    /// As it drained, something was still to be handled when the time was over. It was stopped then.
    NotDrained {
        /// How many messages no process had taken.
        waiting: usize,
        /// What the run did.
        summary: Summary,
    },
    /// The run halted before.
    Halted(Box<Halted>),
    /// A thread of the runtime has panicked outside of all handlers, which is a fault of the runtime.
    Lost,
}

impl fmt::Display for StopFault {
    fn fmt(&self, f: &mut fmt::Formatter<'_>) -> fmt::Result {
        match self {
            StopFault::WouldNotEnd { pid, behaviour, .. } => write!(f, "{pid}, a {behaviour}, would not end"),
            StopFault::NotDrained { waiting, .. } => {
                write!(f, "not all was handled in time: {waiting} messages waited")
            }
            StopFault::Halted(halted) => halted.fmt(f),
            StopFault::Lost => f.write_str("a thread of the runtime has panicked"),
        }
    }
}

impl Error for StopFault {}

/// A run that halted, since its sink refused a history, or a desk had no memory or no stamp. All is still there: the
/// processes, what was sent to them, and the history that was not taken.
pub struct Halted {
    why: Refusal,
    stage: Stage,
    // (in a lock that nobody takes, so that this is `Sync` whatever the behaviours are)
    workers: Mutex<Vec<Worker>>,
    hub: Closing,
}

impl fmt::Debug for Halted {
    fn fmt(&self, f: &mut fmt::Formatter<'_>) -> fmt::Result {
        f.debug_struct("Halted").field("why", &self.why).finish_non_exhaustive()
    }
}

impl fmt::Display for Halted {
    fn fmt(&self, f: &mut fmt::Formatter<'_>) -> fmt::Result {
        write!(f, "the run halted: {}", self.why)
    }
}

impl Halted {
    pub(crate) fn new(why: Refusal, stage: Stage, workers: Vec<Worker>, hub: Closing) -> Halted {
        Halted { why, stage, workers: Mutex::new(workers), hub }
    }

    /// Why it halted.
    #[must_use]
    pub fn why(&self) -> &(dyn Error + Send + Sync + 'static) {
        &*self.why
    }

    /// The same run with another sink, which gets the history that was not taken, and all that follow.
    #[must_use]
    pub fn with_archive(self, sink: impl Sink + 'static) -> Halted {
        self.hub.of().meeting.book.open(Some(Box::new(sink)));
        self
    }

    /// Goes on: does the rest of what the end of the epoch is, and runs. Nothing is lost, and no history is handed out
    /// twice.
    ///
    /// # Errors
    ///
    /// The halted run, if it still does not go on.
    pub fn go_on(self) -> Result<Runtime, Box<Halted>> {
        let Halted { stage, workers, hub, .. } = self;
        let mut workers = workers.into_inner().unwrap_or_else(PoisonError::into_inner);
        let closed = stage.close(&hub.of().meeting.book).and_then(resume);
        let desks = match closed {
            Ok(desks) => desks,
            Err(Stuck { why, stage }) => return Err(Box::new(Halted::new(why, stage, workers, hub))),
        };
        workers.sort_by_key(|worker| worker.number);
        for (worker, desk) in workers.iter_mut().zip(desks) {
            worker.go_on(desk);
        }
        launch(hub, workers).map_err(|(why, hub, mut workers)| {
            let desks = workers.iter_mut().filter_map(Worker::take_desk).collect();
            Box::new(Halted::new(why.into(), Stage::Desks(desks), workers, hub))
        })
    }
}
