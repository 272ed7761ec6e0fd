//! What a run tells the program of itself.

use super::archive::Refusal;
use crate::{Pid, Reason};
use std::error::Error;
use std::fmt;

/// What has happened in a run: what the closure of [`Builder::report`](super::Builder::report) gets.
#[derive(Clone, Copy, Debug)]
#[non_exhaustive]
pub enum Report<'a> {
    /// A handler has panicked, by which its process exits.
    Crash {
        /// The process.
        pid: Pid,
        /// The name of the type of its behaviour.
        behaviour: &'static str,
        /// The text of its panic.
        text: &'a str,
    },
    /// A supervisor has started a child again. One that is started at request ([`ToSupervisor::restart_child`]) is not reported.
    ///
    /// [`ToSupervisor::restart_child`]: super::ToSupervisor::restart_child
    Restart {
        /// The supervisor.
        supervisor: Pid,
        /// The number of the child among all children that the supervisor ever had.
        place: u64,
        /// The text of its name, if it has one.
        name: Option<&'a str>,
        /// The name of the type of its behaviour.
        behaviour: &'static str,
        /// Its process now.
        pid: Pid,
        /// Why its process before exited.
        reason: Reason,
        /// How often it was started.
        started: u64,
    },
    /// The run halts, since its sink refuses a history, or a desk has no memory or no stamp: calls from outside fail, and
    /// [`Runtime::wait`](super::Runtime::wait) and `stop` return [`StopFault::Halted`](super::StopFault::Halted).
    Halt {
        /// Why.
        why: &'a (dyn Error + Send + Sync + 'static),
    },
    /// The run is lost, since one of its threads has panicked outside of all handlers: a fault of the runtime.
    Lost,
}

impl<'a> Report<'a> {
    pub(crate) fn halt(why: &'a Refusal) -> Report<'a> {
        Report::Halt { why: &**why }
    }
}

impl fmt::Display for Report<'_> {
    fn fmt(&self, f: &mut fmt::Formatter<'_>) -> fmt::Result {
        match self {
            Report::Crash { pid, behaviour, text } => write!(f, "{pid}, a {behaviour}, crashed: {text}"),
            Report::Restart { supervisor, name, behaviour, pid, reason, started, .. } => {
                let child = name.unwrap_or(behaviour);
                write!(f, "{supervisor} started its child {child} again, as {pid}, {started} times in all: ")?;
                write!(f, "the one before exited with {reason}")
            }
            Report::Halt { why } => write!(f, "the run halted: {why}"),
            Report::Lost => f.write_str("the run is lost: a thread of the runtime has panicked"),
        }
    }
}

pub(crate) type Reporter = Box<dyn Fn(&Report<'_>) + Send + Sync>;
