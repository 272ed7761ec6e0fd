//! Supervisors among the processes of a [`Crew`](crate::Crew).
//!
//! A process of a crew is one with a tag, whose handler is the program's, or a supervisor, which handles what it gets
//! itself: it starts its children, and starts them again when they exit. The supervisors are those that are proved. So each
//! strategy, the limit of restarts and the order in which children exit are theirs. A child may be answered that it is a
//! supervisor itself ([`supervise`](crate::Crew::supervise)).
//!
//! ```
//! use pundewo::supervisors::{ChildSpec, Origin, SupervisorSpec};
//! use pundewo::{Config, Crew, Next, Pick, Reason, What, open};
//!
//! let mut desks = open(1, Config::default())?;
//! let mut crew = Crew::new(&desks[0])?;
//! let boss = crew.spawn_supervisor(&mut desks[0], 0, SupervisorSpec::default(), &[ChildSpec::new(7)])?;
//! let mut jobs = Vec::new();
//! while jobs.is_empty() {
//!     crew.step(&mut desks[0], 64, 64, &mut jobs)?;
//! }
//! assert_eq!(jobs[0].what, What::Start(Some(Origin { supervisor: boss, again: false })));
//! let first = jobs[0].pid;
//! crew.answer(&[(first, Next::Wait(Pick::Any))]).unwrap();
//! desks[0].exit(first, Reason::Other(1))?;
//! while jobs.iter().all(|job| job.pid == first) {
//!     crew.step(&mut desks[0], 64, 64, &mut jobs)?;
//! }
//! assert_eq!(jobs[0].what, What::Start(Some(Origin { supervisor: boss, again: true })));
//! # Ok::<(), pundewo::Fault>(())
//! ```

pub use crate::runtime::Restart;

use crate::raw::{self, RawChild, RawChildCounts, RawChildSpec, RawGaveUp, RawSupervisorSpec};
use crate::{OK, Pid, Reason};
use std::fmt;

/// Which others a supervisor ends and starts again if a child has exited that is to be started again.
#[derive(Clone, Copy, Debug, Default, PartialEq, Eq, Hash)]
pub enum Strategy {
    /// No other.
    #[default]
    OneForOne,
    /// All others.
    OneForAll,
    /// Those that were listed after it.
    RestForOne,
}

/// How a supervisor ends a child.
#[derive(Clone, Copy, Debug, Default, PartialEq, Eq, Hash)]
pub enum Shutdown {
    /// By an exit signal `shutdown`. The supervisor waits for the exit however long that takes.
    #[default]
    Infinity,
    /// By an exit signal `shutdown`, and if the child has not exited after this time ([`Crew::set_time`](crate::Crew::set_time)), by an exit
    /// signal `kill`.
    After(u64),
    /// By an exit signal `kill`, which cannot be trapped.
    BrutalKill,
}

/// What a supervisor knows of a child.
#[derive(Clone, Copy, Debug, PartialEq, Eq, Hash)]
pub struct ChildSpec {
    /// The tag that it is started with.
    pub tag: u64,
    /// Whether it is started again when it has exited.
    pub restart: Restart,
    /// How it is ended.
    pub shutdown: Shutdown,
    /// Whether the program starts it, on another desk ([`Crew::child_to_start`](crate::Crew::child_to_start)).
    pub elsewhere: bool,
}

impl ChildSpec {
    /// A child with this tag that is always started again, and is ended by an exit signal `shutdown`.
    #[must_use]
    pub fn new(tag: u64) -> ChildSpec {
        ChildSpec { tag, restart: Restart::Permanent, shutdown: Shutdown::Infinity, elsewhere: false }
    }
}

/// A supervisor without its children. By default it is `OneForOne`, and makes one restart within five stamps.
#[derive(Clone, Copy, Debug, PartialEq, Eq, Hash)]
pub struct SupervisorSpec {
    /// Which others it ends and starts again.
    pub strategy: Strategy,
    /// The number of restarts that it makes within the span.
    pub most: usize,
    /// The span, in stamps of the desk, or in time.
    pub span: u64,
    /// Whether the span is one of time ([`Crew::set_time`](crate::Crew::set_time)).
    pub timed: bool,
    /// The process with which it exits.
    pub parent: Option<Pid>,
}

impl Default for SupervisorSpec {
    fn default() -> SupervisorSpec {
        SupervisorSpec { strategy: Strategy::OneForOne, most: 1, span: 5, timed: false, parent: None }
    }
}

/// A child of a supervisor, in its place.
#[derive(Clone, Copy, Debug, PartialEq, Eq, Hash)]
pub struct Child {
    /// Its pid, from its start until the supervisor gets its exit.
    pub pid: Option<Pid>,
    /// Whether it is started again when it has exited.
    pub restart: Restart,
    /// How it is ended.
    pub shutdown: Shutdown,
    /// Whether the supervisor wants it alive.
    pub wanted: bool,
}

/// How many children a supervisor has.
#[derive(Clone, Copy, Debug, Default, PartialEq, Eq, Hash)]
pub struct ChildCounts {
    /// All, alive or not.
    pub specs: usize,
    /// Those that are alive, by all that the supervisor has heard.
    pub active: usize,
    /// Those that it is to start.
    pub restarting: usize,
}

/// Why a supervisor gave up: a child exited that was to be started again, and its limit allowed no further restart.
#[derive(Clone, Copy, Debug, PartialEq, Eq, Hash)]
pub struct GaveUp {
    /// The tag of that child.
    pub tag: u64,
    /// The place of that child.
    pub place: usize,
    /// The reason with which it exited.
    pub reason: Reason,
    /// How many restarts the supervisor had made within the span.
    pub restarts: usize,
    /// The span of the limit.
    pub span: u64,
    /// Whether the span is one of time, and not of stamps.
    pub timed: bool,
}

/// Why a call about a child failed. The supervisor is as it was.
#[derive(Clone, Copy, Debug, PartialEq, Eq, Hash)]
pub enum ChildFault {
    /// The process is no supervisor of the crew, or has no child with this tag.
    NotFound,
    /// The child is running, by all that its supervisor has heard.
    Running,
    /// The child is not running, and its supervisor is to start it.
    Restarting,
    /// The supervisor has a child with this tag, which is not running.
    Present,
    /// There was no memory.
    Memory,
}

impl fmt::Display for ChildFault {
    fn fmt(&self, f: &mut fmt::Formatter<'_>) -> fmt::Result {
        f.write_str(match self {
            ChildFault::NotFound => "there is no such supervisor or child",
            ChildFault::Running => "the child is running",
            ChildFault::Restarting => "the child is restarting",
            ChildFault::Present => "the child is present already",
            ChildFault::Memory => "there was no memory",
        })
    }
}

impl std::error::Error for ChildFault {}

/// What came of a call about a child.
pub(crate) fn asked(code: u32) -> Result<(), ChildFault> {
    match code {
        OK => Ok(()),
        raw::PT_MEMORY => Err(ChildFault::Memory),
        raw::PT_NOTHING => Err(ChildFault::NotFound),
        raw::PT_CHILD_RUNNING => Err(ChildFault::Running),
        raw::PT_CHILD_RESTARTING => Err(ChildFault::Restarting),
        raw::PT_CHILD_PRESENT => Err(ChildFault::Present),
        _ => unreachable!("the library answered {code}"),
    }
}

/// Which supervisor started a process, and whether a child in the same place had exited before.
#[derive(Clone, Copy, Debug, PartialEq, Eq, PartialOrd, Ord, Hash)]
pub struct Origin {
    /// The supervisor.
    pub supervisor: Pid,
    /// Whether a child in the same place had exited before.
    pub again: bool,
}

fn shutdown_out(shutdown: Shutdown) -> (u32, u64) {
    match shutdown {
        Shutdown::Infinity => (raw::PT_SHUTDOWN_INFINITY, 0),
        Shutdown::After(time) => (raw::PT_SHUTDOWN_AFTER, time),
        Shutdown::BrutalKill => (raw::PT_BRUTAL_KILL, 0),
    }
}

impl From<ChildSpec> for RawChildSpec {
    fn from(child: ChildSpec) -> RawChildSpec {
        let (shutdown, time) = shutdown_out(child.shutdown);
        let restart = match child.restart {
            Restart::Permanent => raw::PT_PERMANENT,
            Restart::Transient => raw::PT_TRANSIENT,
            Restart::Temporary => raw::PT_TEMPORARY,
        };
        RawChildSpec { tag: child.tag, restart, shutdown, time, elsewhere: child.elsewhere }
    }
}

impl From<SupervisorSpec> for RawSupervisorSpec {
    fn from(spec: SupervisorSpec) -> RawSupervisorSpec {
        let strategy = match spec.strategy {
            Strategy::OneForOne => raw::PT_ONE_FOR_ONE,
            Strategy::OneForAll => raw::PT_ONE_FOR_ALL,
            Strategy::RestForOne => raw::PT_REST_FOR_ONE,
        };
        let SupervisorSpec { most, span, timed, parent, .. } = spec;
        let has_parent = parent.is_some();
        RawSupervisorSpec { strategy, timed, has_parent, parent: parent.unwrap_or_default(), most, span }
    }
}

impl From<RawChild> for Child {
    fn from(raw: RawChild) -> Child {
        let restart = match raw.restart {
            raw::PT_PERMANENT => Restart::Permanent,
            raw::PT_TRANSIENT => Restart::Transient,
            _ => Restart::Temporary,
        };
        let shutdown = match raw.shutdown {
            raw::PT_SHUTDOWN_INFINITY => Shutdown::Infinity,
            raw::PT_SHUTDOWN_AFTER => Shutdown::After(raw.time),
            _ => Shutdown::BrutalKill,
        };
        Child { pid: raw.has_pid.then_some(raw.pid), restart, shutdown, wanted: raw.wanted }
    }
}

impl From<RawChildCounts> for ChildCounts {
    fn from(raw: RawChildCounts) -> ChildCounts {
        let RawChildCounts { specs, active, restarting } = raw;
        ChildCounts { specs, active, restarting }
    }
}

impl From<RawGaveUp> for GaveUp {
    fn from(raw: RawGaveUp) -> GaveUp {
        let RawGaveUp { tag, place, reason, restarts, span, timed } = raw;
        GaveUp { tag, place, reason: reason.into(), restarts, span, timed }
    }
}
