//! What a run is at a moment.

use super::super::{ChildInfo, Selection};
use crate::supervisors::Strategy;
use crate::{Item, Pick, Pid};
use std::time::Duration;

/// What [`Handle::look`](crate::runtime::Handle::look) looks at, and for how long.
///
/// ```
/// use pundewo::runtime::{Look, Runtime};
///
/// let runtime = Runtime::builder().desks(2).start()?;
/// // all processes of a node, however many it has, page by page
/// let mut look = Look::default();
/// let mut count = 0;
/// loop {
///     let view = runtime.look(&look);
///     count += view.processes.len();
///     match view.next {
///         Some(next) => look.after = Some(next),
///         None => break,
///     }
/// }
/// assert_eq!(count, 0);
/// runtime.stop()?;
/// # Ok::<(), Box<dyn std::error::Error>>(())
/// ```
#[derive(Clone, Copy, Debug, PartialEq, Eq, Hash)]
pub struct Look {
    /// Where the page of processes begins: [`View::next`] of the page before, or `None` for the first page.
    pub after: Option<Place>,
    /// How many processes a page has at most, and how many children are listed of the supervisors of a desk.
    pub processes: usize,
    /// How many of the items, links, monitors and watchers of each process are listed. All are counted.
    pub first: usize,
    /// How long to wait for the desks. One whose handler runs for longer does not answer.
    pub limit: Duration,
}

impl Default for Look {
    /// The first page of 1,000 processes, five of each list, and one second.
    fn default() -> Look {
        Look { after: None, processes: 1_000, first: 5, limit: Duration::from_secs(1) }
    }
}

/// A place among the processes of a run, at which a page ends and the next one begins. It stays valid while processes come
/// and go: a process that lives throughout is on one of the pages.
#[derive(Clone, Copy, Debug, PartialEq, Eq, PartialOrd, Ord, Hash)]
pub struct Place {
    pub(crate) desk: u8,
    pub(crate) seat: usize,
}

/// A run at a moment: what [`Handle::view`](crate::runtime::Handle::view) returns. Each desk answered between two of its
/// steps, not all at the same time.
#[derive(Clone, Debug)]
#[non_exhaustive]
pub struct View {
    /// How long the run has run.
    pub uptime: Duration,
    /// How long the look took.
    pub took: Duration,
    /// Whether the run is over, or has halted. Then no desk answers.
    pub is_over: bool,
    /// How many processes live, with a second one of each supervisor.
    pub alive: usize,
    /// How many were spawned since the start, without those second ones.
    pub spawned: u64,
    /// How many of them panicked.
    pub panics: u64,
    /// How many epochs have ended.
    pub epochs: u64,
    /// How many events were handed to the sink.
    pub archived: u64,
    /// The desks that answered, by number.
    pub desks: Vec<DeskView>,
    /// The desks that did not answer in time.
    pub silent: Vec<SilentDesk>,
    /// A page of the live processes, by pid.
    pub processes: Vec<ProcessView>,
    /// Where the next page begins, if there is one.
    pub next: Option<Place>,
    /// The supervisors of all desks that answered, as a tree: each is followed by those below it, with their depths.
    pub supervisors: Vec<SupervisorView>,
}

impl View {
    /// The process with this pid, if the page has it.
    #[must_use]
    pub fn process(&self, pid: Pid) -> Option<&ProcessView> {
        self.processes.iter().find(|process| process.pid == pid)
    }

    /// The supervisor with this pid.
    #[must_use]
    pub fn supervisor(&self, pid: Pid) -> Option<&SupervisorView> {
        self.supervisors.iter().find(|supervisor| supervisor.pid == pid)
    }
}

/// A desk between two of its steps, and what it has done since the run began.
#[derive(Clone, Debug)]
#[non_exhaustive]
pub struct DeskView {
    /// Its number.
    pub desk: u8,
    /// How many processes live on it, but for its own and the second ones of supervisors.
    pub processes: usize,
    /// How many supervisors live on it.
    pub supervisors: usize,
    /// How many messages its processes have taken, with answers of calls.
    pub messages: u64,
    /// How many times a handler ran.
    pub handlers: u64,
    /// How many restarts its supervisors have made.
    pub restarts: u64,
    /// How many messages were lost: they waited for a process as it exited, or came after that.
    pub losses: u64,
    /// The handler that ran longest. Handlers are timed from the first look at the run on.
    pub longest: Option<Longest>,
    /// How many processes may have something to do.
    pub queue: usize,
    /// How many signals wait for room in a lane to another desk.
    pub waiting_for_room: u64,
    /// How many events its journal has, which is emptied at the end of an epoch.
    pub journal: usize,
    /// Its clock.
    pub clock: u64,
}

/// A handler that ran for long.
#[derive(Clone, Copy, Debug, PartialEq, Eq, Hash)]
#[non_exhaustive]
pub struct Longest {
    /// The process, which may have exited.
    pub pid: Pid,
    /// The name of the type of its behaviour.
    pub behaviour: &'static str,
    /// How long its handler ran.
    pub time: Duration,
}

/// A desk that did not answer in time.
#[derive(Clone, Copy, Debug, PartialEq, Eq, Hash)]
#[non_exhaustive]
pub struct SilentDesk {
    /// Its number.
    pub desk: u8,
    /// The process whose handler ran then, if one did, and the name of the type of its behaviour.
    pub running: Option<(Pid, &'static str)>,
}

/// How many there are, and the first of them.
#[derive(Clone, Debug, Default, PartialEq, Eq, Hash)]
pub struct First<T> {
    /// How many there are.
    pub count: usize,
    /// The first of them, as many as were asked for.
    pub first: Vec<T>,
}

/// What a process waits for.
#[derive(Clone, Copy, Debug, PartialEq, Eq, Hash)]
#[non_exhaustive]
pub enum WaitsFor {
    /// Whatever comes.
    Anything,
    /// What this pick takes.
    Pick(Pick),
    /// What this selection takes.
    Selection(Selection),
    /// For nothing: it has its turn soon, or exits.
    Nothing,
}

/// A process between two steps of its desk.
#[derive(Clone, Debug)]
#[non_exhaustive]
pub struct ProcessView {
    /// Its pid.
    pub pid: Pid,
    /// The name of the type of its behaviour.
    pub behaviour: &'static str,
    /// The process that spawned it, if one did. For a child of a supervisor that is the supervisor.
    pub parent: Option<Pid>,
    /// The names that it has: see [`Name`](crate::runtime::Name).
    pub names: Vec<String>,
    /// What it waits for.
    pub waits_for: WaitsFor,
    /// For how long it still waits, if it waits for a time.
    pub time_left: Option<Duration>,
    /// The items of its mailbox, the oldest first.
    pub mailbox: First<Item>,
    /// How many items it was handed and did not want. They wait beside its mailbox.
    pub aside: usize,
    /// How many calls of it have no answer yet.
    pub calls: usize,
    /// The processes that it is linked with.
    pub links: First<Pid>,
    /// The processes that it monitors.
    pub monitors: First<Pid>,
    /// The processes that monitor it.
    pub watchers: First<Pid>,
    /// Whether it traps exits.
    pub traps_exits: bool,
}

/// A supervisor, and its place in the tree.
#[derive(Clone, Debug)]
#[non_exhaustive]
pub struct SupervisorView {
    /// Its pid.
    pub pid: Pid,
    /// The supervisor that it is a child of, if it is one.
    pub parent: Option<Pid>,
    /// How many supervisors are above it.
    pub depth: usize,
    /// Which children it starts again as one of them exits.
    pub strategy: Strategy,
    /// How many restarts it has made of the children that it has now: each start of a child but the first.
    pub restarts: u64,
    /// Its children, in the order in which they were added.
    pub children: First<ChildInfo>,
}
