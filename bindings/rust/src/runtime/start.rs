//! How a run is started.

use super::archive::Sink;
use super::hub::Hub;
use super::meeting::Meeting;
use super::report::{Report, Reporter};
use super::run::Runtime;
use super::worker::Worker;
use crate::{Config, Fault, open};
use std::cell::Cell;
use std::error::Error;
use std::fmt;
use std::io;
use std::sync::Arc;
use std::sync::mpsc::{Sender, channel};
use std::thread::JoinHandle;

/// The most slots that a desk can have.
const MOST_SLOTS: u32 = 65_536;

/// The settings of a run.
#[derive(Default)]
pub struct Builder {
    desks: Option<usize>,
    config: Config,
    every: Option<usize>,
    inbox: Option<usize>,
    sink: Option<Box<dyn Sink>>,
    reporter: Option<Reporter>,
}

impl fmt::Debug for Builder {
    fn fmt(&self, f: &mut fmt::Formatter<'_>) -> fmt::Result {
        f.debug_struct("Builder").field("desks", &self.desks).field("config", &self.config).finish_non_exhaustive()
    }
}

impl Builder {
    /// How many desks, each with a thread: 1 to 64. Without this there are as many as the machine has processors.
    #[must_use]
    pub fn desks(mut self, desks: usize) -> Builder {
        self.desks = Some(desks);
        self
    }

    /// How many processes each desk has at most at a time, less one of its own: 1 to 65,536. Without this 1,024.
    #[must_use]
    pub fn slots(mut self, slots: u32) -> Builder {
        self.config.slots = slots;
        self
    }

    /// How many letters a lane from one desk to another holds: 1 to 65,536. Without this 64.
    #[must_use]
    pub fn lane(mut self, lane: u32) -> Builder {
        self.config.lane = lane;
        self
    }

    /// Goes on once a journal has more events than this, so that memory is kept low. Without this 100,000. A desk that is busy
    /// looks at a journal of thousands of events once in some rounds, and at a shorter one in each.
    #[must_use]
    pub fn going_on_every(mut self, events: usize) -> Builder {
        self.every = Some(events);
        self
    }

    /// Where the history of each epoch goes. Without this it is dropped.
    #[must_use]
    pub fn archive(mut self, sink: impl Sink + 'static) -> Builder {
        self.sink = Some(Box::new(sink));
        self
    }

    /// How many messages from outside each desk takes in that its processes have not taken yet: 1 at least. Without this there
    /// is no bound.
    ///
    /// Beyond it [`Address::send`](super::Address::send) waits, [`Address::try_send`](super::Address::try_send) refuses, and
    /// a call waits for as long as its time is. It bounds no message that a behaviour sends, no answer, and no exit signal.
    #[must_use]
    pub fn inbox(mut self, most: usize) -> Builder {
        self.inbox = Some(most);
        self
    }

    /// Has this closure told what happens in the run: a crash, a restart, and that it halts. It runs on the thread of a desk, which
    /// waits for it. If it panics, nothing else changes.
    ///
    /// ```
    /// use pundewo::History;
    /// use pundewo::runtime::{Report, Runtime};
    /// use std::sync::mpsc::channel;
    ///
    /// let (give, told) = channel();
    /// let full = |_: &History| Err("the disk is full".into());
    /// let tell = move |what: &Report<'_>| give.send(what.to_string()).expect("a receiver");
    /// let runtime = Runtime::builder().desks(1).archive(full).report(tell).start()?;
    /// runtime.go_on();
    /// assert_eq!(told.recv()?, "the run halted: the disk is full");
    /// assert!(runtime.stop().is_err());
    /// # Ok::<(), Box<dyn std::error::Error>>(())
    /// ```
    #[must_use]
    pub fn report(mut self, reporter: impl Fn(&Report<'_>) + Send + Sync + 'static) -> Builder {
        self.reporter = Some(Box::new(reporter));
        self
    }

    /// Opens the node, and starts a thread for each desk.
    ///
    /// # Errors
    ///
    /// A setting is out of its range, or there is no memory or no thread.
    pub fn start(self) -> Result<Runtime, StartFault> {
        let processors = || std::thread::available_parallelism().map_or(1, |count| count.get().min(64));
        let slots = self.config.slots;
        // (a supervisor has a second process, which is not counted)
        let config = Config { slots: slots.max(slots.saturating_mul(2).min(MOST_SLOTS)), ..self.config };
        let desks = open(self.desks.unwrap_or_else(processors), config)?;
        let most = match self.inbox {
            Some(0) => return Err(StartFault::BadInbox),
            most => most.unwrap_or(usize::MAX),
        };
        let meeting = Meeting::new(desks.len(), self.sink);
        let hub = Hub::new(desks.len(), self.every.unwrap_or(100_000), most, meeting, self.reporter);
        let hub = Closing(Some(Arc::new(hub)));
        let workers: Result<_, Fault> = desks.into_iter().map(|desk| Worker::new(hub.of(), desk, slots)).collect();
        launch(hub, workers?).map_err(|(fault, ..)| StartFault::Thread(fault))
    }
}

/// Why a run was not started.
#[derive(Debug)]
#[non_exhaustive]
pub enum StartFault {
    /// The node was not opened.
    Table(Fault),
    /// A thread was not started.
    Thread(io::Error),
    /// An inbox would take nothing in.
    BadInbox,
}

impl fmt::Display for StartFault {
    fn fmt(&self, f: &mut fmt::Formatter<'_>) -> fmt::Result {
        match self {
            StartFault::Table(fault) => write!(f, "the node is not opened: {fault}"),
            StartFault::BadInbox => f.write_str("the bound of an inbox is 0"),
            StartFault::Thread(fault) => write!(f, "a thread is not started: {fault}"),
        }
    }
}

impl Error for StartFault {}

impl From<Fault> for StartFault {
    fn from(fault: Fault) -> StartFault {
        StartFault::Table(fault)
    }
}

thread_local! {
    /// The run whose handlers this thread runs.
    static INSIDE: Cell<*const Hub> = const { Cell::new(std::ptr::null()) };
}

/// Whether this thread runs the handlers of this run.
pub(crate) fn is_inside(hub: &Arc<Hub>) -> bool {
    INSIDE.get() == Arc::as_ptr(hub)
}

/// Has this thread run the handlers of this run from here on, or of none, while a trial does so.
pub(crate) fn go_inside(hub: Option<&Arc<Hub>>) {
    INSIDE.set(hub.map_or(std::ptr::null(), Arc::as_ptr));
}

/// Whether this thread runs the handlers of some run.
pub(crate) fn is_worker() -> bool {
    !INSIDE.get().is_null()
}

/// What the threads share, which is closed as it is dropped: nothing comes in any more, and what was kept is dropped.
pub(crate) struct Closing(pub(crate) Option<Arc<Hub>>);

impl Closing {
    pub(crate) fn of(&self) -> &Arc<Hub> {
        self.0.as_ref().expect("a hub, until it is dropped")
    }
}

impl Drop for Closing {
    fn drop(&mut self) {
        if let Some(hub) = self.0.take() {
            hub.close();
        }
    }
}

pub(crate) type Threads = Vec<JoinHandle<Option<Worker>>>;

/// Starts a thread for each worker. If one is not started, all comes back.
pub(crate) fn launch(hub: Closing, workers: Vec<Worker>) -> Result<Runtime, (io::Error, Closing, Vec<Worker>)> {
    let mut started: Vec<(JoinHandle<_>, Sender<Worker>)> = Vec::new();
    for worker in &workers {
        let (give, get) = channel();
        let shared = hub.of().clone();
        let run = move || get.recv().ok().map(|worker| watched(&shared, worker));
        match std::thread::Builder::new().name(format!("desk {}", worker.number)).spawn(run) {
            Ok(thread) => started.push((thread, give)),
            Err(fault) => return Err((fault, hub, workers)),
        }
    }
    hub.of().meeting.begin();
    let mut threads = Threads::new();
    for ((thread, give), worker) in started.into_iter().zip(workers) {
        let _ = give.send(worker);
        threads.push(thread);
    }
    Ok(Runtime::new(threads, hub))
}

/// Runs a worker. If it panics, which no handler makes it do, the others hear of it.
fn watched(hub: &Hub, worker: Worker) -> Worker {
    struct Watch<'a>(&'a Hub, u8);
    impl Drop for Watch<'_> {
        fn drop(&mut self) {
            if std::thread::panicking() {
                self.0.meeting.lose();
                self.0.ring_all();
                self.0.places[usize::from(self.1)].halt(true);
                self.0.report(&Report::Lost);
            }
        }
    }
    let _watch = Watch(hub, worker.number);
    INSIDE.set(hub);
    worker.run()
}
