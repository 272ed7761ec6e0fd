//! What the threads of a runtime share: the places of the desks, where they meet, and the orders of those outside.

use super::inbox::{Apart, Place, Task};
use super::meeting::Meeting;
use super::payloads::{Slot, quietly};
use super::report::{Report, Reporter};
use super::supervisor::Supervisor;
use crate::Pid;
use std::any::type_name;
use std::sync::Arc;
use std::sync::atomic::{AtomicU8, AtomicU64, AtomicUsize, Ordering::SeqCst, fence};
use std::time::{Duration, Instant};

/// What those outside want of a run. Each includes the ones before it.
pub(crate) const GO_ON: u8 = 0;
/// It ends once no process is left.
pub(crate) const END: u8 = 1;
/// Each process is told to exit: the exit signal `shutdown`.
pub(crate) const STOP: u8 = 2;
/// Each process exits: the exit signal `kill`.
pub(crate) const KILL: u8 = 3;

/// Who wants something of a desk's thread, by which an inbox takes it or not.
#[derive(Clone, Copy, Debug, PartialEq, Eq)]
pub(crate) enum Origin {
    /// The run itself, or what it waits for, as an answer: it is taken until the run is over.
    Run,
    /// Somebody outside: it is not taken once the run drains.
    Outside,
    /// The same, and somebody waits for what comes of it: it is not taken either while the run halts.
    Caller,
}

/// A time in microseconds.
pub(crate) fn micros(time: Duration) -> u64 {
    time.as_secs().saturating_mul(1_000_000).saturating_add(time.subsec_micros().into())
}

/// What all threads of a runtime share.
pub(crate) struct Hub {
    /// The number of the run among all of the program.
    pub(crate) run: u64,
    begun: Instant,
    /// The time of a trial, whose clock stands still until the trial lets time go on.
    pub(crate) trial: Option<AtomicU64>,
    /// (each thread keeps its own at hand)
    pub(crate) places: Vec<Arc<Place>>,
    pub(crate) meeting: Meeting,
    order: AtomicU8,
    /// How many processes live, and how many were spawned.
    pub(crate) alive: Apart<AtomicUsize>,
    pub(crate) spawned: Apart<AtomicU64>,
    pub(crate) panics: AtomicU64,
    next_desk: AtomicUsize,
    pub(crate) every: usize,
    /// How many messages from outside a desk takes in that no process has taken: `usize::MAX` is no bound.
    pub(crate) inbox_most: usize,
    reporter: Option<Reporter>,
}

impl Hub {
    pub(crate) fn new(
        desks: usize,
        every: usize,
        inbox_most: usize,
        meeting: Meeting,
        reporter: Option<Reporter>,
    ) -> Hub {
        static RUNS: AtomicU64 = AtomicU64::new(0);
        Hub {
            run: RUNS.fetch_add(1, SeqCst),
            begun: Instant::now(),
            trial: None,
            places: (0..desks).map(|_| Arc::default()).collect(),
            meeting,
            order: AtomicU8::new(GO_ON),
            alive: Apart(AtomicUsize::new(0)),
            spawned: Apart(AtomicU64::new(0)),
            panics: AtomicU64::new(0),
            next_desk: AtomicUsize::new(0),
            every,
            inbox_most,
            reporter,
        }
    }

    /// Tells the program what has happened, if it wants to know.
    pub(crate) fn report(&self, what: &Report<'_>) {
        if let Some(reporter) = &self.reporter {
            quietly(|| reporter(what));
        }
    }

    /// The time since the run began, in microseconds.
    pub(crate) fn now(&self) -> u64 {
        match &self.trial {
            Some(time) => time.load(SeqCst),
            None => micros(self.begun.elapsed()),
        }
    }

    /// The time when so much has gone by, at the earliest.
    pub(crate) fn after(&self, time: Duration) -> u64 {
        self.now().saturating_add(micros(time)).saturating_add(1)
    }

    /// How long it is until then.
    pub(crate) fn until(&self, at: u64) -> Duration {
        Duration::from_micros(at.saturating_sub(self.now()))
    }

    pub(crate) fn place(&self, pid: Pid) -> &Place {
        &self.places[usize::from(pid.shard)]
    }

    /// Whether this is the process of a desk in whose name things are sent from outside.
    pub(crate) fn is_porter(&self, pid: Pid) -> bool {
        self.places.get(usize::from(pid.shard)).and_then(|place| place.porter.get()) == Some(&pid)
    }

    /// Sends a message in the name of a desk.
    pub(crate) fn post(&self, to: Pid, kind: u32, num: i64, origin: Origin) -> bool {
        self.place(to).post(Task::Send { to, kind, num }, origin)
    }

    pub(crate) fn slot(&self, pid: Pid) -> Option<Arc<dyn Slot>> {
        self.place(pid).slot(pid)
    }

    /// The mailboxes of all live processes, by pid.
    pub(crate) fn slots(&self) -> impl Iterator<Item = Arc<dyn Slot>> + '_ {
        self.places.iter().flat_map(|place| place.slots())
    }

    /// The desk whose turn it is to get a process.
    pub(crate) fn next_desk(&self) -> usize {
        self.next_desk.fetch_add(1, SeqCst) % self.places.len()
    }

    /// Has each thread look for what is seldom there: an order, a meeting. (one that is at work would look at its steps alone)
    pub(crate) fn ring_all(&self) {
        self.places.iter().for_each(|place| place.ring_surely());
    }

    /// Wakes the desks to which one has posted, a bit for each, and those that wait for room in a lane, if one has made some.
    pub(crate) fn ring_others(&self, posted: u64, has_made_room: bool) {
        // (what was put into the lanes or taken out is seen by a desk that this does not see listening or waiting)
        fence(SeqCst);
        for (number, place) in self.places.iter().enumerate() {
            if posted >> number & 1 == 1 || has_made_room && place.waits_for_room() {
                place.ring();
            }
        }
    }

    /// Whether one of these desks is to be rung for what others give it.
    pub(crate) fn listens(&self, desks: u64) -> bool {
        self.places.iter().enumerate().any(|(number, place)| desks >> number & 1 == 1 && place.listens())
    }

    /// The run is over: nothing comes in any more, and all that is kept for processes is dropped.
    pub(crate) fn close(&self) {
        self.places.iter().for_each(|place| place.close());
        self.meeting.book.taps.end();
    }

    pub(crate) fn order(&self) -> u8 {
        self.order.load(SeqCst)
    }

    pub(crate) fn give(&self, order: u8) {
        self.order.fetch_max(order, SeqCst);
        self.ring_all();
    }

    /// All threads are to meet: the node goes on.
    pub(crate) fn meet(&self) {
        if self.meeting.want() {
            self.ring_all();
        }
    }

    /// Nothing new comes in from here on.
    pub(crate) fn drain(&self) {
        self.places.iter().for_each(|place| place.drain());
    }

    /// Whether all desks rest, nothing is on its way, and no call is open.
    pub(crate) fn is_quiet(&self) -> bool {
        let rests = || self.places.iter().map(|place| place.quiet()).collect::<Option<Vec<u64>>>();
        let is_asked = || self.slots().any(|slot| slot.is_asked());
        // (a desk that rested at both looks, and as often before, has rested in between: so all did at the same time)
        let before = rests();
        before.is_some() && !is_asked() && before == rests()
    }

    /// How many messages no process has taken.
    pub(crate) fn waiting(&self) -> usize {
        self.slots().map(|slot| slot.waiting()).sum()
    }

    /// How many epochs have ended. While a handler runs, none ends.
    pub(crate) fn epochs(&self) -> u64 {
        self.meeting.book.epochs.load(SeqCst)
    }

    /// Whether the run is over: it is to end, and no process is left.
    pub(crate) fn is_over(&self) -> bool {
        self.order() >= END && self.alive.load(SeqCst) == 0
    }

    /// The process of a desk whose handler runs, and the name of its behaviour.
    pub(crate) fn running(&self, desk: usize) -> Option<(Pid, &'static str)> {
        let shard = u8::try_from(desk).ok()?;
        let slot = self.slot(self.places.get(desk)?.running(shard)?)?;
        Some((slot.pid(), slot.name()))
    }

    /// A live process, and the name of its behaviour: one whose handler runs, if there is one, and else no supervisor,
    /// since that may wait for a child.
    pub(crate) fn somebody(&self) -> Option<(Pid, &'static str)> {
        let waits = |slot: &Arc<dyn Slot>| slot.name() == type_name::<Supervisor>();
        let found = (0..self.places.len()).find_map(|desk| self.running(desk));
        found.or_else(|| self.slots().min_by_key(waits).map(|slot| (slot.pid(), slot.name())))
    }
}
