//! The events of a run as they come.

use super::super::hub::Origin;
use super::super::inbox::{Task, locked};
use super::super::paces::{is_trial, no_wait};
use super::super::run::Handle;
use super::super::target::Target;
use super::super::worker::Worker;
use crate::{Event, Fault, Happened, History, Pid};
use std::collections::VecDeque;
use std::fmt;
use std::sync::{Arc, Condvar, Mutex, PoisonError};
use std::time::Duration;

/// What a [`Tap`] hands out.
#[derive(Clone, Copy, Debug, PartialEq, Eq, Hash)]
pub enum Tapped {
    /// An event, after all earlier ones of its desk.
    Event(Event),
    /// So many events were left out here, since nobody took them in time.
    Behind(u64),
}

/// The events of a run as they come, of one process or of all: what [`Handle::tap`] and [`Handle::tap_all`] return. Of each
/// desk they come in order, from one moment on.
///
/// It keeps as many as its bound says. What comes while it is full is left out, and it tells how much was. Dropped, it ends.
///
/// ```
/// use pundewo::Happened;
/// use pundewo::runtime::{Behaviour, Context, Event, Next, Runtime, Tapped};
/// use std::time::Duration;
///
/// struct Clerk;
///
/// impl Behaviour for Clerk {
///     type Message = ();
///
///     fn handle(&mut self, _: &mut Context<'_, ()>, _: Event<()>) -> Next {
///         Next::DONE
///     }
/// }
///
/// let runtime = Runtime::builder().desks(2).start()?;
/// let clerk = runtime.spawn(Clerk)?;
/// let tap = runtime.tap(&clerk, 100)?;
/// clerk.send(());
/// let mut events = std::iter::from_fn(|| tap.recv_within(Duration::from_secs(5)));
/// // the message comes, it is taken, and the process exits
/// let is_left = |tapped| matches!(tapped, Tapped::Event(event) if matches!(event.happened, Happened::Left(..)));
/// assert_eq!(events.position(is_left), Some(2));
/// runtime.stop()?;
/// assert!(tap.is_ended());
/// # Ok::<(), Box<dyn std::error::Error>>(())
/// ```
pub struct Tap(Arc<Pipe>);

/// What a tap and the threads of the desks share.
pub(crate) struct Pipe {
    /// The one process whose events it has.
    of: Option<Pid>,
    most: usize,
    state: Mutex<State>,
    came: Condvar,
}

struct State {
    waiting: VecDeque<Event>,
    /// How many events were left out after those that wait.
    left_out: u64,
    /// How many events of its journal each desk has passed on. `None` until it has begun to.
    passed: Vec<Option<usize>>,
    is_ended: bool,
    is_dropped: bool,
}

/// A tap as the thread of a desk has it.
pub(crate) type Feed = Arc<Pipe>;

/// The taps of a run.
#[derive(Default)]
pub(crate) struct Taps(Mutex<All>);

#[derive(Default)]
struct All {
    feeds: Vec<Feed>,
    /// Whether the run is over.
    is_over: bool,
}

/// The process that an event is of: the one that did something, or that a signal came to.
fn subject(event: &Event) -> Pid {
    match event.happened {
        Happened::Born(pid, ..)
        | Happened::Said(pid, ..)
        | Happened::Came(_, pid, _)
        | Happened::Took(pid, ..)
        | Happened::Flag(pid, _)
        | Happened::Left(pid, _)
        | Happened::Refused(pid, _) => pid,
    }
}

impl Pipe {
    /// Puts events of a desk, and leaves out those for which there is no room.
    fn put(&self, state: &mut State, events: impl Iterator<Item = Event>) {
        for event in events.filter(|event| self.of.is_none_or(|pid| pid == subject(event))) {
            if state.waiting.len() < self.most && state.left_out == 0 {
                state.waiting.push_back(event);
            } else {
                state.left_out += 1;
            }
        }
        self.came.notify_all();
    }

    /// Passes on what the journal of a desk has beyond that which was passed on. It returns `false` if nobody wants it.
    fn pass_on(&self, desk: &crate::Desk) -> bool {
        let mut state = locked(&self.state);
        let number = usize::from(desk.number());
        let count = desk.event_count();
        if let Some(passed) = state.passed[number].replace(count) {
            if passed < count {
                self.put(&mut state, desk.events(passed));
            }
        }
        !state.is_dropped && !state.is_ended
    }

    /// The epoch has ended: passes on what the history has beyond that, which came as the node was settled.
    fn close_epoch(&self, history: &History) {
        let mut state = locked(&self.state);
        let mut seen = vec![0; state.passed.len()];
        let passed = state.passed.clone();
        let is_new = |event: &Event| {
            let desk = usize::from(event.desk);
            seen[desk] += 1;
            passed[desk].is_some_and(|passed| seen[desk] > passed)
        };
        self.put(&mut state, history.events().filter(is_new));
        state.passed.iter_mut().flatten().for_each(|passed| *passed = 0);
    }

    fn end(&self) {
        locked(&self.state).is_ended = true;
        self.came.notify_all();
    }
}

impl Taps {
    /// Whether the run has a tap. Those that were dropped are forgotten.
    pub(crate) fn any(&self) -> bool {
        let feeds = &mut locked(&self.0).feeds;
        feeds.retain(|feed| !locked(&feed.state).is_dropped);
        !feeds.is_empty()
    }

    /// An epoch has ended with this history.
    pub(crate) fn close_epoch(&self, history: &History) {
        locked(&self.0).feeds.iter().for_each(|feed| feed.close_epoch(history));
    }

    /// The run is over: no event comes any more.
    pub(crate) fn end(&self) {
        let mut all = locked(&self.0);
        all.is_over = true;
        all.feeds.drain(..).for_each(|feed| feed.end());
    }

    fn add(&self, feed: &Feed) {
        let mut all = locked(&self.0);
        if all.is_over {
            feed.end();
        } else {
            all.feeds.push(feed.clone());
        }
    }
}

impl Worker {
    /// Passes the events of this step on to those who want them.
    #[inline]
    pub(crate) fn pass_on(&mut self) {
        if !self.record.feeds.is_empty() {
            let desk = self.desk.as_ref().expect("a desk, outside of a meeting");
            self.record.feeds.retain(|feed| feed.pass_on(desk));
        }
    }

    /// Begins to pass its events on.
    fn begin_tap(&mut self, feed: Feed) {
        let desk = self.desk.as_ref().expect("a desk, outside of a meeting");
        if feed.pass_on(desk) {
            self.record.feeds.push(feed);
        }
    }
}

impl Handle {
    /// The events of a process as they come, from soon on: what it does, and what comes to it. It keeps so many at most.
    ///
    /// # Errors
    ///
    /// [`Fault::OtherRun`]; [`Fault::Unknown`] if there is no such desk.
    pub fn tap(&self, process: impl Into<Target>, most: usize) -> Result<Tap, Fault> {
        let pid = process.into().pid_in(self.hub())?;
        if usize::from(pid.shard) >= self.hub().places.len() {
            return Err(Fault::Unknown);
        }
        Ok(self.tap_of(Some(pid), most))
    }

    /// The events of the whole run as they come, from soon on. It keeps so many at most.
    #[must_use]
    pub fn tap_all(&self, most: usize) -> Tap {
        self.tap_of(None, most)
    }

    fn tap_of(&self, of: Option<Pid>, most: usize) -> Tap {
        if is_trial() {
            no_wait("a Tap", "Replay::history");
        }
        let hub = self.hub();
        let passed = vec![None; hub.places.len()];
        let state = State { waiting: VecDeque::new(), left_out: 0, passed, is_ended: false, is_dropped: false };
        let pipe = Arc::new(Pipe { of, most: most.max(1), state: Mutex::new(state), came: Condvar::new() });
        hub.meeting.book.taps.add(&pipe);
        for place in &hub.places {
            let feed = pipe.clone();
            place.post(Task::Do(Box::new(move |worker| worker.begin_tap(feed))), Origin::Run);
        }
        Tap(pipe)
    }
}

impl Tap {
    /// The next, if it is there.
    #[must_use]
    pub fn try_recv(&self) -> Option<Tapped> {
        take(&mut locked(&self.0.state))
    }

    /// The next, for which this thread waits for so long at most. `None` if none has come, or if none comes any more.
    #[must_use]
    pub fn recv_within(&self, limit: Duration) -> Option<Tapped> {
        let waits = |state: &mut State| state.waiting.is_empty() && state.left_out == 0 && !state.is_ended;
        let state = locked(&self.0.state);
        let waited = self.0.came.wait_timeout_while(state, limit, waits);
        take(&mut waited.unwrap_or_else(PoisonError::into_inner).0)
    }

    /// Whether no event comes any more but those that wait, since the run is over.
    #[must_use]
    pub fn is_ended(&self) -> bool {
        locked(&self.0.state).is_ended
    }
}

fn take(state: &mut State) -> Option<Tapped> {
    match state.waiting.pop_front() {
        Some(event) => Some(Tapped::Event(event)),
        None if state.left_out > 0 => Some(Tapped::Behind(std::mem::take(&mut state.left_out))),
        None => None,
    }
}

impl Drop for Tap {
    fn drop(&mut self) {
        let mut state = locked(&self.0.state);
        state.is_dropped = true;
        state.waiting.clear();
    }
}

impl fmt::Debug for Tap {
    fn fmt(&self, f: &mut fmt::Formatter<'_>) -> fmt::Result {
        f.debug_struct("Tap").field("of", &self.0.of).finish_non_exhaustive()
    }
}
