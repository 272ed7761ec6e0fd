//! Processes whose messages a task or a thread reads.

use super::MORE;
use super::address::Address;
use super::behaviour::{Behaviour, Down, Event, Next};
use super::calls::fresh_number;
use super::context::Context;
use super::gone::gone_monitor;
use super::hub::Origin;
use super::inbox::{Task, locked};
use super::paces::{is_trial, no_wait};
use super::payloads::drop_quietly;
use super::promise::Waiting;
use super::target::Target;
use super::worker::Worker;
use crate::{Fault, Pick, Reason};
use std::collections::VecDeque;
use std::fmt;
use std::future::poll_fn;
use std::sync::{Arc, Mutex};
use std::task::{self, Poll};
use std::thread;
use std::time::{Duration, Instant};

/// How many events the process takes in that were not read. (the rest waits with the process, as any message)
const MOST: usize = 64;

/// A process whose messages a task reads, in order, on whatever executor, or a thread: what
/// [`Handle::mailbox`](super::Handle::mailbox) and [`Handle::mailbox_async`](super::Handle::mailbox_async) return.
///
/// Its [`address`](Mailbox::address) is sent to as any other. It gets messages, and [`Event::Down`] of what it
/// [monitors](Mailbox::monitor). It ends when its process has exited: by [`close`](Mailbox::close), by an exit signal, or
/// since the run is over. Dropped, it closes.
///
/// ```
/// use pundewo::runtime::{Event, Mailbox, Runtime};
/// use std::time::Duration;
///
/// /// On whatever executor.
/// async fn sum(numbers: &mut Mailbox<u32>) -> u32 {
///     let mut sum = 0;
///     while let Some(event) = numbers.recv().await {
///         match event {
///             Event::Message(0) => break,
///             Event::Message(number) => sum += number,
///             _ => {}
///         }
///     }
///     sum
/// }
///
/// // in a thread
/// let runtime = Runtime::builder().desks(1).start()?;
/// let mut numbers = runtime.mailbox::<u32>()?;
/// numbers.address().send(7);
/// let event = numbers.recv_within(Duration::from_secs(5));
/// assert!(matches!(event, Some(Event::Message(7))));
/// runtime.stop()?;
/// assert!(numbers.recv_within(Duration::from_secs(5)).is_none());
/// # Ok::<(), Box<dyn std::error::Error>>(())
/// ```
pub struct Mailbox<M: Send + 'static> {
    address: Address<M>,
    queue: Arc<Queue<M>>,
}

struct Queue<M>(Mutex<State<M>>);

struct State<M> {
    events: VecDeque<Event<M>>,
    /// Whether the process takes nothing in until it is told to.
    paused: bool,
    ended: bool,
    waiting: Waiting,
}

impl<M> Queue<M> {
    /// Puts an event, and returns whether the process should take in no more.
    fn put(&self, event: Event<M>) -> bool {
        let mut state = locked(&self.0);
        state.events.push_back(event);
        state.paused |= state.events.len() >= MOST;
        let (paused, waiting) = (state.paused, std::mem::take(&mut state.waiting));
        drop(state);
        waiting.wake();
        paused
    }

    fn end(&self) {
        let mut state = locked(&self.0);
        state.ended = true;
        let waiting = std::mem::take(&mut state.waiting);
        drop(state);
        waiting.wake();
    }
}

/// The process of a mailbox.
pub(crate) struct Reader<M>(Arc<Queue<M>>);

impl<M: Send + 'static> Behaviour for Reader<M> {
    type Message = M;

    fn handle(&mut self, _: &mut Context<'_, M>, event: Event<M>) -> Next {
        match event {
            // (it was told that there is room)
            Event::Proceed => Next::Wait,
            event => {
                if self.0.put(event) {
                    Next::Only(Pick::Kind(MORE))
                } else {
                    Next::Wait
                }
            }
        }
    }

    fn ended(self, _: Reason) {
        self.0.end();
    }
}

impl<M: Send + 'static> Reader<M> {
    pub(crate) fn new() -> Reader<M> {
        let state = State { events: VecDeque::new(), paused: false, ended: false, waiting: Waiting::Nobody };
        Reader(Arc::new(Queue(Mutex::new(state))))
    }

    /// The mailbox of the process, which has this address once it is spawned.
    pub(crate) fn of(&self) -> impl FnOnce(Address<M>) -> Mailbox<M> + use<M> {
        let queue = self.0.clone();
        move |address| Mailbox { address, queue }
    }
}

impl<M: Send + 'static> fmt::Debug for Mailbox<M> {
    fn fmt(&self, f: &mut fmt::Formatter<'_>) -> fmt::Result {
        write!(f, "Mailbox({})", self.address)
    }
}

impl<M: Send + 'static> Mailbox<M> {
    /// Where it is sent to.
    #[must_use]
    pub fn address(&self) -> &Address<M> {
        &self.address
    }

    /// The next event, or `None` if none comes any more. Dropped before its end, it takes nothing.
    pub async fn recv(&mut self) -> Option<Event<M>> {
        poll_fn(|cx| self.poll_recv(cx)).await
    }

    /// The same as one step of a future, as a stream of an executor has it.
    pub fn poll_recv(&mut self, cx: &mut task::Context<'_>) -> Poll<Option<Event<M>>> {
        let mut state = locked(&self.queue.0);
        if state.events.is_empty() && !state.ended {
            let before = state.waiting.by(cx);
            drop(state);
            drop(before);
            return Poll::Pending;
        }
        drop(state);
        Poll::Ready(self.try_recv())
    }

    /// The next event, if it is there.
    pub fn try_recv(&mut self) -> Option<Event<M>> {
        let mut state = locked(&self.queue.0);
        let event = state.events.pop_front();
        let goes_on = state.paused && state.events.len() <= MOST / 2;
        state.paused &= !goes_on;
        drop(state);
        if goes_on {
            self.address.hub.post(self.address.pid(), MORE, 0, Origin::Run);
        }
        event
    }

    /// The next event, for which this thread waits for so long at most: Erlang's `receive .. after`. `None` if none has come,
    /// or if none comes any more.
    pub fn recv_within(&mut self, limit: Duration) -> Option<Event<M>> {
        let until = Instant::now().checked_add(limit);
        loop {
            let mut state = locked(&self.queue.0);
            if !state.events.is_empty() || state.ended {
                drop(state);
                return self.try_recv();
            }
            if is_trial() {
                drop(state);
                no_wait("Mailbox::recv_within", "Mailbox::try_recv");
            }
            let before = std::mem::replace(&mut state.waiting, Waiting::Thread(thread::current()));
            drop(state);
            drop(before);
            match until.map(|until| until.saturating_duration_since(Instant::now())) {
                None => thread::park(),
                Some(left) if left.is_zero() => return None,
                Some(left) => thread::park_timeout(left),
            }
        }
    }

    /// How many messages have come and were not read.
    #[must_use]
    pub fn waiting(&self) -> usize {
        let events = locked(&self.queue.0).events.len();
        events + self.address.waiting()
    }

    /// Whether no event comes any more but those that have come.
    #[must_use]
    pub fn is_ended(&self) -> bool {
        locked(&self.queue.0).ended
    }

    /// Monitors a process: Erlang's `monitor`. It gets one [`Event::Down`] with its pid, as that has exited or if it had.
    ///
    /// # Errors
    ///
    /// [`Fault::OtherRun`]; [`Fault::Myself`]; [`Fault::Unknown`] if there is no such desk.
    pub fn monitor(&self, target: impl Into<Target>) -> Result<(), Fault> {
        let (me, hub, queue) = (self.address.pid(), &self.address.hub, self.queue.clone());
        let pid = target.into().pid_in(hub)?;
        if pid == me {
            return Err(Fault::Myself);
        }
        if usize::from(pid.shard) >= hub.places.len() {
            return Err(Fault::Unknown);
        }
        let monitors = move |worker: &mut Worker| {
            let made = worker.desk().monitor(me, pid);
            if worker.noted(made) == Err(Fault::NoProc) {
                let monitor = gone_monitor(fresh_number());
                // (what comes beyond the bound is one event for each call of this)
                queue.put(Event::Down(Down { monitor, pid, reason: Reason::Noproc, panic: None }));
            }
        };
        hub.place(me).post(Task::Do(Box::new(monitors)), Origin::Run);
        Ok(())
    }

    /// Ends its process. What the mailbox has taken in may still be read.
    pub fn close(&self) {
        let me = self.address.pid();
        let exits = move |worker: &mut Worker| {
            let exited = worker.desk().exit(me, Reason::Normal);
            let _ = worker.noted(exited);
        };
        self.address.hub.place(me).post(Task::Do(Box::new(exits)), Origin::Run);
    }
}

impl<M: Send + 'static> Drop for Mailbox<M> {
    fn drop(&mut self) {
        self.close();
        let events = std::mem::take(&mut locked(&self.queue.0).events);
        events.into_iter().for_each(drop_quietly);
    }
}
