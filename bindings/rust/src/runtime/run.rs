//! A run, and what those outside do with it.

use super::address::Address;
use super::asked::Asking;
use super::behaviour::Behaviour;
use super::calls::{CallFault, Reply};
use super::ending::{Halted, StopFault, Summary};
use super::hub::{END, Hub, KILL, Origin, STOP};
use super::inbox::Task;
use super::mailbox::{Mailbox, Reader};
use super::meeting::{Outcome, Stuck};
use super::paces::{is_trial, no_wait};
use super::spawning::Spawning;
use super::start::{Builder, Closing, Threads, is_inside};
use super::target::Target;
use super::worker::{Parent, Worker};
use crate::{Fault, Pid, Reason};
use std::error::Error;
use std::fmt;
use std::future::poll_fn;
use std::ops::Deref;
use std::sync::Arc;
use std::sync::atomic::{AtomicBool, Ordering::SeqCst};
use std::sync::mpsc::{RecvTimeoutError, sync_channel};
use std::time::{Duration, Instant};

/// How long [`Runtime::stop`] waits for all processes to exit.
const PATIENCE: Duration = Duration::from_secs(5);
/// How often [`Runtime::drain`] looks whether all is handled.
const LOOK: Duration = Duration::from_millis(1);
/// How long it waits for those that it has killed.
const GRACE: Duration = Duration::from_secs(1);

/// A node whose desks have a thread each, which runs the processes of the desk and rests while they have nothing to do.
///
/// Dropped, it kills all processes and waits for nothing: [`stop`](Runtime::stop) is how it ends well.
pub struct Runtime {
    // (threads that are left behind end by themselves)
    threads: Threads,
    hub: Closing,
    handle: Handle,
}

impl fmt::Debug for Runtime {
    fn fmt(&self, f: &mut fmt::Formatter<'_>) -> fmt::Result {
        write!(f, "Runtime {{ desks: {}, .. }}", self.threads.len())
    }
}

impl Drop for Runtime {
    fn drop(&mut self) {
        if !self.threads.is_empty() {
            self.hub.of().give(KILL);
        }
    }
}

/// What those outside do with a run. It may be cloned and go to any thread, and it keeps no run going.
#[derive(Clone)]
pub struct Handle(Arc<Hub>);

impl fmt::Debug for Handle {
    fn fmt(&self, f: &mut fmt::Formatter<'_>) -> fmt::Result {
        write!(f, "Handle {{ desks: {}, .. }}", self.0.places.len())
    }
}

impl Deref for Runtime {
    type Target = Handle;

    fn deref(&self) -> &Handle {
        &self.handle
    }
}

impl Runtime {
    /// The settings of a run, of which each may be left as it is.
    ///
    /// ```
    /// use pundewo::runtime::Runtime;
    ///
    /// let runtime = Runtime::builder().desks(2).slots(64).start().unwrap();
    /// assert_eq!(runtime.stop().unwrap().spawned, 0);
    /// ```
    #[must_use]
    pub fn builder() -> Builder {
        Builder::default()
    }

    pub(crate) fn new(threads: Threads, hub: Closing) -> Runtime {
        let handle = Handle(hub.of().clone());
        Runtime { threads, hub, handle }
    }

    /// A handle for another thread. All that it does, the run itself does, too.
    #[must_use]
    pub fn handle(&self) -> Handle {
        self.handle.clone()
    }

    /// Waits until all processes have exited by themselves.
    ///
    /// # Errors
    ///
    /// As [`stop`](Runtime::stop), but for [`StopFault::WouldNotEnd`].
    pub fn wait(mut self) -> Result<Summary, StopFault> {
        if !self.is_over() {
            self.hub.of().give(END);
        }
        self.hub.of().meeting.wait(None);
        self.finish()
    }

    /// Tells all processes to exit, by an exit signal `shutdown`, waits for them for five seconds at most, and ends. The
    /// children of a [`Supervisor`](super::Supervisor) are told by that, from the last to the first.
    ///
    /// # Errors
    ///
    /// [`StopFault::WouldNotEnd`] names a process that did not exit. [`StopFault::Halted`] has all that the run had, if
    /// it halted.
    pub fn stop(self) -> Result<Summary, StopFault> {
        self.stop_within(PATIENCE)
    }

    /// The same, with this time for all processes to exit.
    ///
    /// # Errors
    ///
    /// As [`stop`](Runtime::stop).
    pub fn stop_within(mut self, limit: Duration) -> Result<Summary, StopFault> {
        let hub = self.hub.of().clone();
        // (a run that halted before has not been told to stop, and goes on as it was)
        if !hub.meeting.is_over() {
            hub.give(STOP);
        }
        if hub.meeting.wait(Some(limit)) {
            return self.finish();
        }
        let Some((pid, behaviour)) = hub.somebody() else {
            hub.meeting.wait(None);
            return self.finish();
        };
        hub.give(KILL);
        if hub.meeting.wait(Some(GRACE)) {
            let summary = Some(self.finish()?);
            return Err(StopFault::WouldNotEnd { pid, behaviour, summary });
        }
        let (pid, behaviour) = hub.somebody().unwrap_or((pid, behaviour));
        self.threads.clear();
        Err(StopFault::WouldNotEnd { pid, behaviour, summary: None })
    }

    /// Takes nothing new in, waits until all that waits is handled, for so long at most, and then stops as
    /// [`stop`](Runtime::stop) does.
    ///
    /// Messages, calls and spawns from outside are refused from now on. What behaviours send each other is handled, and an answer
    /// from outside comes in. All is handled once all desks rest and no call is open, neither of a process nor of those
    /// outside. A message that its process does not want ([`Next::Only`](super::Next::Only)) and a timer that is to go off
    /// later are not waited for.
    ///
    /// ```
    /// use pundewo::runtime::{Behaviour, Context, Event, Next, Runtime};
    /// use std::sync::mpsc::channel;
    /// use std::time::{Duration, Instant};
    ///
    /// struct Writes(std::sync::mpsc::Sender<u32>);
    ///
    /// impl Behaviour for Writes {
    ///     type Message = u32;
    ///
    ///     fn handle(&mut self, _: &mut Context<'_, u32>, event: Event<u32>) -> Next {
    ///         if let Event::Message(number) = event {
    ///             self.0.send(number).expect("a receiver");
    ///         }
    ///         Next::Wait
    ///     }
    /// }
    ///
    /// let (give, written) = channel();
    /// let runtime = Runtime::builder().desks(2).start()?;
    /// let writes = runtime.spawn(Writes(give))?;
    /// (0..10_000).for_each(|number| assert!(writes.send(number)));
    /// runtime.drain(Duration::from_secs(60))?;
    /// assert!(written.iter().eq(0..10_000));
    /// # Ok::<(), Box<dyn std::error::Error>>(())
    /// ```
    ///
    /// # Errors
    ///
    /// As [`stop`](Runtime::stop), and [`StopFault::NotDrained`] if something was still to be handled as the time was over.
    pub fn drain(self, limit: Duration) -> Result<Summary, StopFault> {
        let hub = self.hub.of().clone();
        let until = Instant::now().checked_add(limit);
        hub.drain();
        let is_late = || until.is_some_and(|until| Instant::now() >= until);
        let mut drained = hub.is_quiet();
        while !drained && !is_late() && !hub.meeting.wait(Some(LOOK)) {
            drained = hub.is_quiet();
        }
        let (drained, waiting) = (drained || hub.meeting.is_over(), hub.waiting());
        let summary = self.stop()?;
        if drained { Ok(summary) } else { Err(StopFault::NotDrained { waiting, summary }) }
    }

    /// The run is over: what it had comes together.
    fn finish(&mut self) -> Result<Summary, StopFault> {
        let threads = std::mem::take(&mut self.threads);
        let workers: Vec<Worker> = threads.into_iter().filter_map(|thread| thread.join().ok().flatten()).collect();
        let hub = self.hub.of();
        match hub.meeting.take_outcome() {
            Some(Outcome::Ended) => Ok(Summary::of(hub)),
            Some(Outcome::Halted(Stuck { why, stage })) => {
                let hub = Closing(self.hub.0.take());
                Err(StopFault::Halted(Box::new(Halted::new(why, stage, workers, hub))))
            }
            Some(Outcome::Lost) | None => Err(StopFault::Lost),
        }
    }
}

impl Handle {
    pub(crate) fn of(hub: &Arc<Hub>) -> Handle {
        Handle(hub.clone())
    }

    pub(crate) fn hub(&self) -> &Arc<Hub> {
        &self.0
    }

    /// Spawns a process on one desk after the other.
    ///
    /// # Errors
    ///
    /// [`SpawnFault`] says why not. The behaviour is dropped.
    pub fn spawn<B: Behaviour>(&self, behaviour: B) -> Result<Address<B::Message>, SpawnFault> {
        self.spawn_at(self.0.next_desk(), None, behaviour)
    }

    /// Spawns a process on this desk. It waits until the desk's thread has done so, which is as long as a handler of the desk
    /// does not return: see [`spawn_within`](Handle::spawn_within).
    ///
    /// # Errors
    ///
    /// [`SpawnFault`] says why not. The behaviour is dropped.
    pub fn spawn_on<B: Behaviour>(&self, desk: u8, behaviour: B) -> Result<Address<B::Message>, SpawnFault> {
        self.spawn_at(usize::from(desk), None, behaviour)
    }

    /// Spawns a process on this desk, if the desk's thread comes to it in this time.
    ///
    /// # Errors
    ///
    /// [`SpawnFault`] says why not. After [`SpawnFault::Timeout`] no process is spawned, and the behaviour is dropped as the
    /// desk's thread comes to it.
    pub fn spawn_within<B: Behaviour>(
        &self,
        limit: Duration,
        desk: u8,
        behaviour: B,
    ) -> Result<Address<B::Message>, SpawnFault> {
        self.spawn_at(usize::from(desk), Some(limit), behaviour)
    }

    fn spawn_at<B: Behaviour>(
        &self,
        desk: usize,
        limit: Option<Duration>,
        behaviour: B,
    ) -> Result<Address<B::Message>, SpawnFault> {
        if is_trial() {
            return Err(SpawnFault::Trial);
        }
        // (a handler would wait for a desk that may wait for it)
        if is_inside(&self.0) {
            return Err(SpawnFault::Inside);
        }
        let place = self.0.places.get(desk).ok_or(SpawnFault::Table(Fault::BadDesks))?;
        let (give, get) = sync_channel(1);
        // whoever sets it first says what comes of the request: the desk's thread, or this one as the time is over
        let (decided, is_decided) = (Arc::new(AtomicBool::new(false)), |by: &AtomicBool| by.swap(true, SeqCst));
        let by_desk = decided.clone();
        let spawn = move |worker: &mut Worker| {
            if !is_decided(&by_desk) {
                let _ = give.send(worker.spawn(Parent::Outside, behaviour));
            }
        };
        place.post(Task::Ask(Box::new(spawn)), Origin::Caller);
        let in_time = limit.map(|limit| get.recv_timeout(limit));
        let spawned = match in_time {
            Some(Ok(spawned)) => Ok(spawned),
            Some(Err(RecvTimeoutError::Timeout)) if !is_decided(&decided) => {
                return Err(SpawnFault::Timeout(self.0.running(desk)));
            }
            _ => get.recv(),
        };
        spawned.map_err(|_| SpawnFault::Over)?.map_err(SpawnFault::Table)
    }

    /// Spawns a process on one desk after the other, whose address a task awaits.
    ///
    /// Its fault is [`SpawnFault::Table`], or [`SpawnFault::Over`] if the run is over, drains, or halts.
    pub fn spawn_async<B: Behaviour>(&self, behaviour: B) -> Spawning<B::Message> {
        let (spawning, work) = Spawning::of(behaviour);
        self.0.places[self.0.next_desk()].post(Task::Ask(Box::new(work)), Origin::Caller);
        spawning
    }

    /// Spawns a process whose messages a task or a thread reads, as [`spawn`](Handle::spawn) does.
    ///
    /// # Errors
    ///
    /// As [`spawn`](Handle::spawn).
    pub fn mailbox<M: Send + 'static>(&self) -> Result<Mailbox<M>, SpawnFault> {
        let reader = Reader::new();
        let mailbox = reader.of();
        self.spawn(reader).map(mailbox)
    }

    /// The same for a task, which awaits it.
    ///
    /// # Errors
    ///
    /// As [`spawn_async`](Handle::spawn_async).
    pub async fn mailbox_async<M: Send + 'static>(&self) -> Result<Mailbox<M>, SpawnFault> {
        let reader = Reader::new();
        let mailbox = reader.of();
        self.spawn_async(reader).await.map(mailbox)
    }

    /// Asks a server from outside, and waits for its answer: it gets the message that `ask` makes of a [`Reply`].
    ///
    /// A behaviour takes [`Context::call`](super::Context::call), which does not wait. If it waits here, its whole desk does.
    ///
    /// # Errors
    ///
    /// [`CallFault::OtherRun`], if the server is of another run, and then nothing was asked; else as [`Asking::wait`].
    pub fn call<M: Send + 'static, R: Send + 'static>(
        &self,
        server: &Address<M>,
        limit: Duration,
        ask: impl FnOnce(Reply<R>) -> M,
    ) -> Result<R, CallFault> {
        self.call_async(server, ask).wait(limit)
    }

    /// Asks a server from outside, as [`Address::ask`] does: a task awaits the answer. It refuses a server of another run with
    /// [`CallFault::OtherRun`].
    pub fn call_async<M: Send + 'static, R: Send + 'static>(
        &self,
        server: &Address<M>,
        ask: impl FnOnce(Reply<R>) -> M,
    ) -> Asking<R> {
        if Arc::ptr_eq(&self.0, &server.hub) { server.ask(ask) } else { Asking::failed(server, CallFault::OtherRun) }
    }

    /// Sends an exit signal from outside: Erlang's `exit/2`. It is nothing to a process that has exited.
    ///
    /// # Errors
    ///
    /// [`Fault::OtherRun`], [`Fault::Outside`], or [`Fault::Unknown`] if there is no such desk. Then nothing is sent.
    pub fn exit(&self, process: impl Into<Target>, reason: Reason) -> Result<(), Fault> {
        let pid = process.into().mortal_in(&self.0)?;
        let place = self.0.places.get(usize::from(pid.shard)).ok_or(Fault::Unknown)?;
        place.post(Task::Do(Box::new(move |worker| worker.signal(pid, reason))), Origin::Run);
        Ok(())
    }

    /// How many messages no process has taken yet, from outside or from behaviours.
    #[must_use]
    pub fn waiting(&self) -> usize {
        self.0.waiting()
    }

    /// What the run did until now.
    #[must_use]
    pub fn summary(&self) -> Summary {
        Summary::of(&self.0)
    }

    /// How many epochs have ended.
    #[must_use]
    pub fn epochs(&self) -> u64 {
        self.0.epochs()
    }

    /// Whether the run is over: it halted, or all processes have exited after a call to wait for that.
    #[must_use]
    pub fn is_over(&self) -> bool {
        self.0.meeting.is_over()
    }

    /// Tells all processes to exit, as [`Runtime::stop`] does, and waits for nothing. [`Runtime::wait`] returns once they have
    /// exited, and those that do not are killed by `Runtime::stop` alone.
    pub fn stop(&self) {
        if !self.is_over() {
            self.0.give(STOP);
        }
    }

    /// Waits until the run is over, for so long at most, and returns whether it is: by [`stop`](Handle::stop), since it has
    /// halted, or since all processes have exited and somebody waits for that. A handler should not wait.
    pub fn wait(&self, limit: Duration) -> bool {
        if is_trial() {
            no_wait("Handle::wait", "Trial::at_rest");
        }
        self.0.meeting.wait(Some(limit))
    }

    /// The same for a task, which awaits it.
    pub async fn over(&self) {
        let over = self.0.meeting.over();
        poll_fn(|cx| over.poll(cx)).await;
    }

    /// Ends the epoch now, as soon as each handler that runs has returned, and goes on.
    pub fn go_on(&self) {
        self.0.meet();
    }
}

/// Why a process was not spawned from outside.
#[derive(Clone, Copy, Debug, PartialEq, Eq, Hash)]
#[non_exhaustive]
pub enum SpawnFault {
    /// The desk refused: no slot was free, there was no memory or no stamp, or there is no such desk.
    Table(Fault),
    /// The run is over, or halts.
    Over,
    /// The thread of the desk did not come to it in time: the process whose handler was running then, if one was, and the
    /// name of the type of its behaviour. Nothing is spawned.
    Timeout(Option<(Pid, &'static str)>),
    /// A handler of this run asked, and would wait for itself: it takes [`Context::spawn`](super::Context::spawn) or
    /// [`Context::spawn_on`](super::Context::spawn_on).
    Inside,
    /// A trial asked, which has one thread: it takes `World::spawn` or `World::spawn_on` ([`trial`](crate::trial)).
    Trial,
}

impl fmt::Display for SpawnFault {
    fn fmt(&self, f: &mut fmt::Formatter<'_>) -> fmt::Result {
        match self {
            SpawnFault::Table(fault) => write!(f, "the process is not spawned: {fault}"),
            SpawnFault::Over => f.write_str("the process is not spawned: the run is over"),
            SpawnFault::Timeout(Some((pid, behaviour))) => {
                write!(f, "the process is not spawned in time: the desk is held up by {pid}, a {behaviour}")
            }
            SpawnFault::Timeout(None) => f.write_str("the process is not spawned in time"),
            SpawnFault::Trial => {
                f.write_str("the process is not spawned: a trial takes World::spawn or World::spawn_on")
            }
            SpawnFault::Inside => f.write_str("the process is not spawned: a handler takes a call of its context"),
        }
    }
}

impl Error for SpawnFault {}
