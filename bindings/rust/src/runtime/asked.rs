//! Calls from outside: a thread waits for the answer, or a task awaits it.

use super::address::Address;
use super::calls::{CallFault, fresh_number};
use super::hub::{Hub, Origin};
use super::paces::is_trial;
use super::payloads::Slot;
use super::promise::Promise;
use super::sending::{SendFault, Sending};
use super::start::is_worker;
use crate::Reason;
use std::cell::RefCell;
use std::fmt;
use std::future::Future;
use std::pin::Pin;
use std::sync::Arc;
use std::task::{Context, Poll};
use std::time::{Duration, Instant};

/// A call from outside, as the request's [`Reply`](super::Reply), the server's mailbox and the client share it.
pub(crate) struct Asked<R> {
    outcome: Promise<Result<R, CallFault>>,
    server: Arc<dyn Slot>,
    number: i64,
}

/// A call from outside that may fail, whatever its answer is.
pub(crate) trait Fails: Send + Sync {
    fn fail(&self, fault: CallFault);
}

impl<R: Send> Asked<R> {
    fn new(server: Arc<dyn Slot>) -> Asked<R> {
        Asked { outcome: Promise::new(), server, number: fresh_number() }
    }

    /// Ends the call, unless it has ended: then the value is dropped.
    pub(crate) fn end(&self, outcome: Result<R, CallFault>) {
        if self.outcome.give(outcome).is_ok() {
            self.server.forget_call(self.number);
        }
    }
}

impl<R: Send> Fails for Asked<R> {
    fn fail(&self, fault: CallFault) {
        self.end(Err(fault));
    }
}

thread_local! {
    /// The calls whose requests were dropped by a handler that panics. They fail once its process has exited, by which most
    /// of them fail.
    static DROPPED: RefCell<Vec<Arc<dyn Fails>>> = const { RefCell::new(Vec::new()) };
}

/// The request of a call was dropped unanswered.
pub(crate) fn request_dropped<R: Send + 'static>(asked: Arc<Asked<R>>) {
    if std::thread::panicking() && is_worker() {
        DROPPED.with_borrow_mut(|dropped| dropped.push(asked));
    } else {
        asked.fail(CallFault::Dropped);
    }
}

/// The requests that a handler has dropped as it panicked are told to be dropped.
pub(crate) fn tell_dropped() {
    if !std::thread::panicking() {
        let dropped = DROPPED.take();
        dropped.into_iter().for_each(|asked| asked.fail(CallFault::Dropped));
    }
}

/// A request that waits for room, whatever its type is.
trait Enters: Send {
    /// Goes in if there is room, and returns whether it has gone in or was refused.
    fn poll(&mut self, cx: &Context<'_>) -> bool;
    fn wait(&mut self, until: Option<Instant>) -> bool;
}

struct Entering<M: Send + 'static, R> {
    sending: Sending<M>,
    asked: Arc<Asked<R>>,
}

impl<M: Send + 'static, R: Send + 'static> Entering<M, R> {
    /// What came of the request. (the call fails before the request is dropped, and with it the reply)
    fn came(&self, sent: Result<(), SendFault<M>>) {
        let Err(fault) = sent else { return };
        self.asked.fail(match fault {
            SendFault::Exited(_) => CallFault::Down(Reason::Noproc, None),
            SendFault::Full(_) => CallFault::Dropped,
            SendFault::Over(_) => CallFault::Over,
        });
    }
}

impl<M: Send + 'static, R: Send + 'static> Enters for Entering<M, R> {
    fn poll(&mut self, cx: &Context<'_>) -> bool {
        match self.sending.poll_enter(cx) {
            Poll::Ready(sent) => {
                self.came(sent);
                true
            }
            Poll::Pending => false,
        }
    }

    fn wait(&mut self, until: Option<Instant>) -> bool {
        match self.sending.wait(until) {
            Some(sent) => {
                self.came(sent);
                true
            }
            None => false,
        }
    }
}

/// A call from outside that has not ended: what [`Address::ask`] and [`Handle::call_async`](super::Handle::call_async)
/// return. A task awaits it, on whatever executor; a thread [waits](Asking::wait).
///
/// The request is sent before it is awaited, so several may be asked and then awaited one after the other. The answer is what
/// the server gives, or a [`CallFault`] says why there is none. It knows of no time: give it one by whatever timer the
/// program has, and take [`Asking::late`] if the time is over.
///
/// **Dropped, it gives the call up.** The server gets the request all the same, and its answer is dropped, as one that comes
/// too late for an alias in Erlang.
#[must_use = "dropped, it gives the call up"]
pub struct Asking<R: Send + 'static> {
    asked: Arc<Asked<R>>,
    hub: Arc<Hub>,
    /// The desk of the server.
    desk: u8,
    /// The request, while there is no room for it.
    entering: Option<Box<dyn Enters>>,
}

impl<R: Send + 'static> fmt::Debug for Asking<R> {
    fn fmt(&self, f: &mut fmt::Formatter<'_>) -> fmt::Result {
        write!(f, "Asking({})", self.asked.server.pid())
    }
}

impl<R: Send + 'static> Asking<R> {
    fn of<M: Send + 'static>(server: &Address<M>) -> Asking<R> {
        let asked = Arc::new(Asked::new(server.mailbox.clone()));
        Asking { asked, hub: server.hub.clone(), desk: server.pid().shard, entering: None }
    }

    /// Asks nothing, and fails.
    pub(crate) fn failed<M: Send + 'static>(server: &Address<M>, fault: CallFault) -> Asking<R> {
        let asking = Asking::of(server);
        asking.asked.fail(fault);
        asking
    }

    /// Asks a server. `ask` makes the request, unless the server has exited.
    pub(crate) fn new<M: Send + 'static>(server: &Address<M>, ask: impl FnOnce(&Arc<Asked<R>>) -> M) -> Asking<R> {
        let mut asking = Asking::of(server);
        let asked = &asking.asked;
        if !server.mailbox.open_call(asked.number, asked.clone()) {
            asked.fail(CallFault::Down(Reason::Noproc, None));
            return asking;
        }
        let sending = Sending::new(server, ask(asked), Origin::Caller);
        let mut entering = Entering { sending, asked: asked.clone() };
        match entering.sending.begin() {
            Some(sent) => entering.came(sent),
            None => asking.entering = Some(Box::new(entering)),
        }
        asking
    }

    /// Waits for the answer in this thread, for so long at most.
    ///
    /// # Errors
    ///
    /// [`CallFault::Timeout`], if there is no answer in time, with the process that holds up the server's desk;
    /// [`CallFault::Down`], if the server exits or had exited; [`CallFault::Dropped`], if it drops the request;
    /// [`CallFault::Over`], if the run is over or halts; [`CallFault::OtherRun`].
    pub fn wait(mut self, limit: Duration) -> Result<R, CallFault> {
        if is_trial() {
            return self.asked.outcome.give_up().unwrap_or(Err(CallFault::Trial));
        }
        let until = Instant::now().checked_add(limit);
        if let Some(mut entering) = self.entering.take() {
            if !entering.wait(until) {
                return Err(self.late());
            }
        }
        match self.asked.outcome.wait(until) {
            Some(outcome) => outcome,
            None => Err(self.late()),
        }
    }

    /// How the call has ended, if it has.
    pub(crate) fn ended(&self) -> Option<Result<R, CallFault>> {
        if self.asked.outcome.is_open() { None } else { self.asked.outcome.give_up() }
    }

    /// Gives the call up, since its time is over. It is [`CallFault::Timeout`], with the process whose handler is running on
    /// the server's desk, if one is.
    ///
    /// ```
    /// # use pundewo::runtime::{Asking, CallFault};
    /// # use std::future::Future;
    /// /// With the timer of an executor: a future that is ready as the time is over.
    /// async fn in_time<R: Send>(mut asking: Asking<R>, time: impl Future<Output = ()>) -> Result<R, CallFault> {
    ///     let mut time = std::pin::pin!(time);
    ///     let either = std::future::poll_fn(|cx| match std::pin::pin!(&mut asking).poll(cx) {
    ///         std::task::Poll::Pending => time.as_mut().poll(cx).map(|()| None),
    ///         ready => ready.map(Some),
    ///     });
    ///     either.await.unwrap_or_else(|| Err(asking.late()))
    /// }
    /// ```
    #[must_use]
    pub fn late(self) -> CallFault {
        CallFault::Timeout(self.hub.running(usize::from(self.desk)))
    }
}

impl<R: Send + 'static> Future for Asking<R> {
    type Output = Result<R, CallFault>;

    fn poll(mut self: Pin<&mut Self>, cx: &mut Context<'_>) -> Poll<Self::Output> {
        if self.entering.as_mut().is_some_and(|entering| entering.poll(cx)) {
            self.entering = None;
        }
        self.asked.outcome.poll(cx)
    }
}

impl<R: Send + 'static> Drop for Asking<R> {
    fn drop(&mut self) {
        let given = self.asked.outcome.give_up();
        self.asked.server.forget_call(self.asked.number);
        drop(given);
    }
}
